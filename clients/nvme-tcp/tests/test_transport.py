"""The transport: ICReq, PDUs in every cut, their fields at their edges, digests, and data on request."""
import random
import struct
import time

from tests.host import (CAPSULE, HOST_DATA, IC_RESPONSE, READY_TO_TRANSFER, RESPONSE, SUBSYSTEM, Connection, Ended,
                        Host, Queue, digest_of, entry_of, ic_request)
from tests.targets import TargetTest

INVALID_FIELD, SEQUENCE, HEADER_DIGEST, OUT_OF_RANGE, UNSUPPORTED = 1, 2, 3, 4, 6


class Opening(TargetTest):
    def ends(self, sent: bytes) -> int:
        """The status with which a connection is ended that has sent this first."""
        connection = Connection(self.target.port, opens=False)
        self.addCleanup(connection.close)
        connection.socket.sendall(sent)
        with self.assertRaises(Ended) as ended:
            connection.unit()
        return ended.exception.status

    def test_what_is_granted(self) -> None:
        for digests in range(4):
            connection = Connection(self.target.port, opens=False)
            connection.socket.sendall(ic_request(digests, 31))
            kind, unit = connection.unit()
            self.assertEqual((kind, unit[2], len(unit)), (IC_RESPONSE, 128, 128))
            self.assertEqual(struct.unpack_from("<HBBI", unit, 8), (0, 0, digests, 131072))
            connection.close()

    def test_each_field_of_a_request(self) -> None:
        for at, value, status in ((0, 1, SEQUENCE), (0, 5, SEQUENCE), (0, 255, SEQUENCE), (1, 1, INVALID_FIELD),
                                  (2, 127, INVALID_FIELD), (4, 127, INVALID_FIELD), (4, 129, INVALID_FIELD),
                                  (7, 1, INVALID_FIELD), (8, 1, UNSUPPORTED), (10, 32, INVALID_FIELD)):
            unit = bytearray(ic_request())
            unit[at] = value
            self.assertEqual(self.ends(bytes(unit)), status, (at, value))

    def test_nothing_before_it_and_none_after_it(self) -> None:
        self.assertEqual(self.ends(struct.pack("<BBBBI", CAPSULE, 0, 72, 0, 72) + bytes(64)), SEQUENCE)
        connection = Connection(self.target.port)
        connection.socket.sendall(ic_request())
        self.assertRaises(Ended, connection.unit)
        connection.close()

    def test_a_connection_that_does_not_connect_is_closed(self) -> None:
        begun = time.monotonic()
        silent, opened = Connection(self.target.port, opens=False), Connection(self.target.port)
        for connection in (silent, opened):
            with self.assertRaises(Ended):
                connection.unit()
            connection.close()
        self.assertTrue(4 < time.monotonic() - begun < 8)


class Units(TargetTest):
    def test_each_cut(self) -> None:
        """A connection whose bytes come in two pieces, cut at every place, and one whose bytes come one by one."""
        capsule = self.connect_capsule()
        sent = ic_request() + capsule
        for cut in [*range(1, 260), *range(260, len(sent), 61)]:
            self.plays([sent[:cut], sent[cut:]])
        self.plays([sent[at:at + 1] for at in range(len(sent))])

    def connect_capsule(self) -> bytes:
        data = ((0xa1).to_bytes(16, "little") + b"\xff\xff").ljust(256, b"\0") + SUBSYSTEM.encode().ljust(256, b"\0")
        data += b"nqn.host".ljust(512, b"\0")
        entry = entry_of(0x7f, 7, 1, struct.pack("<HHHBxI", 0, 0, 31, 0, 0), 1024, 0x01)
        return struct.pack("<BBBBI", CAPSULE, 0, 72, 72, 72 + 1024) + entry + data

    def plays(self, pieces: list) -> None:
        connection = Connection(self.target.port, opens=False)
        for piece in pieces:
            connection.socket.sendall(piece)
        self.assertEqual(connection.unit()[0], IC_RESPONSE)
        kind, unit = connection.unit()
        self.assertEqual((kind, unit[20:24]), (RESPONSE, struct.pack("<HH", 7, 0)))
        connection.close()
        self.wait_for(lambda: not self.target.hosts() or len(pieces) < 9)
        self.wait_until_free()

    def wait_until_free(self) -> None:
        """The end of a connection is noticed before the next one is accepted, except for one that comes at once."""
        self.wait_for(lambda: self.target.ask("hosts") == "[]")

    def test_a_connection_that_stops_at_any_byte(self) -> None:
        sent = ic_request() + self.connect_capsule()
        stopped = []
        for cut in range(0, len(sent), 31):
            connection = Connection(self.target.port, opens=False)
            self.addCleanup(connection.close)
            connection.socket.sendall(sent[:cut])
            stopped.append(connection)
            if len(stopped) == 24:
                self.host(0xb2).close()
                while stopped:
                    stopped.pop().close()
                self.wait_until_free()

    def ends(self, unit: bytes, digests: int = 0) -> int:
        return self.ended(unit, digests).status

    def ended(self, unit: bytes, digests: int = 0) -> Ended:
        host = Host(self.target.port, 0xa1, queues=1, digests=digests)
        host.queues[0].socket.sendall(unit)
        with self.assertRaises(Ended) as ended:
            while True:
                host.queues[0].unit()
        host.close()
        self.wait_until_free()
        return ended.exception

    def test_what_a_termination_repeats(self) -> None:
        """The PDU at fault, up to 128 bytes of it; only the eight that all have if the fault is there. Bytes after it
        are not looked at."""
        flush = struct.pack("<BBBBI", CAPSULE, 0, 72, 0, 72) + entry_of(0x00, 1, 1, b"", 0, 0x5a)
        short, long = (struct.pack("<BBBBIHHIII", HOST_DATA, 4, 24, 24, 24 + count, 1, 0, 0, count, 0) +
                       bytes(range(count)) for count in (4, 256))
        for sent, length in ((flush[:2] + b"\x47" + flush[3:], 8), (short, 28), (long, 128)):
            self.assertEqual(self.ended(sent + flush * 3).repeated, sent[:length])

    def test_each_field_of_a_capsule(self) -> None:
        entry = entry_of(0x01, 1, 1, struct.pack("<QI", 0, 0), 512, 0x01)

        def head(kind: int = CAPSULE, flags: int = 0, size: int = 72, place: int = 72, length: int = 584) -> bytes:
            return struct.pack("<BBBBI", kind, flags, size, place, length) + entry + bytes(512)

        for unit in (head(kind=1), head(kind=5), head(kind=8), head(kind=0xff), head(flags=1), head(flags=2),
                     head(flags=4), head(flags=0x80), head(size=71), head(size=24), head(place=71), head(place=73),
                     head(place=0), head(place=252, length=252), head(length=71), head(length=0), head(length=8),
                     head(length=72 + 8193), head(length=0xffffffff)):
            self.assertEqual(self.ends(unit), INVALID_FIELD, unit[:8])
        self.assertEqual(self.ends(head(kind=0)), SEQUENCE)

    def test_each_field_of_data(self) -> None:
        def head(cid: int = 1, tag: int = 0, start: int = 0, count: int = 512, length: int = 536, last: int = 4,
                 place: int = 24) -> bytes:
            data = struct.pack("<BBBBIHHIII", HOST_DATA, last, 24, place, length, cid, tag, start, count, 0)
            return data + bytes(length - 24 if length < 2048 else 0)

        entry = entry_of(0x01, 1, 1, struct.pack("<QI", 0, 0), 512, 0x5a)
        asks = struct.pack("<BBBBI", CAPSULE, 0, 72, 0, 72) + entry
        for unit in (head(cid=2), head(tag=1), head(tag=0xffff), head(start=4), head(count=256, length=280),
                     head(last=0), head(start=0xfffffe00)):
            self.assertEqual(self.ends(asks + unit), OUT_OF_RANGE, unit[:24])
        for unit in (head(count=513), head(count=0), head(place=20), head(length=24), head(length=24 + 131073)):
            self.assertIn(self.ends(asks + unit), (INVALID_FIELD, OUT_OF_RANGE), unit[:24])
        self.assertEqual(self.ends(head()), OUT_OF_RANGE, "nothing was asked for")

    def test_more_commands_than_entries(self) -> None:
        entry = entry_of(0x01, 1, 1, struct.pack("<QI", 0, 0), 512, 0x5a)
        head = struct.pack("<BBBBI", CAPSULE, 0, 72, 0, 72)
        units = b"".join(head + entry[:2] + struct.pack("<H", cid) + entry[4:] for cid in range(65))
        self.assertEqual(self.ends(units), SEQUENCE)

    def test_an_identifier_that_is_in_use(self) -> None:
        queue = self.host().queues[0]
        words = struct.pack("<QI", 0, 31)
        queue.send_command(0x01, 1, words, bytes(16384), in_capsule=False, cid=9)
        queue.send_command(0x02, 1, struct.pack("<QI", 0, 0), length=512, cid=9)
        kinds = [queue.unit() for _ in range(2)]
        self.assertEqual([kind for kind, _ in kinds], [READY_TO_TRANSFER, RESPONSE])
        self.assertEqual(struct.unpack_from("<H", kinds[1][1], 22)[0] >> 1, 0x4003)

    def test_an_identifier_of_a_held_command(self) -> None:
        queue = self.host().queues[0]
        self.target.ask("hold 1")
        for _ in range(2):
            queue.send_command(0x02, 1, struct.pack("<QI", 0, 0), length=512, cid=9)
        conflict = queue.completion()
        self.assertEqual((conflict.cid, conflict.status, conflict.data), (9, 0x4003, b""))
        self.assertEqual(self.target.ask("go 1"), "go 1 1")
        answer = queue.completion()
        self.assertEqual((answer.cid, answer.status, answer.data), (9, 0, bytes(512)))
        self.assertEqual((answer.sqhd - conflict.sqhd) % 64, 0)

    def test_requests_take_entries_of_their_queue(self) -> None:
        """A queue of four entries has three Asynchronous Event Requests and another command. A reset drops the requests."""
        queue = Queue(self.target.port)
        self.addCleanup(queue.close)
        self.assertEqual(queue.connect(0, 0xa1, size=4).status, 0)
        for _ in range(3):
            self.assertEqual(queue.set_property(0x14, 0x460001).status, 0)
            for cid in (100, 101, 102):
                queue.send_command(0x0c, cid=cid)
            queue.send_command(0x18, cid=101)
            self.assertEqual(queue.completion()[:1], (0x4003,))
            self.assertEqual(queue.call(0x18).status, 0)
            self.assertEqual(queue.set_property(0x14, 0).status, 0)
        self.assertEqual(queue.set_property(0x14, 0x460001).status, 0)
        for cid in range(100, 104):
            queue.send_command(0x0c, cid=cid)
        queue.send_command(0x18)
        with self.assertRaises(Ended) as ended:
            queue.completion()
        self.assertEqual(ended.exception.status, SEQUENCE)

    def test_a_host_that_ends_its_connection(self) -> None:
        queue = self.host().queues[0]
        queue.socket.sendall(struct.pack("<BBBBIHI", 2, 0, 24, 0, 24, 1, 0) + bytes(10))
        self.assertRaises(Ended, queue.unit)


class Digests(TargetTest):
    def test_blocks_with_digests(self) -> None:
        rng = random.Random(1)
        for digests, alignment in ((1, 0), (2, 7), (3, 31), (0, 31)):
            host = Host(self.target.port, 0xa1, digests=digests, alignment=alignment)
            for blocks in (1, 9, 40):
                data = rng.randbytes(512 * blocks)
                self.assertEqual(host.write(5, data), 0)
                self.assertEqual(host.read(5, blocks).data, data)
            host.close()
            self.wait_for(lambda: self.target.hosts() == [])

    def test_a_wrong_header_digest_ends_the_connection(self) -> None:
        host = self.host(digests=1)
        unit = bytearray(host.queues[0].pdu(CAPSULE, entry_of(0x00, 0, 1, b"", 0, 0x5a)))
        unit[-1] ^= 1
        host.queues[0].socket.sendall(unit)
        with self.assertRaises(Ended) as ended:
            host.queues[0].unit()
        self.assertEqual(ended.exception.status, HEADER_DIGEST)

    def test_a_wrong_data_digest_is_answered(self) -> None:
        host = self.host(digests=3)
        queue, data = host.queues[0], bytes(range(256)) * 2
        unit = bytearray(queue.pdu(CAPSULE, entry_of(0x01, 3, 1, struct.pack("<QI", 0, 0), 512, 0x01), data))
        unit[-1] ^= 1
        queue.socket.sendall(unit)
        self.assertEqual(queue.completion()[:1] + (0,), (0x022, 0))
        self.assertEqual(host.read(0, 1).data, bytes(512), "nothing was written")
        self.assertEqual(host.write(0, data), 0)

    def test_a_wrong_digest_of_one_piece(self) -> None:
        host = self.host(digests=2)
        queue = host.queues[0]
        queue.going[4] = b""
        queue.send_command(0x01, 1, struct.pack("<QI", 0, 31), bytes(16384), in_capsule=False, cid=4)
        _, unit = queue.unit()
        tag = struct.unpack_from("<H", unit, 10)[0]
        for at, wrong in ((0, 1), (8192, 0)):
            piece = bytearray(queue.pdu(HOST_DATA, struct.pack("<HHIII", 4, tag, at, 8192, 0), b"\7" * 8192,
                                        4 if at else 0))
            piece[-1] ^= wrong
            queue.socket.sendall(piece)
        self.assertEqual(queue.completion().status, 0x022)
        self.assertEqual(host.read(0, 1).data, bytes(512))

    def test_the_first_rule_that_is_broken_decides(self) -> None:
        """Each capsule breaks rules after the one that decides, too."""
        queue = Queue(self.target.port, digests=2)
        self.addCleanup(queue.close)

        def status(opcode: int, cid: int, wrong: int, mode: int, offset: int = 9, length: int = 512) -> int:
            entry = bytearray(entry_of(opcode, cid, 1, struct.pack("<QI", 0, 0), length, 0x01))
            entry[1], entry[24] = mode, offset
            unit = bytearray(queue.pdu(CAPSULE, bytes(entry), bytes(8)))
            unit[-1] ^= wrong
            queue.socket.sendall(unit)
            return queue.completion().status

        self.assertEqual([status(0x01, 4, 1, 0), status(0x7f, 4, 1, 0), status(0x7f, 4, 0, 0)], [0x00c, 0x022, 0x4002])
        self.assertEqual(queue.connect(0, 0xa1).status, 0)
        queue.send(CAPSULE, entry_of(0x01, 4, 1, b"", 512, 0x5a))
        self.assertEqual(queue.unit()[0], READY_TO_TRANSFER)
        self.assertEqual([status(0x01, 4, 1, 0), status(0x01, 4, 0, 0), status(0x01, 5, 0, 0)], [0x022, 0x4003, 0x4002])
        self.assertEqual([status(0x01, 5, 0, 0x40), status(0x01, 5, 0, 0x40, 8)], [0x4016, 0x400f])
        self.assertEqual(status(0x01, 5, 0, 0x40, 8, 0), 0x00c, "the controller is not enabled")

    def test_the_digest_itself(self) -> None:
        self.assertEqual(digest_of(b"123456789"), struct.pack("<I", 0xe3069283))


class OnRequest(TargetTest):
    def test_many_writes_at_once(self) -> None:
        """More writes wait for their data than have memory for it, and each gets its own."""
        host = self.host()
        queue = host.queues[0]
        data = [bytes([number]) * 16384 for number in range(60)]
        for number, content in enumerate(data):
            queue.send_command(0x01, 1, struct.pack("<QI", 32 * number, 31), content, in_capsule=False)
        self.assertEqual({queue.completion().status for _ in data}, {0})
        for number, content in enumerate(data):
            self.assertEqual(host.read(32 * number, 32).data, content)

    def test_pieces_of_every_size(self) -> None:
        for part in (4, 512, 4096, 131072):
            host = Host(self.target.port, 0xa1, part=part)
            data = random.Random(part).randbytes(8192 if part == 4 else 131072)
            self.assertEqual(host.write(0, data, in_capsule=False), 0)
            self.assertEqual(host.read(0, len(data) // 512).data, data)
            host.close()
            self.wait_for(lambda: self.target.hosts() == [])

    def test_a_host_that_takes_nothing(self) -> None:
        """Answers that nobody takes are bounded; when they are taken, all of them are there."""
        queue = self.host(size=64).queues[0]
        entry = entry_of(0x02, 0, 1, struct.pack("<QI", 0, 255), 131072, 0x5a)
        head = struct.pack("<BBBBI", CAPSULE, 0, 72, 0, 72)
        before = self.target.memory()
        for _ in range(4):
            queue.socket.sendall((head + entry) * 64)
        time.sleep(0.3)
        self.assertLess(self.target.memory() - before, 16 << 20)
        self.assertEqual([len(queue.completion().data) for _ in range(256)], [131072] * 256)


class Flow(TargetTest):
    def test_sqhd(self) -> None:
        queue = self.host(size=4).queues[0]
        self.assertEqual([queue.call(0x00, 1).sqhd for _ in range(5)], [2, 3, 0, 1, 2])
        admin = Queue(self.target.port)
        self.addCleanup(admin.close)
        self.assertEqual(admin.connect(0, 0xb2, flags=4).sqhd, 0xffff)
