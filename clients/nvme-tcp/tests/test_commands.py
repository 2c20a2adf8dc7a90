"""Commands: each answer is the subsystem's, with Do Not Retry if a repeat can't help."""
import random
import struct

from tests.host import BLOCK, IN_CAPSULE, TRANSPORT, CAPSULE, Queue, entry_of
from tests.targets import BLOCKS, TargetTest

DNR = 0x4000
RESERVATION_CONFLICT, ABORTED_BY_PREEMPTION = 0x083 | DNR, 0x01b | DNR


class Blocks(TargetTest):
    def test_every_length(self) -> None:
        rng, a, b = random.Random(2), self.host(), self.host(0xb2)
        for blocks in (1, 2, 7, 8, 9, 15, 16, 17, 24, 25, 64, 255, 256):
            data = rng.randbytes(BLOCK * blocks)
            self.assertEqual(a.write(100, data), 0)
            self.assertEqual(b.read(100, blocks)[-1], data)
            self.assertEqual(a.write(600, data[::-1], in_capsule=False), 0)
            self.assertEqual(b.read(600, blocks).data, data[::-1])

    def test_the_ends_of_a_namespace(self) -> None:
        host = self.host()
        self.assertEqual(host.read(BLOCKS - 1, 1).status, 0)
        for slba, blocks in ((BLOCKS, 1), (BLOCKS - 1, 2), (1 << 40, 1), ((1 << 64) - 1, 256)):
            self.assertEqual(host.read(slba, blocks).status, 0x080 | DNR)
            self.assertEqual(host.write(slba, bytes(BLOCK * blocks)), 0x080 | DNR)

    def test_write_zeroes_and_compare(self) -> None:
        host = self.host()
        host.write(3, b"\7" * 1024)
        queue = host.queues[0]
        self.assertEqual(queue.call(0x05, 1, struct.pack("<QI", 3, 1), b"\7" * 1024).status, 0)
        self.assertEqual(queue.call(0x05, 1, struct.pack("<QI", 3, 1), b"\6" * 1024).status, 0x285 | DNR)
        self.assertEqual(queue.call(0x08, 1, struct.pack("<QI", 3, 1)).status, 0)
        self.assertEqual(host.read(3, 2).data, bytes(1024))

    def test_a_host_with_other_room_than_the_command_moves(self) -> None:
        host = self.host()
        host.write(0, b"\5" * 131072)
        host.read(0, 256)
        self.assertEqual(host.read(0, 8, length=2048).status, 0x004 | DNR)
        longer = host.read(0, 1, length=2048)
        self.assertEqual((longer.status, longer.data), (0, b"\5" * 512 + bytes(1536)), "zeros, and no data from before")
        self.assertEqual(host.identify(2, length=4096).data[:8], struct.pack("<II", 1, 0))

    def test_commands_stay_in_their_data(self) -> None:
        """Each command moves the first bytes of its own data, or none if it would move more than there are."""
        host, content = self.host(), random.Random(5).randbytes(131072)
        # Each second page begins with addresses of pages, which a controller might take for a PRP list.
        addresses = struct.pack("<512Q", *range(3 << 20, (3 << 20) + (512 << 12), 1 << 12))
        self.assertEqual(host.write(0, content), 0)
        for blocks in (1, 8, 9, 16, 17, 24, 25, 128, 256):
            moved = BLOCK * blocks
            for length in (511, 512, 513, 4096, 4097, 8192, 8196, 12288, 65536, 131072):
                read = host.read(0, blocks, length=length)
                data = content[:4096] + (addresses * 31)[:length - 4096] if length > 4096 else content[:length]
                words = struct.pack("<QI", 1000, blocks - 1)
                written = host.queues[0].call(0x01, 1, words, data, in_capsule=False).status
                with self.subTest(blocks=blocks, length=length):
                    if moved > length:
                        self.assertEqual((read.status, read.data, written), (0x004 | DNR, b"", 0x004 | DNR))
                    else:
                        self.assertEqual((read.status, read.data), (0, content[:moved] + bytes(length - moved)))
                        self.assertEqual((written, host.read(1000, blocks).data), (0, data[:moved]))

    def test_no_data_of_another_host_are_returned(self) -> None:
        """The data of a failed command are not sent."""
        a, b = self.host(), self.host(0xb2)
        a.write(0, b"\x99" * 4096)
        self.assertEqual(b.read(5000, 8).data, b"")
        self.assertNotIn(b"\x99", b.identify(0, 7).data)

    def test_pointers(self) -> None:
        queue = self.host().queues[0]
        words = struct.pack("<QI", 0, 0)
        for opcode, length, kind, mode, status in (
                (0x02, 512, IN_CAPSULE, 0x40, 0x011), (0x02, 512, 0x00, 0x40, 0x011), (0x02, 512, 0x5b, 0x40, 0x011),
                (0x02, 512, TRANSPORT, 0x00, 0x002), (0x02, 512, TRANSPORT, 0x80, 0x002),
                (0x02, 512, TRANSPORT, 0xc0, 0x002), (0x02, 131073, TRANSPORT, 0x40, 0x00f),
                (0x02, 0xffffffff, TRANSPORT, 0x40, 0x00f), (0x02, 0, TRANSPORT, 0x40, 0x004),
                (0x01, 512, IN_CAPSULE, 0x40, 0x00f), (0x01, 512, 0x41, 0x40, 0x011)):
            entry = bytearray(entry_of(opcode, 1, 1, words, length, kind))
            entry[1] = mode
            queue.send(CAPSULE, bytes(entry))
            self.assertEqual(queue.completion().status, status | DNR, (opcode, length, kind, mode))

    def test_an_offset_into_the_capsule(self) -> None:
        queue, host = self.host().queues[0], self.host(0xb2)
        entry = bytearray(entry_of(0x01, 1, 1, struct.pack("<QI", 9, 0), 512, IN_CAPSULE))
        for offset, status in ((512, 0), (513, 0x00f | DNR), (1025, 0x016 | DNR), ((1 << 64) - 1, 0x016 | DNR)):
            struct.pack_into("<Q", entry, 24, offset)
            queue.send(CAPSULE, bytes(entry), b"\1" * 512 + b"\2" * 512)
            self.assertEqual(queue.completion().status, status, offset)
        self.assertEqual(host.read(9, 1).data, b"\2" * 512)


class Reservations(TargetTest):
    def test_a_fenced_host(self) -> None:
        a, b = self.host(), self.host(0xb2)
        self.assertEqual([a.register(0, 0xa), a.acquire(0xa)], [0, 0])
        self.assertEqual(b.write(7, bytes(512)), RESERVATION_CONFLICT)
        self.assertEqual([b.register(0, 0xb), b.acquire(0xb, 0xa, action=1)], [0, 0])
        self.assertEqual(a.write(7, bytes(512)), RESERVATION_CONFLICT)
        self.assertEqual(a.flush(), RESERVATION_CONFLICT)
        self.assertEqual(b.write(7, b"\1" * 512), 0)
        self.assertEqual(a.read(7, 1).data, b"\1" * 512)
        report = b.queues[0].call(0x0e, 1, struct.pack("<II", 31, 1), length=128)
        self.assertEqual((report.status, report.data[4], report.data[80:88]), (0, 1, (0xb2).to_bytes(8, "little")))

    def test_a_command_that_is_under_way(self) -> None:
        """`hold` and `go`: a write that was fetched is aborted by Preempt and Abort, and does not land later either."""
        a, b = self.host(), self.host(0xb2)
        a.register(0, 0xa), a.acquire(0xa, kind=3), b.register(0, 0xb)
        self.assertEqual(self.target.ask("hold 1"), "hold 1 0")
        cids = [a.queues[0].send_command(0x01, 1, struct.pack("<QI", 7, 0), b"\1" * 512) for _ in range(3)]
        self.wait_for(lambda: self.target.ask("held 1") == "held 1 3")
        self.assertEqual(b.acquire(0xb, 0xa, action=2, kind=3), 0)
        self.assertEqual(self.target.ask("go 1"), "go 1 3")
        answers = [a.queues[0].completion() for _ in cids]
        self.assertEqual([(it.cid, it.status) for it in answers], [(cid, ABORTED_BY_PREEMPTION) for cid in cids])
        self.assertEqual(b.read(7, 1).data, bytes(512))
        self.assertEqual(a.write(7, bytes(512)), RESERVATION_CONFLICT)

    def test_held_reads_get_their_own_data(self) -> None:
        a = self.host(queues=2)
        for number in range(16):
            a.write(number, bytes([number + 1]) * 512)
        self.target.ask("hold 1")
        for number in range(16):
            a.queues[number & 1].send_command(0x02, 1, struct.pack("<QI", number, 0), length=512, cid=number)
        self.wait_for(lambda: self.target.ask("held 1") == "held 1 16")
        self.assertEqual(a.read(3, 1).data, b"\4" * 512, "there is no room to hold another")
        self.assertEqual(a.read(0, 256).status, 0)
        self.target.ask("go 1")
        for number in range(16):
            answer = a.queues[number & 1].completion()
            self.assertEqual((answer.cid, answer.data), (number, bytes([number + 1]) * 512))

    def test_a_held_command_whose_queue_is_lost(self) -> None:
        a = self.host(queues=2)
        self.target.ask("hold 1")
        for queue in a.queues:
            queue.send_command(0x01, 1, struct.pack("<QI", 7, 0), b"\1" * 512)
        self.wait_for(lambda: self.target.ask("held 1") == "held 1 2")
        a.queues[0].close()
        self.wait_for(lambda: self.target.ask("held 1") == "held 1 1")
        b = self.host(0xb2)
        self.assertEqual(b.read(7, 1).data, bytes(512), "none is executed yet")
        self.target.ask("go 1")
        self.assertEqual(a.queues[1].completion().status, 0)
        self.assertEqual(b.read(7, 1).data, b"\1" * 512)

    def test_rooms_of_held_commands(self) -> None:
        """A held command keeps its own buffer while others complete."""
        a = self.host(queues=2)
        a.write(0, b"\1" * 512), a.write(1, b"\2" * 512)
        self.target.ask("hold 1")
        a.queues[0].send_command(0x02, 1, struct.pack("<QI", 0, 0), length=512)
        self.wait_for(lambda: self.target.ask("held 1") == "held 1 1")
        a.queues[1].send_command(0x02, 1, struct.pack("<QI", 0, 0), length=512)
        self.wait_for(lambda: self.target.ask("held 1") == "held 1 2")
        a.queues[0].close()
        self.wait_for(lambda: self.target.ask("held 1") == "held 1 1")
        a.queues[1].send_command(0x02, 1, struct.pack("<QI", 1, 0), length=512)
        self.wait_for(lambda: self.target.ask("held 1") == "held 1 2")
        self.target.ask("go 1")
        answers = [a.queues[1].completion() for _ in range(2)]
        self.assertEqual([it.status for it in answers], [0, 0])
        self.assertEqual([it.data for it in answers], [b"\1" * 512, b"\2" * 512])

    def test_a_power_cycle(self) -> None:
        a, b = self.host(), self.host(0xb2)
        a.register(0, 0xa), a.acquire(0xa)
        self.assertEqual(self.target.ask("powercycle"), "powercycle")
        self.wait_for(lambda: self.target.hosts() == [])
        a, b = self.host(), self.host(0xb2)
        self.assertEqual(b.write(7, bytes(512)), RESERVATION_CONFLICT)
        self.assertEqual(a.write(7, bytes(512)), 0)


class Translations(TargetTest):
    def test_identify_controller(self) -> None:
        told = self.host().identify(1).data
        for form, place, value in (("<H", 320, 10), ("<H", 514, 64), ("<I", 536, 0x300001), ("<I", 1792, 516),
                                   ("<I", 1796, 1), ("<B", 1803, 1), ("<H", 1804, 1), ("<I", 92, 0x900),
                                   ("<B", 76, 0x0a), ("<B", 258, 3), ("<B", 259, 3), ("<B", 260, 3), ("<B", 261, 6),
                                   ("<B", 262, 63), ("<B", 342, 1), ("<B", 343, 7), ("<I", 344, 1),
                                   ("<I", 348, 1), ("<H", 520, 0x3d), ("<I", 540, 8), ("<B", 525, 4), ("<B", 77, 5),
                                   ("<H", 78, 1)):
            self.assertEqual(struct.unpack_from(form, told, place)[0], value, place)
        self.assertEqual(told[768:1024].rstrip(b"\0").decode(), "nqn.2024-01.example:suvmileh")

    def test_identify_descriptors(self) -> None:
        a, b = self.host(), self.host(0xb2)
        self.assertEqual(a.identify(3, 1).data, b.identify(3, 1).data)
        self.assertEqual(a.identify(3, 1).data[:2], b"\3\x10")
        self.assertEqual([a.identify(3, nsid).status for nsid in (2, 5)], [0x00b | DNR] * 2)

    def test_queues_are_made_by_connect_alone(self) -> None:
        admin = self.host().admin
        self.assertEqual([admin.call(opcode, 0).status for opcode in (0x00, 0x04)], [0x001 | DNR] * 2)
        for opcode in (0x01, 0x05):
            admin.send(CAPSULE, entry_of(opcode, 1, 0, b"", 0, TRANSPORT))
            self.assertEqual(admin.completion().status, 0x001 | DNR)

    def test_commands_that_the_subsystem_has_not(self) -> None:
        host = self.host()
        self.assertEqual({host.admin.call(opcode, 0).status for opcode in (0x10, 0x14, 0x80, 0xc0)}, {0x001 | DNR})
        self.assertEqual({host.queues[0].call(opcode, 1).status for opcode in (0x04, 0x0c, 0x18, 0xfc)}, {0x001 | DNR})
        self.assertEqual({host.identify(cns).status for cns in (4, 9, 0x14, 0x1c, 0xff)}, {0x002 | DNR})


class Controls(TargetTest):
    def test_looking_lines(self) -> None:
        host = self.host()
        host.write(2, b"Hello".ljust(512, b"\0"))
        self.assertEqual(self.target.ask("?blocks 1 2 1"), "blocks 1 2 1 48656c6c6f")
        self.assertEqual(self.target.ask("?blocks 1 3 1"), "blocks 1 3 1 -")
        self.assertEqual(self.target.ask("?register 1 0x1c"), "register 1 28 0x00000001")
        self.assertTrue(self.target.ask("?window 1 0 16").startswith("window 1 0 16 "))
        host.write(100, b"\xab" * 131072)
        self.assertEqual(self.target.ask("?blocks 1 100 256"), "blocks 1 100 256 " + "ab" * 131072)
        self.assertEqual(self.target.ask("?fetched 3"), "! line 1 word 2: there is no such controller")
        self.assertEqual(self.target.ask("?nothing"), "! line 1 word 1: there is no line '?nothing'; ?help names all")
        for line in ("hold 0", "hold 3", "go x", "nothing", "powercycle now"):
            self.assertEqual(self.target.ask(line), f"! {line}")

    def test_counts(self) -> None:
        host = self.host()
        before = self.target.ask("counts")
        host.flush()
        self.assertNotEqual(self.target.ask("counts"), before)


class Floods(TargetTest):
    def test_queues_that_never_connect(self) -> None:
        """They make room for the one that does."""
        idle = [Queue(self.target.port) for _ in range(40)]
        for queue in idle:
            self.addCleanup(queue.close)
        for _ in range(3):
            for queue in [Queue(self.target.port) for _ in range(200)]:
                queue.close()
        more = []
        for _ in range(60):
            more.append(Queue(self.target.port))
            self.addCleanup(more[-1].close)
        self.assertEqual(self.host().read(0, 1).status, 0)
