"""Random PDUs: the target survives them, takes no more memory, and serves another host."""
import json
import os
import random
import socket
import struct
import time

from tests.host import CAPSULE, HOST_DATA, SUBSYSTEM, Connection, digest_of, entry_of, ic_request
from tests.targets import TargetTest

MUTATIONS = int(os.environ.get("MUTATIONS", "100000"))
# The number of PDUs over a connection, unless it ends before.
FOR_EACH = 40


class Seeds:
    """PDUs that are right, to be changed: commands, what opens a queue, and what ends a connection at most times."""

    def __init__(self, digests: int) -> None:
        made = Connection.__new__(Connection)
        made.digests = digests
        words, controllers = struct.pack("<QI", 5, 0), struct.pack("<HH", 1, 3).ljust(4096, b"\0")
        ranges = struct.pack("<IIQIIQ", 0, 4, 5, 0, 1, 9)

        def command(opcode: int, cid: int, nsid: int, more: bytes, length: int, data: bytes = b"") -> bytes:
            return made.pdu(CAPSULE, entry_of(opcode, cid, nsid, more, length, 0x01 if data else 0x5a), data)

        self.commands = [
            command(0x01, 1, 1, words, 512, bytes(range(256)) * 2), command(0x02, 2, 1, words, 512),
            command(0x01, 3, 1, words, 512), command(0x00, 4, 1, b"", 0), command(0x05, 4, 1, words, 512, bytes(512)),
            command(0x08, 4, 1, words, 0), command(0x06, 5, 1, struct.pack("<I", 1), 4096),
            command(0x0d, 6, 1, bytes(4), 16, bytes(16)), command(0x11, 6, 1, bytes(4), 16, bytes(16)),
            command(0x15, 7, 1, bytes(4), 4096, controllers), command(0x0c, 8, 0, b"", 0),
            command(0x09, 9, 0, struct.pack("<II", 0x0b, 0x100), 0),
            command(0x02, 10, 0, struct.pack("<HH", 4, 1023), 4096),
            *[command(0x02, 10, 0xffffffff, struct.pack("<HHIQ", page, 127, 0, 16), 512) for page in (1, 2, 5, 12)],
            *[command(opcode, 9, 0, struct.pack("<II", fid, 1), 0) for opcode in (0x09, 0x0a) for fid in (4, 5, 15)],
            command(0x09, 4, 1, struct.pack("<II", 1, 4), 32, ranges), command(0x08, 15, 0, bytes(4), 0),
            *[command(0x06, 5, 1, struct.pack("<I", cns), 4096) for cns in (0, 6, 8, 0x11, 0x12)],
            command(0x7f, 11, 4, struct.pack("<BxxxI", 1, 0), 0),
            command(0x7f, 12, 0, struct.pack("<BxxxIQ", 0, 0x14, 0x460001), 0)]
        self.opens = ic_request(digests)
        self.admin, self.io = connect(made, 0), [connect(made, qid) for qid in range(1, 5)]
        self.enable = self.commands[-1]
        self.others = [made.pdu(HOST_DATA, struct.pack("<HHIII", 3, 0, 0, 512, 0), bytes(512), 4), self.admin,
                       struct.pack("<BBBBIHI", 2, 0, 24, 0, 24, 1, 0) + bytes(10), self.opens,
                       command(0x7f, 13, 8, b"", 0)]


def connect(made: Connection, qid: int) -> bytes:
    data = ((0xa1).to_bytes(16, "little") + struct.pack("<H", 1 if qid else 0xffff)).ljust(256, b"\0")
    data += SUBSYSTEM.encode().ljust(256, b"\0") + b"nqn.2024-01.example:a1".ljust(512, b"\0")
    return made.pdu(CAPSULE, entry_of(0x7f, 14, 1, struct.pack("<HHHBxI", 0, qid, 31, 0, 0), 1024, 0x01), data)


def changed(rng: random.Random, unit: bytes, digests: int) -> bytes:
    """A PDU with some bytes changed, or cut, or with bytes after it. The digest of its header is mostly made right."""
    out = bytearray(unit)
    # Most changes leave the eight bytes alone that all PDUs have, so that the connection continues.
    first = 0 if rng.random() < 0.04 else 8
    for _ in range(rng.choice((0, 1, 1, 1, 2, 3, 8))):
        at = rng.randrange(first, min(len(out), rng.choice((24, 76, len(out)))))
        out[at] = rng.choice((0, 1, 0x7f, 0x80, 0xff, out[at] ^ 1 << rng.randrange(8), rng.randrange(256)))
    if rng.random() < 0.01:
        del out[rng.randrange(len(out)):]
    if rng.random() < 0.01:
        out += rng.randbytes(rng.randrange(64))
    if digests & 1 and rng.random() < 0.99 and len(out) >= 28:
        size = out[2]
        if size + 4 <= len(out):
            out[size:size + 4] = digest_of(bytes(out[:size]))
    return bytes(out)


class Hostile(TargetTest):
    config = TargetTest.config + "".join(f"controller {n} host 0xa1\nattached {n} 1\n" for n in range(3, 9)) + \
        "namespace 2 blocks 8 private\nattached 2 2\n"

    def test_mutated_units(self) -> None:
        rng, sent, begun = random.Random(63), 0, time.monotonic()
        witness = self.host(0xb2)
        witness.write(3, b"\x42" * 512, nsid=2)
        units = {digests: Seeds(digests) for digests in (0, 1, 3)}
        other = self.host(0xa1, queues=0)
        memory = []
        while sent < MUTATIONS:
            digests = rng.choice((0, 0, 0, 1, 3))
            sent += self.one(rng, units[digests], digests)
            if rng.random() < 0.02:
                self.assertEqual(witness.read(3, 1, nsid=2).data, b"\x42" * 512)
                memory.append(self.target.memory())
        self.assertEqual(witness.read(3, 1, nsid=2).data, b"\x42" * 512)
        self.assertLess(max(memory), memory[len(memory) // 10] + (32 << 20))
        self.assertEqual(other.identify(2).status, 0)
        self.assertEqual(self.target.ask("?blocks 2 3 1")[-4:], "4242")
        carried_out = json.loads(self.target.ask("counts"))["commands"]
        self.assertGreater(carried_out, sent // 10, "most connections have ended at once")
        print(f"{sent} mutated PDUs in {time.monotonic() - begun:.0f} s, {carried_out} commands", flush=True)

    def one(self, rng: random.Random, units: Seeds, digests: int) -> int:
        """A connection that sends random PDUs. Returns their number."""
        connection, kind = Connection(self.target.port, opens=False), rng.random()
        sent = [units.opens] if kind < 0.98 else []
        if kind < 0.5:
            sent += [units.admin, units.enable]
        elif kind < 0.95:
            sent.append(rng.choice(units.io))
        for _ in range(FOR_EACH):
            sent.append(changed(rng, rng.choice(units.commands if rng.random() < 0.98 else units.others), digests))
        try:
            connection.socket.sendall(b"".join(sent))
            # If it closes at once, what it has sent may be lost; else the target takes it all.
            if rng.random() < 0.9:
                connection.socket.shutdown(socket.SHUT_WR)
                while connection.socket.recv(1 << 18):
                    pass
        except OSError:
            pass
        connection.close()
        return FOR_EACH
