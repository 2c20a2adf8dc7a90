"""Queries: `./nvmetcp ctl` answers them by the text by which `nvmelive` answers them after the kept script."""
import re
import struct
import subprocess
import tempfile
import unittest
from pathlib import Path

from tests.host import Host
from tests.targets import BLOCKS, LIVE, TWO_HOSTS, TargetTest

# What both are asked. Some of it is not there, or is not written so.
LINES = [f"{word} {cntlid}" for word in ("?registers", "?queues", "?fetched", "?driver") for cntlid in (1, 2, 3)]
LINES += [f"?reservation {nsid}" for nsid in (0, 1, 2, 3, "0x2")]
LINES += ["?attached", "?namespaces", "?register 1 0x1c", "?register 0x2 20", "?register 3 0", "?register 1 0xffffffff0",
          "?window 1 4096 256", "?window 2 0x2000 64", "?window 1 4194303 1", "?window 1 4194304 1", "?window 1 0 131073",
          "?window 3 0 1", "?blocks 1 7 2", "?blocks 2 0 4", "?blocks 1 2048 1", "?blocks 1 0 257", "?blocks 1 0 0",
          "?blocks 9 0 1", "?fetched", "?fetched 65536", "?fetched x", "?attached 1", "?reservation 4294967296",
          "?blocks 1 7", "?window 1 0 -1", "?help", "?help blocks", "?help ?blocks", "?help write", "?queue 1", "?",
          "?line write  1 1 7 1 hex:48656c6c6f00", "?line fetch 1", "?line", "?line # nothing", "?attached \u00e9"]
NUMBER = re.compile(r"^! line \d+ ")


@unittest.skipUnless(LIVE, "NVMELIVE names no program")
class Looks(TargetTest):
    config = TWO_HOSTS + "namespace 2 blocks 8 shared\nattached 1 2\n"

    def setUp(self) -> None:
        self.kept = tempfile.TemporaryDirectory()
        self.addCleanup(self.kept.cleanup)
        self.script = Path(self.kept.name, "kept.nvme")
        self.options = ["--script", str(self.script)]
        super().setUp()

    def compare(self) -> list:
        """Asks both; the answers."""
        told = [self.target.ask(line) for line in LINES]
        again = self.folder / "again.img"
        again.write_bytes(bytes(512 * (BLOCKS + 8)))
        lines = self.script.read_text() + "".join(f"{line}\n" for line in LINES)
        ran = subprocess.run([LIVE, str(again)], input=lines, stdout=subprocess.PIPE, text=True, check=True)
        wanted = ran.stdout.splitlines()[-len(LINES):]
        for line, answer, want in zip(LINES, told, wanted):
            self.assertEqual(NUMBER.sub("! line 1 ", want), answer, line)
        return told

    def attach(self, host: Host, nsid: int, select: int, *cntlids: int) -> None:
        """Attaches a namespace to controllers (0), or detaches it (1)."""
        controllers = struct.pack(f"<{len(cntlids) + 1}H", len(cntlids), *cntlids).ljust(4096, b"\0")
        self.assertEqual(host.admin.call(0x15, nsid, struct.pack("<I", select), controllers).status, 0)

    def test_they_are_answered_alike(self) -> None:
        self.compare()
        a, b = self.host(queues=2), self.host(0xb2)
        a.write(7, b"Hello".ljust(1024, b"\1"))
        a.register(0, 0xa), a.acquire(0xa, kind=3), b.register(0, 0xb)
        self.attach(a, 2, 0, 2), self.attach(a, 1, 1, 1), self.attach(a, 1, 0, 1)
        self.assertEqual(a.admin.call(0x09, 2, struct.pack("<II", 0x84, 1)).status, 0)
        self.target.ask("hold 1")
        for number, (opcode, words, data) in enumerate((
                (0x01, struct.pack("<QI", 7, 0), b"\1" * 512), (0x0d, struct.pack("<I", 0), bytes(16)),
                (0x00, b"", b""), (0x15, struct.pack("<I", 0), bytes(8)), (0x7c, b"", b""))):
            a.queues[number & 1].send_command(opcode, 1 + number // 4, words, data)
        a.queues[1].send_command(0x02, 1, struct.pack("<QI", 9, 0), length=512, cid=0xabcd)
        self.wait_for(lambda: self.target.ask("held 1") == "held 1 6")
        self.assertEqual(b.acquire(0xb, 0xa, action=2, kind=3), 0)
        told = dict(zip(LINES, self.compare()))
        self.assertEqual(told["?reservation 1"], "reservation 1 type 3 holder 0xb2 generation 3 persists 1 protected 0 "
                                                 "registrant 0xb2 key 0xb")
        self.assertEqual(told["?attached"], "attached controller 2 namespace 1 controller 1 namespace 2 "
                                            "controller 2 namespace 2 controller 1 namespace 1")
        self.assertIn(" queue 2 cid 43981 opcode 2 name read nsid 1 marked 1", told["?fetched 1"])
        self.assertEqual(told["?fetched 3"], "! line 1 word 2: there is no such controller")
        self.target.ask("go 1")
        self.compare()
        self.target.ask("powercycle")
        self.compare()

    def test_each_registrant_holds_it(self) -> None:
        a, b = self.host(), self.host(0xb2)
        a.register(0, 0xa), b.register(0, (1 << 64) - 1), a.acquire(0xa, kind=6)
        self.assertIn("?reservation 1", LINES)
        self.assertIn("type 6 holder all", dict(zip(LINES, self.compare()))["?reservation 1"])


class Lasting(TargetTest):
    """The order of attachments is there in the next target too."""

    def setUp(self) -> None:
        self.kept = tempfile.TemporaryDirectory()
        self.addCleanup(self.kept.cleanup)
        self.options = ["--state", self.kept.name]
        super().setUp()

    def test_attachments(self) -> None:
        host = self.host()
        for select in (1, 0):
            controllers = struct.pack("<HH", 1, 1).ljust(4096, b"\0")
            self.assertEqual(host.admin.call(0x15, 1, struct.pack("<I", select), controllers).status, 0)
        told = "attached controller 2 namespace 1 controller 1 namespace 1"
        self.assertEqual(self.target.ask("?attached"), told)
        self.target.kill()
        self.target.start()
        self.assertEqual(self.target.ask("?attached"), told)
