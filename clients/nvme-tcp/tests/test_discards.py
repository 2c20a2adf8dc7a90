"""Dataset Management: ranges are zeroed by Write Zeroes of the subsystem, under the rules that hold for these."""
import random
import struct
import subprocess
import tempfile
import unittest
from pathlib import Path

from tests.host import BLOCK
from tests.targets import BLOCKS, SIM, TWO_HOSTS, Target, TargetTest

DNR = 0x4000
OUT_OF_RANGE, CONFLICT, PROTECTED = 0x080 | DNR, 0x083 | DNR, 0x020 | DNR


class Discards(TargetTest):
    image = BLOCKS

    def test_ranges_read_as_zeros(self) -> None:
        host, rng = self.host(), random.Random(5)
        data = bytearray(rng.randbytes(256 * BLOCK))
        for count in (1, 2, 7, 256):
            host.write(0, bytes(data))
            ranges = [(rng.randrange(256), rng.randrange(3)) for _ in range(count)]
            ranges = [(slba, min(blocks, 256 - slba)) for slba, blocks in ranges]
            wanted = bytearray(data)
            for slba, blocks in ranges:
                wanted[slba * BLOCK:(slba + blocks) * BLOCK] = bytes(blocks * BLOCK)
            self.assertEqual(host.discard(*ranges, in_capsule=count != 7), 0)
            self.assertEqual(host.read(0, 256).data, wanted)
            self.assertEqual(self.target.image.read_bytes()[:256 * BLOCK], wanted, "the image follows")

    def test_all_of_a_namespace(self) -> None:
        host = self.host()
        host.write(BLOCKS - 256, b"\1" * 256 * BLOCK)
        self.assertEqual(host.discard((0, BLOCKS)), 0)
        self.assertEqual(self.target.image.read_bytes(), bytes(BLOCKS * BLOCK))

    def test_ranges_that_are_not_all_there(self) -> None:
        """None is zeroed then."""
        host = self.host()
        host.write(0, b"\1" * 16 * BLOCK)
        for wrong in ((BLOCKS, 1), (BLOCKS - 1, 2), (0, BLOCKS + 1), ((1 << 64) - 1, 1), (0, (1 << 32) - 1), (8, 65536)):
            self.assertEqual(host.discard((0, 8), wrong), OUT_OF_RANGE, wrong)
        self.assertEqual(host.discard(*[(0, BLOCKS)] * 33), 0x183 | DNR, "more blocks than one command may name")
        self.assertEqual(host.discard((0, 8), count=2), 0x004 | DNR, "fewer ranges than it says")
        self.assertEqual(host.queues[0].call(0x09, 1, struct.pack("<II", 0, 4)).status, 0x004 | DNR)
        self.assertEqual(host.read(0, 16).data, b"\1" * 16 * BLOCK)

    def test_nothing_to_do(self) -> None:
        host = self.host()
        host.write(0, b"\1" * BLOCK)
        self.assertEqual(host.discard((0, 0)), 0)
        self.assertEqual(host.discard((BLOCKS + 9, 0), (0, 0)), 0)
        for attributes in (0, 1, 2, 3):
            self.assertEqual(host.discard((0, 1), attributes=attributes), 0, "a hint")
        self.assertEqual(host.read(0, 1).data, b"\1" * BLOCK)

    def test_a_fenced_host(self) -> None:
        a, b = self.host(), self.host(0xb2)
        self.assertEqual([a.register(0, 0xa), a.acquire(0xa)], [0, 0])
        a.write(0, b"\1" * BLOCK)
        for ranges in ([(0, 1)], [(5, 0)], [(0, 1), (BLOCKS, 1)], [(0, 1)] * 256):
            self.assertEqual(b.discard(*ranges), CONFLICT)
        self.assertEqual(b.discard((0, 1), attributes=0), CONFLICT)
        self.assertEqual(b.discard((0, 1), count=2), CONFLICT)
        self.assertEqual(a.read(0, 1).data, b"\1" * BLOCK)
        self.assertEqual(a.discard((0, 1)), 0)
        self.assertEqual(b.read(0, 1).data, bytes(BLOCK))

    def test_other_rules(self) -> None:
        host = self.host()
        self.assertEqual([host.discard((0, 1), nsid=nsid) for nsid in (2, 0, 9, 0xffffffff)],
                         [0x002 | DNR, 0x00b | DNR, 0x00b | DNR, 0x00b | DNR])
        host.write(0, b"\1" * BLOCK)
        self.assertEqual(host.set_feature(0x84, 1, nsid=1), 0)
        self.assertEqual([host.discard((0, 1)), host.discard((0, 0)), host.discard((BLOCKS, 1))], [PROTECTED] * 3)
        self.assertEqual(host.read(0, 1).data, b"\1" * BLOCK)

    def test_a_preempted_one(self) -> None:
        """One that was fetched is aborted by Preempt and Abort, and does not land later either."""
        a, b = self.host(), self.host(0xb2)
        a.write(7, b"\1" * BLOCK)
        a.register(0, 0xa), a.acquire(0xa, kind=3), b.register(0, 0xb)
        self.target.ask("hold 1")
        data = struct.pack("<IIQ", 0, 1, 7)
        cid = a.queues[0].send_command(0x09, 1, struct.pack("<II", 0, 4), data)
        self.wait_for(lambda: self.target.ask("held 1") == "held 1 1")
        self.assertIn("name write_zeroes nsid 1 marked 0", self.target.ask("?fetched 1"))
        self.assertEqual(b.acquire(0xb, 0xa, action=2, kind=3), 0)
        self.target.ask("go 1")
        answer = a.queues[0].completion()
        self.assertEqual((answer.cid, answer.status), (cid, 0x01b | DNR))
        self.assertEqual(b.read(7, 1).data, b"\1" * BLOCK)

    def test_a_held_one(self) -> None:
        a = self.host()
        a.write(0, b"\1" * 16 * BLOCK)
        self.target.ask("hold 1")
        data = struct.pack("<IIQ", 0, 8, 4)
        a.queues[0].send_command(0x09, 1, struct.pack("<II", 0, 4), data)
        self.wait_for(lambda: self.target.ask("held 1") == "held 1 1")
        self.assertEqual(self.host(0xb2).read(0, 16).data, b"\1" * 16 * BLOCK)
        self.target.ask("go 1")
        self.assertEqual(a.queues[0].completion().status, 0)
        self.assertEqual(a.read(0, 16).data, b"\1" * 4 * BLOCK + bytes(8 * BLOCK) + b"\1" * 4 * BLOCK)


@unittest.skipUnless(SIM, "NVMESIM names no program")
class Kept(unittest.TestCase):
    def test_a_kept_script(self) -> None:
        """Each range is an event of the subsystem: nvmesim leaves the same image and the same transcript."""
        with tempfile.TemporaryDirectory() as room:
            folder = Path(room)
            target = Target(folder, TWO_HOSTS, BLOCKS, ["--script", str(folder / "kept.nvme")])
            self.addCleanup(target.close)
            case = TargetTest()
            case.target = target
            a, b = case.host(), case.host(0xb2)
            self.addCleanup(case.doCleanups)
            a.write(0, b"\1" * 64 * BLOCK)
            self.assertEqual([a.discard((0, 2), (9, 0), (60, 4)), a.discard((30, 1)), a.discard((BLOCKS, 1))],
                             [0, 0, OUT_OF_RANGE])
            self.assertEqual([a.register(0, 0xa), a.acquire(0xa), b.discard((20, 1))], [0, 0, CONFLICT])
            target.close()
            again = folder / "again.img"
            again.write_bytes(bytes(BLOCKS * BLOCK))
            ran = subprocess.run([SIM, str(again), str(folder / "kept.nvme")], stdout=subprocess.PIPE)
            self.assertEqual(ran.stdout, (folder / "kept.nvme.out").read_bytes())
            self.assertEqual(again.read_bytes(), target.image.read_bytes())
