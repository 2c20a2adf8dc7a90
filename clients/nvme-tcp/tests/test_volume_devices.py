"""Volumes on block devices. Two loop devices over one file are one device that two machines reach: locks and memory of
one don't reach the other."""
import os
import shutil
import signal
import struct
import subprocess
import time
import unittest
from pathlib import Path

from tests.host import BLOCK, Ended
from tests.volumes import BLOCKS_AT, VolumeTarget, VolumeTest

SIZE = 40 << 20


def has_loop_devices() -> bool:
    return os.geteuid() == 0 and bool(shutil.which("losetup")) and Path("/dev/loop-control").exists()


@unittest.skipUnless(has_loop_devices(), "no loop devices, or no root")
class Devices(VolumeTest):
    def setUp(self) -> None:
        super().setUp()
        self.backing = self.room / "backing"
        with open(self.backing, "wb") as file:
            file.truncate(SIZE)
        self.volume, self.other = self.device(), self.device()

    def device(self) -> Path:
        ran = subprocess.run(["losetup", "--find", "--show", str(self.backing)], stdout=subprocess.PIPE, text=True)
        if ran.returncode != 0:
            self.skipTest("there is no loop device")
        device = ran.stdout.strip()
        self.addCleanup(subprocess.run, ["losetup", "--detach", device], check=True)
        return Path(device)

    def moved(self, name: str) -> VolumeTarget:
        """A target over the other device."""
        self.volume, self.other = self.other, self.volume
        return self.target(name)

    def test_formats(self) -> None:
        for at in (0, 16 << 20, SIZE - 512):
            self.write_directly(at, b"x" * 512)
            if at == 16 << 20:
                self.format()
                self.refused("it is a volume already; --force", "format", self.volume, "--config", self.config)
            else:
                self.refused(f"there is something at byte {at}; --force", "format", self.volume, "--config", self.config)
            self.write_directly(at, bytes(512))
            self.write_directly(0, bytes(BLOCKS_AT))
        self.refused("it is no volume; `nvmetcp format`", self.volume)

    def write_directly(self, at: int, content: bytes) -> None:
        with open(self.volume, "r+b", buffering=0) as file:
            file.seek(at)
            file.write(content)
            os.fsync(file.fileno())

    def test_moves(self) -> None:
        """Each machine sees what the other has written, though it has read the same places before."""
        self.format()
        for turn in range(3):
            target = self.moved(f"target{turn}")
            host = self.host(target)
            if turn:
                self.assertEqual(host.read(5, 8).data, bytes([turn]) * 8 * BLOCK)
            self.assertEqual(host.write(5, bytes([turn + 1]) * 8 * BLOCK), 0)
            self.assertEqual(host.discard((100, 8)), 0)
            target.close()

    def test_a_takeover(self) -> None:
        self.format()
        first = self.target()
        a = self.host(first)
        self.assertEqual([a.register(0, 0xa), a.acquire(0xa, kind=3), a.write(9, b"\1" * BLOCK)], [0] * 3)
        first.process.send_signal(signal.SIGSTOP)
        begun = time.monotonic()
        second = self.moved("there")
        self.assertGreater(time.monotonic() - begun, 4, "the lease was not waited for")
        b = self.host(second, 0xb2)
        self.assertEqual((b.register(0, 0xb), b.acquire(0xb, 0xa, action=1, kind=3), b.read(9, 1).data),
                         (0, 0, b"\1" * BLOCK))
        self.assertEqual(b.write(9, b"\2" * BLOCK), 0)
        b.close()
        a.queues[0].send_command(0x01, 1, struct.pack("<QI", 9, 0), b"\3" * BLOCK)
        first.process.send_signal(signal.SIGCONT)
        with self.assertRaises((Ended, OSError)):
            a.queues[0].completion()
        self.assertEqual(first.process.wait(3), 2)
        self.is_fenced(second)
        self.assertEqual(self.host(second, 0xb2).read(9, 1).data, b"\2" * BLOCK)

    def test_a_device_that_shrank(self) -> None:
        self.format()
        os.truncate(self.backing, SIZE - 4096)
        subprocess.run(["losetup", "--set-capacity", str(self.volume)], check=True)
        self.refused(f"it has {SIZE - 4096} bytes, and its volume {SIZE}", self.volume)


del VolumeTest
