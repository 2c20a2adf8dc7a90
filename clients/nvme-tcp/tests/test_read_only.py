"""A read-only image: namespaces are write protected, no host can change that, and the file is not written."""
import os
import struct
import subprocess
import tempfile
from pathlib import Path

from tests.host import BLOCK, Host
from tests.targets import BLOCKS, SIM, TWO_HOSTS, Target, TargetTest

DNR = 0x4000
PROTECTED, NOT_CHANGEABLE = 0x020 | DNR, 0x10e | DNR
CONTENT = bytes(range(256)) * (BLOCK * BLOCKS // 256)


def set_protection(host: Host, state: int, nsid: int = 1) -> int:
    return host.admin.call(0x09, nsid, struct.pack("<II", 0x84, state)).status


class ReadOnly(TargetTest):
    """The image has content before the target is there; namespace 2 is attached to nobody."""

    config = TWO_HOSTS + "namespace 2 blocks 8 private\n"
    words = ["--read-only"]
    mode = 0o600

    def setUp(self) -> None:
        self.kept = tempfile.TemporaryDirectory()
        self.addCleanup(self.kept.cleanup)
        self.disk = Path(self.kept.name, "content.img")
        self.disk.write_bytes(CONTENT + bytes(8 * BLOCK))
        self.disk.chmod(self.mode)
        self.before = os.stat(self.disk).st_mtime_ns
        self.options = ["--image", str(self.disk), "--script", str(Path(self.kept.name, "kept.nvme")), *self.words]
        super().setUp()

    def is_protected(self, host: Host, nsid: int = 1) -> None:
        """Identify and Get Features report the write protection, and the blocks are unchanged."""
        slba = 3
        data = CONTENT[BLOCK * slba:BLOCK * (slba + 2)] if nsid == 1 else bytes(2 * BLOCK)
        self.assertEqual(host.read(slba, 2, nsid).data, data)
        self.assertEqual(host.write(slba, bytes(BLOCK), nsid), PROTECTED)
        self.assertEqual(host.queues[0].call(0x08, nsid, struct.pack("<QI", slba, 0)).status, PROTECTED)
        told = host.admin.call(0x0a, nsid, struct.pack("<I", 0x84))
        self.assertEqual((told.status, told.value & 7), (0, 1), "Get Features")
        self.assertEqual(host.identify(0, nsid).data[99] & 1, 1, "Identify Namespace, NSATTR")
        self.assertEqual(host.read(slba, 2, nsid).data, data)

    def test_all_say_so(self) -> None:
        self.is_protected(self.host())
        self.is_protected(self.host(0xb2))
        self.assertEqual(self.disk.read_bytes(), CONTENT + bytes(8 * BLOCK))
        self.assertEqual(os.stat(self.disk).st_mtime_ns, self.before)

    def test_no_host_lifts_it(self) -> None:
        a, b = self.host(), self.host(0xb2)
        for host in (a, b):
            self.assertEqual([set_protection(host, it) for it in (0, 2, 1)], [NOT_CHANGEABLE, NOT_CHANGEABLE, 0])
        self.assertEqual([a.register(0, 0xa), a.acquire(0xa)], [0, 0])
        self.target.ask("powercycle")
        self.is_protected(self.host())

    def test_a_namespace_that_is_attached_later(self) -> None:
        host = self.host()
        controllers = struct.pack("<HH", 1, 1).ljust(4096, b"\0")
        self.assertEqual(host.admin.call(0x15, 2, struct.pack("<I", 0), controllers).status, 0)
        self.is_protected(host, 2)

    def test_others_may_read_it(self) -> None:
        """A second target that only reads has it too; one that writes has not."""
        with tempfile.TemporaryDirectory() as room:
            other = Target(Path(room), self.config, options=["--image", str(self.disk), "--read-only"])
            host = Host(other.port, 0xa1)
            self.is_protected(host)
            host.close()
            other.close()
        if not self.words:
            return
        words = [self.target.process.args[0], "--listen", "127.0.0.1:0", "--image", str(self.disk),
                 str(self.folder / "config.nvme")]
        ran = subprocess.run(words, stdout=subprocess.PIPE, stderr=subprocess.PIPE, text=True, timeout=10)
        self.assertEqual((ran.returncode, ran.stdout), (2, ""))

    def end(self) -> None:
        """Its script leaves the same blocks, by the same transcript."""
        self.target.process.terminate()
        self.assertEqual(self.target.process.wait(10), 0)
        self.target.close()
        if SIM:
            again, script = self.folder / "again.img", Path(self.kept.name, "kept.nvme")
            again.write_bytes(CONTENT + bytes(8 * BLOCK))
            ran = subprocess.run([SIM, str(again), str(script)], stdout=subprocess.PIPE, check=True)
            self.assertEqual(ran.stdout, Path(f"{script}.out").read_bytes())
            self.assertEqual(again.read_bytes(), CONTENT + bytes(8 * BLOCK))


class WithoutPermission(ReadOnly):
    """A file that nobody may write, and no word of the command line."""

    words = []
    mode = 0o444

    def test_it_is_reported(self) -> None:
        self.assertIn("can't be written: it is served read-only", (self.folder / "errors").read_text())


class Lasting(TargetTest):
    """A state folder: what a host has set of write protection does not count, and is there again in a later target."""

    image = BLOCKS

    def setUp(self) -> None:
        self.kept = tempfile.TemporaryDirectory()
        self.addCleanup(self.kept.cleanup)
        self.options = ["--state", self.kept.name]
        super().setUp()

    def test_it_is_read_only_for_so_long(self) -> None:
        host = self.host()
        self.assertEqual([set_protection(host, 1), set_protection(host, 0), host.register(0, 0xa), host.acquire(0xa)],
                         [0] * 4)
        self.restart([*self.target.options, "--read-only"])
        host = self.host()
        self.assertEqual([host.write(7, bytes(BLOCK)), set_protection(host, 0)], [PROTECTED, NOT_CHANGEABLE])
        self.assertEqual(self.host(0xb2).register(0, 0xb), 0)
        self.restart(self.target.options[:-1])
        self.assertEqual(self.host().write(7, bytes(BLOCK)), 0)
        self.assertEqual(self.host(0xb2).write(7, bytes(BLOCK)), 0x083 | DNR)

    def restart(self, options: list) -> None:
        self.target.close()
        self.target.options = options
        self.target.start()
