"""Locks: of an image and of a state folder, which one target at a time has."""
import fcntl
import os
import select
import socket
import subprocess
import tempfile
import time
from pathlib import Path
from typing import Sequence

from tests.host import BLOCK, Host
from tests.targets import BLOCKS, PROGRAM, TargetTest


def started(folder: Path, *options: str, port: int = 0) -> subprocess.Popen:
    """A target over the configuration of a folder, which listens at any port unless one is given."""
    words = [PROGRAM, "--listen", f"127.0.0.1:{port}", *options, str(folder / "config.nvme")]
    return subprocess.Popen(words, stdout=subprocess.PIPE, stderr=subprocess.PIPE, text=True)


class LocksTest(TargetTest):
    def refused(self, options: Sequence[str], text: str) -> str:
        """A target with these options does not start, with this message."""
        process = started(self.folder, *options)
        output, errors = process.communicate(timeout=10)
        self.assertEqual((process.returncode, output), (2, ""), errors)
        self.assertIn(text, errors)
        return errors

    def waits(self, options: Sequence[str]) -> subprocess.Popen:
        """A target with these options and `--wait`, after its message that it waits."""
        process = started(self.folder, *options, "--wait")
        self.addCleanup(process.communicate)
        self.addCleanup(process.kill)
        self.assertIn("waits for process", process.stderr.readline())
        self.assertEqual(select.select([process.stdout], [], [], 0.2)[0], [], "it did not wait")
        return process


class Image(LocksTest):
    image = BLOCKS

    def setUp(self) -> None:
        super().setUp()
        self.words = ["--image", str(self.target.image)]

    def test_a_second_target(self) -> None:
        errors = self.refused(self.words, f"process {self.target.process.pid} (nvmetcp) has it locked")
        self.assertTrue(errors.startswith(f"nvmetcp: {self.target.image}: "), errors)
        self.assertIn("--wait", errors)
        link = self.folder / "link.img"
        link.symlink_to(self.target.image)
        self.refused(["--image", str(link)], "has it locked")

    def test_another_program(self) -> None:
        self.target.kill()
        for mode in (fcntl.LOCK_EX, fcntl.LOCK_SH):
            with open(self.target.image, "rb") as file:
                fcntl.flock(file, mode)
                self.refused(self.words, f"process {os.getpid()} (")
        self.target.start()

    def test_a_file_that_is_replaced_meanwhile(self) -> None:
        """A target that waits takes the file that is at the path then."""
        self.target.kill()
        with open(self.target.image, "rb") as file:
            fcntl.flock(file, fcntl.LOCK_EX)
            waiting = self.waits(self.words)
            other = self.folder / "other.img"
            other.write_bytes(b"\7" * BLOCK * BLOCKS)
            other.rename(self.target.image)
        host = Host(int(waiting.stdout.readline().rsplit(":", 1)[1]), 0xa1)
        self.assertEqual(host.read(5, 1).data, b"\7" * BLOCK)
        host.close()
        waiting.kill()
        waiting.wait()
        self.target.start()


class Takeover(LocksTest):
    """The second target, which was started while the first served, has all that the first answered."""

    # The image takes a while to be read.
    config = "controller 1 host 0xa1\n" + "".join(
        f"namespace {nsid} blocks 65536 private\nattached 1 {nsid}\n" for nsid in range(1, 9))
    image = 8 * 65536

    def test_takeover(self) -> None:
        for turn in range(1, 3):
            host = Host(self.target.port, 0xa1)
            waiting = self.waits(["--image", str(self.target.image)])
            for nsid in range(1, 9):
                self.assertEqual(host.write(65535, bytes([turn]) * BLOCK, nsid=nsid), 0)
            time.sleep(0.1)
            self.target.kill()
            host.close()
            host = Host(int(waiting.stdout.readline().rsplit(":", 1)[1]), 0xa1)
            for nsid in range(1, 9):
                self.assertEqual(host.read(65535, 1, nsid=nsid).data, bytes([turn]) * BLOCK)
            host.close()
            waiting.kill()
            waiting.wait()
            self.target.start()


class Addresses(LocksTest):
    """A port and a socket are waited for too: a target that ends may give them back after its locks."""

    def test_a_port(self) -> None:
        process = started(self.folder, port=self.target.port)
        self.assertIn("Address already in use", process.communicate(timeout=10)[1])
        process = started(self.folder, "--wait", port=self.target.port)
        self.assertEqual(process.stderr.readline(), f"nvmetcp: 127.0.0.1:{self.target.port}: waits until it is free\n")
        self.target.kill()
        self.assertEqual(int(process.stdout.readline().rsplit(":", 1)[1]), self.target.port)
        process.kill()
        process.communicate()
        self.target.start()

    def test_a_socket(self) -> None:
        words = ["--control", str(self.folder / "control/socket")]
        self.refused(words, "another target that runs has it")
        process = started(self.folder, *words, "--wait")
        self.assertTrue(process.stderr.readline().endswith("control/socket: waits until it is free\n"))
        self.target.kill()
        self.assertIn(" at ", process.stdout.readline())
        self.assertEqual(self.target.ask("hosts"), "[]")
        process.kill()
        process.communicate()
        self.target.start()


class State(LocksTest):
    def setUp(self) -> None:
        kept = tempfile.TemporaryDirectory()
        self.addCleanup(kept.cleanup)
        self.options = ["--state", kept.name]
        self.in_use = Path(kept.name, "in-use")
        super().setUp()

    def test_a_second_target(self) -> None:
        self.assertTrue(self.in_use.is_file())
        self.refused(self.options, f"process {self.target.process.pid} (nvmetcp) has it locked")
        host = self.host()
        self.assertEqual([host.register(0, 0xa), host.acquire(0xa)], [0, 0])
        waiting = self.waits(self.options)
        self.target.kill()
        other = Host(int(waiting.stdout.readline().rsplit(":", 1)[1]), 0xb2)
        self.assertEqual(other.write(0, bytes(BLOCK)), 0x4083)
        other.close()
        waiting.kill()
        waiting.wait()
        self.target.start()

    def test_another_machine(self) -> None:
        """The file names its holder, so that another machine can name it too."""
        named = f"process {self.target.process.pid} (nvmetcp) of machine {socket.gethostname()}\n"
        self.assertEqual(self.in_use.read_text(), named)

    def test_an_earlier_version(self) -> None:
        """It had a socket there. One that nobody answers is replaced."""
        self.target.kill()
        self.in_use.unlink()
        with socket.socket(socket.AF_UNIX) as listener:
            listener.bind(str(self.in_use))
            listener.listen()
            self.refused(self.options, "another target that runs has it")
        self.target.start()
        self.assertTrue(self.in_use.is_file())

    def test_what_is_no_file(self) -> None:
        self.target.kill()
        self.in_use.unlink()
        os.mkfifo(self.in_use)
        self.refused(self.options, "no regular file")
        self.in_use.unlink()
        self.target.start()


del LocksTest
