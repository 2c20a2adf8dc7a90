"""Files that another program changes while the target serves them: it ends, and reports the reason."""
import os
import shutil
import signal
import struct
import tempfile
import time
from pathlib import Path

from tests.host import BLOCK, Ended, Host
from tests.targets import BLOCKS, Target, TargetTest


class ChangedTest(TargetTest):
    def ends(self, text: str, seconds: float = 3) -> None:
        """The target ends by itself within that time, with this message."""
        self.target.process.wait(seconds)
        self.assertEqual(self.target.process.returncode, 2)
        errors = (self.folder / "errors").read_text()
        self.assertIn(text, errors)
        self.target.close()


class Image(ChangedTest):
    image = BLOCKS

    def end(self) -> None:
        """The target has ended."""

    def change(self, what: str) -> None:
        image = self.target.image
        if what == "cut":
            os.truncate(image, 1000 * BLOCK)
        elif what == "replaced":
            shutil.copyfile(image, self.folder / "other.img")
            (self.folder / "other.img").rename(image)
        elif what == "renamed":
            image.rename(self.folder / "moved.img")
        else:
            image.unlink()

    def test_a_target_without_hosts(self) -> None:
        for what, text in (("cut", "the image: it was cut to 512000 bytes, of 1048576"),
                           ("replaced", "disk.img is another file now"),
                           ("renamed", "disk.img was removed or renamed"),
                           ("removed", "disk.img was removed or renamed")):
            with self.subTest(what):
                self.change(what)
                self.ends(text)
                self.target.image.write_bytes(bytes(BLOCK * BLOCKS))
                self.target.start()
        self.target.close()

    def test_a_flush(self) -> None:
        """It is not answered if the image is not the same file, however short that is."""
        for what in ("cut", "replaced", "renamed", "removed"):
            with self.subTest(what):
                host = self.host()
                self.assertEqual([host.write(0, bytes(BLOCK)), host.flush()], [0, 0])
                self.change(what)
                with self.assertRaises(Ended):
                    host.flush()
                self.ends("the image: ")
                self.target.image.write_bytes(bytes(BLOCK * BLOCKS))
                self.target.start()
        self.target.close()

    def test_a_write_after_a_cut(self) -> None:
        """The write would make the image as long as it was, with zeros in it."""
        host = self.host()
        self.assertEqual(host.write(0, b"\1" * BLOCK), 0)
        os.truncate(self.target.image, 0)
        with self.assertRaises(Ended):
            host.write(BLOCKS - 1, b"\2" * BLOCK)
        self.ends("the image: it was cut to 0 bytes")

    def test_a_longer_image(self) -> None:
        """A longer file is harmless."""
        os.truncate(self.target.image, 2 * BLOCK * BLOCKS)
        time.sleep(0.3)
        self.assertEqual(self.host().write(0, b"\1" * BLOCK), 0)
        self.target.close()


class Frozen(ChangedTest):
    """A target is stopped, another takes its state folder over, as on another machine, and the first continues."""

    def setUp(self) -> None:
        kept = tempfile.TemporaryDirectory()
        self.addCleanup(kept.cleanup)
        self.state = Path(kept.name)
        self.options = ["--state", kept.name]
        super().setUp()

    def end(self) -> None:
        self.target.close()

    def take_over(self) -> Target:
        """Stops the target and starts another, which its lock does not reach."""
        self.target.process.send_signal(signal.SIGSTOP)
        (self.state / "in-use").unlink()
        room = tempfile.TemporaryDirectory()
        self.addCleanup(room.cleanup)
        other = Target(Path(room.name), options=self.options)
        self.addCleanup(other.close)
        return other

    def fenced(self, port: int) -> None:
        """a1 is fenced, and b2 is not."""
        a, b = Host(port, 0xa1), Host(port, 0xb2)
        self.assertEqual([a.write(0, bytes(BLOCK)), b.write(0, bytes(BLOCK))], [0x4083, 0])
        a.close(), b.close()

    def preempted(self, other: Target) -> None:
        b = Host(other.port, 0xb2)
        self.assertEqual([b.register(0, 0xb), b.acquire(0xb, 0xa, action=1)], [0, 0])
        b.close()

    def test_it_ends_without_an_answer(self) -> None:
        """Whatever its hosts have asked meanwhile: a command that the journal takes, or a write."""
        for ask in (lambda it: it.queues[0].send_command(0x15, 1, struct.pack("<I", 1 << 8), struct.pack("<Q", 0xa)),
                    lambda it: it.queues[0].send_command(0x01, 1, struct.pack("<QI", 0, 0), bytes(BLOCK))):
            a = self.host()
            self.assertEqual([a.register(0, 0xa), a.acquire(0xa)], [0, 0])
            other = self.take_over()
            self.preempted(other)
            ask(a)
            self.target.process.send_signal(signal.SIGCONT)
            with self.assertRaises(Ended):
                a.queues[0].completion()
            self.ends("the journal: another target has taken its folder over")
            self.fenced(other.port)
            other.kill()
            self.target.start()
            self.fenced(self.target.port)
            b = self.host(0xb2)
            self.assertEqual(b.register(0xb, 0, action=1), 0)
            b.close()

    def test_it_ends_without_hosts(self) -> None:
        self.take_over()
        self.target.process.send_signal(signal.SIGCONT)
        self.ends("the journal: another target has taken its folder over: it began epoch 2, this one 1")

    def test_a_record_of_an_older_epoch(self) -> None:
        """It was written after the start of another target, so it was never answered."""
        journal = self.state / "journal"
        a = self.host()
        self.assertEqual(a.register(0, 0xa), 0)
        before = len(journal.read_bytes())
        self.assertEqual(a.acquire(0xa), 0)
        acquire = journal.read_bytes()[before:]
        self.assertEqual([a.reserve(0x15, 1 << 8, 0xa), a.acquire(0xa)], [0, 0])
        release = journal.read_bytes()[before + len(acquire):-len(acquire)]
        self.target.kill()
        self.target.start()
        self.preempted(self.target)
        self.target.kill()
        whole = journal.read_bytes()
        journal.write_bytes(whole + release + acquire)
        self.target.start()
        self.assertIn("2 records are ignored, since they are of an older epoch", self.errors())
        self.fenced(self.target.port)
        self.target.kill()
        self.target.start()
        self.fenced(self.target.port)

    def test_what_else_changes_a_journal(self) -> None:
        journal = self.state / "journal"
        for change, text in ((lambda: os.truncate(journal, 20), "the journal: it was cut to 20 bytes"),
                             (lambda: journal.rename(self.state / "moved"), "journal was removed or renamed"),
                             (lambda: shutil.copyfile(journal, self.state / "copy"), ""),
                             (lambda: (self.state / "copy").rename(journal), "journal is another file now"),
                             (lambda: os.truncate(journal, 4096), "the journal: another program has written to it")):
            whole = journal.read_bytes()
            change()
            if text:
                self.ends(text)
                journal.write_bytes(whole)
                self.target.start()

    def errors(self) -> str:
        return (self.folder / "errors").read_text()


del ChangedTest
