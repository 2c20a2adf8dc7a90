"""Files that can't be written: the target ends, and answers no command that they lack."""
import resource
import signal
import subprocess
import tempfile
import unittest
from pathlib import Path

from tests.host import BLOCK, Ended, Host
from tests.targets import BLOCKS, PROGRAM, TWO_HOSTS, expand

WRITE_FAULT, READ_ERROR = 0x4280, 0x4281
# No file may become longer than this, or be written after it.
LIMIT = 100 * BLOCK


def limited(limit: int) -> None:
    """Set in the target's process: a write past the limit fails without killing it."""
    signal.signal(signal.SIGXFSZ, signal.SIG_IGN)
    resource.setrlimit(resource.RLIMIT_FSIZE, (limit, limit))


@unittest.skipUnless(PROGRAM, "NVMETCP names no program")
class Faults(unittest.TestCase):
    def setUp(self) -> None:
        room = tempfile.TemporaryDirectory()
        self.addCleanup(room.cleanup)
        self.folder = Path(room.name)
        (self.folder / "config.nvme").write_text(TWO_HOSTS)

    def host(self, *options: str, limit: int = LIMIT) -> Host:
        """A host of a target with these options."""
        words = [PROGRAM, "--listen", "127.0.0.1:0", *options, str(self.folder / "config.nvme")]
        self.process = subprocess.Popen(words, stdout=subprocess.PIPE, stderr=subprocess.PIPE, text=True,
                                        preexec_fn=lambda: limited(limit))
        self.addCleanup(self.process.communicate)
        self.addCleanup(self.process.kill)
        host = Host(int(self.process.stdout.readline().rsplit(":", 1)[1]), 0xa1)
        self.addCleanup(host.close)
        return host

    def ends(self, what: str) -> None:
        """The target ended, with this message."""
        _, errors = self.process.communicate(timeout=10)
        self.assertEqual(self.process.returncode, 2)
        self.assertIn(f'nvmetcp: fault reason="{what}: ', errors)

    def image(self) -> Path:
        image = self.folder / "disk.img"
        image.write_bytes(bytes(BLOCK * BLOCKS))
        return image

    def test_an_image(self) -> None:
        """From the first write that is refused each command on blocks fails, and the others do not."""
        image = self.image()
        host = self.host("--image", str(image))
        self.assertEqual(host.write(98, b"\1" * BLOCK), 0)
        self.assertEqual(host.write(99, b"\2" * BLOCK * 2), WRITE_FAULT)
        self.assertEqual([host.read(98, 1).status, host.write(0, bytes(BLOCK)), host.flush(), host.discard((0, 8))],
                         [READ_ERROR, WRITE_FAULT, WRITE_FAULT, WRITE_FAULT])
        self.assertEqual([host.register(0, 0xa), host.acquire(0xa)], [0, 0])
        self.process.terminate()
        _, errors = self.process.communicate(timeout=10)
        self.assertEqual(self.process.returncode, 2)
        self.assertEqual(errors.count("repair it and start the target again"), 1)
        self.assertIn(f'{image}: File too large', errors)
        self.assertEqual(image.read_bytes()[98 * BLOCK:99 * BLOCK], b"\1" * BLOCK)

    def test_an_image_of_a_kept_run(self) -> None:
        """A script has no line for a disk that fails, so the target ends without an answer."""
        host = self.host("--image", str(self.image()), "--script", str(self.folder / "kept.nvme"))
        self.assertEqual(host.write(98, b"\1" * BLOCK), 0)
        with self.assertRaises(Ended):
            host.write(99, b"\2" * BLOCK * 2)
        self.ends("the image")

    def test_a_journal(self) -> None:
        host = self.host("--state", str(self.folder / "state"))
        with self.assertRaises(Ended):
            for key in range(1, 2000):
                self.assertEqual(host.register(key - 1, key, action=2 if key > 1 else 0), 0)
        self.ends("the journal")

    def test_a_script(self) -> None:
        host = self.host("--script", str(self.folder / "kept.nvme"))
        self.writes(host, 8)
        self.ends("the script")

    def test_a_script_that_has_room_ahead(self) -> None:
        """The target has given it back when it has ended."""
        script = self.folder / "kept.nvme"
        host = self.host("--script", str(script), limit=3 << 20)
        self.writes(host, 256)
        self.ends("the script")
        self.assertEqual(script.stat().st_size, 3 << 20)
        self.assertLess(512 * script.stat().st_blocks, (3 << 20) + (128 << 10))

    def writes(self, host: Host, blocks: int) -> int:
        """Writes until the target has ended. How many writes were answered."""
        answered = 0
        with self.assertRaises(Ended):
            for it in range(40):
                self.assertEqual(host.write(0, bytes([it + 1]) * blocks * BLOCK), 0)
                answered += 1
        return answered

    def test_a_recording(self) -> None:
        """What was answered is in it, and its end is torn."""
        for limit, blocks in ((LIMIT, 8), (3 << 20, 256)):
            recording = self.folder / f"kept-{blocks}"
            host = self.host("--record", str(recording), limit=limit)
            answered = self.writes(host, blocks)
            self.ends("the recording")
            self.assertEqual(recording.stat().st_size, limit)
            self.assertLess(512 * recording.stat().st_blocks, limit + (128 << 10))
            ran = expand(recording)
            self.assertEqual(ran.returncode, 1)
            self.assertIn(b": torn end: left out the last ", ran.stderr)
            self.assertEqual(ran.stdout.count(b"\nfetch 1 1\n"), answered)
            for it in range(1, answered + 1):
                self.assertIn(b"hex:" + b"%02x" % it * BLOCK, ran.stdout)

    def test_an_expansion(self) -> None:
        """An output that can't be written."""
        recording = self.folder / "kept"
        host = self.host("--record", str(recording))
        self.assertEqual(host.write(0, bytes(4096)), 0)
        self.process.terminate()
        self.process.communicate()
        for options in ((), ("/dev/full",)):
            with open("/dev/full", "wb") as full:
                ran = subprocess.run([PROGRAM, "expand", str(recording), *options], stdout=full, stderr=subprocess.PIPE)
            self.assertEqual(ran.returncode, 2)
            self.assertIn(b"No space left on device", ran.stderr)
