"""Volumes for tests, and targets over them."""
import signal
import subprocess
import tempfile
import unittest
from pathlib import Path

from tests.host import BLOCK, Host
from tests.targets import PROGRAM, TWO_HOSTS, Target

# The places of the superblock's copies, of the journal with the bytes of a segment, and of the blocks.
COPIES = (0, 64 << 10)
JOURNAL, SEGMENT, BLOCKS_AT = 128 << 10, 256 << 10, 2 << 20
FENCED = 0x4083


class VolumeTarget(Target):
    """A target over a volume. Targets of several of these serve one volume."""

    def __init__(self, volume: Path, folder: Path, library: str = "") -> None:
        self.volume, self.library = volume, library
        super().__init__(folder)

    def start(self, port: int = 0) -> None:
        self.environment = {"LD_PRELOAD": self.library} if self.library else {}
        self.served = self.volume
        super().start(port)


@unittest.skipUnless(PROGRAM, "NVMETCP names no program")
class VolumeTest(unittest.TestCase):
    def setUp(self) -> None:
        room = tempfile.TemporaryDirectory()
        self.addCleanup(room.cleanup)
        self.room = Path(room.name)
        self.volume, self.config = self.room / "volume", self.room / "two.nvme"
        self.config.write_text(TWO_HOSTS)

    def run_with(self, *words) -> "subprocess.CompletedProcess[str]":
        return subprocess.run([PROGRAM, *map(str, words)], stdout=subprocess.PIPE, stderr=subprocess.PIPE, text=True,
                              timeout=30)

    def passes(self, *words) -> str:
        ran = self.run_with(*words)
        self.assertEqual((ran.returncode, ran.stderr), (0, ""))
        return ran.stdout

    def refused(self, text: str, *words, status: int = 1) -> None:
        """A command is refused with this text, and changes no file."""
        def files() -> dict:
            return {path: path.read_bytes() for path in self.room.iterdir() if path.is_file()}
        before, ran = files(), self.run_with(*words)
        self.assertEqual((ran.returncode, ran.stdout), (status, ""), ran.stderr)
        self.assertIn(text, ran.stderr)
        self.assertEqual(files(), before)

    def format(self, *words: str) -> None:
        self.passes("format", self.volume, "--config", self.config, *words)

    def target(self, name: str = "here", library: str = "") -> VolumeTarget:
        folder = self.room / name
        folder.mkdir(exist_ok=True)
        target = VolumeTarget(self.volume, folder, library)
        self.addCleanup(self.end, target)
        return target

    def end(self, target: VolumeTarget) -> None:
        """It may be stopped, or have ended."""
        target.process.send_signal(signal.SIGCONT)
        target.close()

    def elsewhere(self) -> str:
        """What makes a target run on another machine: see elsewhere.c."""
        library = self.room / "elsewhere.so"
        if not library.exists():
            source = Path(__file__).parent / "elsewhere.c"
            subprocess.run(["cc", "-O1", "-Wall", "-Wextra", "-shared", "-fPIC", "-o", library, source, "-ldl"],
                           check=True)
        return str(library)

    def host(self, target: Target, host: int = 0xa1, **how) -> Host:
        made = Host(target.port, host, **how)
        self.addCleanup(made.close)
        return made

    def fence(self, target: Target) -> None:
        """b2 preempts a1, and persists."""
        a, b = self.host(target), self.host(target, 0xb2)
        self.assertEqual([a.register(0, 0xa), a.acquire(0xa, kind=3), b.register(0, 0xb),
                          b.acquire(0xb, 0xa, action=1, kind=3)], [0] * 4)
        a.close(), b.close()

    def is_fenced(self, target: Target) -> None:
        a, b = self.host(target), self.host(target, 0xb2)
        self.assertEqual([a.write(7, bytes(BLOCK)), b.write(8, bytes(BLOCK))], [FENCED, 0])
        a.close(), b.close()

    def errors(self, target: Target) -> str:
        return (target.folder / "errors").read_text()

    def change(self, at: int, content: bytes) -> None:
        with open(self.volume, "r+b") as file:
            file.seek(at)
            file.write(content)

    def flip(self, at: int) -> None:
        self.change(at, bytes([self.volume.read_bytes()[at] ^ 1]))
