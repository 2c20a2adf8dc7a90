"""Targets for tests: processes of the program NVMETCP, each with a folder of its own."""
import json
import os
import signal
import subprocess
import tempfile
import time
import unittest
from pathlib import Path
from typing import Dict, Optional, Sequence

from tests.host import BLOCK, Host

PROGRAM = os.environ.get("NVMETCP", "")
LIVE, SIM = os.environ.get("NVMELIVE", ""), os.environ.get("NVMESIM", "")
BLOCKS = 2048
TWO_HOSTS = f"""controller 1 host 0xa1
controller 2 host 0xb2
namespace 1 blocks {BLOCKS} shared
attached 1 1
attached 2 1
"""


def has_keys() -> bool:
    """Whether the program was built with libcrypto."""
    made = subprocess.run([PROGRAM, "--version"], stdout=subprocess.PIPE, text=True).stdout if PROGRAM else ""
    return "built with --keys" in made


def fixed_random(folder: Path) -> Dict[str, str]:
    """The environment with which a target draws the same random numbers in each run."""
    source, library = Path(__file__).resolve().parent / "fixed_random.c", folder / "fixed_random.so"
    subprocess.run(["cc", "-O1", "-Wall", "-Wextra", "-shared", "-fPIC", "-o", str(library), str(source)], check=True)
    return {"LD_PRELOAD": str(library)}


def expand(recording: Path, *options: str) -> "subprocess.CompletedProcess[bytes]":
    """`nvmetcp expand` of a recording."""
    words = [PROGRAM, "expand", *options, str(recording)]
    return subprocess.run(words, stdout=subprocess.PIPE, stderr=subprocess.PIPE, timeout=60)


class Target:
    """A target that runs; its standard error is in the file `errors`."""

    def __init__(self, folder: Path, config: str = TWO_HOSTS, image: Optional[int] = None,
                 options: Sequence[str] = (), port: int = 0) -> None:
        self.folder, self.config, self.options = folder, config, list(options)
        self.environment: Dict[str, str] = {}
        self.served = folder / "config.nvme"
        self.served.write_text(config)
        (folder / "control").mkdir(mode=0o700, exist_ok=True)
        self.image = folder / "disk.img"
        if image is not None:
            with open(self.image, "wb") as file:
                file.truncate(image * BLOCK)
            self.options += ["--image", str(self.image)]
        self.start(port)

    def start(self, port: int = 0) -> None:
        words = [PROGRAM, "--listen", f"127.0.0.1:{port}", "--control", str(self.folder / "control/socket"),
                 *self.options, str(self.served)]
        self.errors = open(self.folder / "errors", "a", encoding="utf-8")
        self.process = subprocess.Popen(words, stdout=subprocess.PIPE, stderr=self.errors, text=True,
                                        env={**os.environ, **self.environment})
        line = self.process.stdout.readline()
        if " at " not in line:
            raise AssertionError((self.folder / "errors").read_text())
        self.port = int(line.rsplit(":", 1)[1])

    def kill(self) -> None:
        self.process.send_signal(signal.SIGKILL)
        self.close()

    def close(self) -> None:
        self.process.terminate()
        self.process.wait(10)
        self.process.stdout.close()
        self.errors.close()

    def ask(self, line: str) -> str:
        """The answer to a line of control."""
        words = [PROGRAM, "ctl", str(self.folder / "control/socket"), *line.split()]
        return subprocess.run(words, stdout=subprocess.PIPE, stderr=subprocess.DEVNULL, text=True).stdout.rstrip("\n")

    def hosts(self) -> list:
        return json.loads(self.ask("hosts"))

    def seconds(self) -> float:
        """The time of processors that the process has taken."""
        text = Path(f"/proc/{self.process.pid}/stat").read_text(encoding="ascii")
        return sum(map(int, text.rpartition(")")[2].split()[11:13])) / os.sysconf("SC_CLK_TCK")

    def memory(self) -> int:
        """How many bytes of memory the process has in use."""
        text = Path(f"/proc/{self.process.pid}/statm").read_text(encoding="ascii")
        return int(text.split()[1]) * os.sysconf("SC_PAGE_SIZE")


@unittest.skipUnless(PROGRAM, "NVMETCP names no program")
class TargetTest(unittest.TestCase):
    """A test with a folder, and targets that end with it. Targets that remain at its end must be running without
    errors."""

    config, image, options = TWO_HOSTS, None, ()

    def setUp(self) -> None:
        self.room = tempfile.TemporaryDirectory()
        self.addCleanup(self.room.cleanup)
        self.folder = Path(self.room.name)
        self.target = Target(self.folder, self.config, self.image, self.options)
        self.addCleanup(self.end)

    def end(self) -> None:
        self.assertIsNone(self.target.process.poll(), (self.folder / "errors").read_text())
        self.target.close()

    def host(self, host: int = 0xa1, **how) -> Host:
        """A host, which disconnects at the end."""
        made = Host(self.target.port, host, **how)
        self.addCleanup(made.close)
        return made

    def wait_for(self, holds, seconds: float = 5.0) -> None:
        """Waits until a condition holds."""
        last = time.monotonic() + seconds
        while not holds():
            self.assertLess(time.monotonic(), last, "it has not come about")
            time.sleep(0.01)
