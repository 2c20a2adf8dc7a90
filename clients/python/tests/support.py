"""What the tests share: the repository's examples, and the programs that they run."""
from __future__ import annotations

import os
import signal
import sys
import tempfile
import unittest
from pathlib import Path
from typing import Iterator, List, Optional, Tuple

PACKAGE = Path(__file__).resolve().parents[1]
TOP = PACKAGE.parents[1]
DATA = TOP / "crates" / "nvme_examples" / "data"
STANDIN = Path(__file__).with_name("standin.py")
RACE = PACKAGE / "examples" / "preempt-race.nvme"


def _program(variable: str) -> Optional[Path]:
    """A built program that the environment names for the tests."""
    named = os.environ.get(variable)
    return Path(named).resolve() if named else None


LIVE = _program("NVMELIVE")
SIM = _program("NVMESIM")
PROGRAMS: List[Path] = [STANDIN, *([LIVE] if LIVE else [])]
if LIVE is None:
    os.environ["NVMELIVE"] = str(STANDIN)  # what reads lines if no program is named


def heed_interrupts() -> None:
    """For a child that is interrupted, as its preexec_fn: a shell starts what it runs in the background without
    SIGINT."""
    signal.signal(signal.SIGINT, signal.SIG_DFL)


def examples() -> Iterator[Tuple[str, str, str]]:
    """Each example: its name, its script and its transcript."""
    for name in (DATA / "examples").read_text(encoding="utf-8").split():
        yield name, script_of(name), (DATA / f"{name}.out").read_text(encoding="utf-8")


def script_of(name: str) -> str:
    """The script of an example."""
    return (DATA / f"{name}.nvme").read_text(encoding="utf-8")


READING = f"""sys.path.insert(0, {str(STANDIN.parent)!r})
from standin import read
def lines():
    for line in sys.stdin:
        if line.startswith('?line '):
            print('line', read(line[6:-1]) or 'blank', flush=True)
        else:
            yield line
"""
"""The begin of a program that reads lines as it should, and takes all others in `lines()`."""


class FolderCase(unittest.TestCase):
    """A test with a folder of its own."""

    def setUp(self) -> None:
        room = tempfile.TemporaryDirectory()
        self.addCleanup(room.cleanup)
        self.folder = Path(room.name)

    def program(self, body: str) -> Path:
        """A program of these lines of Python, that replaces nvmelive."""
        path = self.folder / "program"
        path.write_text(f"#!{sys.executable}\nimport sys, time\n{body}", encoding="utf-8")
        path.chmod(0o755)
        return path
