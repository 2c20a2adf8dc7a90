"""Runs of the program, with and without calls that fail."""
import errno
import functools
import os
import re
import shlex
import shutil
import struct
import subprocess
from concurrent.futures import ThreadPoolExecutor
from dataclasses import dataclass, field
from pathlib import Path
from typing import Any, Callable, Dict, Iterable, List, Optional, Sequence

from tests.runs import ROOM, Wrong, clip, difference, ended, new_room, program

# The kinds of calls that the library counts, in its order.
KINDS = ("alloc", "open", "stat", "read", "write", "pread", "pwrite", "sync", "lock")
# What else it counts: the requests for memory since the last read, how often memory was given back, and how
# often since the last read.
SINCE_READ, FREED, FREED_SINCE_READ = OTHERS = ("since read", "freed", "freed since read")
# A line that gives the reason: it is of the program, or of a place in the script.
REASON = re.compile(rb"(?:nvmesim: |[^\n]+:\d+:\d+: )[^\n]+\n")
SOURCE = Path(__file__).resolve().parent / "refuse.c"


@dataclass(frozen=True)
class Plan:
    """Which calls fail: the one of a kind with a number, from 1, and perhaps all after it; and how, such as by the errno
    of a name."""
    kind: str
    at: int
    how: str
    is_onward: bool = False

    def __str__(self) -> str:
        return f"{self.kind}:{self.at}{'+' if self.is_onward else ''}:{getattr(errno, self.how, self.how)}"


@dataclass
class Shown:
    """What a run showed and left: its status, its streams, its image, how many calls were made to fail, and how many of
    each kind were made, if the library was loaded and the program ended by itself."""
    status: int
    output: bytes
    errors: bytes
    image: Optional[bytes]
    hits: int
    counts: Dict[str, int] = field(default_factory=dict)


# The fault that is planted in the program, if there is one: refuse.c describes each.
planted = ""


def orders_of(room: Path, plan: Optional[Plan], image: str = "image") -> Dict[str, str]:
    """The additions to a run's environment: none without a plan and a planted fault."""
    if not plan and not planted:
        return {}
    return {"LD_PRELOAD": str(library()), "FAULTS_LIE": planted, "FAULTS_PLAN": str(plan or ""),
            "FAULTS_TOLD": str(room / "told"), "FAULTS_COUNTED": str(room / "counted"),
            "FAULTS_IMAGE": str(room / image)}


def start(room: Path, words: Sequence[str], plan: Optional[Plan] = None, other: Optional[Path] = None,
          **streams: Any) -> "subprocess.Popen[bytes]":
    """Starts nvmesim, or another program, in a folder: without input, and with pipes for its output, unless other
    streams are given."""
    streams = {"stdin": subprocess.DEVNULL, "stdout": subprocess.PIPE, "stderr": subprocess.PIPE, **streams}
    environment = {**os.environ, **orders_of(room, plan)}
    return subprocess.Popen([str(other or program("nvmesim")), *words], cwd=room, env=environment, **streams)


def run(script: bytes, image: Optional[bytes] = None, plan: Optional[Plan] = None, by_stdin: bool = False) -> Shown:
    """Runs a script over an image of these bytes, or over zeros in memory."""
    room = new_room(script=script, image=image)
    words = ["-" if image is None else "image", *([] if by_stdin else ["script"])]
    with open(room / "script" if by_stdin else os.devnull, "rb") as given:
        shown = finish(room, start(room, words, plan, stdin=given))
    shutil.rmtree(room)
    return shown


def finish(room: Path, started: "subprocess.Popen[bytes]", lines: Optional[bytes] = None) -> Shown:
    """Waits for a run, which is given these lines by a pipe if there are any, and gathers what it showed and left."""
    status, output, errors = ended(started, lines)
    image, told, counted = room / "image", room / "told", room / "counted"
    names = (*KINDS, *OTHERS)
    counts = struct.unpack(f"{len(names)}Q", counted.read_bytes()) if counted.exists() else ()
    return Shown(status, output, errors, image.read_bytes() if image.is_file() else None,
                 told.stat().st_size if told.exists() else 0, dict(zip(names, counts)))


@functools.lru_cache(maxsize=None)
def library() -> Path:
    """The library that makes calls fail, compiled."""
    made = Path(ROOM.name, "refuse.so")
    subprocess.run([*shlex.split(os.environ.get("CC", "cc")), "-std=c11", "-O1", "-U_FORTIFY_SOURCE", "-fno-builtin",
                    "-fPIC", "-shared", "-nostdlib", "-o", str(made), str(SOURCE)], check=True)
    return made


def each(work: Callable[[Any], Any], tasks: Iterable[Any]) -> List[Any]:
    """Runs the tasks in parallel. Returns their results in order; the first failure ends it."""
    library(), program("nvmesim")
    with ThreadPoolExecutor(max_workers=os.cpu_count() or 1) as pool:
        try:
            return list(pool.map(work, tasks))
        except BaseException:
            pool.shutdown(wait=True, cancel_futures=True)
            raise


def is_message(errors: bytes, text: bytes) -> bool:
    """Whether standard error is a text of one line, or none, and at most a line with the reason after it."""
    if errors == text or not text:
        return errors == text
    return errors.startswith(text) and REASON.fullmatch(errors[len(text):]) is not None


def must_be(what: str, shown: Shown, status: int, output: Optional[bytes], errors: Optional[bytes],
            image: Optional[bytes]) -> None:
    """Whether a run ended as it must; an output or a text of errors that is None may be any. Of standard error the
    first line is compared; a second one may give the reason."""
    if shown.status != status:
        raise Wrong(f"{what}: status {shown.status}, not {status}; standard error has {clip(shown.errors)}")
    if output is not None and shown.output != output:
        raise Wrong(f"{what}: not the transcript: {difference(shown.output, output)}")
    if errors is not None and not is_message(shown.errors, errors):
        raise Wrong(f"{what}: standard error has {clip(shown.errors)}, not {clip(errors)}")
    if shown.image != image:
        raise Wrong(f"{what}: not the image: {difference(shown.image, image)}")
