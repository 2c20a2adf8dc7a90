"""The lock of an image: one program at a time has it, and nothing changes if it is refused."""
import os
import signal
import subprocess
from pathlib import Path

from tests.faults.bench import Plan, Shown, finish, must_be, run, start
from tests.faults.files import FAULT, NO_MEMORY, run_words
from tests.faults.model import Command, Disk, pattern, results_of, script_of
from tests.runs import Wrong, new_room

COMMANDS = [Command("write", 1, 2, b"new"), Command("read", 0, 4)]


def run_second(room: Path) -> Shown:
    """A run over the image of a folder."""
    return run_words(room, ["image", "script"])


def start_first(room: Path) -> subprocess.Popen:
    """A program that has opened the image, and waits for its script: the pipe is opened after the image."""
    return start(room, ["image", "first"])


def test_held() -> None:
    """A second program over an image is refused, and names the first. When the first ends or is killed, the image is
    free."""
    script, before = script_of(COMMANDS, 4), pattern(17, 4)
    told = results_of(COMMANDS, Disk(before))
    for is_killed in (False, True):
        room = new_room(script=script, image=before)
        os.mkfifo(room / "first")
        first = start_first(room)
        with open(room / "first", "wb") as pipe:
            shown = run_second(room)
            must_be("a second program over an image", shown, 2, b"", FAULT, before)
            reason = b"nvmesim: 'image' is in use: process %d (nvmesim) holds its lock; --wait waits for it\n" % first.pid
            if shown.errors != FAULT + reason:
                raise Wrong(f"a second program over an image: it prints {shown.errors!r} instead of {reason!r}")
            if is_killed:
                first.kill()
            else:
                pipe.write(script)
        status, left = (-signal.SIGKILL, before) if is_killed else (0, told.image())
        must_be("the first program over an image", finish(room, first), status,
                b"" if is_killed else told.transcript(), b"", left)
        after = results_of(COMMANDS, Disk(left))
        must_be("a program after the first", run_second(room), 0, after.transcript(), b"", after.image())


def test_refused() -> None:
    """The system refuses every lock."""
    before = pattern(18, 4)
    reason = b"nvmesim: 'image' can't be locked; an image must be\n"
    for how, status, errors in (("ENOLCK", 2, FAULT + reason), ("EOPNOTSUPP", 2, FAULT + reason),
                                ("ENOMEM", 4, NO_MEMORY)):
        shown = run(script_of(COMMANDS, 4), before, Plan("lock", 1, how))
        must_be(f"a lock that fails with {how}", shown, status, b"", None, before)
        if shown.errors != errors or shown.hits != 1:
            raise Wrong(f"a lock that fails with {how}: {shown.hits} calls failed; it prints {shown.errors!r} instead of "
                        f"{errors!r}")
