"""Each write of the transcript failing in turn, and readers of it that go away.

Lines go through a buffer of 8,192 bytes. A transcript that can't be written is a file fault after the event whose line
had the buffer written: the image has what the events up to that one leave, and what was written is a beginning of the
transcript. The program has no use for SIGPIPE.
"""
import os
import signal
import subprocess
from typing import List

from tests.faults.bench import Plan, Shown, each, finish, is_message, must_be, run, start
from tests.faults.model import Command, Disk, Told, flushes_of, pattern, results_of, script_of
from tests.runs import WITHIN, Wrong, new_room

BLOCKS = 48
FAULT = b"nvmesim: file fault\n"


def commands() -> List[Command]:
    """Writes and reads with lines of some hundred bytes, and lines that are longer than the buffer."""
    found: List[Command] = []
    for i in range(70):
        found.append(Command("write", i % BLOCKS, 1, f"write {i} ".encode() * 20))
        found.append(Command("read", i % BLOCKS, 1))
        found += [Command("read", 0, 16)] * (i % 12 == 5)
    return found


class Case:
    """The script, the image before it, the expected result, and the events at which its transcript is written."""

    def __init__(self) -> None:
        self.before = pattern(6, BLOCKS, 77)
        self.script = script_of(commands(), BLOCKS)
        self.told: Told = results_of(commands(), Disk(self.before))
        self.transcript = self.told.transcript()
        self.flushes = flushes_of(self.told.lines)

    def image_at(self, write: int) -> bytes:
        """The image if the write of the transcript with this number, from 1, fails."""
        event = self.flushes[write - 1].event
        return self.told.image() if event is None else self.told.image_after(event)

    def written_before(self, write: int) -> bytes:
        """What of the transcript is written before the write with this number."""
        lines = self.told.lines[:self.flushes[write - 1].first - 1]
        return "".join(f"{line}\n" for line in lines).encode()


def is_unnoticed(case: Case, at: int, how: str) -> bool:
    """Whether a write of the transcript continues. One that a signal interrupts is made again."""
    return at > len(case.flushes) or how in ("fewer", "EINTR")


def try_writes(case: Case, how: str, is_onward: bool) -> None:
    """Each write of the transcript failing."""
    calls = len(case.flushes)

    def work(at: int) -> None:
        what = f"write {at} of the transcript{' and all after it' if is_onward else ''}: {how}"
        shown = run(case.script, case.before, Plan("write", at, how, is_onward))
        if is_unnoticed(case, at, how):
            must_be(what, shown, 0, case.transcript, b"", case.told.image())
        elif how == "kill":
            must_be(what, shown, -signal.SIGKILL, case.written_before(at), b"", case.image_at(at))
        else:
            must_be(what, shown, 2, None, FAULT, case.image_at(at))
        if not case.transcript.startswith(shown.output):
            raise Wrong(f"{what}: the output is not a beginning of the transcript")
        if is_onward and at <= calls and shown.output != case.written_before(at):
            raise Wrong(f"{what}: not what was written before it was printed")
        if bool(shown.hits) != (at <= calls):
            raise Wrong(f"{what}: not made, or made after the end")

    each(work, range(1, calls + 1 + (how not in ("fewer", "EINTR"))))


def run_to(case: Case, output: int, is_deaf: bool = False) -> Shown:
    """Runs the script to a descriptor, which is closed; with SIGPIPE as a shell gives it, or ignored."""
    room = new_room(script=case.script, image=case.before)
    started = start(room, ["image", "script"], stdout=output, restore_signals=not is_deaf)
    os.close(output)
    return finish(room, started)


def without_reader() -> int:
    """A pipe whose reader has gone away."""
    reader, writer = os.pipe()
    os.close(reader)
    return writer


def test_gone() -> None:
    """A reader that is gone before the program starts, and a device that is full. The program has no use for SIGPIPE:
    a transcript without a reader is one that can't be written."""
    case = Case()
    first = case.image_at(1)
    for is_deaf in (False, True):
        must_be("no reader", run_to(case, without_reader(), is_deaf), 2, b"", FAULT, first)
    must_be("a full device", run_to(case, os.open("/dev/full", os.O_WRONLY)), 2, b"", FAULT, first)


def test_leaving() -> None:
    """A reader that takes one line and goes away."""
    case = Case()
    room = new_room(script=case.script, image=case.before)
    started = start(room, ["image", "script"])
    head = subprocess.run(["head", "-n", "1"], stdin=started.stdout, capture_output=True, check=True)
    started.stdout.close()
    errors = started.stderr.read()
    status = started.wait(timeout=WITHIN)
    started.stderr.close()
    if head.stdout != b"up 1 ok\n" or status != 2 or not is_message(errors, FAULT):
        raise Wrong(f"head -n 1 has {head.stdout!r}, and the program ended with status {status} and {errors!r}")
    # A write of a long line that the reader leaves in its midst is made in part, and its rest goes through the buffer:
    # so the write that fails may come after any event from the first write on.
    images = {case.told.image_after(event) for event in range(case.flushes[0].event, len(case.told.lines) + 1)}
    if (room / "image").read_bytes() not in images:
        raise Wrong("head -n 1: the image is not what the events up to one after a write of the transcript leave")


def test_writes() -> None:
    """Each write in each way."""
    case = Case()
    for how in ("EIO", "ENOSPC", "none", "EINTR", "fewer"):
        try_writes(case, how, False)
    try_writes(case, "EPIPE", True)


def test_killed() -> None:
    """Kills before each write: the transcript is what was written of it, and nothing is put off."""
    try_writes(Case(), "kill", False)
