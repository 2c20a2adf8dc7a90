"""A script cut after each of its bytes, and scripts of the greatest length and of one byte more."""
import re
from typing import Optional

from tests.faults.bench import each, finish, must_be, run, start
from tests.faults.model import pattern
from tests.runs import TOP, Wrong, new_room

LONGEST = 4194304
NUMBER = r"(\d+|0x[0-9a-f]+)"
# The lines of the example, by the grammar; what is after `start` prints a line.
DESCRIBING = re.compile(rf"controller( {NUMBER}){{1}} host {NUMBER}( raw)?|namespace {NUMBER} blocks {NUMBER} "
                        rf"(shared|private)|attached {NUMBER} {NUMBER}|start")
EVENT = re.compile(rf"(up|ring|poll) {NUMBER}|(fetch|execute) {NUMBER} {NUMBER}|read( {NUMBER}){{4}}|"
                   rf"write( {NUMBER}){{4}} (hex:([0-9a-f]{{2}})+|fill:[0-9a-f]{{2}})")


def events_in(text: str) -> Optional[int]:
    """The number of events of a cut script; None if its last line is not understood."""
    is_started, events = False, 0
    for line in text.split("\n"):
        words = " ".join(line.split())
        if not words or line.startswith("#"):
            continue
        if not (EVENT if is_started else DESCRIBING).fullmatch(words):
            return None
        events += is_started
        is_started = is_started or words == "start"
    return events


def image_after(before: bytes, lines: bytes) -> bytes:
    """The image after these lines: the example's first execution writes `Hello` to block 0, and its fourth fills
    blocks 0 and 1 with zeros."""
    executed = sum(line.startswith(b"execute") for line in lines.splitlines())
    if executed == 0:
        return before
    if executed < 4:
        return b"Hello".ljust(512, b"\0") + before[512:]
    return bytes(1024) + before[1024:]


def try_cut(script: bytes, transcript: bytes, before: bytes, at: int) -> bool:
    """The script's first bytes; whether they are a script."""
    cut = script[:at]
    what, events = f"the example cut after {at} bytes", events_in(cut.decode())
    shown = run(cut, before)
    if events is None:
        line = cut.count(b"\n") + 1
        must_be(what, shown, 1, b"", f"nvmesim: line {line}: not understood\n".encode(), before)
        return False
    lines = b"".join(transcript.splitlines(True)[:events])
    must_be(what, shown, 0, lines, b"", image_after(before, lines))
    return True


def test_lengths() -> None:
    """A comment as long as a script may be, and one that is longer by a byte; from a file, and from standard input."""
    before = pattern(8, 3, 5)
    for by_stdin in (False, True):
        shown = run(b"#" * LONGEST, before, by_stdin=by_stdin)
        must_be(f"{LONGEST} bytes of #", shown, 0, b"", b"", before)
        shown = run(b"#" * (LONGEST + 1), before, by_stdin=by_stdin)
        must_be(f"{LONGEST + 1} bytes of #", shown, 1, b"", b"nvmesim: script too long\n", before)


def test_endless() -> None:
    """A script without end, of which only a byte too many is read."""
    room = new_room(image=b"\7" * 600)
    with open("/dev/zero", "rb") as zeros:
        shown = finish(room, start(room, ["image"], stdin=zeros))
    must_be("a script without end", shown, 1, b"", b"nvmesim: script too long\n", b"\7" * 600)


def try_cuts_of(script: bytes, transcript: bytes) -> None:
    """A script cut after each of its bytes."""
    before = bytes(64 * 512) + b"after"

    def work(at: int) -> bool:
        return try_cut(script, transcript, before, at)

    whole = each(work, range(len(script) + 1))
    if not whole[-1] or all(whole):
        raise Wrong("the example is refused whole, or wherever it is cut it is a script")


def test_each() -> None:
    """The first example, and the script that the program is run on, cut after each byte."""
    data, program = TOP / "crates/nvme_examples/data", TOP / "crates/nvmesim"
    for script, transcript in ((data / "first-steps.nvme", data / "first-steps.out"),
                               (program / "stdin", program / "stdout")):
        try_cuts_of(script.read_bytes(), transcript.read_bytes())
