"""Each request for memory refused in turn, in a run over zeros in memory and in one over an image.

What is refused before the first event ends the program: status 4, one line on standard error, no transcript, and the
image as it was. After the first event only the cache of an image asks for memory, and its refusal changes nothing.
"""
from dataclasses import dataclass
from typing import List, Optional

from tests.faults.bench import Plan, Shown, must_be, run
from tests.faults.model import Command, Disk, pattern, results_of, script_of
from tests.runs import TOP, Wrong

REFUSED = b"nvmesim: out of memory\n"
# More requests than any of the runs makes.
MOST = 5000


@dataclass
class Case:
    """A run, and its expected result."""
    name: str
    script: bytes
    transcript: bytes
    before: Optional[bytes] = None
    after: Optional[bytes] = None


def is_refused(case: Case, what: str, shown: Shown) -> bool:
    """Whether a run ended before its first event without memory; it must have, or be whole."""
    if shown.status == 0:
        must_be(what, shown, 0, case.transcript, b"", case.after)
        return False
    must_be(what, shown, 4, b"", REFUSED, case.before)
    return True


def refuse_each(case: Case, is_onward: bool) -> None:
    """Refuses each request of a run in turn, or from one on, until none is refused."""
    ended = 0
    for number in range(1, MOST):
        what = f"{case.name}, memory refused at request {number}{' and after' if is_onward else ''}"
        shown = run(case.script, case.before, Plan("alloc", number, "ENOMEM", is_onward))
        refused = is_refused(case, what, shown)
        if refused and ended != number - 1:
            raise Wrong(f"{what}: refused after one that was not")
        ended += refused
        if shown.hits == 0:
            must_be_enough(case, number - 1, ended)
            return
        if not refused and case.before is None:
            raise Wrong(f"{what}: nothing came of it")
    raise Wrong(f"{case.name}: more than {MOST} requests for memory")


def must_be_enough(case: Case, requests: int, ended: int) -> None:
    """Of the refused requests some ended the run, and others did not if there is a cache."""
    if ended < 5:
        raise Wrong(f"{case.name}: {ended} requests for memory ended the run, which is too few")
    if case.before is not None and requests == ended:
        raise Wrong(f"{case.name}: no request of the cache was refused")


def cases() -> List[Case]:
    """The runs."""
    crate = TOP / "crates/nvmesim"
    before = pattern(1, 9, 392)
    commands = [Command("write", 1, 1, b"Hello"), Command("read", 1, 1), Command("read", 5, 3),
                Command("compare", 5, 1, before[2560:3072]), Command("read", 1, 1), Command("zeroes", 0, 3)]
    told = results_of(commands, Disk(before))
    return [Case("the stored run", (crate / "stdin").read_bytes(), (crate / "stdout").read_bytes()),
            Case("a run over an image", script_of(commands, 9), told.transcript(), before, told.image())]


def test_turns() -> None:
    """Each request refused."""
    for case in cases():
        refuse_each(case, False)


def test_onward() -> None:
    """All requests refused from each one on."""
    for case in cases():
        refuse_each(case, True)
