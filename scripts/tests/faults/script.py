"""Each read of the script failing in turn, from a file and from standard input.

A script that can't be read is a file fault before the first event; a read that a signal interrupts is one that failed.
A read that gives fewer bytes than were asked for is followed by the next.
"""
from tests.faults.bench import Plan, each, must_be, run
from tests.faults.transcript import FAULT, Case
from tests.runs import Wrong

CHUNK = 4096


def try_reads(case: Case, how: str, by_stdin: bool) -> None:
    """Each read of the script failing, up to the one that finds its end."""
    calls = -(-len(case.script) // CHUNK) + 1

    def work(at: int) -> None:
        what = f"read {at} of the script{' from standard input' if by_stdin else ''}: {how}"
        shown = run(case.script, case.before, Plan("read", at, how), by_stdin=by_stdin)
        if how == "fewer" or at > calls:
            must_be(what, shown, 0, case.transcript, b"", case.told.image())
        else:
            must_be(what, shown, 2, b"", FAULT, case.before)
        if bool(shown.hits) != (at <= calls):
            raise Wrong(f"{what}: not made, or made after the end")

    each(work, range(1, calls + 1 + (how != "fewer")))


def test_reads() -> None:
    """Each read in each way, from a file and from standard input."""
    case = Case()
    for how in ("EIO", "EINTR", "fewer"):
        try_reads(case, how, False)
        try_reads(case, how, True)
