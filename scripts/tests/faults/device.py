"""Each call on the image failing in turn: with an error, with nothing moved, with a part moved, and from one call on.

The expected result of a script is computed call by call: a call that fails is reported by its own command, 2:80 or
2:81, and by no other line but those of commands that read a block whose write was lost; the exit status is 0; the image
has what those events leave; and no other call is made of it. A Read that continues after its fault shows in its calls
alone, since nobody sees the blocks that it reads. A call that moves fewer bytes is followed by one for the rest, and
nobody notices.
"""
import signal
from typing import Iterator, List, Tuple

from tests.faults.bench import Plan, each, must_be, run
from tests.faults.model import UNNOTICED, Command, Disk, Told, pattern, results_of, script_of
from tests.runs import Wrong

BLOCKS = 40
HOWS = {"pread": ("EIO", "EINTR", "none", "fewer"), "pwrite": ("EIO", "ENOSPC", "EINTR", "none", "torn", "fewer"),
        "sync": ("EIO", "ENOSPC", "EINTR")}
ONWARD = {"pread": ("EIO", "fewer"), "pwrite": ("ENOSPC", "fewer"), "sync": ("EIO",)}
NAMES = {"pread": "read", "pwrite": "write", "sync": "sync"}


def commands_over(before: bytes) -> List[Command]:
    """Commands of all kinds: on blocks that are kept and that are not, of one block and of several."""
    new, other = pattern(2, 8), pattern(3, 8)
    at = lambda first, blocks: before[512 * first:512 * (first + blocks)]
    return [Command("read", 0, 3), Command("write", 1, 2, new[:1024]), Command("read", 0, 4),
            Command("compare", 5, 3, at(5, 3)), Command("compare", 8, 3, at(8, 1) + b"other"),
            Command("zeroes", 10, 3), Command("read", 9, 5), Command("flush"), Command("write", 1, 1, b"once more"),
            Command("read", 1, 1), Command("compare", 1, 1, b"once more"), Command("read", BLOCKS, 1),
            Command("write", BLOCKS - 1, 2, b"outside"), Command("flush"), Command("write", 20, 8, new),
            Command("write", 22, 3, other[:1536]), Command("read", 18, 12), Command("zeroes", 19, 2),
            Command("compare", 20, 2, b"\0" * 512 + new[512:1024]), Command("flush"), Command("read", 0, BLOCKS)]


def beyond_the_cache() -> List[Command]:
    """Commands on more blocks than are kept, so that some are read again."""
    return [Command("read", 0, 256), Command("read", 0, 2), Command("read", 256, 20), Command("write", 2, 3, b"new"),
            Command("read", 0, 8), Command("read", 270, 6), Command("read", 24, 4), Command("flush")]


def places(commands: List[Command], before: bytes, hows: dict, is_onward: bool) -> Iterator[Tuple[str, int, str, bool]]:
    """Each call that the commands make, in each way; and after the last of a kind one that must not be made."""
    counts = results_of(commands, Disk(before)).disk.counts
    for kind, ways in hows.items():
        for how in ways:
            last = counts[kind] + (not is_onward and how != "fewer")
            for at in range(1, (2 if is_onward and how == "fewer" else last + 1)):
                yield kind, at, how, is_onward


def try_place(commands: List[Command], before: bytes, place: Tuple[str, int, str, bool]) -> None:
    """One run with such a call failing."""
    kind, at, how, is_onward = place
    blocks = len(before) // 512
    told: Told = results_of(commands, Disk(before, kind, at, how, is_onward))
    what = f"{NAMES[kind]} {at}{' and all after it' if is_onward else ''} of the image: {how}"
    shown = run(script_of(commands, blocks), before, Plan(kind, at, how, is_onward))
    must_be(what, shown, 0, told.transcript(), b"", told.image())
    if shown.image[512 * blocks:] != before[512 * blocks:]:
        raise Wrong(f"{what}: bytes after the last block were changed")
    made = {it: shown.counts[it] for it in NAMES}
    wanted = {it: told.disk.counts[it] for it in NAMES}
    if (kind, how) not in UNNOTICED and made != wanted:
        raise Wrong(f"{what}: these calls of the image were made: {made}, not {wanted}")
    is_made = at <= told.disk.counts[kind]
    if bool(shown.hits) != is_made:
        raise Wrong(f"{what}: the call was {'not ' if is_made else ''}made")


def try_turns(hows: dict, is_onward: bool = False) -> None:
    """Each of these calls failing, or all from it on."""
    before = pattern(1, BLOCKS, 392)
    commands = commands_over(before)
    each(lambda place: try_place(commands, before, place), places(commands, before, hows, is_onward))


def test_reads() -> None:
    """Each read of the image failing."""
    try_turns({"pread": HOWS["pread"]})


def test_writes() -> None:
    """Each write of the image failing."""
    try_turns({"pwrite": HOWS["pwrite"]})


def test_syncs() -> None:
    """Each sync of the image failing."""
    try_turns({"sync": HOWS["sync"]})


def test_onward() -> None:
    """The image failing from each call on."""
    try_turns(ONWARD, is_onward=True)


def test_unkept() -> None:
    """Reads failing of more blocks than are kept."""
    before, commands = pattern(4, 300), beyond_the_cache()
    found = [it for it in places(commands, before, {"pread": ("EIO",)}, False) if it[1] % 16 == 1 or it[1] > 250]
    each(lambda place: try_place(commands, before, place), found)


def test_killed() -> None:
    """Kills before each call on the image, which has what the calls before that one leave: nothing is put off."""
    before = pattern(1, BLOCKS, 392)
    commands = commands_over(before)
    whole = results_of(commands, Disk(before))
    after = [results_of(commands[:i], Disk(before)).disk.counts for i in range(1, len(commands) + 1)]

    def work(place: Tuple[str, int]) -> None:
        kind, at = place
        what = f"killed before {NAMES[kind]} {at} of the image"
        # The command that makes the call is the last: it stops there as it does if the call fails.
        last = next(i for i, counts in enumerate(after, 1) if counts[kind] >= at)
        left = results_of(commands[:last], Disk(before, kind, at, "kill"))
        shown = run(script_of(commands, BLOCKS), before, Plan(kind, at, "kill"))
        must_be(what, shown, -signal.SIGKILL, None, b"", left.image())
        if not whole.transcript().startswith(shown.output):
            raise Wrong(f"{what}: the output is not a beginning of the transcript")

    each(work, [(kind, at) for kind in NAMES for at in range(1, whole.disk.counts[kind] + 1)])
