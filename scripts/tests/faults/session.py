"""Lines of a session neither take nor free memory: a million of every kind take as much as a few.

It counts what nvmelive takes and frees from start to end, over zeros in memory and over an image. The lines come
through a pipe: every kind of event, every query, and refused lines.
"""
import shutil
import subprocess
from typing import Dict, List, Optional

from tests.faults.bench import FREED, Plan, Shown, finish, start
from tests.faults.model import pattern
from tests.faults.steady import ALL_BLOCKS, ANSWERS, BLOCKS, FEW, LINES, SETUP, all_kinds, answers, round_of_events
from tests.runs import TOP, Wrong, new_room, program

WORDS = "crates/live_text/src/looking_word.rt"
# Each session gets a tenth of the lines, on other blocks.
SESSIONS = 10
LOOKS = """?window 1 0 64
?register 1 0x1c
?registers 1
?queues 1
?fetched 1
?driver 1
?namespaces
?reservation 1
?attached
?blocks 1 {0} 4
?line write 1 1 {0} 1 hex:48656c6c6f
?help
?help write
"""
# Lines that are answered `!`: unknown, out of range, or on the wrong side of `start`.
REFUSED = """nonsense
execute 1
read 1
?window 1 0x3fffff 9
?blocks 1 16 1
?line wirte 1
start
"""


def round_of_lines(first: int) -> str:
    """Every kind of line, with the queries between the events."""
    before, between, after = round_of_events(first).partition("acquire 2 1 2 1")
    return before + LOOKS.format(first) + between + after + REFUSED


def all_looks() -> List[str]:
    """The first words of query lines, from the program's source."""
    text = (TOP / WORDS).read_text(encoding="utf-8").partition("LOOKING_TEXTS: &str =")[2]
    return text.split('"')[1].split()


def session(text: str, image: Optional[bytes]) -> Shown:
    """Runs a session with these lines."""
    room = new_room(image=image)
    started = start(room, ["image"] if image is not None else [], Plan("sync", 10 ** 9, "EIO"), program("nvmelive"),
                          stdin=subprocess.PIPE)
    shown = finish(room, started, text.encode())
    shutil.rmtree(room)
    return shown


def counted(rounds: int, first: int, image: Optional[bytes]) -> Dict[str, int]:
    """The memory that a session of `rounds` rounds takes and frees; each must go as the first does."""
    shown = session(SETUP + rounds * round_of_lines(first), image)
    refused = sum(line.startswith(b"!") for line in shown.output.splitlines())
    if shown.status != 0 or answers(shown) != rounds * ANSWERS or refused != rounds * len(REFUSED.splitlines()):
        raise Wrong(f"{rounds} rounds: status {shown.status}, {refused} lines refused, and executions that are not "
                    f"{rounds} times {ANSWERS}")
    return {name: shown.counts[name] for name in ("alloc", FREED)}


def test_lines() -> None:
    """A few rounds and many, over zeros and over an image."""
    lacking = {*all_kinds(), *all_looks()} - {line.split()[0] for line in round_of_lines(0).splitlines()}
    if lacking or "?help" not in all_looks():
        raise Wrong(f"no round has the lines {sorted(lacking)}")
    for what, image, least in (("over zeros", None, LINES), ("over an image", pattern(3, ALL_BLOCKS, 0), LINES // 20)):
        rounds = -(-least // SESSIONS // round_of_lines(0).count("\n"))
        for first in (BLOCKS * it % ALL_BLOCKS for it in range(SESSIONS)):
            few, many = counted(FEW, first, image), counted(rounds, first, image)
            if few != many:
                raise Wrong(f"{what}: {rounds} rounds have {many}, but {FEW} have {few}")
