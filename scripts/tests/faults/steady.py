"""Events neither take nor free memory: a million lines of every kind of event as little as none.

What is taken and given back is counted, over zeros in memory and over an image, whose cache takes some for each block
that is new to it. A longer text takes more before it is whole, since its room is doubled; nothing else may take more.
"""
from typing import Dict, List, Optional

from tests.faults.bench import FREED_SINCE_READ, SINCE_READ, Plan, Shown, run
from tests.faults.model import pattern
from tests.runs import TOP, Wrong

FEW = 10
# How many lines all scripts together have, and how many one has at most: with more its text would be too long.
LINES, MOST = 1_000_000, 100_000
# How many blocks a round reads or writes, and how many there are: each script has others.
BLOCKS, ALL_BLOCKS = 4, 16
KEYWORDS = "crates/nvme_grammar/src/keyword.rt"
SETUP = """controller 1 host 0xa1
controller 2 host 0xb2
controller 3 host 0xc3 raw
namespace 1 blocks 16 shared
attached 1 1
attached 2 1
start
"""
# Requests of both hosts, one of them fenced and one aborted; each is executed by a turn below.
PLACED = """register 1 1 0 0 0 0 0xaa
register 2 1 0 0 0 0 0xbb
acquire 2 1 0 1 0xbb 0

write 1 1 {0} 2 fill:5a
write 2 1 {0} 2 fill:5b
read 2 1 {0} 2
compare 2 1 {0} 2 fill:5b
zeroes 2 1 {1} 2
flush 2 1
report 1 1 64

identify 1 1 0
protect 1 1 1
protection 1 1
protect 1 1 0

acquire 2 1 2 1 0xbb 0xaa
flush 1 1
release 2 1 0 1 0xbb

detach 1 1 2
attach 1 1 2
"""
# Which of them go to the queue pair of admin commands.
ADMIN = ("identify", "protect", "protection", "attach", "detach")
# What the executions of a round post: one is fenced, and one aborted.
ANSWERS = [f"posted {it}" for it in (*3 * ["0:00 0"], "0:83 7", *11 * ["0:00 0"], "0:1b 1", *3 * ["0:00 0"])]
# What no driver does, and what ends a round: the next begins as the first did.
OTHERS = "store 3 0x5000 hex:00112233\nwrite32 3 0x14 0\nreset 2\nup 2\npowercycle\n"


def turn(requests: List[str]) -> str:
    """Requests that are placed together, fetched, executed in their order and polled."""
    words = [it.split() for it in requests]
    hosts = sorted({it[1] for it in words})
    lines = [*requests, *(f"ring {host}" for host in hosts)]
    lines += [f"fetch {it[1]} {int(it[0] not in ADMIN)}" for it in words]
    lines += [f"{event} {it[1]}{place}" for event, place in (("execute", " 0"), ("poll", "")) for it in words]
    return "\n".join(lines) + "\n"


def round_of_events(first: int = 0) -> str:
    """Every kind of event, on the blocks from this one on."""
    placed = PLACED.format(first, first + 2).strip().split("\n\n")
    return "up 1\nup 2\n" + "".join(turn(it.split("\n")) for it in placed) + OTHERS


def all_kinds() -> List[str]:
    """The first words of all events, as the grammar has them."""
    text = (TOP / KEYWORDS).read_text(encoding="utf-8").partition('KEYWORD_TEXTS: &str =\n    "')[2].partition('"')[0]
    words = text.replace("\\\n", "").split()
    return words[words.index("start") + 1:]


def answers(shown: Shown) -> List[str]:
    """The results of all executions, in their order."""
    return [line.split(" ", 3)[3] for line in shown.output.decode().splitlines() if line.startswith("execute ")]


def counted(rounds: int, first: int, image: Optional[bytes]) -> Dict[str, int]:
    """The number of calls of a run of `rounds` rounds; each must go as the first does."""
    shown = run((SETUP + rounds * round_of_events(first)).encode(), image, Plan("sync", 10 ** 9, "EIO"))
    if shown.status != 0 or answers(shown) != rounds * ANSWERS:
        raise Wrong(f"{rounds} rounds: status {shown.status}, and executions that are not {rounds} times {ANSWERS}")
    return shown.counts


def must_be_as_few(what: str, few: Dict[str, int], many: Dict[str, int], rounds: int) -> None:
    """A run of many rounds takes as much after its text as one of a few, and gives as much back."""
    for name in (SINCE_READ, FREED_SINCE_READ):
        if many[name] != few[name]:
            raise Wrong(f"{what}, {rounds} rounds: {many[name]} {name}, but a run of {FEW} rounds has {few[name]}")
    more = many["alloc"] - few["alloc"]
    if not 0 < more <= (rounds // FEW).bit_length():
        raise Wrong(f"{what}: {more} requests more to read the text of {rounds} rounds")


def test_rounds() -> None:
    """A few rounds and many, over zeros and over an image."""
    lacking = set(all_kinds()) - {line.split()[0] for line in round_of_events().splitlines()}
    if lacking or "powercycle" not in all_kinds():
        raise Wrong(f"no round has the events {sorted(lacking)}")
    for what, image, least in (("over zeros", None, LINES), ("over an image", pattern(3, ALL_BLOCKS, 0), LINES // 20)):
        nothing, lines, first = counted(0, 0, image)[SINCE_READ], 0, 0
        while lines < least:
            each = round_of_events(first).count("\n")
            rounds = -(-min(MOST, least - lines) // each)
            few, many = counted(FEW, first, image), counted(rounds, first, image)
            if few[SINCE_READ] != nothing + (BLOCKS if image else 0):
                raise Wrong(f"{what}: {few[SINCE_READ]} requests after the text of {FEW} rounds, and {nothing} of none")
            must_be_as_few(what, few, many, rounds)
            lines += rounds * each
            first = (first + BLOCKS) % ALL_BLOCKS
