"""What hosts were answered, block by block: whether one order of all commands explains it.

Each block is a register that holds one number, by which its last write is known; 0 is a block of zeros. Commands have
the time before they were sent and the time after they were answered. There must be an order in which each command
takes effect between these, and each read gives what was written last. The test is that of Gibbons and Korach, which is
exact if no number is written twice. Zeros are: of several writes of zeros any may be the one that was read.
"""
import struct
import threading
import time
from bisect import bisect_right
from collections import defaultdict
from typing import Dict, Iterable, List, NamedTuple, Optional, Set, Tuple

BLOCK = 512
ZEROS = bytes(BLOCK)
# The time of commands that may take effect at any later time, since they were not answered, or failed.
NEVER = 1 << 62
BEFORE = -1


class Wrong(AssertionError):
    """No order explains what was answered."""


def block_of(slba: int, number: int) -> bytes:
    """A block that has its place and a number in each 16 bytes of it."""
    return struct.pack("<QQ", number, slba) * (BLOCK // 16) if number else ZEROS


def data_of(slba: int, blocks: int, number: int) -> bytes:
    return b"".join(block_of(slba + at, number) for at in range(blocks))


def number_of(slba: int, data: bytes) -> int:
    """The number in a block that is read, which must be whole, and of this place."""
    if data == ZEROS:
        return 0
    number, place = struct.unpack_from("<QQ", data)
    if data != data[:16] * (BLOCK // 16) or place != slba or not number:
        found = sorted({data[at:at + 16].hex() for at in range(0, BLOCK, 16)})
        raise Wrong(f"block {slba} is torn, or not its own: {found}")
    return number


def numbers_of(slba: int, data: bytes) -> List[int]:
    return [number_of(slba + at, data[BLOCK * at:BLOCK * (at + 1)]) for at in range(len(data) // BLOCK)]


class Span(NamedTuple):
    """A command on a block: before it was sent, after it was answered."""
    start: int
    end: int


class Register:
    """What happened to one block."""

    def __init__(self, number: int) -> None:
        self.first = number
        self.writes: Dict[int, Span] = {number: Span(BEFORE, BEFORE)} if number else {}
        self.zeroes: List[Span] = [] if number else [Span(BEFORE, BEFORE)]
        self.reads: List[Tuple[int, Span]] = []

    def copy(self) -> "Register":
        made = Register(self.first)
        made.writes, made.zeroes, made.reads = dict(self.writes), list(self.zeroes), list(self.reads)
        return made

    def write(self, number: int, span: Span) -> None:
        if number:
            self.writes[number] = span
        else:
            self.zeroes.append(span)

    def all_writes(self) -> List[Tuple[int, Span]]:
        return [*self.writes.items(), *((0, it) for it in self.zeroes)]

    def is_surely(self, number: int, span: Span) -> bool:
        """Whether the block had this number in all of a span: no other write can come after that of the number."""
        its = [self.writes[number]] if number in self.writes else self.zeroes if not number else []
        others = [it for other, it in self.writes.items() if other != number] + (self.zeroes if number else [])
        return any(mine.end < span.start and all(it.end < mine.start or it.start > span.end for it in others)
                   for mine in its)

    def check(self) -> None:
        zones = {number: (write.end, write.start) for number, write in self.writes.items()}
        for number, read in self.reads:
            if not number:
                continue
            if number not in zones:
                raise Wrong(f"{number} is read, and was never written")
            if self.writes[number].start > read.end:
                raise Wrong(f"{number} was read before it was written")
            least, most = zones[number]
            zones[number] = (min(least, read.end), max(most, read.start))
        self.check_zones(zones)
        # Each write takes effect after its start, and before the first end of the commands with its number.
        effects = [Span(write.start, zones[number][0]) for number, write in self.writes.items()]
        for read in {read for number, read in self.reads if not number}:
            self.check_zero(read, effects)

    def check_zones(self, zones: dict) -> None:
        """A number is held from the first end to the last start of its commands. In that time there is no other."""
        held = sorted((least, most, number) for number, (least, most) in zones.items() if least < most)
        for (_, most, number), (least, _, other) in zip(held, held[1:]):
            if least < most:
                raise Wrong(f"{number} is read again after {other}, or the other way round")
        points = [(most, least, number) for number, (least, most) in zones.items() if least >= most]
        points += [(it.start, it.end, 0) for it in self.zeroes]
        for start, end, number in points:
            at = bisect_right(held, (start,)) - 1
            if at >= 0 and held[at][0] < start and end < held[at][1]:
                raise Wrong(f"{held[at][2]} is read after {number} was written over it")

    def check_zero(self, read: Span, effects: List[Span]) -> None:
        """Some write of zeros is neither later than the read nor surely followed by another write before it."""
        last = max((it.start for it in effects if it.end < read.start), default=BEFORE)
        if any(zero.start < read.end and zero.end >= last for zero in self.zeroes):
            return
        raise Wrong("zeros are read that were written over, or never written")


class History:
    """What hosts of several threads wrote and read."""

    def __init__(self, numbers: Dict[int, int]) -> None:
        """`numbers` are the blocks at first."""
        self.lock = threading.Lock()
        self.blocks: Dict[int, Register] = {slba: Register(number) for slba, number in numbers.items()}
        # Flushes that succeeded, and the numbers of writes with Force Unit Access that did.
        self.flushes: List[Span] = []
        self.forced: Set[int] = set()

    def copy(self) -> "History":
        with self.lock:
            made = History({})
            made.blocks = {slba: register.copy() for slba, register in self.blocks.items()}
            return made

    def without_reads(self) -> "History":
        made = self.copy()
        for register in made.blocks.values():
            register.reads = []
        return made

    def add_write(self, slba: int, blocks: int, number: int, start: int, is_answered: bool) -> None:
        """A write that was answered, or one that may be in the blocks or not."""
        span = Span(start, time.monotonic_ns() if is_answered else NEVER)
        with self.lock:
            for at in range(slba, slba + blocks):
                self.blocks[at].write(number, span)

    def add_read(self, slba: int, data: bytes, start: int) -> None:
        self.add_numbers(slba, numbers_of(slba, data), start)

    def add_numbers(self, slba: int, numbers: Iterable[int], start: int) -> None:
        span = Span(start, time.monotonic_ns())
        with self.lock:
            for at, number in enumerate(numbers, slba):
                self.blocks[at].reads.append((number, span))

    def add_difference(self, slba: int, number: int, blocks: int, start: int, later: list) -> None:
        """A Compare that has found a difference: some of these blocks did not have the number. Judged at the end."""
        later.append((slba, number, blocks, Span(start, time.monotonic_ns())))

    def last(self, slba: int) -> Optional[int]:
        """The number that a block was last answered to have."""
        with self.lock:
            register = self.blocks[slba]
            return register.reads[-1][0] if register.reads else register.first

    def check(self, later: Iterable[tuple] = ()) -> None:
        for slba, register in self.blocks.items():
            try:
                register.check()
            except Wrong as wrong:
                raise Wrong(f"block {slba}: {wrong}: {describe(register)}") from None
        for slba, number, blocks, span in later:
            if all(self.blocks[at].is_surely(number, span) for at in range(slba, slba + blocks)):
                raise Wrong(f"blocks {slba} and on had {number}, and a Compare has found a difference")

    def check_lost(self, numbers: Dict[int, int], lasts_at_once: bool) -> None:
        """Blocks after a kill or a power cut: none is older than a write that was answered and flushed, or one with
        Force Unit Access, or any if each `lasts_at_once`."""
        last = max((it.start for it in self.flushes), default=BEFORE)
        for slba, found in numbers.items():
            writes = self.blocks[slba].all_writes()
            kept = [span.start for number, span in writes if span.end != NEVER and
                    (lasts_at_once or span.end < last or number in self.forced)]
            if all(any(start > span.end for start in kept) for number, span in writes if number == found):
                raise Wrong(f"block {slba} has {found} after the end: {describe(self.blocks[slba])}; the last "
                            f"Flush began at {last}")


def describe(register: Register) -> str:
    """What happened to a block, in order of time."""
    lines = defaultdict(list)
    for number, span in register.writes.items():
        lines[span.start].append(f"write {number} {span.start}-{span.end}")
    for span in register.zeroes:
        lines[span.start].append(f"zero {span.start}-{span.end}")
    for number, span in register.reads:
        lines[span.start].append(f"read {number} {span.start}-{span.end}")
    return "; ".join(it for start in sorted(lines) for it in lines[start])[-1500:]
