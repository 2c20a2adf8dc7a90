"""A model of scripts of one host over an image whose calls fail, after the documents.

A script's commands go through the driver one after the other, each in five events. The image is blocks after a cache
of the 256 that were used last; a transfer makes one call a block that is not kept, in rising order, and stops at the
first that fails; and what is after the last whole block stays.
"""
from collections import Counter, OrderedDict
from dataclasses import dataclass
from typing import List, Optional, Tuple

BLOCK = 512
KEPT = 256
# A sync that a signal interrupts is made again, and a transfer of fewer bytes continues: nobody notices either.
UNNOTICED = {("sync", "EINTR"), ("pread", "fewer"), ("pwrite", "fewer")}


class Fault(Exception):
    """A call failed."""


class Disk:
    """An image after its cache, and the calls that fail."""

    def __init__(self, image: bytes, kind: str = "", at: int = 0, how: str = "", is_onward: bool = False) -> None:
        self.whole = len(image) // BLOCK
        self.bytes = bytearray(image)
        self.kept: "OrderedDict[int, bytes]" = OrderedDict()
        self.counts: "Counter[str]" = Counter()
        self.kind, self.at, self.how, self.is_onward = kind, at, how, is_onward
        # Each write of a block, in order: where, and which bytes.
        self.writes: List[Tuple[int, bytes]] = []

    def call(self, kind: str) -> None:
        """Counts a call, which may fail."""
        self.counts[kind] += 1
        number = self.counts[kind]
        is_meant = number >= self.at if self.is_onward else number == self.at
        if kind == self.kind and is_meant and (kind, self.how) not in UNNOTICED:
            raise Fault

    def keep(self, i: int, block: bytes) -> None:
        """Keeps a block as the one that was used last."""
        self.kept[i] = block
        self.kept.move_to_end(i)
        if len(self.kept) > KEPT:
            self.kept.popitem(last=False)

    def read(self, i: int) -> bytes:
        """A block: as it is kept, or by a call."""
        if i in self.kept:
            self.kept.move_to_end(i)
            return self.kept[i]
        self.call("pread")
        block = bytes(self.bytes[BLOCK * i:BLOCK * (i + 1)])
        self.keep(i, block)
        return block

    def write(self, i: int, block: bytes) -> None:
        """Writes a block, which is kept no longer if that fails."""
        try:
            self.call("pwrite")
        except Fault:
            self.kept.pop(i, None)
            if self.how == "torn":
                self.bytes[BLOCK * i:BLOCK * i + BLOCK // 2] = block[:BLOCK // 2]
            raise
        self.bytes[BLOCK * i:BLOCK * (i + 1)] = block
        self.writes.append((i, block))
        self.keep(i, block)


@dataclass(frozen=True)
class Command:
    """A request of the driver of controller 1 to namespace 1."""
    name: str
    first: int = 0
    count: int = 0
    data: bytes = b""

    def line(self) -> str:
        """Its line of a script."""
        if self.name == "flush":
            return "flush 1 1"
        data = f" hex:{self.data.hex()}" if self.name in ("write", "compare") else ""
        return f"{self.name} 1 1 {self.first} {self.count}{data}"

    def blocks(self) -> List[bytes]:
        """The data by block, with zeros after them."""
        data = self.data.ljust(BLOCK * self.count, b"\0")
        return [data[BLOCK * j:BLOCK * (j + 1)] for j in range(self.count)]

    def carry_out(self, disk: Disk) -> Tuple[str, bytes]:
        """The status, and the data that a Read answers."""
        if self.name == "flush":
            disk.call("sync")
            return "0:00", b""
        if self.name in ("write", "zeroes"):
            for j, block in enumerate(self.blocks()):
                disk.write(self.first + j, block)
            return "0:00", b""
        if self.name == "read":
            return "0:00", b"".join(disk.read(self.first + j) for j in range(self.count))
        for j, block in enumerate(self.blocks()):
            if disk.read(self.first + j) != block:
                return "2:85", b""
        return "0:00", b""

    def answer(self, disk: Disk) -> Tuple[str, int, bytes]:
        """The status, the number of the rule that denies it, and the data."""
        if self.first + self.count > disk.whole:
            return "0:80", 9, b""
        try:
            status, data = self.carry_out(disk)
        except Fault:
            return ("2:81" if self.name in ("read", "compare") else "2:80"), 0, b""
        return status, 0, data


def lines_of(ticket: int, answer: Tuple[str, int, bytes]) -> List[str]:
    """The lines of a request, from its placing to its answer."""
    status, rule, data = answer
    shown = f" {len(data)} {data.rstrip(bytes(1)).hex() or '-'}" if data else ""
    return [f"placed 1 {ticket}", "rung 1", "fetch 1 1 took", f"execute 1 0 posted {status} {rule}",
            f"poll 1 {ticket} {status} 00000000{shown}"]


def script_of(commands: List[Command], blocks: int) -> bytes:
    """The script of these commands, on a namespace of `blocks` blocks."""
    head = f"controller 1 host 0xa1\nnamespace 1 blocks {blocks} shared\nattached 1 1\nstart\nup 1\n"
    return (head + "".join(f"{it.line()}\nring 1\nfetch 1 1\nexecute 1 0\npoll 1\n" for it in commands)).encode()


@dataclass
class Told:
    """The expected result of a script: its lines, its image, and the image after each command."""
    lines: List[str]
    disk: Disk
    images: List[bytes]

    def transcript(self) -> bytes:
        """All lines."""
        return "".join(f"{line}\n" for line in self.lines).encode()

    def image(self) -> bytes:
        """The image at the end."""
        return bytes(self.disk.bytes)

    def image_after(self, events: int) -> bytes:
        """The image after `events` events: the driver comes up, and the fourth of each command's five executes it."""
        return self.images[events // 5]


def results_of(commands: List[Command], disk: Disk) -> Told:
    """The results of commands over a disk."""
    lines, images = ["up 1 ok"], [bytes(disk.bytes)]
    for ticket, command in enumerate(commands, 1):
        lines += lines_of(ticket, command.answer(disk))
        images.append(bytes(disk.bytes))
    return Told(lines, disk, images)


def pattern(seed: int, blocks: int, tail: int = 0) -> bytes:
    """Bytes of blocks, each with its position and its source."""
    whole = b"".join(f"<{seed}:{i}>".encode().ljust(16, b".") * (BLOCK // 16) for i in range(blocks))
    return whole + b"after the blocks ".ljust(tail, b"!")[:tail]


@dataclass(frozen=True)
class Flush:
    """A write of the transcript: the event, counted from 1, in which it is made, or None at the end; and the first
    event whose line it writes."""
    event: Optional[int]
    first: int


def flushes_of(lines: List[str], capacity: int = 8192) -> List[Flush]:
    """The writes of a transcript.

    Lines are put into a buffer; one that is longer than the room left there has the buffer written first, and one that
    is longer than the buffer is written by itself.
    """
    found: List[Flush] = []
    held, first = 0, 1
    for event, line in enumerate(lines, 1):
        length = len(line) + 1
        if length > capacity - held:
            found += [Flush(event, first)] * (held > 0)
            held, first = 0, event
        if length > capacity:
            found.append(Flush(event, event))
            first = event + 1
        else:
            held += length
    return found + [Flush(None, first)] * (held > 0)
