"""A target over an image whose calls can fail or take long (faulty_disk.c), and hosts that write a history of it."""
import itertools
import mmap
import os
import random
import struct
import subprocess
import tempfile
import threading
import time
from pathlib import Path
from typing import Callable, Dict, List, NamedTuple, Optional, Sequence

from tests.history import History, Span, data_of, numbers_of
from tests.host import BLOCK, Ended, Host, Queue
from tests.targets import TargetTest

READ, WRITE, SYNC, ZERO = range(4)
# The fields of `struct kind`.
FIELDS = ("every", "fault", "delay_us", "first", "end", "varies", "calls", "eligible", "faults", "waiting")
HOSTS = (0xa1, 0xb2, 0xc3, 0xd4)
# A host besides these.
FIFTH = 0xe5
# The smallest cache, a quarter of the image.
CACHE = ("--cache", "4M")
FORCE_UNIT_ACCESS = 1 << 30
WRITE_FAULT, UNRECOVERED_READ, COMPARE_FAILURE = 0x280, 0x281, 0x285


def configuration(blocks: int) -> str:
    """Five hosts that share a namespace."""
    controllers = "".join(f"controller {it} host {host:#x}\n" for it, host in enumerate((*HOSTS, FIFTH), 1))
    return controllers + f"namespace 1 blocks {blocks} shared\n" + "".join(f"attached {it} 1\n" for it in range(1, 6))


class Faults:
    """The faults and delays of a target's image, which may be changed at any time."""

    def __init__(self, folder: Path, image: Path) -> None:
        library, control = folder / "faulty_disk.so", folder / "faults"
        source = Path(__file__).resolve().parent / "faulty_disk.c"
        subprocess.run(["cc", "-O1", "-shared", "-fPIC", "-o", library, source, "-ldl"], check=True)
        control.write_bytes(bytes(8 * 4 * len(FIELDS)))
        with open(control, "r+b") as file:
            self.words = mmap.mmap(file.fileno(), 0)
        self.environment = {"LD_PRELOAD": str(library), "DISK_FAULTS": str(control), "DISK_FAULTS_IMAGE": str(image)}

    def put(self, kind: int, field: str, value: int) -> None:
        struct.pack_into("<Q", self.words, 8 * (len(FIELDS) * kind + FIELDS.index(field)), value)

    def get(self, kind: int, field: str) -> int:
        return struct.unpack_from("<Q", self.words, 8 * (len(FIELDS) * kind + FIELDS.index(field)))[0]

    def fail(self, kind: int, every: int = 1, fault: int = 0, first: int = 0, end: int = 0) -> None:
        """Each call of this number fails with an errno, or is short; or each on these bytes alone."""
        for field, value in (("every", 0), ("fault", fault), ("first", first), ("end", end), ("every", every)):
            self.put(kind, field, value)

    def heal(self, *kinds: int) -> None:
        for kind in kinds or range(4):
            self.put(kind, "every", 0)

    def delay(self, kind: int, seconds: float, varies: bool = False) -> None:
        """Each call takes longer, or some do more than others. Without a delay those that wait continue at once."""
        self.put(kind, "varies", varies)
        self.put(kind, "delay_us", int(seconds * 1e6))


class DiskTest(TargetTest):
    """A target over an image in a folder that stays until it has ended."""

    blocks, options = 32768, ()

    def setUp(self) -> None:
        room = tempfile.TemporaryDirectory()
        self.addCleanup(room.cleanup)
        self.kept = Path(room.name)
        self.disk = self.make_disk()
        self.faults = Faults(self.kept, self.disk)
        self.config = configuration(self.blocks)
        self.options = ["--image", str(self.disk), *self.options]
        # The target starts without the library, which its environment gets next.
        super().setUp()
        self.again(kills=False)

    def make_disk(self) -> Path:
        disk = self.kept / "disk.img"
        with open(disk, "wb") as file:
            file.truncate(self.blocks * BLOCK)
        return disk

    def end(self) -> None:
        for kind in range(4):
            self.faults.delay(kind, 0)
        super().end()

    def again(self, kills: bool = True) -> None:
        """Ends the target, and starts the next without faults."""
        (self.target.kill if kills else self.target.close)()
        self.faults.heal()
        self.target.environment = self.faults.environment
        self.target.start()

    def fill(self, number: int = 1, first: int = 0, blocks: Optional[int] = None) -> Dict[int, int]:
        """Writes the image while no target has it, with one number; the numbers of the blocks."""
        blocks = self.blocks if blocks is None else blocks
        with open(self.disk, "r+b") as file:
            file.seek(first * BLOCK)
            file.write(data_of(first, blocks, number))
            os.fsync(file.fileno())
        return {at: number for at in range(first, first + blocks)}


class Command(NamedTuple):
    """A command in progress."""
    opcode: int
    slba: int
    blocks: int
    number: int
    is_forced: bool
    start: int


class Player(threading.Thread):
    """A host that keeps several commands in progress until it is stopped or the target has gone.

    All hosts work on one of the `places` at a time, and all take the next one after `DWELLS` seconds. `weights` are
    those of Flush, Write, Read, Compare and Write Zeroes. A command may have no other status than 0 and those of
    `may_be`.
    """

    OPCODES = (0x00, 0x01, 0x02, 0x05, 0x08)
    numbers = itertools.count(1000)
    ENDLESS, DWELLS = 1 << 62, 0.05

    def __init__(self, host: Host, history: History, places: Sequence[range], seed: int, depth: int = 4,
                 weights: Sequence[int] = (1, 6, 6, 2, 1), most: int = 24, may_be: Sequence[int] = (),
                 commands: int = ENDLESS) -> None:
        super().__init__()
        self.host, self.queue, self.history, self.places = host, host.queues[0], history, places
        self.rng, self.depth, self.weights, self.most = random.Random(seed), depth, weights, most
        self.may_be, self.later, self.going, self.left = set(may_be), [], {}, commands
        self.is_over, self.answered, self.fault = threading.Event(), 0, None
        self.statuses: Dict[int, int] = {}

    def run(self) -> None:
        try:
            while self.sends() or self.going:
                while len(self.going) < self.depth and self.sends():
                    self.send()
                self.take()
        except (Ended, OSError):
            pass
        except Exception as fault:
            self.fault = fault
        for command in self.going.values():
            if command.opcode in (0x01, 0x08):
                self.history.add_write(command.slba, command.blocks, command.number, command.start, False)
        self.going = {}

    def sends(self) -> bool:
        """Whether it sends more commands."""
        return self.left > 0 and not self.is_over.is_set()

    def send(self) -> None:
        self.left -= 1
        opcode = self.rng.choices(self.OPCODES, self.weights)[0]
        blocks = self.rng.choice((1, 1, 2, 3, 8, self.most))
        places = self.places[int(time.monotonic() / self.DWELLS) % len(self.places)]
        slba = self.rng.randrange(places[0], places[-1] + 2 - blocks)
        number, data, length = 0, b"", 0
        if opcode == 0x01:
            number = next(self.numbers)
        elif opcode == 0x05:
            number, blocks = self.history.last(slba), 1
        if opcode in (0x01, 0x05):
            data = data_of(slba, blocks, number)
        length = BLOCK * blocks if opcode == 0x02 else 0
        is_forced = opcode == 0x01 and self.rng.random() < 0.1
        flags = FORCE_UNIT_ACCESS if is_forced else 0
        words = struct.pack("<QI", slba, blocks - 1 | flags) if opcode else b""
        start = time.monotonic_ns()
        # Known before it is sent: the target may end while it is.
        cid = self.queue.next_cid
        self.going[cid] = Command(opcode, slba, blocks, number, is_forced, start)
        self.queue.send_command(opcode, 1, words, data, length)

    def take(self) -> None:
        answer = self.queue.completion()
        command = self.going.pop(answer.cid)
        code, (opcode, slba, blocks, number, _, start) = answer.code, command
        self.answered += 1
        self.statuses[code] = self.statuses.get(code, 0) + 1
        if opcode == 0x00 and code == 0:
            self.history.flushes.append(Span(start, time.monotonic_ns()))
        elif opcode in (0x01, 0x08):
            self.history.add_write(slba, blocks, number, start, code == 0)
            if command.is_forced and code == 0:
                self.history.forced.add(number)
        elif opcode == 0x02:
            assert code or len(answer.data) == BLOCK * blocks, len(answer.data)
            self.history.add_read(slba, answer.data[:len(answer.data) // BLOCK * BLOCK], start)
        elif opcode == 0x05 and code == 0:
            self.history.add_numbers(slba, [number], start)
        elif opcode == 0x05 and code == COMPARE_FAILURE:
            self.history.add_difference(slba, number, blocks, start, self.later)
            code = 0
        assert code == 0 or code in self.may_be, f"command {opcode:#x} is answered {answer.status:#x}"


def play(target_port: int, history: History, places: Sequence[range], seed: int, lasts: Callable[[List[Player]], None],
         **how) -> List[Player]:
    """Has four hosts work until `lasts` returns, and judges what they saw."""
    hosts = [Host(target_port, host) for host in HOSTS]
    players = [Player(host, history, places, 4 * seed + it, **how) for it, host in enumerate(hosts)]
    for player in players:
        player.start()
    try:
        lasts(players)
    finally:
        for player in players:
            player.is_over.set()
        for player in players:
            player.join(60)
        for host in hosts:
            host.close()
    for player in players:
        if player.fault:
            raise player.fault
        assert not player.is_alive(), "a host is still waiting for an answer"
    return players


def judge(history: History, players: List[Player]) -> None:
    history.check([it for player in players for it in player.later])


def read_all(host: Host, slba: int, blocks: int) -> List[int]:
    """The numbers of blocks as the target reads them."""
    numbers = []
    for at in range(slba, slba + blocks, 256):
        count = min(256, slba + blocks - at)
        answer = host.read(at, count)
        assert answer.status == 0, hex(answer.status)
        numbers += numbers_of(at, answer.data)
    return numbers


def read_file(path: Path, slba: int, blocks: int) -> List[int]:
    """The numbers of blocks as the image has them."""
    with open(path, "rb") as file:
        file.seek(slba * BLOCK)
        return numbers_of(slba, file.read(blocks * BLOCK))
