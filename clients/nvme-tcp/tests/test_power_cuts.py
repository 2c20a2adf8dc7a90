"""Power cuts: what no sync has followed is lost in part. Blocks that were flushed, or written through, are there."""
import random
import shutil
import struct
import subprocess
import time
import unittest
from pathlib import Path

from tests.faulty_disk import CACHE, DiskTest, judge, play, read_all
from tests.history import History
from tests.host import BLOCK

WRITES, SYNCS, SYNCED = range(3)
PLACES = range(1000, 13000)
TURNS = 4


def unsynced(log: bytes) -> list:
    """The writes that may be lost, each a place and the bytes that it replaced, in order."""
    writes, begun, at = [], {}, 0
    while at + 32 <= len(log):
        kind, number, place, count = struct.unpack_from("<QQQQ", log, at)
        if kind == WRITES:
            writes.append((place, log[at + 32:at + 32 + count]))
        elif kind == SYNCS:
            begun[number] = len(writes)
        else:
            # All writes before it began are on the disk; those are counted from the first write of the log.
            begun[0] = max(begun.get(0, 0), begun.get(number, 0))
        at += 32 + count
    return writes[begun.get(0, 0):]


def cut(disk: Path, writes: list, rng: random.Random, is_all: bool) -> int:
    """Takes back writes: of each block some of the last ones, or all. How many blocks have changed."""
    kept, lost = set(), set()
    with open(disk, "r+b") as file:
        for place, bytes_before in reversed(writes):
            for at in range(0, len(bytes_before), BLOCK):
                if place + at in kept:
                    continue
                if not is_all and rng.random() < 0.5:
                    kept.add(place + at)
                    continue
                file.seek(place + at)
                file.write(bytes_before[at:at + BLOCK])
                lost.add(place + at)
    return len(lost)


@unittest.skipUnless(shutil.which("cc"), "there is no cc")
class PowerCuts(DiskTest):
    options, is_write_through = CACHE, False

    def setUp(self) -> None:
        super().setUp()
        library, self.log = self.kept / "unsynced.so", self.kept / "unsynced"
        source = Path(__file__).resolve().parent / "unsynced.c"
        subprocess.run(["cc", "-O1", "-shared", "-fPIC", "-o", library, source, "-ldl", "-pthread"], check=True)
        self.faults.environment = {"LD_PRELOAD": str(library), "UNSYNCED": str(self.log),
                                   "UNSYNCED_IMAGE": str(self.disk)}
        self.again()

    def test_cuts(self) -> None:
        rng, numbers, lost = random.Random(78), [0] * len(PLACES), 0
        for turn in range(TURNS):
            self.target.kill()
            self.log.unlink()
            self.target.start()
            history = History(dict(zip(PLACES, numbers)))
            players = play(self.target.port, history, [PLACES[:100] if turn % 2 else PLACES], turn,
                           lambda them: self.end_them(them, rng), weights=(2, 8, 4, 1, 1))
            lost += cut(self.disk, unsynced(self.log.read_bytes()), rng, turn % 4 < 2)
            self.target.start()
            numbers = read_all(self.host(), PLACES[0], len(PLACES))
            judge(history, players)
            history.check_lost(dict(zip(PLACES, numbers)), self.is_write_through)
            self.assertGreater(len(history.flushes), 0)
        # Else nothing was tested.
        self.assertGreater(lost, 0)

    def end_them(self, players: list, rng: random.Random) -> None:
        self.wait_for(lambda: all(it.statuses.get(0, 0) > 40 or it.fault for it in players), 30)
        time.sleep(rng.uniform(0, 0.1))
        self.target.kill()


class WriteThrough(PowerCuts):
    options, is_write_through = (*CACHE, "--write-through"), True


del DiskTest
