"""The program killed at random moments, two hundred times.

Its commands write one block after the other. So the image has what some first of these writes leave, with at most one
block of the next that is half written; all writes of commands whose executions reached the transcript are among them;
and nothing else of the file has changed.
"""
import random
import shutil
import statistics
import time
from typing import Iterator, List, Tuple

from tests.faults.bench import Shown, finish, must_be, start
from tests.faults.model import BLOCK, Command, Disk, Told, pattern, results_of, script_of
from tests.runs import Wrong, new_room

SEED, RUNS = 20, 200
WIDE, WRITES = 64, 1000


class Case:
    """A long script of writes of distinct patterns, and what it leaves."""

    def __init__(self) -> None:
        self.before = pattern(7, WIDE, 500)
        chance = random.Random(SEED)
        self.commands = [self.command(i, chance) for i in range(WRITES)]
        self.script = script_of(self.commands, WIDE)
        self.told: Told = results_of(self.commands, Disk(self.before))
        self.transcript = self.told.transcript()
        # How many blocks are written when the n-th command is done.
        self.done = [0]
        for command in self.commands:
            self.done.append(self.done[-1] + command.count)

    @staticmethod
    def command(i: int, chance: random.Random) -> Command:
        """A Write of one block to four, each of which is unlike any other."""
        count = chance.randint(1, 4)
        data = b"".join(f"write {i}, block {j} ".encode().ljust(BLOCK, b"*") for j in range(count))
        return Command("write", chance.randrange(WIDE - count + 1), count, data)


def prefixes(before: bytes, image: bytes, writes: List[Tuple[int, bytes]]) -> Iterator[int]:
    """For which counts of first writes the image is what they leave, except for the block of the next."""
    now = [before[at:at + BLOCK] for at in range(0, len(before) // BLOCK * BLOCK, BLOCK)]
    wrong = {i for i, block in enumerate(now) if block != image[BLOCK * i:BLOCK * (i + 1)]}
    for count in range(len(writes) + 1):
        if not wrong or (count < len(writes) and wrong == {writes[count][0]}):
            yield count
        if count < len(writes):
            i, block = writes[count]
            if block == image[BLOCK * i:BLOCK * (i + 1)]:
                wrong.discard(i)
            else:
                wrong.add(i)


def judge(what: str, case: Case, shown: Shown) -> int:
    """Whether a run that was killed left what it must; how many blocks were written."""
    if not case.transcript.startswith(shown.output):
        raise Wrong(f"{what}: the output is not a beginning of the transcript")
    image, tail = shown.image, len(case.before) // BLOCK * BLOCK
    if len(image) != len(case.before) or image[tail:] != case.before[tail:]:
        raise Wrong(f"{what}: the image has another length, or other bytes after its last block")
    found = list(prefixes(case.before, image, case.told.disk.writes))
    if not found:
        raise Wrong(f"{what}: the image is not what some first writes leave, with one block half written")
    executed = sum(line.startswith(b"execute") and line.endswith(b"\n") for line in shown.output.splitlines(True))
    if found[-1] < case.done[executed]:
        raise Wrong(f"{what}: {executed} executions were printed, and at most {found[-1]} blocks are written, where "
                    f"these wrote {case.done[executed]}")
    return found[-1]


def one_run(case: Case, seconds: float = 0) -> Tuple[Shown, float]:
    """A run with its transcript in a file, killed after `seconds` seconds if given; and its time."""
    room = new_room(script=case.script, image=case.before)
    with open(room / "transcript", "wb") as output:
        begun = time.monotonic()
        started = start(room, ["image", "script"], stdout=output)
        if seconds:
            time.sleep(seconds)
            started.kill()
        shown = finish(room, started)
        taken = time.monotonic() - begun
    shown.output = (room / "transcript").read_bytes()
    shutil.rmtree(room)
    return shown, taken


def test_random() -> None:
    """Kills at random moments of the time that a whole run takes, and a little more."""
    case, whole = Case(), []
    for _ in range(5):
        shown, taken = one_run(case)
        must_be("a run that is not killed", shown, 0, case.transcript, b"", case.told.image())
        whole.append(taken)
    usual = statistics.median(whole)
    moments = random.Random(SEED)
    ends = {"before the first block": 0, "among them": 0, "after the last": 0}
    for number in range(1, RUNS + 1):
        seconds = moments.uniform(0.0005, 1.05 * usual)
        shown, _ = one_run(case, seconds)
        written = judge(f"killed after {seconds:.4f} seconds (run {number} of seed {SEED})", case, shown)
        total = len(case.told.disk.writes)
        ends["before the first block" if not written else "after the last" if written == total else "among them"] += 1
    if not ends["among them"]:
        raise Wrong(f"killed at random moments: no run was killed among its writes: {ends}")
