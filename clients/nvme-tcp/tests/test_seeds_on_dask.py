"""Seeds of the simulator on a Dask cluster: how totals are added up, over a program instead of the simulator."""
import contextlib
import io
import json
import os
import signal
import subprocess
import sys
import tempfile
import time
import unittest
from pathlib import Path
from typing import List, Optional, Sequence, Tuple

HERE = Path(__file__).resolve().parent.parent
sys.path.insert(0, str(HERE / "simulator"))

import cluster

# Sends as many commands in a seed as its number. Seed 6 fails; 90 is none that it knows; 20 takes long once.
SIMULATOR = """#!/usr/bin/env python3
import os, sys, time
words = sys.argv[1:]
first, count = (int(words[words.index(it) + 1]) for it in ("--first", "--seeds"))
seeds = range(first, first + count)
assert words[-3:] == ["--jobs", "1", "--no-shrink"], words
if 90 in seeds:
    sys.exit("simulate: 90: unknown")
if 20 in seeds and not os.path.exists("begun"):
    worker = os.getppid()
    with open("begun", "w") as begun:
        begun.write(str(worker))
    while os.getppid() == worker:
        time.sleep(0.05)
    sys.exit()
failed = [it for it in seeds if it == 6]
for it in failed:
    print(f"after 0.1 s and 6 commands: simulate --seed {it}")
print(f"{count} seeds, {sum(seeds)} commands, 7 a minute, violations in {len(failed)}, {count} fenced, 1 jobs")
print(f"injected: cut {count}, no power 1")
print("statuses: 0:00 2" if first < 5 else "statuses: ")
if failed:
    print("failed:", *failed)
sys.exit(len(failed))
"""


class KilledWorker(Exception):
    """As Dask has it."""


class Future:
    """Replaces a task of a cluster."""

    def __init__(self, result: object) -> None:
        self.given = result

    def result(self) -> object:
        if isinstance(self.given, Exception):
            raise self.given
        return self.given


class Client:
    """Replaces a client of Dask. Some tasks have a fault."""

    def __init__(self, *faults: Optional[Exception]) -> None:
        self.faults = list(faults)

    def map(self, call, given: Sequence[List[str]], pure: bool, **how) -> List[Future]:
        assert not pure, "equal tasks are run each"
        return [Future((self.faults.pop(0) if self.faults else None) or call(it, **how)) for it in given]


class Case(unittest.TestCase):
    def setUp(self) -> None:
        room = tempfile.TemporaryDirectory()
        self.addCleanup(room.cleanup)
        self.room = Path(room.name)
        self.program = self.room / "simulator"
        self.program.write_text(SIMULATOR)
        self.program.chmod(0o755)


class Seeds(Case):
    def gives(self, words: str, *faults: Optional[Exception]) -> Tuple[int, List[str]]:
        printed = io.StringIO()
        with contextlib.redirect_stdout(printed):
            status = cluster.run(str(self.program), words.split(), Client(*faults))
        return status, printed.getvalue().splitlines()

    def test_totals(self) -> None:
        """They are those of all tasks, and what a task printed about a violation comes before."""
        status, lines = self.gives("--seeds 9 --commands 5")
        self.assertEqual((status, lines[0]), (1, "after 0.1 s and 6 commands: simulate --seed 6"))
        self.assertRegex(lines[1], r"^9 seeds, 45 commands, \d+ a minute, violations in 1, 9 fenced$")
        self.assertEqual(lines[2:], ["injected: cut 9, no power 3", "statuses: 0:00 2", "failed: 6"])
        status, lines = self.gives("--first 7 --seeds 2")
        self.assertEqual((status, lines[0].split(",")[:2], lines[1:]),
                         (0, ["2 seeds", " 15 commands"], ["injected: cut 2, no power 1", "statuses: "]))

    def test_tasks_that_were_not_run(self) -> None:
        """Seeds without totals are named, and the status is not 0."""
        status, lines = self.gives("--first 11 --seeds 6", KilledWorker("task"))
        self.assertEqual((status, lines[0], lines[-1]),
                         (70, "seeds 11 to 14 were not run: each worker that ran them died", "not run: 11 12 13 14"))
        self.assertTrue(lines[1].startswith("2 seeds, 31 commands"), lines[1])
        status, lines = self.gives("--first 90 --seeds 1")
        self.assertEqual((status, lines[0]), (70, "seeds 90 to 90 were not run: simulate: 90: unknown"))
        status, lines = self.gives("--seeds 1", OSError("why"))
        self.assertEqual((status, lines[0]), (70, "seeds 1 to 1 were not run: OSError: why"))

    def test_other_words(self) -> None:
        for words in ("", "--for 10s", "--seeds x", "--seed 7 --seeds 1", "--seeds 5 --jobs 2", "--seeds 5 --log x"):
            with self.assertRaises(cluster.BadWords, msg=words):
                self.gives(words)


def python_with_dask() -> Optional[str]:
    """A Python that has `distributed`: this one, or the system's."""
    for python in (sys.executable, "/usr/bin/python3"):
        with contextlib.suppress(OSError):
            if subprocess.run([python, "-c", "import distributed"], stderr=subprocess.DEVNULL).returncode == 0:
                return python
    return None


@unittest.skipUnless(python_with_dask(), "no Python has the package distributed (Debian: python3-distributed)")
class RealCluster(Case):
    def start(self, module: str, *words: str) -> "subprocess.Popen[bytes]":
        words = (str(python_with_dask()), "-m", f"distributed.cli.{module}", *words, "--no-dashboard",
                 "--scheduler-file", "scheduler.json")
        it = subprocess.Popen(words, cwd=self.room, stdout=subprocess.DEVNULL, stderr=subprocess.DEVNULL)
        self.addCleanup(it.wait)
        self.addCleanup(it.kill)
        return it

    def wait_for(self, path: Path) -> str:
        last = time.monotonic() + 120
        while not path.exists() or not path.read_text():
            self.assertLess(time.monotonic(), last)
            time.sleep(0.05)
        return path.read_text()

    def test_a_worker_that_dies_costs_only_its_task(self) -> None:
        """Another runs the seeds again of the one that is killed, and the totals are whole."""
        self.start("dask_scheduler", "--host", "127.0.0.1", "--port", "0")
        address = json.loads(self.wait_for(self.room / "scheduler.json"))["address"]
        for _ in range(2):
            self.start("dask_worker", "--nthreads", "1", "--no-nanny", "--local-directory", str(self.room))
        words = [python_with_dask(), HERE / "simulator/cluster.py", self.program, address, "--seeds", "40"]
        running = subprocess.Popen(list(map(str, words)), cwd=self.room, stdout=subprocess.PIPE, text=True)
        os.kill(int(self.wait_for(self.room / "begun")), signal.SIGKILL)
        lines = running.communicate(timeout=120)[0].splitlines()
        self.assertEqual((running.returncode, lines[1].split(",")[:2]), (1, ["40 seeds", " 820 commands"]))
        self.assertEqual(lines[2:], ["injected: cut 40, no power 10", "statuses: 0:00 2", "failed: 6"])


if __name__ == "__main__":
    unittest.main()
