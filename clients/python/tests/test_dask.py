"""Whole explorations on a Dask cluster: real schedulers and workers if some Python has `distributed`, else skipped."""
from __future__ import annotations

import contextlib
import functools
import json
import os
import re
import signal
import subprocess
import sys
import time
import unittest
from pathlib import Path
from typing import Dict, List, Optional, Sequence, Tuple

from examples.killed_worker import scene
from nvmesim.explore import Explored, Limits, Plan, explore
from nvmesim.explore.dask import DaskMissing, WorkerLacks, WorkersDied, explore_on_dask
from nvmesim.explore.medium import MediumError
from nvmesim.explore.tasks import tasks_of

from .support import LIVE, PACKAGE, RACE, FolderCase
from .test_explore import PROGRAM, RACE_TEXT, SMALL
from .test_forking import begun_by, wait_until


@functools.lru_cache(maxsize=None)
def python_with_dask() -> Optional[str]:
    """A Python that has `distributed`: this one, or the system's, for which Debian has python3-distributed."""
    for python in (sys.executable, "/usr/bin/python3"):
        with contextlib.suppress(OSError):
            if subprocess.run([python, "-c", "import distributed"], stderr=subprocess.DEVNULL).returncode == 0:
                return python
    return None


class Future:
    """Replaces a task of a cluster."""

    def __init__(self, given: object, call: object, fault: Optional[Exception]) -> None:
        self.given, self.call, self.fault = given, call, fault

    def result(self) -> object:
        if self.fault is not None:
            raise self.fault
        return self.call(self.given)  # type: ignore[operator]


class Cluster:
    """Replaces a client of Dask."""

    def __init__(self, *faults: Optional[Exception]) -> None:
        self.faults = list(faults)

    def map(self, call: object, given: Sequence[object], pure: bool) -> List[Future]:
        assert not pure, "equal tasks are run each"
        return [Future(it, call, self.faults.pop(0) if self.faults else None) for it in given]

    def close(self) -> None:
        self.is_closed = True


class KilledWorker(Exception):
    """As Dask has it."""


class TasksTest(FolderCase):
    def test_a_task_for_each_script_image_and_call(self) -> None:
        images = [str(self.folder / name) for name in ("one", "two")]
        for name in images:
            Path(name).write_bytes(name.encode().ljust(512 * 64, b"\0"))
        tasks = tasks_of(["a", "b"], [SMALL, RACE_TEXT], images, [1, 2])
        self.assertEqual([it.name for it in tasks][:3], [f"a over {images[0]} with --fail 1",
                                                         f"a over {images[0]} with --fail 2",
                                                         f"a over {images[1]} with --fail 1"])
        self.assertEqual((len(tasks), len({it.digest for it in tasks}), tasks[4].script), (8, 2, "b"))

    def test_results_come_in_order_and_faults_have_names(self) -> None:
        tasks = tasks_of(["a", "b", "c"], [SMALL, RACE_TEXT, SMALL], [], [0])
        cluster = Cluster(None, KilledWorker("task"), OSError("why"))
        first, second, third = explore_on_dask(tasks, "", str(PROGRAM), Limits(), cluster)
        assert isinstance(first, Explored)
        self.assertEqual(first.found, explore(Plan(SMALL), PROGRAM))
        self.assertIsInstance(second, WorkersDied)
        self.assertEqual(str(third), "the cluster reports OSError: why")
        lacks = Cluster(ModuleNotFoundError("No module named 'nvmesim'"))
        with self.assertRaisesRegex(WorkerLacks, "a worker of the cluster does not have this package: No module"):
            next(explore_on_dask(tasks, "", str(PROGRAM), Limits(), lacks))

    def test_an_image_that_is_another_on_a_worker(self) -> None:
        image = self.folder / "image"
        image.write_bytes(bytes(512 * 64))
        tasks = tasks_of(["a"], [SMALL], [str(image)], [0])
        image.write_bytes(bytes(512 * 65))
        [found] = explore_on_dask(tasks, "", str(PROGRAM), Limits(), Cluster())
        self.assertIsInstance(found, MediumError)

    def test_each_has_its_time(self) -> None:
        tasks = tasks_of(["a", "b"], [RACE_TEXT, SMALL], [], [0])
        for within, are_whole in ((0.0, [False, False]), (600.0, [True, True])):
            found = explore_on_dask(tasks, "", str(PROGRAM), Limits(), Cluster(), within)
            self.assertEqual([it.is_whole for it in found if isinstance(it, Explored)], are_whole)

    @unittest.skipIf(python_with_dask() == sys.executable, "this Python has Dask")
    def test_without_dask(self) -> None:
        with self.assertRaisesRegex(DaskMissing, "apt install python3-distributed, or pip install"):
            next(explore_on_dask(tasks_of(["a"], [SMALL], [], [0]), "tcp://127.0.0.1:1", None, Limits()))


@unittest.skipUnless(LIVE and python_with_dask(), "NVMELIVE does not name the program, or no Python has the package "
                     "distributed (Debian: python3-distributed)")
class RealClusterTest(FolderCase):
    def setUp(self) -> None:
        super().setUp()
        self.environment: Dict[str, str] = {**os.environ, "PYTHONPATH": str(PACKAGE), "NVMELIVE": str(LIVE),
                                            "PYTHONDONTWRITEBYTECODE": "1"}
        self.started: List[subprocess.Popen[bytes]] = []
        self.addCleanup(self.end_all)

    def end_all(self) -> None:
        for it in self.started:
            it.kill()
            it.wait()

    def start(self, module: str, *words: str, **environment: str) -> subprocess.Popen[bytes]:
        it = subprocess.Popen([str(python_with_dask()), "-m", f"distributed.cli.{module}", *words, "--no-dashboard"],
                              env={**self.environment, **environment}, stdout=subprocess.DEVNULL,
                              stderr=subprocess.DEVNULL, start_new_session=True)
        self.started.append(it)
        return it

    def cluster(self, workers: int, **environment: str) -> Tuple[str, List[subprocess.Popen[bytes]]]:
        """The address of a scheduler, and its workers."""
        known = self.folder / "scheduler.json"
        self.start("dask_scheduler", "--host", "127.0.0.1", "--port", "0", "--scheduler-file", str(known),
                   **environment)
        self.assertTrue(wait_until(known.exists, 120))
        words = ("--scheduler-file", str(known), "--nthreads", "1", "--no-nanny", "--local-directory", str(self.folder))
        return (str(json.loads(known.read_text(encoding="utf-8"))["address"]),
                [self.start("dask_worker", *words, "--name", str(n)) for n in range(workers)])

    def explorer(self, *words: str) -> subprocess.Popen[str]:
        return subprocess.Popen([str(python_with_dask()), "-m", "nvmesim", "explore", *words], env=self.environment,
                                cwd=self.folder, stdout=subprocess.PIPE, stderr=subprocess.PIPE, text=True)

    def explored(self, *words: str) -> Tuple[int, str, str]:
        it = self.explorer(*words)
        told, wrong = it.communicate(timeout=300)
        return it.returncode, told, wrong

    def script(self, name: str, text: str) -> str:
        (self.folder / name).write_text(text, encoding="utf-8")
        return name

    def test_the_report_is_that_of_no_cluster(self) -> None:
        image = self.folder / "image"
        image.write_bytes(b"old".ljust(512 * 64, b"\0"))
        address, _ = self.cluster(2)
        words = (str(RACE), self.script("small.nvme", SMALL.replace("poll 1\n", "poll 1\n\n")), "--fail", "1-3",
                 "--image", str(image), "--never", "a.write1 == 'Write Fault'")
        alone = self.explored(*words)
        self.assertEqual(alone[0], 1, alone[2])
        self.assertEqual(alone[1].count("== "), 6 + alone[1].count("a.write1 == "))
        self.assertEqual(self.explored(*words, "--dask", address)[:2], alone[:2])
        self.assertEqual(self.explored(str(RACE), "--dask", address)[:2], self.explored(str(RACE))[:2])

    def killed_one(self, **environment: str) -> Tuple[Tuple[int, str, str], Tuple[int, str, str]]:
        """What some tasks give alone, and with a worker that is killed while it runs one of them."""
        words = [self.script(f"{n}.nvme", scene(4, n)) for n in range(3)]
        alone = self.explored(*words)
        address, workers = self.cluster(2, **environment)
        running = self.explorer(*words, "--dask", address)
        self.assertTrue(wait_until(lambda: bool(begun_by(workers[0].pid)), 120))
        time.sleep(0.2)
        os.kill(workers[0].pid, signal.SIGKILL)
        told, wrong = running.communicate(timeout=300)
        return alone, (running.returncode, told, wrong)

    def test_a_worker_that_dies_costs_only_its_task(self) -> None:
        alone, found = self.killed_one()
        self.assertEqual(found[:2], alone[:2], found[2])

    def test_the_example(self) -> None:
        """It shows the killed worker, and each scene's report."""
        words = [str(python_with_dask()), str(RACE.parent / "killed_worker.py"), "4", "2", "2"]
        ran = subprocess.run(words, env=self.environment, stdout=subprocess.PIPE, text=True, timeout=300)
        self.assertEqual(ran.returncode, 0, ran.stdout)
        self.assertEqual([ran.stdout.count(it) for it in ("$ kill -KILL $w0\n", " outcomes\n", "# status 0, ")], [1, 2, 1])

    def test_a_task_whose_workers_died_is_named(self) -> None:
        """It may be another task's too that waits for that worker."""
        _, found = self.killed_one(DASK_DISTRIBUTED__SCHEDULER__ALLOWED_FAILURES="0")
        named = re.findall(r"(?m)^nvmesim: [012]\.nvme: each worker that ran it died$", found[2])
        self.assertEqual((found[0], found[1].count(" orders of ")), (2, 3 - len(named)))
        self.assertIn(len(named), (1, 2))


if __name__ == "__main__":
    unittest.main()
