#!/usr/bin/env python3
"""Explores scenes on a Dask cluster of this machine, and kills a worker meanwhile: prints what is run, and what comes.

    python3 killed_worker.py [HOSTS [SCENES [WORKERS]]]

It needs Debian's python3-distributed. Each scene has HOSTS hosts, 5 by default, with two requests each: a Write, and a
Preempt of another host. SCENES and WORKERS are 4 by default. The status is 1 unless each scene is reported.
"""
from __future__ import annotations

import json
import os
import subprocess
import sys
import tempfile
import time
from pathlib import Path
from typing import List

HERE = Path(__file__).resolve().parent
# What Dask may use for a worker.
MEMORY = "2GB"
# Seconds for which the worker explores before it is killed.
EXPLORED = 1.0


def scene(hosts: int, number: int) -> str:
    """A scene whose hosts preempt each other and write: the number distinguishes its data."""
    numbers = range(1, hosts + 1)
    lines = [*(f"controller {it} host 0xa{it}" for it in numbers), "namespace 1 blocks 64 shared",
             *(f"attached {it} 1" for it in numbers), "start", *(f"up {it}" for it in numbers)]

    def carry(it: int, line: str) -> None:
        lines.extend([line, f"ring {it}", f"fetch {it} 1", f"execute {it} 0", f"poll {it}"])

    for it in numbers:
        carry(it, f"register {it} 1 0 0 0 0 0x1{it}")
    carry(1, "acquire 1 1 0 1 0x11 0")
    for it in numbers:
        lines.append(f"# host h{it}")
        requests = (f"write {it} 1 0 1 hex:{number}{it}", f"acquire {it} 1 2 1 0x1{it} 0x1{(it - 2) % hosts + 1}")
        for line in requests if it % 2 else reversed(requests):
            carry(it, line)
    return "".join(f"{it}\n" for it in lines)


def show(line: str) -> None:
    print(line, flush=True)


class Cluster:
    """A scheduler and its workers, in a folder. `address` is the scheduler's."""

    def __init__(self, folder: Path, workers: int) -> None:
        self.folder = folder
        self.running = [self.start("dask_scheduler", "--host 127.0.0.1 --port 0 --scheduler-file s.json")]
        while not (folder / "s.json").is_file():
            time.sleep(0.1)
        self.address = str(json.loads((folder / "s.json").read_text(encoding="utf-8"))["address"])
        self.workers = [self.start("dask_worker", f"--scheduler-file s.json --name w{it} --nthreads 1 --no-nanny "
                                   f"--memory-limit {MEMORY}") for it in range(workers)]
        self.running += self.workers

    def start(self, module: str, words: str) -> "subprocess.Popen[bytes]":
        show(f"$ {module.replace('_', '-')} {words} &")
        with open(self.folder / f"{module}.log", "ab") as log:
            return subprocess.Popen([sys.executable, "-m", f"distributed.cli.{module}", *words.split(),
                                     "--no-dashboard"], cwd=self.folder, stdout=log, stderr=log)

    def is_exploring(self, number: int) -> bool:
        """Whether a worker runs a program."""
        threads = Path(f"/proc/{self.workers[number].pid}/task").glob("*/children")
        return any(it.read_text(encoding="ascii").split() for it in threads)

    def kill(self, number: int, explorer: "subprocess.Popen[str]") -> None:
        """Kills a worker a while after it has begun to explore, or not if the explorer ends before."""
        while not self.is_exploring(number):
            if explorer.poll() is not None:
                return
            time.sleep(0.02)
        time.sleep(EXPLORED)
        show(f"$ kill -KILL $w{number}")
        self.workers[number].kill()

    def close(self) -> None:
        for it in self.running:
            it.kill()
            it.wait()


def main(given: List[str]) -> int:
    hosts, scenes, workers = (int(it) for it in [*given, *["5", "4", "4"][len(given):]])
    os.environ["PYTHONPATH"] = str(HERE.parent)
    with tempfile.TemporaryDirectory() as name:
        folder = Path(name)
        scripts = [f"{it}.nvme" for it in range(scenes)]
        for it, script in enumerate(scripts):
            (folder / script).write_text(scene(hosts, it), encoding="utf-8")
        cluster = Cluster(folder, workers)
        words = ["explore", *scripts, "--dask", cluster.address]
        show(f"$ python3 -m nvmesim {' '.join(words)} | grep outcomes$")
        begun = time.monotonic()
        explorer = subprocess.Popen([sys.executable, "-m", "nvmesim", *words], cwd=folder, stdout=subprocess.PIPE,
                                    text=True)
        cluster.kill(0, explorer)
        told, _ = explorer.communicate()
        cluster.close()
    show("\n".join(it for it in told.splitlines() if it.endswith("outcomes")))
    show(f"# status {explorer.returncode}, {time.monotonic() - begun:.0f} s")
    return int(told.count(" orders of ") != scenes)


if __name__ == "__main__":
    sys.exit(main(sys.argv[1:]))
