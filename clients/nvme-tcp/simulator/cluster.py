#!/usr/bin/env python3
"""Runs seeds of the simulator on a Dask cluster, some seeds a task, and adds up what they gave.

usage: simulator/cluster.py PROGRAM ADDRESS [OPTION]..

PROGRAM is the built simulator, at the same path for each worker; ADDRESS is the scheduler's. Options are those of many
seeds, with --seeds. A worker that dies costs its task, which another runs again. It needs Debian's python3-distributed.
"""
import re
import subprocess
import sys
import time
from collections import Counter

# Seeds that a worker runs one after the other.
SEEDS_OF_TASK = 4
BAD_COMMAND_LINE, NOT_RUN = 3, 70
TOTALS = re.compile(r"(?m)^(\d+) seeds, (\d+) commands, \d+ a minute, violations in (\d+), (\d+) fenced, 1 jobs\n"
                    r"injected: (.*)\nstatuses: (.*)\n(?:failed: (.*)\n)?\Z")


class BadWords(Exception):
    """A command line that is none of many seeds."""


def connected(address):
    """A client of the cluster."""
    try:
        from distributed import Client
    except ImportError:
        raise BadWords("--dask needs Dask: apt install python3-distributed") from None
    try:
        return Client(address)
    except (OSError, ValueError) as fault:
        raise BadWords(f"no Dask scheduler answers at {address}: {fault}") from None


def tasks_of(program, given):
    """A command line for each task, and the seeds that it is for."""
    words, numbers = list(given), {"--first": "1", "--seeds": ""}
    for name in numbers:
        if name in words[:-1]:
            at = words.index(name)
            numbers[name] = words[at + 1]
            del words[at:at + 2]
    if not all(it.isdigit() for it in numbers.values()) or {"--seed", "--for", "--jobs", "--log", "--page"} & {*words}:
        raise BadWords("--dask is for --seeds COUNT from --first on, without --jobs, --log and --page")
    first, last = int(numbers["--first"]), int(numbers["--first"]) + int(numbers["--seeds"])
    seeds = [range(it, min(it + SEEDS_OF_TASK, last)) for it in range(first, last, SEEDS_OF_TASK)]
    more = ["--jobs", "1", *([] if "--no-shrink" in words else ["--no-shrink"])]
    return [([program, *words, "--first", str(it.start), "--seeds", str(len(it)), *more], it) for it in seeds]


class Totals:
    """What the tasks gave that have ended."""

    def __init__(self):
        self.begun, self.numbers = time.monotonic(), Counter()
        self.injected, self.statuses, self.failed, self.lost = Counter(), Counter(), [], []

    def add(self, text):
        """Adds what a task printed; whether its totals are there."""
        found = TOTALS.search(text)
        if found is None:
            return False
        self.numbers.update(dict(zip(("seeds", "commands", "violations", "fenced"), map(int, found.groups()[:4]))))
        for counts, line in ((self.injected, found[5]), (self.statuses, found[6])):
            pairs = (it.rsplit(" ", 1) for it in line.split(", ") if " " in it)
            counts.update({name: int(count) for name, count in pairs})
        self.failed += (found[7] or "").split()
        print(text[:found.start()], end="", flush=True)
        return True

    def lose(self, seeds, why):
        """A task has no totals."""
        self.lost += seeds
        print(f"seeds {seeds[0]} to {seeds[-1]} were not run: {why}", flush=True)

    def report(self):
        it, minutes = self.numbers, (time.monotonic() - self.begun) / 60
        print(f"{it['seeds']} seeds, {it['commands']} commands, {it['commands'] / minutes:.0f} a minute, violations in "
              f"{it['violations']}, {it['fenced']} fenced")
        for name, counts in (("injected", self.injected), ("statuses", self.statuses)):
            print(f"{name}: {', '.join(f'{key} {counts[key]}' for key in sorted(counts))}")
        for name, seeds in (("failed", self.failed), ("not run", self.lost)):
            if seeds:
                print(f"{name}: {' '.join(map(str, seeds))}")
        return NOT_RUN if self.lost else int(bool(self.failed))


def run(program, given, client):
    """Runs seeds by a client of a cluster; the status."""
    tasks, totals = tasks_of(program, given), Totals()
    # Workers need no module of this folder.
    futures = client.map(subprocess.run, [words for words, _ in tasks], stdout=subprocess.PIPE,
                         stderr=subprocess.STDOUT, text=True, pure=False)
    for future, (_, seeds) in zip(futures, tasks):
        try:
            text = future.result().stdout
        except Exception as fault:
            died = type(fault).__name__ == "KilledWorker"
            totals.lose(seeds, "each worker that ran them died" if died else f"{type(fault).__name__}: {fault}")
            continue
        if not totals.add(text):
            totals.lose(seeds, text.strip())
    return totals.report()


def main(given):
    if len(given) < 2:
        print(__doc__.strip(), file=sys.stderr)
        return BAD_COMMAND_LINE
    program, address, *words = given
    try:
        tasks_of(program, words)
        client = connected(address)
        try:
            return run(program, words, client)
        finally:
            client.close()
    except BadWords as fault:
        print(f"simulate: {fault}", file=sys.stderr)
        return BAD_COMMAND_LINE


if __name__ == "__main__":
    sys.exit(main(sys.argv[1:]))
