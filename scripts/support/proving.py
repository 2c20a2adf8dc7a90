"""Proves crates side by side, over what earlier runs kept, and keeps what it proves."""
import os
import shutil
import subprocess
import tempfile
import threading
import time
from concurrent.futures import ThreadPoolExecutor
from contextlib import contextmanager
from pathlib import Path

from support.proof_seconds import seconds_of

# What a job of the prover takes of memory, in bytes.
JOB_MEMORY = 1_200_000_000
# What the first program waits for comes before the rest: it begins first, as if its proof took this factor longer, and
# the rest has a lower priority by this number.
FIRST = 4
LOWER = 5


def cone_of(wanted):
    """The crates and all that they depend on, lowest first."""
    found = []
    for crate in wanted:
        found += [it for it in [*crate.below(), crate] if it not in found]
    return sorted(found, key=lambda it: len(it.below()))


def newest_source(crate):
    """When a source of the crate was last changed."""
    parts = ("src", "specs", "proofs")
    times = [it.stat().st_mtime for part in parts for it in Path(crate.folder, part).rglob("*") if it.is_file()]
    return max(times, default=0)


def is_left_by_ci(crate):
    """Whether the crate's library is one that `rt ci` built, and no source of it or below is newer."""
    library = Path(crate.rlib)
    if not library.is_dir() or (library.parent / "stamp").exists():
        return False
    # What an earlier run on this machine built is put there by links, as old as they are, in a folder that is new.
    return all(newest_source(it) < library.stat().st_mtime for it in [*crate.below(), crate])


def side_by_side(rt, work, first, jobs):
    """Runs `work(crate)` for each crate of a list, lowest first, side by side if they don't wait for one another,
    and those of the names in `first` before the others; it gives whether all was well, and is not run for what is on a
    crate if it was not."""
    crates, call = work
    if jobs:
        rt.processors = lambda: jobs
    # Some kits of the toolchain give the processors that are idle to tasks that are called a proof, and to no other.
    keys = {it.name: (it.name, "proof") for it in crates}

    def task(crate):
        waits = [keys[it.name] for it in crate.below() if it.name in keys]
        seconds = seconds_of(crate) * (FIRST if crate.name in first else 1)
        return (waits, seconds, rt.need(crate),
                lambda given, jobs: all(given[it] for it in waits) and call(crate, jobs))

    return all(rt.in_lanes({keys[it.name]: task(it) for it in crates}).values())


# Threads write a line at a time.
WRITING = threading.Lock()


def say(text):
    """Prints a whole line at once."""
    with WRITING:
        print(text, flush=True)


class Progress:
    """Prints which crate of how many is done, and after how many minutes."""

    def __init__(self, count, tell):
        self.count, self.tell, self.done, self.begun = count, tell, 0, time.monotonic()

    def begin(self, name):
        self.tell(f"{name}: begun, {self.done} of {self.count} crates done, {self.minutes()} minutes so far")

    def end(self, name, words):
        self.done += 1
        self.tell(f"{name}: {words}, {self.done} of {self.count} crates, {self.minutes()} minutes so far")

    def minutes(self):
        return f"{(time.monotonic() - self.begun) / 60:.1f}"


def build(rt, crate, flags):
    """Proves and builds a crate: a library, a static one or a program; whether it did."""
    Path(crate.folder, "out").mkdir(exist_ok=True)
    if crate.is_static:
        return crate.build_static(flags) == 0
    if not crate.is_program:
        return crate.build_rlib(flags, anew=False) == 0
    # The toolchain runs what it has built in the crate's folder; `true` replaces it, since runs_well prepares the program's files.
    return crate.run(flags, [], executable=shutil.which("true"), input=b"", timeout=rt.rtlib.LIMIT) == 0


def runs_well(rt, crate):
    """Runs a built program as `rt ci` does, in a copy of the crate's folder data/, on its input and its words; whether
    its output is the crate's stdout, and its status is right."""
    words = (crate.stream("args") or b"").decode().splitlines()
    status = int(crate.stream("status") or crate.said.get("status", 0))
    with tempfile.TemporaryDirectory() as room:
        data, kept = Path(room, "data"), Path(crate.folder, "data")
        if kept.is_dir():
            shutil.copytree(kept, data)
        else:
            data.mkdir()
        try:
            ran = subprocess.run([str(Path(crate.folder, "out", crate.name).resolve()), *words], cwd=data,
                                 input=crate.stream("stdin") or b"", stdout=subprocess.PIPE, timeout=rt.rtlib.LIMIT,
                                 check=False)
        except subprocess.TimeoutExpired:
            return False
    return ran.returncode == status and ran.stdout == (crate.stream("stdout") or b"")


def outcome(rt, crate, flags):
    """The result of a crate: whether it succeeded, and the words for it."""
    if not build(rt, crate, flags):
        return False, "NOT PROVED"
    if crate.is_program and not runs_well(rt, crate):
        return False, "proved and built, and its run is WRONG"
    return True, "proved and built" if crate.is_program or crate.is_static else "proved"


class Processors:
    """The processors, of which crates that are proved side by side have some each."""

    def __init__(self, rt):
        self.rt, self.taken, self.counting = rt, 0, threading.Lock()

    @contextmanager
    def some(self, least):
        """As many jobs as there are processors that no other crate has and that memory is free for, and at least
        `least`. A crate keeps those that it begins with. By two jobs a proof takes two fifths more of processors than
        by one."""
        with self.counting:
            idle = min(self.rt.processors() - self.taken, self.rt.free() // JOB_MEMORY)
            jobs = max(least, idle)
            self.taken += jobs
        try:
            yield jobs
        finally:
            with self.counting:
                self.taken -= jobs


def lowly(call):
    """The same call, in a thread of lower priority, which the programs have too that it starts."""
    def run(*given):
        with ThreadPoolExecutor(1, initializer=os.nice, initargs=(LOWER,)) as alone:
            return alone.submit(call, *given).result()

    return run


def prove(rt, wanted, jobs, tell, log):
    """Proves the crates and all that they depend on, side by side, and keeps the work of each in its out/. What is a
    program or a static library is built there, and a program is run; what the first one waits for comes before the
    rest."""
    crates = cone_of(wanted)
    lacking = [it for it in crates if it.is_program or not it.is_built()]
    progress, processors = Progress(len(lacking), tell), Processors(rt)
    first = {it.name for it in cone_of([it for it in wanted if it.is_program][:1] or wanted)}

    def prove_one(crate, least):
        progress.begin(crate.name)
        with processors.some(least) as jobs, tempfile.TemporaryFile("w+", errors="replace") as crate.out:
            is_well, words = outcome(rt, crate, ["--jobs", str(jobs)])
            crate.out.seek(0)
            with WRITING:
                log.write(f"== {crate.name}\n")
                shutil.copyfileobj(crate.out, log)
                log.flush()
        crate.out = log
        progress.end(crate.name, words)
        return is_well

    def build_in_turn(crate, least):
        return (prove_one if crate.name in first else lowly(prove_one))(crate, least)

    held = rt.rtlib.lock(lacking)
    is_well = side_by_side(rt, (lacking, build_in_turn), first, jobs)
    for it in held:
        rt.rtlib.os.close(it)
    return is_well
