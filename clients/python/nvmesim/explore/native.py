"""Walks all orders inside the program: the library of the folder `walker` does it, in several processes.

It copies the program's memory instead of forking it, and keeps states, orders and their counts outside Python.
Outcomes come back as numbers of texts.
"""
from __future__ import annotations

import os
import signal
import socket
import subprocess
import tempfile
import time
from contextlib import contextmanager
from pathlib import Path
from types import TracebackType
from typing import IO, Dict, Iterator, List, Optional, Tuple, Type

from ..errors import (ConfigurationRefused, NvmesimError, ProgramHangs, ProgramNotFound, ProtocolError, ScriptError,
                      death_of)
from .job import job_of
from .medium import Medium
from .outcomes import Findings, Outcome, Ways, in_one_form, joined
from .plan import Plan
from .walk import Report, Statistics

# All memory is in one heap, whose size stays; and the system itself writes nothing into the program's memory.
_TUNABLES = ("glibc.malloc.mmap_threshold=1073741824:glibc.malloc.top_pad=268435456:"
             "glibc.malloc.trim_threshold=1073741824:glibc.pthread.rseq=0")
MOST_BYTES = 2 << 30
"""The memory that an exploration may have by default."""
_JOB = "NVMESIM_WALK"
_STOPS = {"2": "its memory is used up"}
_EACH = 0.2
_MOST_TOLD = 1 << 16


class Unsuited(NvmesimError):
    """The library can't walk this program or plan: forks can."""


class MemoryExhausted(NvmesimError):
    """The exploration needs more memory than it may have."""

    def __init__(self, why: str) -> None:
        super().__init__(f"more memory is needed than --memory allows: {why}")


class NativeWalk:
    """An exploration by the library.

    Attributes:
        is_whole: whether it went to the end.
        statistics: what it took.
        why: why it was stopped early, in words; empty if it was not, or by the caller.
    """

    def __init__(self, plan: Plan, program: Path, library: Path, medium: Medium, seconds: float, jobs: int,
                 most_bytes: int, report: Report = lambda statistics: None) -> None:
        """Prepares it.

        Args:
            plan: the script with its parts.
            program: the program `nvmelive`.
            library: the library.
            medium: what each order begins with.
            seconds: the time limit of each answer.
            jobs: the number of processes.
            most_bytes: how much memory its tables and copies may have.
            report: is called with the progress, now and then.
        """
        self.plan, self.program, self.library, self.medium = plan, program, library, medium
        self.seconds, self.jobs, self.most_bytes, self.report = seconds, jobs, most_bytes, report
        self.statistics = Statistics()
        self.is_whole, self.why = True, ""

    def explore(self, until: Optional[float] = None) -> Findings:
        """The outcomes of the orders; `until` and Ctrl-C stop it, as `Walk.explore` has it.

        Raises:
            Unsuited: the library can't walk this.
            MemoryExhausted: the orders that it walked can't be counted within its memory.
        """
        with _Running(self) as running, _interrupts_kept():
            return running.found(until)


@contextmanager
def _interrupts_kept() -> Iterator[None]:
    """Keeps Ctrl-C for `_is_interrupted`, so that none comes while a line is parsed."""
    before = signal.pthread_sigmask(signal.SIG_BLOCK, {signal.SIGINT})
    try:
        yield
    finally:
        signal.pthread_sigmask(signal.SIG_SETMASK, before)


def _is_interrupted() -> bool:
    """Whether Ctrl-C was kept, which is then forgotten."""
    is_kept = signal.SIGINT in signal.sigpending()
    if is_kept:
        signal.sigwait({signal.SIGINT})
    return is_kept


class _Running:
    """The process that walks, and its results so far."""

    def __init__(self, walk: NativeWalk) -> None:
        self.walk = walk
        self._texts: List[str] = [""]
        self._found: List[Findings] = []
        self._pending = b""
        self._has_begun = self._is_stopped = False
        self._errors: IO[bytes] = tempfile.TemporaryFile()
        self._ours, theirs = socket.socketpair()
        self._ours.settimeout(_EACH)
        with theirs:
            self._child = self._begun(theirs)

    def __enter__(self) -> _Running:
        return self

    def __exit__(self, kind: Optional[Type[BaseException]], fault: Optional[BaseException],
                 trace: Optional[TracebackType]) -> None:
        self._end()
        self._ours.close()
        self._errors.close()

    def _end(self) -> int:
        """Ends all its processes; the status of the first."""
        if self._child.returncode is None:
            os.killpg(self._child.pid, signal.SIGKILL)  # not waited for yet, so that no other has its number
        return self._child.wait()

    def _begun(self, theirs: socket.socket) -> subprocess.Popen[bytes]:
        walk, image = self.walk, self.walk.medium.fresh()
        words = [os.fspath(walk.program), "-" if image is None else f"/dev/fd/{image}"]
        with tempfile.TemporaryFile() as job:
            job.write(job_of(walk.plan, walk.jobs, walk.most_bytes, walk.seconds).encode("utf-8"))
            job.seek(0)
            files = [job.fileno(), theirs.fileno(), *([] if image is None else [image])]
            try:
                return subprocess.Popen(words, stdin=subprocess.DEVNULL, stdout=subprocess.DEVNULL,
                                        stderr=self._errors, pass_fds=files, start_new_session=True,
                                        env={**os.environ, **_loading(walk.library), _JOB: f"{files[0]} {files[1]}"})
            except OSError as fault:
                self._ours.close()
                self._errors.close()
                raise ProgramNotFound(f"{words[0]} can't be run: {fault.strerror}") from None
            finally:
                if image is not None:
                    os.close(image)

    def _stop(self) -> None:
        """Lets it end with what it has found; at the second time, without."""
        if self._is_stopped:
            raise KeyboardInterrupt
        self._is_stopped = True
        self._ours.shutdown(socket.SHUT_WR)

    def found(self, until: Optional[float]) -> Findings:
        """What it finds."""
        heard = time.monotonic()
        while True:
            is_late = until is not None and time.monotonic() > until
            if _is_interrupted() or is_late and not self._is_stopped:
                self._stop()
            line = self._line()
            if line is not None:
                heard = time.monotonic()
                if self._take(line):
                    return joined(self._found)
            elif time.monotonic() - heard > self.walk.seconds + _EACH:
                raise ProgramHangs(self.walk.seconds, "", self._last_errors())

    def _receive(self) -> bool:
        """Receives more; whether something came in time."""
        try:
            piece = self._ours.recv(1 << 16)
        except socket.timeout:
            return False
        if not piece:
            if not self._has_begun:
                raise Unsuited(f"{self.walk.program} does not load the library")
            raise death_of(self._end(), "", self._last_errors())
        self._pending += piece
        return True

    def _line(self) -> Optional[str]:
        """The next line, if it has come."""
        if b"\n" not in self._pending and not self._receive() or b"\n" not in self._pending:
            return None
        line, _, self._pending = self._pending.partition(b"\n")
        return line.decode("utf-8", "replace")

    def _text(self, size: int) -> str:
        """The text that follows its size."""
        while len(self._pending) < size:
            self._receive()
        text, self._pending = self._pending[:size], self._pending[size:]
        return text.decode("utf-8", "replace")

    def _take(self, line: str) -> bool:
        """Takes a line of the results; whether it is the last."""
        word, _, rest = line.partition(" ")
        walk = self.walk
        if word == "begun":
            self._has_begun = True
            walk.report(walk.statistics)
        elif word == "progress":
            states, positions, events, size = map(int, rest.split(" "))
            walk.statistics.states, walk.statistics.positions = states, positions
            walk.statistics.events = events
            walk.statistics.most_bytes = max(walk.statistics.most_bytes, size)
            walk.report(walk.statistics)
        elif word == "text":
            self._texts.append(self._text(int(rest)))
        elif word == "outcome":
            self._found.append(self._outcome(rest.split(" ")))
        elif word == "fault":
            raise self._fault(*rest.partition(" ")[::2])
        elif word == "end":
            walk.is_whole, walk.why = rest == "0", _STOPS.get(rest, "")
        return word == "end"

    def _outcome(self, words: List[str]) -> Findings:
        """An outcome: its changes, its last answers, its count, and the order that shows it with its answers."""
        changes, last, count, *pairs = words
        order, labels = [], []  # type: Tuple[List[int], List[str]]
        for it in pairs:
            choice, _, label = it.partition(":")
            order.append(int(choice))
            labels.append(self._texts[int(label)])
        by_name = dict(zip((step.name for step in self.walk.plan.steps_of(tuple(order))), labels))
        named = tuple((step.name, by_name[step.name]) for step in self.walk.plan.steps if step.name in by_name)
        outcome = Outcome(named, tuple(map(in_one_form, self._texts[int(last)].splitlines())))
        return {outcome: Ways(int(count, 16), int(changes), tuple(order))}

    def _fault(self, kind: str, why: str) -> NvmesimError:
        """The error that the library reports."""
        if kind == "configuration":
            return ConfigurationRefused(why[len("refused "):])
        if kind == "hangs":
            return ProgramHangs(self.walk.seconds, "", self._last_errors())
        if kind == "died":
            return death_of(int(why), "", self._last_errors())
        if kind == "script":
            return ScriptError(0, why)
        if kind == "protocol":
            return ProtocolError(why)
        return MemoryExhausted(why) if kind == "memory" else Unsuited(why)

    def _last_errors(self) -> str:
        end = self._errors.seek(0, os.SEEK_END)
        self._errors.seek(max(0, end - _MOST_TOLD))
        return self._errors.read().decode("utf-8", "replace")


def _loading(library: Path) -> Dict[str, str]:
    """The environment that loads the library before all else."""
    before = os.environ.get("LD_PRELOAD")
    return {"LD_PRELOAD": f"{library}:{before}" if before else os.fspath(library), "GLIBC_TUNABLES": _TUNABLES}
