"""Programs that wait after the events of an order. A program is forked there, or its events are run again.

The library forks a program that waits for a line: the fork gets the memory, and a copy of the image if any.
Without the library a branch is a new program, to which the events so far are sent again.
"""
from __future__ import annotations

import os
import signal
import socket
import subprocess
import tempfile
from pathlib import Path
from types import TracebackType
from typing import IO, Callable, Collection, Dict, List, Optional, Protocol, Sequence, Set, Tuple, Type

from ..errors import (ConfigurationRefused, NvmesimError, ProgramHangs, ProgramNotFound, ProtocolError, ScriptError,
                      death_of)
from .channels import Channel, Ended, wait_for
from .marks import CRASH
from .medium import Medium

MOST_BRANCHES = 256
"""The largest number of programs that wait at once."""
_HEADS = ("ok", "started")
_MOST_TOLD = 1 << 16
_LARGE_PAGES = "glibc.malloc.hugetlb=1:glibc.malloc.mmap_threshold=1073741824:glibc.malloc.top_pad=4194304"


class NoFork(NvmesimError):
    """The program can't be forked."""


class Branch(Protocol):
    """A subsystem that waits after some events of an order."""

    @property
    def calls_left(self) -> int:
        """The call of its image that fails, counted from now; 0 if none does."""

    def end_faults(self) -> None:
        """From now on no call of its image fails."""

    def ask(self, lines: Sequence[str]) -> None:
        """Sends lines; `Branches.wait` returns the answers."""

    def fork(self) -> Branch:
        """A fork of this branch."""

    def close(self) -> None:
        """Ends it."""


class Branches(Protocol):
    """Subsystems that an exploration can fork.

    Attributes:
        can_fork: whether a branch can be forked; else it can only continue.
        live: how many branches there are.
    """

    can_fork: bool

    @property
    def live(self) -> int:
        """How many branches there are."""

    def begin(self, lines: Sequence[str] = ()) -> Branch:
        """A branch that waits after these events, which it runs with its first question."""

    def reopen(self, branch: Branch) -> Branch:
        """Ends a branch like a crash. Returns a new branch over its medium."""

    def wait(self, asked: Collection[Branch]) -> List[Tuple[Branch, List[str]]]:
        """Waits for answers of branches. Returns the branches with their answers."""


class _Program:
    """A branch that is a program."""

    def __init__(self, owner: Programs, channel: Channel, image: Optional[int],
                 child: Optional[subprocess.Popen[bytes]] = None) -> None:
        self.owner, self.channel, self.image, self.child = owner, channel, image, child
        self.owed: List[str] = []  # lines to run first, whose answers are ignored
        owner.branches.add(self)

    @property
    def calls_left(self) -> int:
        return self.channel.calls_left

    def end_faults(self) -> None:
        self.channel.let_fail(0)

    def ask(self, lines: Sequence[str]) -> None:
        self.channel.ask([*self.owed, *lines])

    def fork(self) -> Branch:
        return self.forked(self.image)

    def forked(self, image: Optional[int]) -> _Program:
        """A copy of the program, over a copy of this image."""
        ours, theirs = socket.socketpair()
        image = None if image is None else self.owner.medium.copy_of(image)
        with theirs:
            self.channel.send_word([theirs.fileno(), *([] if image is None else [image])])
        branch = _Program(self.owner, Channel(ours), image)
        branch.channel.calls_left = self.channel.calls_left
        return branch

    def close(self) -> None:
        self.owner.branches.discard(self)
        self.channel.close()
        if self.image is not None:
            os.close(self.image)
        if self.child is not None and not self.owner.can_fork:
            self.child.kill()
            self.child.wait()


class Programs:
    """Branches that are programs. Use it in a `with`; at its end all of them end.

    Attributes:
        can_fork: whether they are forked.
        branches: all that wait or run.
    """

    def __init__(self, program: Path, setup: Sequence[str], seconds: float, medium: Optional[Medium] = None,
                 library: Optional[Path] = None, tell: Callable[[str], None] = lambda why: None,
                 fails: int = 0) -> None:
        """Takes what each program is.

        Args:
            program: the program `nvmelive`.
            setup: the lines that set its subsystem up.
            seconds: the time limit of each answer.
            medium: what each begins with; None for zeros in memory.
            library: the library that forks it; None to run orders again.
            tell: receives the reason why programs can't be forked although there is a library.
            fails: the call of the image that fails, 0 for none; only if they can be forked.
        """
        self.program, self.setup, self.seconds, self.fails = program, list(setup), seconds, fails
        self.medium = medium or Medium()
        self.can_fork, self._library, self._tell = library is not None, library, tell
        self.branches: Set[_Program] = set()
        self._errors: IO[bytes] = tempfile.TemporaryFile()
        self._base: Optional[_Program] = None

    def __enter__(self) -> Programs:
        return self

    def __exit__(self, kind: Optional[Type[BaseException]], fault: Optional[BaseException],
                 trace: Optional[TracebackType]) -> None:
        self.close()

    def close(self) -> None:
        """Ends all programs, and those that do not end too."""
        base = self._base
        if base is not None and base.child is not None and self.can_fork:
            os.killpg(base.child.pid, signal.SIGKILL)  # not waited for yet, so that no other has its number
            base.child.wait()
        for it in list(self.branches):
            it.close()
        self._base = None
        self._errors.close()

    @property
    def live(self) -> int:
        return len(self.branches)

    def begin(self, lines: Sequence[str] = ()) -> Branch:
        """A branch after the setup and these events.

        Raises:
            ConfigurationRefused: the setup has a fault.
            SessionError: the program ended, or does not answer.
        """
        if not self.can_fork:
            branch = self._started()
        else:
            if self._base is None:
                self._base = self._started()
                if self.fails and self.can_fork:
                    self._base.channel.let_fail(self.fails)
            if not self.can_fork:
                branch, self._base = self._base, None
            else:
                branch = self._base.forked(self._base.image)
        return self._continued(branch, list(lines))

    def _continued(self, branch: _Program, lines: List[str]) -> _Program:
        """A branch after these events too, the last of which it runs with its first question."""
        while CRASH in lines:
            place = lines.index(CRASH)
            if place:
                branch.ask(lines[:place])
                self._answered(branch)
            branch, lines = self.reopen(branch), lines[place + 1:]
        branch.owed = lines
        return branch

    def reopen(self, branch: Branch) -> _Program:
        """Ends a branch, and starts a program over its image."""
        assert isinstance(branch, _Program)
        if branch.owed:
            branch.ask(())
            self._answered(branch)
        opened = self._started(branch.image) if self._base is None else self._base.forked(branch.image)
        branch.close()
        return opened

    def _started(self, left: Optional[int] = None) -> _Program:
        """A new program after the setup, over a new medium or a copy of one. Without a greeting it has no library, so
        it can't be forked."""
        ours, theirs = socket.socketpair()
        image = self.medium.fresh() if left is None else self.medium.copy_of(left)
        kept = [] if image is None else [image]
        words = [os.fspath(self.program), "-" if image is None else f"/dev/fd/{image}"]
        loaded = {} if self._library is None else _loading(self._library)
        with theirs:
            try:
                child = subprocess.Popen(words, stdin=theirs, stdout=theirs, stderr=self._errors, pass_fds=kept,
                                         env={**os.environ, **loaded}, start_new_session=True)
            except OSError as fault:
                ours.close()
                raise ProgramNotFound(f"{words[0]} can't be run: {fault.strerror}") from None
        branch = _Program(self, Channel(ours), image, child)
        branch.channel.has_greeted = self._library is None
        try:
            branch.ask(self.setup)
            [(_, answers)] = self._answered(branch)
            _check_setup(self.setup, answers)
        except BaseException:
            self.can_fork = False
            branch.close()
            raise
        if self.can_fork and not branch.channel.has_greeted:
            self.can_fork = False
            if self.fails:
                raise NoFork(f"{words[0]} can't be forked, so no call of its image can fail")
            self._tell(f"{words[0]} can't be forked: orders are run again from the start, which is slower")
        return branch

    def _answered(self, branch: _Program) -> List[Tuple[Branch, List[str]]]:
        """Waits for one branch."""
        while not (found := self.wait([branch])):
            pass
        return found

    def wait(self, asked: Collection[Branch]) -> List[Tuple[Branch, List[str]]]:
        """Waits for answers.

        Raises:
            ScriptError: a line is outside the grammar.
            SessionError: a program ended, or does not answer.
        """
        by_channel: Dict[Channel, _Program] = {it.channel: it for it in asked if isinstance(it, _Program)}
        came, late = wait_for(by_channel, self.seconds)
        if late:
            raise ProgramHangs(self.seconds, late[0].line, self._last_errors())
        found: List[Tuple[Branch, List[str]]] = []
        for channel in came:
            branch = by_channel[channel]
            try:
                answers = channel.receive()
            except Ended:
                raise self._end_of(branch) from None
            if answers is not None:
                _check(channel, answers)
                found.append((branch, answers[len(branch.owed):]))
                branch.owed = []
        return found

    def _end_of(self, branch: _Program) -> NvmesimError:
        """The error for a program that ended."""
        if branch.child is None and not branch.channel.has_greeted:
            return NoFork("the system lets no more programs be forked: try fewer with --jobs 1")
        status = None
        if branch.child is not None:
            try:
                status = branch.child.wait(1.0)
            except subprocess.TimeoutExpired:
                pass
        return death_of(status, branch.channel.line, self._last_errors())

    def _last_errors(self) -> str:
        """The last part of standard error."""
        end = self._errors.seek(0, os.SEEK_END)
        self._errors.seek(max(0, end - _MOST_TOLD))
        return self._errors.read().decode("utf-8", "replace")


def _loading(library: Path) -> Dict[str, str]:
    """The environment that loads the library before all else; with large pages, of which there are fewer to copy."""
    before = os.environ.get("LD_PRELOAD")
    return {"LD_PRELOAD": f"{library}:{before}" if before else os.fspath(library),
            "GLIBC_TUNABLES": os.environ.get("GLIBC_TUNABLES", _LARGE_PAGES)}


def _check_setup(setup: Sequence[str], answers: Sequence[str]) -> None:
    """Refuses a program that does not take the setup."""
    for line, answer in zip(setup, answers):
        if answer not in _HEADS:
            raise ProtocolError(f"{line!r} was answered {answer!r}, and neither ok nor started")


def _check(channel: Channel, answers: Sequence[str]) -> None:
    """Raises the error of a refused line."""
    for line, answer in zip(channel.lines, answers):
        if answer.startswith("refused line"):
            raise ConfigurationRefused(answer[len("refused "):])
        if answer.startswith("!"):
            raise ScriptError(0, f"{line!r} was answered {answer!r}")
