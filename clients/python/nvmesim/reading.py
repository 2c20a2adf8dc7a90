"""Parses lines of a script by the program, which has the only grammar, a proved one.

One program parses all scripts. It starts when it is first needed, and ends with this process.
"""
from __future__ import annotations

import atexit
import functools
import os
import threading
from pathlib import Path
from typing import List, Optional, Sequence, Tuple

from .errors import ProtocolError, ScriptError
from .process import PathLike, Process, find_program

_SECONDS = 10.0
_ASKED, _READ, _BLANK = "?line ", "line ", "blank"
_named: List[PathLike] = []


def read_with(program: Optional[PathLike]) -> None:
    """Sets the program that parses lines by default; None for the one that `find_program` finds."""
    _named[:] = [] if program is None else [program]


def words_of(texts: Sequence[str], numbers: Sequence[int], program: Optional[PathLike] = None) -> List[Tuple[str, ...]]:
    """The words of lines in one form: numbers in decimal digits, a host after `0x`, data and bytes as `hex:` without
    the zeros at the end of data; none for a comment or a blank line.

    Args:
        texts: the lines, which the program gets all at once.
        numbers: the number of each in its script.
        program: the program `nvmelive`; None for the one of `read_with`.

    Raises:
        ScriptError: the program does not read a line, with its reason.
        SessionError: the program ended, or does not answer.
    """
    if not texts:
        return []
    named = program if program is not None or not _named else _named[0]
    answers = _reader(find_program(named), os.getpid()).ask([f"{_ASKED}{it}" for it in texts])
    return [_words_in(answer, number) for answer, number in zip(answers, numbers)]


class _Reader:
    """The program over zeros in memory, used only to parse lines. Any thread may use it."""

    def __init__(self, program: Path) -> None:
        self._program = program
        self._lock = threading.Lock()
        self._process: Optional[Process] = None

    def ask(self, lines: Sequence[str]) -> List[str]:
        """The answers of lines, which are all sent first."""
        with self._lock:
            if self._process is None:
                self._process = Process([self._program, "-"], _SECONDS)
            try:
                return self._process.exchange(lines)
            except BaseException:
                self._abandon()
                raise

    def _abandon(self) -> None:
        if self._process is not None:
            self._process.abandon()
            self._process = None

    def end(self) -> None:
        """Ends the program."""
        with self._lock:
            self._abandon()


@functools.lru_cache(maxsize=None)
def _reader(program: Path, process: int) -> _Reader:
    """The reader of a program in this process."""
    made = _Reader(program)
    atexit.register(made.end)
    return made


def _words_in(answer: str, number: int) -> Tuple[str, ...]:
    """The words in an answer of `?line`."""
    if answer.startswith("! "):
        place, _, why = answer[2:].partition(": ")
        if not why or _ASKED.strip() in why:
            raise ProtocolError("the program does not know ?line, so it is older than this package: it has answered "
                                f"{answer!r}")
        raise ScriptError(number, f"{' '.join(place.split(' ')[2:])}: {why}")
    if not answer.startswith(_READ):
        raise ProtocolError(f"{answer!r} does not answer ?line")
    read = answer[len(_READ):]
    return () if read == _BLANK else tuple(read.split(" "))
