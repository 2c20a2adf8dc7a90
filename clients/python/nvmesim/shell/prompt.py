"""The prompt: sends typed lines to the program, and answers those about the session itself."""
from __future__ import annotations

import os
import re
import textwrap
from typing import Callable, Dict, Iterable, Iterator, List

from ..causes import event_cause
from ..errors import ArgumentError, NotDone, NvmesimError, SessionError
from ..files import Output
from ..words import meaning
from .decoded import LOOKS, shown
from .talk import Talk

PROMPT = "> "
"""The prompt."""

_LINE = re.compile(r"\A! line [0-9]+ ")

HELP = {
    "help": "help [WORD]        all lines, or how those are written that begin with WORD",
    "list": "list               what was typed before start, by its numbers",
    "change": "change K LINE      before start: replace line K by LINE",
    "drop": "drop K             before start: without line K",
    "why": "why                what the last event and its answer mean",
    "save": "save FILE          write the session as a script, for nvmesim; FILE must not be there yet",
    "quit": "quit               end the session, as Ctrl-D does",
}
"""The lines that are about the session itself."""


class Shell:
    """What happens with typed lines. Nothing here is printed: each line's answer is returned."""

    def __init__(self, talk: Talk) -> None:
        self._talk = talk
        self._count = 0
        self.is_done = False
        self._own: Dict[str, Callable[[List[str]], Iterable[str]]] = {
            "help": self._help, "list": self._list, "change": self._change, "drop": self._drop, "why": self._why,
            "save": self._save, "quit": self._quit, "exit": self._quit,
        }

    @property
    def words(self) -> List[str]:
        """The words that lines begin with, for the key Tab."""
        return sorted({*self._program_words(), *self._own, *LOOKS})

    def answer(self, line: str) -> List[str]:
        """The answer of a typed line, in one line or more; none for an empty line.

        Raises:
            SessionError: the program ended, or does not answer.
        """
        self._count += 1
        words = line.split()
        if not words:
            return []
        try:
            if words[0] in self._own:
                return list(self._own[words[0]](words[1:]))
            if words[0] in LOOKS:
                return list(shown(self._talk, line))
            return list(self._said(line))
        except SessionError:
            raise
        except ArgumentError:
            return ["! the line is no text"]
        except NvmesimError as fault:
            return [f"! {fault}"]

    def _said(self, line: str) -> Iterator[str]:
        # The program counts what the prompt itself asks too.
        answer = _LINE.sub(f"! line {self._count} ", self._talk.say(line))
        yield answer
        if answer.startswith("refused line"):
            yield "the lines are kept: list shows them, change K LINE and drop K fix them, and start tries again"
            if " DoesNotFit;" in answer and self._talk.is_in_memory:
                yield "for more blocks than the 1,024 in memory: truncate -s 32M disk.img, and ./nvmelive disk.img"

    def _program_words(self) -> List[str]:
        return self._talk.look("?help").split()[1:]

    def _help(self, rest: List[str]) -> Iterator[str]:
        if rest and rest[0] in self._own:
            yield HELP[rest[0] if rest[0] != "exit" else "quit"]
        elif rest and rest[0] in LOOKS:
            yield LOOKS[rest[0]].form
        elif rest:
            _check(rest[0] in self._program_words(), f"there is no line {rest[0]!r}: help names all")
            yield self._talk.look(f"?help {rest[0]}")[len("help "):]
        else:
            words = self._program_words()
            after = words.index("start") + 1
            scripts = [it for it in words[after:] if it[0] != "?"]
            looks = [it for it in words if it[0] == "?" and it != "?help"]
            yield from _folded("before start:", words[:after])
            yield from _folded("after start:", scripts)
            yield from _folded("looks, which change nothing:", [*looks, *LOOKS])
            yield "about the session:"
            yield from (f"    {it}" for it in HELP.values())

    def _list(self, rest: List[str]) -> Iterator[str]:
        _check(not rest, "list takes no words")
        return (f"{n:>3}  {line}" for n, line in enumerate(self._talk.setup, 1))

    def _change(self, rest: List[str]) -> Iterator[str]:
        _check(len(rest) > 1, "change K LINE is how it is written")
        place = self._place(rest[0])
        before = list(self._talk.setup)
        self._talk.change(before[:place])
        answer = self._talk.say(" ".join(rest[1:])) if rest[1:] != ["start"] else "! start takes no words"
        if answer == "ok" and len(self._talk.setup) == place + 1:
            self._talk.change([*self._talk.setup, *before[place + 1:]])
        else:
            self._talk.change(before)
        yield answer

    def _drop(self, rest: List[str]) -> Iterator[str]:
        _check(len(rest) == 1, "drop K is how it is written")
        place = self._place(rest[0])
        self._talk.change(self._talk.setup[:place] + self._talk.setup[place + 1:])
        yield "ok"

    def _place(self, word: str) -> int:
        """The place, from 0, of a line that is listed under this number."""
        _check(not self._talk.is_started, "the session is started, and its lines can't be changed any more")
        is_there = word.isdecimal() and 1 <= int(word) <= len(self._talk.setup)
        _check(is_there, f"there is no line {word}: list shows them")
        return int(word) - 1

    def _why(self, rest: List[str]) -> Iterator[str]:
        _check(not rest, "why takes no words")
        _check(bool(self._talk.events), "no event has happened yet")
        event, configuration = self._talk.events[-1], self._talk.configuration
        cause = event_cause(event, configuration, self._talk.look)
        yield meaning(event, configuration) + (f": {cause}" if cause else "")

    def _save(self, rest: List[str]) -> Iterator[str]:
        _check(len(rest) == 1, "save FILE is how it is written")
        lines = self._talk.script
        _check(not os.path.lexists(rest[0]), f"{rest[0]} exists, and save replaces no file")
        Output(rest[0]).write("".join(f"{it}\n" for it in lines))
        yield f"{len(lines)} lines in {rest[0]}"

    def _quit(self, rest: List[str]) -> Iterator[str]:
        _check(not rest, "quit takes no words")
        self.is_done = True
        return iter(())


def _folded(head: str, words: Iterable[str]) -> Iterator[str]:
    yield head
    yield from textwrap.wrap(" ".join(words), 100, initial_indent="    ", subsequent_indent="    ",
                             break_on_hyphens=False)


def _check(condition: bool, why: str) -> None:
    """Raises `NotDone` with the reason if a condition does not hold."""
    if not condition:
        raise NotDone(why)
