"""Scripts: the lines that describe the subsystem, and the events. The program parses them."""
from __future__ import annotations

import enum
from dataclasses import dataclass
from functools import cached_property
from typing import Dict, Iterable, Iterator, List, Optional, Tuple

from .errors import ScriptError
from .process import PathLike
from .reading import words_of

ADMIN_VERBS = ("identify", "protect", "protection", "attach", "detach")
IO_VERBS = ("read", "write", "compare", "zeroes", "flush", "register", "acquire", "release", "report")
REQUEST_VERBS = ADMIN_VERBS + IO_VERBS
EVENT_VERBS = REQUEST_VERBS + ("up", "ring", "fetch", "execute", "poll", "reset", "store", "write32",
                               "powercycle")

MOST_BLOCKS = 256
"""The most blocks that a Read, Write or Compare has."""

ANY_SIZE = "# nvmesim --any-size"
"""The first line of a script whose namespaces may have more than 65,536 blocks: the option that its programs need."""

_DATA_AT = {"write": 5, "compare": 5, "store": 3}


def is_any_size(script: str) -> bool:
    """Whether the first line of a script allows namespaces of any size."""
    return script.partition("\n")[0].rstrip("\r") == ANY_SIZE


class LineKind(enum.Enum):
    """What a line of a script is."""

    BLANK = "blank"
    COMMENT = "comment"
    CONFIGURATION = "configuration"
    START = "start"
    EVENT = "event"


@dataclass(frozen=True)
class ScriptLine:
    """A line of a script.

    Attributes:
        number: its place, from 1.
        text: the line as it is, without its line feed.
        kind: what it is.
        words: its words in the one form of `reading.words_of`, none for a comment.
    """

    number: int
    text: str
    kind: LineKind
    words: Tuple[str, ...] = ()

    @cached_property
    def verb(self) -> str:
        """Its first word."""
        return self.words[0]

    @cached_property
    def controller(self) -> int:
        """The controller that an event names; 0, which no controller has, for an event of all."""
        return 0 if self.is_of_all else number_taken(self.words[1])

    @property
    def is_power_cycle(self) -> bool:
        """Whether it is a power cycle, the event that names no controller and is one of all."""
        return self.verb == "powercycle"

    @property
    def is_crash(self) -> bool:
        """Whether it is a crash of the program, which only explorations have."""
        return self.verb == "crash"

    @cached_property
    def is_of_all(self) -> bool:
        """Whether it names no controller, and is an event of all."""
        return self.is_power_cycle or self.is_crash

    @cached_property
    def sent(self) -> str:
        """It as a program is sent it, with single spaces."""
        return self.verb if self.is_crash else " ".join(self.text.split())

    @property
    def is_request(self) -> bool:
        """Whether it asks a driver to place a command."""
        return self.kind is LineKind.EVENT and self.verb in REQUEST_VERBS

    @property
    def queue(self) -> int:
        """The queue that a request's command goes to: 0 for admin commands, else 1."""
        return 0 if self.verb in ADMIN_VERBS else 1

    def numbers(self) -> List[int]:
        """The numbers after the verb, in order; data are left out."""
        return list(self._numbers)

    @cached_property
    def _numbers(self) -> Tuple[int, ...]:
        return tuple(number_taken(it) for n, it in enumerate(self.words) if n and n != _DATA_AT.get(self.verb))

    def data(self) -> bytes:
        """The bytes that a `store` spells, or a `write` or `compare` that the program has read: without the zeros at
        their end."""
        return bytes.fromhex(self.words[_DATA_AT[self.verb]].partition(":")[2])


def number_taken(word: str) -> int:
    """A number that the program has taken."""
    return int(word, 16) if word.startswith("0x") else int(word)


def read_lines(text: str, is_started: bool = False, program: Optional[PathLike] = None) -> Iterator[ScriptLine]:
    """The lines of a script, in order, as the program reads them.

    Args:
        text: the script.
        is_started: whether the text continues after `start`.
        program: the program `nvmelive`; None for the one of `reading.read_with`.

    Raises:
        ScriptError: the program does not read a line, or it is on the wrong side of `start`.
        SessionError: the program ended, or does not answer.
    """
    lines = text.split("\n")
    texts = lines[:-1] if lines[-1] == "" else lines
    asked = [n for n, it in enumerate(texts) if it and not it.startswith("#")]
    try:
        words = dict(zip(asked, words_of([texts[n] for n in asked], [n + 1 for n in asked], program)))
    except ScriptError as fault:
        raise ScriptError(fault.number, fault.why + _hint(texts[fault.number - 1])) from None
    for n, line in enumerate(texts):
        if line.startswith("#"):
            yield ScriptLine(n + 1, line, LineKind.COMMENT)
        elif not words.get(n):
            yield ScriptLine(n + 1, line, LineKind.BLANK)
        else:
            kind = _kind_of(n + 1, words[n][0], is_started)
            is_started = is_started or kind is LineKind.START
            yield ScriptLine(n + 1, line, kind, _with_blocks(words[n], line))


def _with_blocks(words: Tuple[str, ...], line: str) -> Tuple[str, ...]:
    """The words of a line with its BLOCKS as written: the program reads a number that no command can express as 0."""
    if words[0] not in ("write", "compare") or words[4] != "0":
        return words
    return (*words[:4], str(number_taken(line.split()[4])), words[5])


def _hint(line: str) -> str:
    """A hint for a line that is not understood."""
    return "; a comment has a line of its own, which begins with '#'" if " #" in line else ""


def _kind_of(number: int, verb: str, is_started: bool) -> LineKind:
    """What a line with this verb is; refuses what can't be there."""
    is_event = verb in EVENT_VERBS
    if is_event != is_started:
        raise ScriptError(number, f"{verb} is not allowed {'after' if is_started else 'before'} start")
    if is_event:
        return LineKind.EVENT
    return LineKind.START if verb == "start" else LineKind.CONFIGURATION


def events_of(lines: Iterable[ScriptLine]) -> List[ScriptLine]:
    """The lines that print one, in order."""
    return [it for it in lines if it.kind is LineKind.EVENT]


@dataclass(frozen=True)
class Configuration:
    """The configuration: a script's lines before `start`.

    Attributes:
        hosts: each controller's host identifier.
        raw: the controllers that belong to raw hosts.
        namespaces: each namespace's count of blocks.
    """

    hosts: Dict[int, int]
    raw: Tuple[int, ...]
    namespaces: Dict[int, int]

    @property
    def blocks(self) -> int:
        """The blocks of the medium that its namespaces take."""
        return sum(self.namespaces.values())


def configuration_of(lines: Iterable[ScriptLine]) -> Configuration:
    """What a script describes. The program judges it."""
    hosts: Dict[int, int] = {}
    raw: List[int] = []
    namespaces: Dict[int, int] = {}
    for line in lines:
        if line.kind is not LineKind.CONFIGURATION:
            continue
        if line.verb == "controller":
            hosts[number_taken(line.words[1])] = number_taken(line.words[3])
            raw += [number_taken(line.words[1])] if line.words[-1] == "raw" else []
        elif line.verb == "namespace":
            namespaces[number_taken(line.words[1])] = number_taken(line.words[3])
    return Configuration(hosts, tuple(raw), namespaces)
