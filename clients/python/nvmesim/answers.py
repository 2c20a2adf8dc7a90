"""Parsed answers of events: a dataclass for each line that a transcript can have."""
from __future__ import annotations

import re
from dataclasses import dataclass
from typing import Callable, Dict, List, Optional, Union

from .enums import ExecuteOutcome, PollOutcome, Refusal, Rule, Status, UpOutcome
from .errors import ProtocolError

BLOCK_BYTES = 512
"""The bytes of a block."""


@dataclass(frozen=True)
class Up:
    """`up C ..`: the result of bringing the driver up; `status` is set if one of its commands was refused."""

    controller: int
    outcome: UpOutcome
    status: Optional[Status] = None


@dataclass(frozen=True)
class Placed:
    """`placed C T`: the driver placed a request under this ticket, counted from 1."""

    controller: int
    ticket: int


@dataclass(frozen=True)
class Refused:
    """`refused C ..`: the driver did not place a request, and nothing changed."""

    controller: int
    refusal: Refusal


@dataclass(frozen=True)
class Rung:
    """`rung C`: the driver wrote the doorbells for everything that was placed; or it was not up."""

    controller: int
    is_up: bool


@dataclass(frozen=True)
class Fetched:
    """`fetch C Q ..`: whether the controller took a command from queue Q."""

    controller: int
    queue: int
    took: bool


@dataclass(frozen=True)
class Executed:
    """`execute C I ..`: status and rule are set if a completion was posted."""

    controller: int
    place: int
    outcome: ExecuteOutcome
    status: Optional[Status] = None
    rule: Rule = Rule.NONE


@dataclass(frozen=True)
class Polled:
    """`poll C ..`: what the driver delivered.

    `value` is double word 0 of the answer; `data` are all bytes that a Read, a report or an Identify returned,
    including the zeros that the transcript leaves out.
    """

    controller: int
    outcome: PollOutcome
    ticket: Optional[int] = None
    status: Optional[Status] = None
    value: int = 0
    data: Optional[bytes] = None


@dataclass(frozen=True)
class Reset:
    """`reset C`: driver and controller are down."""

    controller: int


@dataclass(frozen=True)
class Stored:
    """`stored C`, or `outside C` if the bytes are outside the window and nothing was stored."""

    controller: int
    is_inside: bool


@dataclass(frozen=True)
class Wrote32:
    """`wrote32 C`: a raw host wrote a register."""

    controller: int


@dataclass(frozen=True)
class PowerCycled:
    """`powercycle`: power was lost in the whole subsystem and came back; all drivers and controllers are down."""


@dataclass(frozen=True)
class NotThere:
    """`nocontroller C`, `nodriver C` or `notraw C`: the line isn't one for this controller, and nothing happened."""

    controller: int
    why: str


Answer = Union[Up, Placed, Refused, Rung, Fetched, Executed, Polled, Reset, Stored, Wrote32, PowerCycled, NotThere]

_NUMBER = re.compile(r"(?:0|[1-9][0-9]*)\Z")
_VALUE = re.compile(r"[0-9a-f]{8}\Z")
_HEX = re.compile(r"(?:[0-9a-f]{2})+\Z")


def number_in(word: str) -> int:
    """A decimal number without a sign. Raises `ProtocolError` for anything else."""
    if not _NUMBER.match(word):
        raise ProtocolError(f"a number was expected, not {word!r}")
    return int(word)


def data_in(length: str, digits: str) -> bytes:
    """Bytes in the form of answers: their number, then hexadecimal digits without trailing zero bytes, or `-`."""
    size = number_in(length)
    if digits != "-" and not _HEX.match(digits):
        raise ProtocolError(f"hexadecimal digits were expected, not {digits!r}")
    spelled = b"" if digits == "-" else bytes.fromhex(digits)
    if len(spelled) > size:
        raise ProtocolError(f"{len(spelled)} bytes came instead of {size}")
    return spelled + bytes(size - len(spelled))


def status_in(word: str) -> Status:
    """A status as transcripts have it, such as `0:83`."""
    status = Status.of(word)
    if status is None:
        raise ProtocolError(f"{word!r} is no status of this subsystem")
    return status


def _up(words: List[str]) -> Answer:
    controller, outcome = number_in(words[0]), UpOutcome(words[1])
    if outcome is UpOutcome.REFUSED:
        (status,) = words[2:]
        return Up(controller, outcome, status_in(status))
    () = words[2:]
    return Up(controller, outcome)


def _placed(words: List[str]) -> Answer:
    controller, ticket = words
    return Placed(number_in(controller), number_in(ticket))


def _refused(words: List[str]) -> Answer:
    controller, refusal = words
    return Refused(number_in(controller), Refusal(refusal))


def _rung(words: List[str]) -> Answer:
    if words[1:] not in ([], ["NotUp"]):
        raise ValueError
    return Rung(number_in(words[0]), len(words) == 1)


def _fetch(words: List[str]) -> Answer:
    controller, queue, took = words
    return Fetched(number_in(controller), number_in(queue), {"took": True, "idle": False}[took])


def _execute(words: List[str]) -> Answer:
    controller, place, outcome = number_in(words[0]), number_in(words[1]), ExecuteOutcome(words[2])
    if outcome is ExecuteOutcome.POSTED:
        status, rule = words[3:]
        return Executed(controller, place, outcome, status_in(status), Rule(number_in(rule)))
    () = words[3:]
    return Executed(controller, place, outcome)


_WITHOUT_TICKET = {it.value: it for it in (PollOutcome.NOTHING, PollOutcome.NOT_UP, PollOutcome.UNKNOWN_COMMAND)}


def _poll(words: List[str]) -> Answer:
    controller = number_in(words[0])
    if len(words) == 2:
        return Polled(controller, _WITHOUT_TICKET[words[1]])
    ticket = number_in(words[1])
    if words[2:] == ["aborted"]:
        return Polled(controller, PollOutcome.ABORTED, ticket)
    status, value = words[2:4]
    if not _VALUE.match(value) or len(words) not in (4, 6):
        raise ValueError
    data = data_in(words[4], words[5]) if len(words) == 6 else None
    return Polled(controller, PollOutcome.ANSWERED, ticket, status_in(status), int(value, 16), data)


def _reset(words: List[str]) -> Answer:
    (controller,) = words
    return Reset(number_in(controller))


def _wrote32(words: List[str]) -> Answer:
    (controller,) = words
    return Wrote32(number_in(controller))


def _power_cycled(words: List[str]) -> Answer:
    () = words
    return PowerCycled()


def _stored(is_inside: bool) -> Callable[[List[str]], Answer]:
    def parse(words: List[str]) -> Answer:
        (controller,) = words
        return Stored(number_in(controller), is_inside)
    return parse


def _not_there(why: str) -> Callable[[List[str]], Answer]:
    def parse(words: List[str]) -> Answer:
        (controller,) = words
        return NotThere(number_in(controller), why)
    return parse


_FORMS: Dict[str, Callable[[List[str]], Answer]] = {
    "up": _up,
    "placed": _placed,
    "refused": _refused,
    "rung": _rung,
    "fetch": _fetch,
    "execute": _execute,
    "poll": _poll,
    "reset": _reset,
    "stored": _stored(True),
    "outside": _stored(False),
    "wrote32": _wrote32,
    "powercycle": _power_cycled,
    "nocontroller": _not_there("nocontroller"),
    "nodriver": _not_there("nodriver"),
    "notraw": _not_there("notraw"),
}


def parse_answer(text: str) -> Answer:
    """Parses a line of a transcript, without its line feed.

    Raises:
        ProtocolError: no event has this answer.
    """
    words = text.split(" ")
    form = _FORMS.get(words[0])
    if form is None:
        raise ProtocolError(f"not understood: {text!r}")
    try:
        return form(words[1:])
    except ProtocolError as fault:
        raise ProtocolError(f"not understood: {text!r}: {fault}") from None
    except (ValueError, KeyError, IndexError):
        raise ProtocolError(f"not understood: {text!r}") from None
