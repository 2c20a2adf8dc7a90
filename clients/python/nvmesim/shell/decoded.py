"""Queries that decode their answers: `?controllers`, `?report`, `?identify`, `?status` and `?read32`."""
from __future__ import annotations

from typing import Callable, Dict, Iterator, List, NamedTuple, Tuple

from .. import lines, looks
from ..answers import Fetched, Placed, Polled, Up, parse_answer
from ..enums import ReservationType, UpOutcome
from ..errors import NotDone, ScriptError
from ..process import Process
from ..words import hexadecimal, host_words, register_words, status_words
from .identify import identify_lines
from .statuses import status_lines
from .talk import Talk

_PROTECTED = ("not write protected", "write protected", "write protected until a power cycle")


class Look(NamedTuple):
    """A query: its syntax, the least and the greatest number of words after its own, and what it shows."""

    form: str
    counts: Tuple[int, int]
    shown: Callable[[Talk, List[str]], Iterator[str]]


def shown(talk: Talk, line: str) -> Iterator[str]:
    """The lines that a query prints.

    Raises:
        NotDone: there is nothing to query, or a word is invalid.
    """
    word, *rest = line.split()
    look = LOOKS[word]
    if not look.counts[0] <= len(rest) <= look.counts[1]:
        raise NotDone(f"{look.form} is how it is written")
    if word != "?status" and not talk.is_started:
        raise NotDone("nothing is started yet")
    try:
        yield from look.shown(talk, rest)
    except ScriptError as fault:
        raise NotDone(f"{fault.why.split(': ', 1)[-1]}: {look.form}") from None


def _controllers(talk: Talk, _: List[str]) -> Iterator[str]:
    attached = looks.attached(talk.look("?attached"))
    for number, host in sorted(talk.configuration.hosts.items()):
        state = "a raw host's"
        if number not in talk.configuration.raw:
            driver = looks.driver(talk.look(f"?driver {number}"), number)
            waiting = len(driver.tickets)
            state = f"its driver is {driver.state}, {waiting} request{'' if waiting == 1 else 's'} without an answer"
        fetched = len(looks.fetched(talk.look(f"?fetched {number}"), number))
        spaces = [str(nsid) for controller, nsid in attached if controller == number]
        yield (f"controller {number} of {host_words(host)}: {state}; {fetched} fetched; "
               f"namespaces {', '.join(spaces) or 'none'}")


def _report(talk: Talk, rest: List[str]) -> Iterator[str]:
    _, nsid = talk.numbers(f"flush 1 {rest[0]}")
    told = looks.reservation(talk.look(f"?reservation {nsid}"), nsid)
    if told.rtype is ReservationType.NONE:
        held = "nobody holds it"
    else:
        who = "all registrants" if told.holder is None else host_words(told.holder)
        held = f"{told.rtype.text} (RTYPE {int(told.rtype)}), held by {who}"
    persists = "persists through a loss of power" if told.persists else "does not persist through a loss of power"
    yield f"namespace {nsid}: {held}; generation {told.generation}; {persists}; {_PROTECTED[int(told.protection)]}"
    for host, key in told.registrants.items():
        numbers = [str(number) for number, it in sorted(talk.configuration.hosts.items()) if it == host]
        holds = told.holder == host or told.is_held_by_all and told.rtype is not ReservationType.NONE
        yield (f"    {host_words(host)} with key {hexadecimal(key)}{', a holder' if holds else ''}; "
               f"controller{'' if len(numbers) == 1 else 's'} {', '.join(numbers)}")


def _identify(talk: Talk, rest: List[str]) -> Iterator[str]:
    controller, cns, nsid = talk.numbers(" ".join(("identify", *(*rest, "0")[:3])))
    if controller not in talk.configuration.hosts:
        raise NotDone(f"there is no controller {controller}")
    if controller in talk.configuration.raw:
        raise NotDone(f"controller {controller} is a raw host's, and has no driver that could ask it")
    with talk.copy() as process:
        yield from identify_lines(cns, _identified(process, controller, cns, nsid))


def _identified(process: Process, controller: int, cns: int, nsid: int) -> bytes:
    """The data of an Identify in a copy of the session, in which the driver starts anew."""
    process.exchange([lines.reset(controller)])
    while isinstance(it := _asked(process, lines.poll(controller)), Polled) and it.ticket is not None:
        pass
    up = _asked(process, lines.up(controller))
    if not isinstance(up, Up) or up.outcome is not UpOutcome.OK:
        raise NotDone(f"controller {controller} does not come up")
    placed = _asked(process, lines.identify(controller, cns, nsid))
    process.exchange([lines.ring(controller)])
    took = _asked(process, lines.fetch(controller, 0))
    process.exchange([lines.execute(controller)])
    answer = _asked(process, lines.poll(controller))
    if not (isinstance(placed, Placed) and isinstance(took, Fetched) and isinstance(answer, Polled)
            and answer.ticket == placed.ticket and answer.status is not None):
        raise NotDone(f"controller {controller} does not answer")
    if answer.data is None:
        raise NotDone(f"it is answered {status_words(answer.status)}")
    return answer.data


def _asked(process: Process, line: str) -> object:
    """The answer of an event in a copy of the session, parsed."""
    (text,) = process.exchange([line])
    if text.startswith("!"):
        raise NotDone(text[1:].strip().split(": ", 1)[-1])
    return parse_answer(text)


def _status(_: Talk, rest: List[str]) -> Iterator[str]:
    return status_lines(rest[0])


def _read32(talk: Talk, rest: List[str]) -> Iterator[str]:
    controller, offset, _ = talk.numbers(f"write32 {rest[0]} {rest[1]} 0")
    value = looks.register(talk.look(f"?register {controller} {offset}"), controller, offset)
    yield f"{_REGISTERS.get(offset) or register_words(offset)}: {value:#010x}"


_REGISTERS = {0x00: "the capabilities, low half", 0x04: "the capabilities, high half", 0x08: "the version",
              0x1C: "the status of the controller"}
LOOKS: Dict[str, Look] = {
    "?controllers": Look("?controllers", (0, 0), _controllers),
    "?report": Look("?report N", (1, 1), _report),
    "?identify": Look("?identify C CNS [NSID]", (2, 3), _identify),
    "?status": Look("?status TYPE:CODE, such as ?status 0:83", (1, 1), _status),
    "?read32": Look("?read32 C OFF", (2, 2), _read32),
}
"""The queries that the program does not have, by their first words."""
