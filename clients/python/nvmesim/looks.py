"""The answers of queries, which begin with `?` and change nothing, parsed."""
from __future__ import annotations

import re
from dataclasses import dataclass
from typing import Dict, List, Optional, Tuple

from .answers import BLOCK_BYTES, data_in, number_in
from .enums import Protection, ReservationType
from .errors import ProtocolError

_HEX_NUMBER = re.compile(r"0x[0-9a-f]+\Z")


@dataclass(frozen=True)
class FetchedCommand:
    """A command that was fetched and not executed.

    Attributes:
        place: what `execute` takes, from 0.
        queue: the submission queue that it came from.
        cid: its identifier.
        opcode: its opcode's number.
        name: its opcode's name, as docs/USING.md has it.
        nsid: the namespace that it names.
        is_marked: whether a Preempt and Abort has marked it.
    """

    place: int
    queue: int
    cid: int
    opcode: int
    name: str
    nsid: int
    is_marked: bool


@dataclass(frozen=True)
class TicketState:
    """A request whose answer was not delivered."""

    ticket: int
    is_admin: bool
    is_aborted: bool


@dataclass(frozen=True)
class DriverState:
    """A driver: `down`, `up` or `failed`, its next ticket if any is left, and the tickets that wait."""

    state: str
    next_ticket: Optional[int]
    tickets: Tuple[TicketState, ...]


@dataclass(frozen=True)
class Queue:
    """A queue: its number, where it is in the window, its entries, its head and tail.

    Attributes:
        is_submission: whether commands wait in it; completions otherwise.
        completion_queue: of a submission queue, where its completions go.
        phase: of a completion queue, the phase tag of its next completion.
    """

    is_submission: bool
    number: int
    place: int
    size: int
    head: int
    tail: int
    completion_queue: Optional[int] = None
    phase: Optional[int] = None


@dataclass(frozen=True)
class NamespaceState:
    """A namespace: its first block on the medium, its blocks of 512 bytes, whether it is shared, its protection."""

    number: int
    first: int
    blocks: int
    is_shared: bool
    protection: Protection

    @property
    def is_protected(self) -> bool:
        """Whether it is write protected, until a power cycle or without an end."""
        return self.protection is not Protection.NONE


@dataclass(frozen=True)
class ReservationState:
    """The reservation of a namespace.

    Attributes:
        rtype: its type; NONE if nobody holds it.
        holder: the host that holds it; None if nobody does, or if all registrants do.
        is_held_by_all: whether all registrants hold it.
        generation: the generation, as a report has it.
        persists: whether it and its registrants outlast a loss of power.
        protection: how the namespace is write protected.
        registrants: each registered host with its key.
    """

    rtype: ReservationType
    holder: Optional[int]
    is_held_by_all: bool
    generation: int
    persists: bool
    protection: Protection
    registrants: Dict[int, int]

    @property
    def is_protected(self) -> bool:
        """Whether the namespace is write protected, until a power cycle or without an end."""
        return self.protection is not Protection.NONE


class _Words:
    """Takes the words of an answer one after the other."""

    def __init__(self, text: str, begin: str) -> None:
        self._text, self._words = text, text.split(" ")
        wanted = begin.split(" ")
        if self._words[:len(wanted)] != wanted:
            raise ProtocolError(f"{text!r} does not answer ?{begin}")
        self._words = self._words[len(wanted):]

    @property
    def is_done(self) -> bool:
        """Whether no word is left."""
        return not self._words

    def fault(self) -> ProtocolError:
        """What is raised if the answer isn't understood."""
        return ProtocolError(f"not understood: {self._text!r}")

    def word(self, label: str = "") -> str:
        """The next word, after its label if it has one."""
        if label and self.word() != label or not self._words:
            raise self.fault()
        return self._words.pop(0)

    def number(self, label: str = "") -> int:
        """The next word as a decimal number."""
        return number_in(self.word(label))

    def hexadecimal(self, label: str = "") -> int:
        """The next word as a number after `0x`."""
        return hexadecimal_in(self.word(label))

    def flag(self, label: str) -> bool:
        """The next word as 0 or 1."""
        return self.one_of(label, "0", "1") == "1"

    def protection(self) -> Protection:
        """How a namespace is write protected, 0 to 2."""
        return Protection(int(self.one_of("protected", "0", "1", "2")))

    def one_of(self, label: str, *known: str) -> str:
        """The next word, one of these."""
        word = self.word(label)
        if word not in known:
            raise self.fault()
        return word

    def end(self) -> None:
        """Refuses further words."""
        if self._words:
            raise self.fault()


def hexadecimal_in(word: str) -> int:
    """A number after `0x`, in lower case. Raises `ProtocolError` for anything else."""
    if not _HEX_NUMBER.match(word):
        raise ProtocolError(f"a number after 0x was expected, not {word!r}")
    return int(word, 16)


def window(text: str, controller: int, address: int, length: int) -> bytes:
    """The bytes of `?window`."""
    words = _Words(text, f"window {controller} {address} {length}")
    data = data_in(str(length), words.word())
    words.end()
    return data


def blocks(text: str, nsid: int, slba: int, count: int) -> bytes:
    """The bytes of `?blocks`, 512 for each block."""
    words = _Words(text, f"blocks {nsid} {slba} {count}")
    data = data_in(str(BLOCK_BYTES * count), words.word())
    words.end()
    return data


def register(text: str, controller: int, offset: int) -> int:
    """The 32 bits of `?register`."""
    words = _Words(text, f"register {controller} {offset}")
    value = words.hexadecimal()
    words.end()
    return value


def registers(text: str, controller: int) -> Dict[str, int]:
    """The registers by their names, in lower case."""
    words = _Words(text, f"registers {controller}")
    found: Dict[str, int] = {}
    while not words.is_done:
        name = words.word()
        found[name] = words.hexadecimal()
    return found


def queues(text: str, controller: int) -> List[Queue]:
    """The queues of `?queues`."""
    words = _Words(text, f"queues {controller}")
    found: List[Queue] = []
    while not words.is_done:
        is_submission = words.one_of("", "sq", "cq") == "sq"
        number, place = words.number(), words.number("place")
        size, head, tail = words.number("size"), words.number("head"), words.number("tail")
        target = words.number("to") if is_submission else None
        phase = None if is_submission else words.number("phase")
        found.append(Queue(is_submission, number, place, size, head, tail, target, phase))
    return found


def fetched(text: str, controller: int) -> List[FetchedCommand]:
    """The commands of `?fetched`, by their places."""
    words = _Words(text, f"fetched {controller}")
    found: List[FetchedCommand] = []
    while not words.is_done:
        found.append(FetchedCommand(words.number("command"), words.number("queue"), words.number("cid"),
                                    words.number("opcode"), words.word("name"), words.number("nsid"),
                                    words.flag("marked")))
    return found


def driver(text: str, controller: int) -> DriverState:
    """The answer to `?driver`."""
    words = _Words(text, f"driver {controller}")
    state = words.one_of("state", "down", "up", "failed")
    following = words.word("next")
    tickets: List[TicketState] = []
    while not words.is_done:
        ticket = words.number("ticket")
        is_admin = words.one_of("lane", "admin", "io") == "admin"
        tickets.append(TicketState(ticket, is_admin, words.one_of("is", "live", "aborted") == "aborted"))
    return DriverState(state, None if following == "none" else number_in(following), tuple(tickets))


def namespaces(text: str) -> List[NamespaceState]:
    """The answer to `?namespaces`."""
    words = _Words(text, "namespaces")
    found: List[NamespaceState] = []
    while not words.is_done:
        found.append(NamespaceState(words.number("namespace"), words.number("first"), words.number("blocks"),
                                    words.flag("shared"), words.protection()))
    return found


def reservation(text: str, nsid: int) -> ReservationState:
    """The answer to `?reservation`."""
    words = _Words(text, f"reservation {nsid}")
    try:
        rtype = ReservationType(words.number("type"))
    except ValueError:
        raise words.fault() from None
    who = words.word("holder")
    holder = None if who in ("none", "all") else hexadecimal_in(who)
    generation, persists, protection = words.number("generation"), words.flag("persists"), words.protection()
    registrants: Dict[int, int] = {}
    while not words.is_done:
        host = words.hexadecimal("registrant")
        registrants[host] = words.hexadecimal("key")
    return ReservationState(rtype, holder, who == "all", generation, persists, protection, registrants)


def attached(text: str) -> List[Tuple[int, int]]:
    """The attachments of `?attached`, each a controller and a namespace."""
    words = _Words(text, "attached")
    found: List[Tuple[int, int]] = []
    while not words.is_done:
        found.append((words.number("controller"), words.number("namespace")))
    return found
