"""A controller and its host's raw side, as objects."""
from __future__ import annotations

from typing import Dict, Iterable, List, Protocol, Type, TypeVar, Union

from . import lines, looks
from .answers import Executed, Fetched, Stored, Wrote32
from .arguments import whole
from .errors import NotDone
from .history import Event
from .lines import Bytes
from .session import Session

_A = TypeVar("_A")


def answer_of(event: Event, kind: Type[_A]) -> _A:
    """The answer of an event, if it has this type. Raises `NotDone` otherwise."""
    if not isinstance(event.answer, kind):
        raise NotDone(f"{event.line.text!r} was answered {event.text!r}")
    return event.answer


class Numbered(Protocol):
    """An object with a controller's number: a controller, a host with a driver, or a raw host."""

    @property
    def number(self) -> int:
        """The number of its controller, from 1."""


ControllerLike = Union[int, Numbered]
"""A controller, by its number or by its host."""
ControllersLike = Union[ControllerLike, Iterable[ControllerLike]]
"""One controller or several."""


def number_of(controller: ControllerLike) -> int:
    """The number of a controller."""
    number = getattr(controller, "number", controller)
    if isinstance(controller, int) or not isinstance(number, int):
        return whole("controller", controller, 16)
    return number


def numbers_of(controllers: ControllersLike) -> List[int]:
    """The numbers of controllers, in their order."""
    several = controllers if isinstance(controllers, Iterable) and not isinstance(controllers, str) else [controllers]
    return [number_of(it) for it in several]


class Controller:
    """The subsystem's side of a controller. It fetches and executes only when called."""

    def __init__(self, session: Session, number: int) -> None:
        self._session = session
        self.number = number

    def fetch(self, queue: int = 1) -> Fetched:
        """Fetches the oldest command of a queue: 0 is the admin queue, 1 a driver's I/O queue."""
        return answer_of(self._session.event(lines.fetch(self.number, queue)), Fetched)

    def execute(self, place: int = 0) -> Executed:
        """Executes the fetched command at this place, from 0."""
        return answer_of(self._session.event(lines.execute(self.number, place)), Executed)

    def fetched(self) -> List[looks.FetchedCommand]:
        """The fetched commands that were not executed, in order. Changes nothing."""
        return looks.fetched(self._session.look(f"?fetched {self.number}"), self.number)

    def queues(self) -> List[looks.Queue]:
        """The queues. Changes nothing."""
        return looks.queues(self._session.look(f"?queues {self.number}"), self.number)

    def register(self, offset: int) -> int:
        """What a 32-bit read at this offset returns. Changes nothing."""
        place = whole("offset", offset, 64)
        return looks.register(self._session.look(f"?register {self.number} {place}"), self.number, place)

    def registers(self) -> Dict[str, int]:
        """The registers by their names. Changes nothing."""
        return looks.registers(self._session.look(f"?registers {self.number}"), self.number)

    def window(self, address: int, length: int) -> bytes:
        """At most 131,072 bytes of the host memory that it shares with its host. Changes nothing."""
        begin, size = whole("address", address, 64), whole("length", length, 32)
        return looks.window(self._session.look(f"?window {self.number} {begin} {size}"), self.number, begin, size)


class RawHost:
    """A host without a driver: it stores bytes in its window, and writes registers.

    Attributes:
        host: its identifier.
        controller: its controller.
    """

    def __init__(self, session: Session, number: int, host: int) -> None:
        self._session = session
        self.host = host
        self.controller = Controller(session, number)

    @property
    def number(self) -> int:
        """The number of its controller."""
        return self.controller.number

    def store(self, address: int, data: Bytes) -> Stored:
        """Stores bytes from this address of its window; stores nothing if they do not fit in it."""
        return answer_of(self._session.event(lines.store(self.number, address, data)), Stored)

    def write32(self, offset: int, value: int) -> Wrote32:
        """Writes 32 bits to the register at this offset."""
        return answer_of(self._session.event(lines.write32(self.number, offset, value)), Wrote32)

    def window(self, address: int, length: int) -> bytes:
        """At most 131,072 bytes of its window. Changes nothing."""
        return self.controller.window(address, length)

    def register(self, offset: int) -> int:
        """What a 32-bit read of the register at this offset returns. Changes nothing."""
        return self.controller.register(offset)
