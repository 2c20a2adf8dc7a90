"""The whole subsystem as an object: described, started, and queried."""
from __future__ import annotations

from types import TracebackType
from typing import Any, Dict, List, Optional, Tuple, Type, Union

from . import lines, looks
from .answers import PowerCycled
from .arguments import shown, whole
from .backends import LibrarySubsystem
from .controllers import ControllerLike, RawHost, answer_of, number_of
from .errors import ArgumentError
from .hosts import Host, Namespace, NamespaceLike, nsid_of
from .process import PathLike
from .session import SECONDS, Session


class Subsystem:
    """A subsystem over one run of `nvmelive`. Use it in a `with`, or close it.

    Describe it by `controller`, `raw_controller`, `namespace` and `attach`, then call `start`; then its hosts can act.

    Attributes:
        session: the lines that were sent, and their answers.
        hosts: its hosts, by the numbers of their controllers.
    """

    def __new__(cls, image: Optional[PathLike] = None, program: Optional[PathLike] = None, seconds: float = SECONDS,
                backend: str = "program") -> Any:
        """Makes a `LibrarySubsystem` instead if `backend` is `"library"`."""
        if backend == "program":
            return object.__new__(cls)
        if backend != "library":
            raise ArgumentError(f"backend is 'program' or 'library', not {shown(backend)}")
        if image is not None or program is not None:
            raise ArgumentError("the library takes no image and no program")
        return LibrarySubsystem()

    def __init__(self, image: Optional[PathLike] = None, program: Optional[PathLike] = None,
                 seconds: float = SECONDS, backend: str = "program") -> None:
        """Starts the program over an image, or over 1,024 blocks of zeros; `seconds` is the time limit of an answer."""
        self.session = Session(image, program, seconds)
        self.hosts: Dict[int, Union[Host, RawHost]] = {}
        self._namespaces: List[Namespace] = []

    def __enter__(self) -> Subsystem:
        return self

    def __exit__(self, kind: Optional[Type[BaseException]], fault: Optional[BaseException],
                 trace: Optional[TracebackType]) -> None:
        self.session.__exit__(kind, fault, trace)

    def close(self) -> int:
        """Ends the session. Returns the program's exit status, 0 on success."""
        return self.session.close()

    @property
    def script(self) -> str:
        """The script so far, which `nvmesim` replays with the same transcript."""
        return self.session.script

    @property
    def transcript(self) -> str:
        """The answers of the events so far, as `nvmesim` prints them."""
        return self.session.transcript

    def controller(self, host: int) -> Host:
        """Adds the next controller, for a host with a driver, whose identifier is 1 to 2^128 - 1."""
        number = len(self.hosts) + 1
        self.session.configure(lines.controller(number, host))
        made = self.hosts[number] = Host(self.session, number, host)
        return made

    def raw_controller(self, host: int) -> RawHost:
        """Adds the next controller, for a raw host."""
        number = len(self.hosts) + 1
        self.session.configure(lines.controller(number, host, raw=True))
        made = self.hosts[number] = RawHost(self.session, number, host)
        return made

    def namespace(self, blocks: int, shared: bool = True, number: Optional[int] = None) -> Namespace:
        """Adds a namespace of `blocks` blocks of 512 bytes, with the next identifier or `number`, 1 to 8."""
        named = number if number is not None else max((it.number for it in self._namespaces), default=0) + 1
        self.session.configure(lines.namespace(named, blocks, shared))
        self._namespaces.append(Namespace(named, blocks, shared))
        return self._namespaces[-1]

    def attach(self, controller: ControllerLike, namespace: NamespaceLike) -> None:
        """Attaches a controller, given by its host or its number, to a namespace, before `start`."""
        self.session.configure(lines.attached(number_of(controller), nsid_of(namespace)))

    def start(self) -> None:
        """Ends the description. Raises `ConfigurationRefused` if it has a fault."""
        self.session.start()

    def power_cycle(self) -> PowerCycled:
        """Takes power from the whole subsystem, and returns it.

        Afterwards all drivers and controllers are down, and requests that were not delivered are delivered as aborted.
        Blocks, attachments and plain write protection stay; write protection until a power cycle ends. Registrants and
        reservation of a namespace stay if it has `Persistence.SET`, and are lost otherwise.
        """
        return answer_of(self.session.event(lines.power_cycle()), PowerCycled)

    def reservation(self, namespace: NamespaceLike) -> looks.ReservationState:
        """The reservation of a namespace. Changes nothing."""
        nsid = nsid_of(namespace)
        return looks.reservation(self.session.look(f"?reservation {nsid}"), nsid)

    def blocks(self, namespace: NamespaceLike, slba: int, count: int = 1) -> bytes:
        """1 to 256 blocks as the medium has them, 512 bytes each. Changes nothing."""
        nsid, first, several = nsid_of(namespace), whole("slba", slba, 64), whole("count", count, 32)
        return looks.blocks(self.session.look(f"?blocks {nsid} {first} {several}"), nsid, first, several)

    def namespaces(self) -> List[looks.NamespaceState]:
        """The namespaces. Changes nothing."""
        return looks.namespaces(self.session.look("?namespaces"))

    def attached(self) -> List[Tuple[int, int]]:
        """The attachments, each a controller and a namespace. Changes nothing."""
        return looks.attached(self.session.look("?attached"))
