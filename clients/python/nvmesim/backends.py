"""A subsystem over the library instead of the program, with the same interface."""
from __future__ import annotations

from typing import Callable, List, Tuple

from . import library
from .answers import BLOCK_BYTES, Executed, Fetched, PowerCycled, Stored, Wrote32
from .arguments import flag, some_bytes, whole
from .controllers import ControllerLike, number_of
from .errors import NotDone
from .hosts import Namespace, NamespaceLike, nsid_of
from .lines import Bytes
from .looks import FetchedCommand, Queue, ReservationState

BLOCKS = 1024
"""The blocks of the medium, as of a program without an image."""

_Opened = Callable[[], library.Open]


class LibraryController:
    """The subsystem's side of a controller. It fetches and executes only when called."""

    def __init__(self, opened: _Opened, number: int) -> None:
        self._opened = opened
        self.number = number

    def fetch(self, queue: int = 1) -> Fetched:
        """Fetches the oldest command of a queue: 0 is the admin queue."""
        return self._opened().fetch(self.number, queue)

    def execute(self, place: int = 0) -> Executed:
        """Executes the fetched command at this place, from 0."""
        return self._opened().execute(self.number, place)

    def fetched(self) -> List[FetchedCommand]:
        """The fetched commands that were not executed, in order. Changes nothing."""
        return self._opened().fetched(self.number)

    def queues(self) -> List[Queue]:
        """The queues. Changes nothing."""
        return self._opened().queues(self.number)

    def register(self, offset: int) -> int:
        """What a 32-bit read at this offset returns. Changes nothing."""
        return self._opened().read32(self.number, offset)

    def window(self, address: int, length: int) -> bytes:
        """Bytes of the host memory that it shares with its host. Changes nothing."""
        return self._opened().window(self.number, address, length)


class LibraryHost:
    """A host without a driver, like `RawHost` over the program.

    Attributes:
        host: its identifier.
        controller: its controller.
    """

    def __init__(self, opened: _Opened, number: int, host: int) -> None:
        self._opened = opened
        self.host = host
        self.controller = LibraryController(opened, number)

    @property
    def number(self) -> int:
        """The number of its controller."""
        return self.controller.number

    def store(self, address: int, data: Bytes) -> Stored:
        """Stores bytes from this address of its window; stores nothing if they do not fit in it."""
        return self._opened().store(self.number, address, some_bytes("data", data))

    def write32(self, offset: int, value: int) -> Wrote32:
        """Writes 32 bits to the register at this offset."""
        return self._opened().write32(self.number, offset, value)

    def submit(self, queue: int, entry: Bytes) -> library.Submitted:
        """Runs one command from its submission queue entry to its completion, with no other event in between: store at
        the tail of the queue, doorbell, fetch, execute, completion, doorbell. Raises `NotDone`, with no effect, if
        something waits there."""
        return self._opened().submit(self.number, queue, some_bytes("entry", entry))

    def window(self, address: int, length: int) -> bytes:
        """Bytes of its window. Changes nothing."""
        return self.controller.window(address, length)

    def register(self, offset: int) -> int:
        """What a 32-bit read of the register at this offset returns. Changes nothing."""
        return self.controller.register(offset)


class LibrarySubsystem:
    """A subsystem of the library: raw hosts, over 1,024 blocks of zeros. Use it in a `with`, or close it.

    First describe it: `raw_controller`, `namespace`, `attach`. After `start` its hosts can act. Unlike the program it
    has no script, no transcript and no drivers.

    Attributes:
        hosts: its hosts, in the order of their controllers.
    """

    def __init__(self) -> None:
        library.load(library.find_library())
        self.hosts: List[LibraryHost] = []
        self._namespaces: List[Namespace] = []
        self._attached: List[Tuple[int, int]] = []
        self._open: List[library.Open] = []

    def __enter__(self) -> LibrarySubsystem:
        return self

    def __exit__(self, *fault: object) -> None:
        self.close()

    def close(self) -> int:
        """Closes it, and returns 0."""
        for it in self._open:
            it.close()
        return 0

    def raw_controller(self, host: int) -> LibraryHost:
        """Adds the next controller, for a raw host."""
        self._describes()
        whole("host", host, 128)
        self.hosts.append(LibraryHost(self._opened, len(self.hosts) + 1, host))
        return self.hosts[-1]

    def namespace(self, blocks: int, shared: bool = True, number: int = 0) -> Namespace:
        """Adds a namespace of `blocks` blocks of 512 bytes, with the next identifier or `number`, 1 to 8."""
        self._describes()
        whole("blocks", blocks, 64)
        flag("shared", shared)
        named = whole("number", number, 32) or max((it.number for it in self._namespaces), default=0) + 1
        self._namespaces.append(Namespace(named, blocks, shared))
        return self._namespaces[-1]

    def attach(self, controller: ControllerLike, namespace: NamespaceLike) -> None:
        """Attaches a controller, given by its host or its number, to a namespace, before `start`."""
        self._describes()
        self._attached.append((number_of(controller), nsid_of(namespace)))

    def start(self) -> None:
        """Ends the description. Raises `ConfigurationRefused` if it has a fault."""
        self._describes()
        namespaces = [(it.number, it.blocks, it.is_shared) for it in self._namespaces]
        hosts = [it.host for it in self.hosts]
        self._open.append(library.Open(hosts, namespaces, self._attached, bytes(BLOCKS * BLOCK_BYTES)))

    def power_cycle(self) -> PowerCycled:
        """Power-cycles the whole subsystem."""
        return self._opened().power_cycle()

    def blocks(self, namespace: NamespaceLike, slba: int, count: int = 1) -> bytes:
        """Reads blocks of the medium, 512 bytes each. Changes nothing."""
        return self._opened().blocks(nsid_of(namespace), slba, count)

    def reservation(self, namespace: NamespaceLike) -> ReservationState:
        """The reservation of a namespace, with its registrants. Changes nothing."""
        return self._opened().reservation(nsid_of(namespace))

    def is_attached(self, controller: ControllerLike, namespace: NamespaceLike) -> bool:
        """Whether a controller is attached to a namespace. Changes nothing."""
        return self._opened().is_attached(number_of(controller), nsid_of(namespace))

    def _opened(self) -> library.Open:
        if not self._open:
            raise NotDone("the subsystem was not started")
        return self._open[0]

    def _describes(self) -> None:
        if self._open:
            raise NotDone("the subsystem was started")
