"""The library libnvmesim by ctypes instead of the program: raw hosts without a process in between, about ten times as
fast. `Subsystem(backend="library")` uses it.

Arguments that no line of a script could express raise `ArgumentError`: numbers that are negative or too large."""
from __future__ import annotations

import ctypes
import ctypes.util
import functools
import os
import sys
from dataclasses import dataclass
from pathlib import Path
from types import TracebackType
from typing import Any, Dict, List, Optional, Sequence, Tuple, Type

from .answers import BLOCK_BYTES, Executed, Fetched, PowerCycled, Stored, Wrote32
from .arguments import flag, some_bytes, whole
from .enums import AdminOpcode, ExecuteOutcome, IoOpcode, Protection, ReservationType, Rule, Status
from .errors import ArgumentError, ConfigurationRefused, NotDone, ProgramNotFound, SessionClosed
from .looks import FetchedCommand, Queue, ReservationState

VARIABLE = "NVMESIM_LIBRARY"
"""The variable of the environment that names the shared object."""

VERSION = 3
"""The version of the library's interface that is used here."""
SCRIPT_BLOCKS = 65536
"""The most blocks of a namespace, as in a script."""

# The numbers of answers, as nvmesim.h has them.
STORED, WROTE, VALUE, TOOK, IDLE, POSTED, NO_SUCH, CQ_FULL, CYCLED = range(1, 10)
OK, CLOSED, NO_CONTROLLER, OUTSIDE, NO_QUEUE = 0, 16, 17, 18, 28
_REASONS = {OUTSIDE: "some of it is outside", NO_QUEUE: "there is no such queue", 29: "the controller does not run",
            30: "something waits at the queue", 31: "there is no such namespace"}
_FAULTS = {21: "BadVersion", 23: "BadId", 24: "BadSize", 25: "TooMany", 26: "DoesNotFit", 27: "NoMemory"}
_STATUSES = {(int(it.code[0], 16), int(it.code[2:], 16)): it for it in Status}
_OUTCOMES = {NO_SUCH: ExecuteOutcome.NONE, CQ_FULL: ExecuteOutcome.FULL}


class _Sim(ctypes.Structure):
    _fields_ = [("subsystem", ctypes.c_void_p), ("is_open", ctypes.c_bool)]


class _Controller(ctypes.Structure):
    _fields_ = [("host_low", ctypes.c_uint64), ("host_high", ctypes.c_uint64), ("cntlid", ctypes.c_uint16),
                ("raw", ctypes.c_bool)]


class _Namespace(ctypes.Structure):
    _fields_ = [("blocks", ctypes.c_uint64), ("nsid", ctypes.c_uint32), ("shared", ctypes.c_bool)]


class _Attached(ctypes.Structure):
    _fields_ = [("nsid", ctypes.c_uint32), ("cntlid", ctypes.c_uint16)]


class _Answer(ctypes.Structure):
    _fields_ = [("value", ctypes.c_uint32), ("what", ctypes.c_uint32), ("sct", ctypes.c_uint8), ("sc", ctypes.c_uint8),
                ("rule", ctypes.c_uint8)]


class _Queue(ctypes.Structure):
    _fields_ = [("base", ctypes.c_uint64), ("what", ctypes.c_uint32), ("size", ctypes.c_uint16),
                ("head", ctypes.c_uint16), ("tail", ctypes.c_uint16), ("cqid", ctypes.c_uint16),
                ("phase", ctypes.c_bool)]


class _Command(ctypes.Structure):
    _fields_ = [("count", ctypes.c_size_t), ("what", ctypes.c_uint32), ("qid", ctypes.c_uint16),
                ("marked", ctypes.c_bool), ("entry", ctypes.c_uint8 * 64)]


class _Hold(ctypes.Structure):
    _fields_ = [("host_low", ctypes.c_uint64), ("host_high", ctypes.c_uint64), ("registrants", ctypes.c_size_t),
                ("what", ctypes.c_uint32), ("generation", ctypes.c_uint32), ("protection", ctypes.c_uint32),
                ("rtype", ctypes.c_uint8), ("ptpl", ctypes.c_bool)]


class _Registered(ctypes.Structure):
    _fields_ = [("host_low", ctypes.c_uint64), ("host_high", ctypes.c_uint64), ("key", ctypes.c_uint64),
                ("what", ctypes.c_uint32)]


_ADDRESS, _COUNT, _NUMBER, _LONG = ctypes.c_void_p, ctypes.c_size_t, ctypes.c_uint32, ctypes.c_uint64
_CNTLID, _SLICE = ctypes.c_uint16, (ctypes.c_char_p, ctypes.c_size_t)
_SIM = ctypes.POINTER(_Sim)
_CALLS: Dict[str, Tuple[object, Sequence[object]]] = {
    "nvmesim_version": (_NUMBER, ()),
    "nvmesim_open": (_NUMBER, (_SIM, _NUMBER, _LONG, _ADDRESS, _COUNT, _ADDRESS, _COUNT, _ADDRESS, _COUNT, *_SLICE)),
    "nvmesim_close": (None, (_SIM,)),
    "nvmesim_store": (_Answer, (_SIM, _CNTLID, _LONG, *_SLICE)),
    "nvmesim_write32": (_Answer, (_SIM, _CNTLID, _LONG, _NUMBER)),
    "nvmesim_read32": (_Answer, (_SIM, _CNTLID, _LONG)),
    "nvmesim_fetch": (_Answer, (_SIM, _CNTLID, ctypes.c_uint16)),
    "nvmesim_execute": (_Answer, (_SIM, _CNTLID, _COUNT)),
    "nvmesim_submit": (_Answer, (_SIM, _CNTLID, ctypes.c_uint16, ctypes.c_char_p, _ADDRESS)),
    "nvmesim_power_cycle": (_Answer, (_SIM,)),
    "nvmesim_load": (_NUMBER, (_SIM, _CNTLID, _LONG, _ADDRESS, _COUNT)),
    "nvmesim_read_blocks": (_NUMBER, (_SIM, _NUMBER, _LONG, _ADDRESS, _COUNT)),
    "nvmesim_submission_queue": (_Queue, (_SIM, _CNTLID, ctypes.c_uint16)),
    "nvmesim_completion_queue": (_Queue, (_SIM, _CNTLID, ctypes.c_uint16)),
    "nvmesim_fetched": (_Command, (_SIM, _CNTLID, _COUNT)),
    "nvmesim_is_attached": (_Answer, (_SIM, _CNTLID, _NUMBER)),
    "nvmesim_reservation": (_Hold, (_SIM, _NUMBER)),
    "nvmesim_registrant": (_Registered, (_SIM, _NUMBER, _COUNT)),
    "nvmesim_status_name": (_COUNT, (ctypes.c_uint8, ctypes.c_uint8, _ADDRESS, _COUNT)),
}


@dataclass(frozen=True)
class Submitted:
    """The result of `submit`.

    Attributes:
        status: its status.
        rule: the rule that denied it, or NONE.
        value: double word 0 of its completion queue entry.
        entry: that entry, 16 bytes.
    """

    status: Status
    rule: Rule
    value: int
    entry: bytes


def find_library() -> str:
    """The shared object: the one that the environment names, that is installed with this package or in one of the
    usual places, or that the system knows.

    Raises:
        ProgramNotFound: there is none.
    """
    named = os.environ.get(VARIABLE)
    if named:
        return named
    package = Path(__file__).resolve()
    prefixes = [*package.parents[4:5], Path(sys.prefix), Path.home() / ".local", Path("/usr/local"), Path("/usr")]
    for prefix in prefixes:
        file = prefix / "lib" / f"libnvmesim.so.{VERSION}"
        if file.is_file():
            return os.fspath(file)
    known = ctypes.util.find_library("nvmesim")
    if known is None:
        raise ProgramNotFound(f"there is no libnvmesim; `scripts/library FOLDER` builds it, and the variable {VARIABLE} "
                              "can name its shared object")
    return known


@functools.lru_cache(maxsize=None)
def load(path: str) -> ctypes.CDLL:
    """The shared object with its calls.

    Raises:
        ProgramNotFound: it can't be loaded, or is of another version.
    """
    try:
        found = ctypes.CDLL(path)
        for name, (result, parameters) in _CALLS.items():
            call = getattr(found, name)
            call.restype, call.argtypes = result, parameters
    except (OSError, AttributeError) as error:
        raise ProgramNotFound(f"{path} is no libnvmesim: {error}") from error
    if found.nvmesim_version() != VERSION:
        raise ProgramNotFound(f"{path} has version {found.nvmesim_version()} of the interface, not {VERSION}")
    return found


def command_name(queue: int, opcode: int) -> str:
    """The name of a command, as a session shows it."""
    try:
        named = AdminOpcode(opcode).name.replace("_IO_", "_") if queue == 0 else IoOpcode(opcode).name
    except ValueError:
        return "unknown"
    return named.lower()


def _command(place: int, seen: _Command) -> FetchedCommand:
    entry = bytes(seen.entry)
    return FetchedCommand(place, seen.qid, int.from_bytes(entry[2:4], "little"), entry[0],
                          command_name(seen.qid, entry[0]), int.from_bytes(entry[4:8], "little"), seen.marked)


def _identifier(seen: Any) -> int:
    return int(seen.host_low) | int(seen.host_high) << 64


def fits(**given: Tuple[int, int]) -> None:
    """Numbers by their names, and the bits that they have to fit in, which ctypes would cut them to."""
    for name, (number, bits) in given.items():
        whole(name, number, bits)


class Open:
    """A subsystem of the library, by the numbers that its calls take and give. Any thread may make them, one at a
    time."""

    def __init__(self, controllers: Sequence[int], namespaces: Sequence[Tuple[int, int, bool]],
                 attached: Sequence[Tuple[int, int]], blocks: bytes) -> None:
        """Opens it over a copy of these bytes.

        Args:
            controllers: the hosts' identifiers, controller by controller.
            namespaces: identifier, blocks, whether it is shared.
            attached: controller, namespace.

        Raises:
            ConfigurationRefused: by its first fault.
        """
        for host in controllers:
            fits(host=(host, 128))
        for nsid, size, shared in namespaces:
            fits(namespace=(nsid, 32), blocks=(size, 64))
            flag("shared", shared)
        for cntlid, nsid in attached:
            fits(controller=(cntlid, 16), namespace=(nsid, 32))
        self._library = load(find_library())
        self._sim = _Sim(None, False)
        self._at = ctypes.byref(self._sim)
        cs = (_Controller * len(controllers))(*((it % 2**64, it >> 64, k + 1) for k, it in enumerate(controllers)))
        ns = (_Namespace * len(namespaces))(*((size, nsid, shared) for nsid, size, shared in namespaces))
        at = (_Attached * len(attached))(*((nsid, cntlid) for cntlid, nsid in attached))
        answer = self._library.nvmesim_open(self._at, VERSION, SCRIPT_BLOCKS, cs, len(cs), ns, len(ns), at, len(at),
                                            blocks, len(blocks))
        if answer != OK:
            raise ConfigurationRefused(_FAULTS.get(answer, str(answer)))

    def close(self) -> None:
        """Closes it. Every call from then on raises `SessionClosed`."""
        self._library.nvmesim_close(self._at)

    def __enter__(self) -> Open:
        return self

    def __exit__(self, kind: Optional[Type[BaseException]], fault: Optional[BaseException],
                 trace: Optional[TracebackType]) -> None:
        self.close()

    def __del__(self) -> None:
        if getattr(self, "_at", None) is not None:
            self.close()

    def store(self, cntlid: int, address: int, data: bytes) -> Stored:
        """Stores bytes in the memory of a controller's host."""
        fits(controller=(cntlid, 16), address=(address, 64))
        some_bytes("data", data)
        what = self._checked(self._library.nvmesim_store(self._at, cntlid, address, data, len(data)), cntlid).what
        return Stored(cntlid, what == STORED)

    def write32(self, cntlid: int, offset: int, value: int) -> Wrote32:
        """Writes a register of a controller."""
        fits(controller=(cntlid, 16), offset=(offset, 64), value=(value, 32))
        self._checked(self._library.nvmesim_write32(self._at, cntlid, offset, value), cntlid)
        return Wrote32(cntlid)

    def read32(self, cntlid: int, offset: int) -> int:
        """Reads a register of a controller."""
        fits(controller=(cntlid, 16), offset=(offset, 64))
        return int(self._checked(self._library.nvmesim_read32(self._at, cntlid, offset), cntlid).value)

    def fetch(self, cntlid: int, queue: int) -> Fetched:
        """Makes a controller fetch a command."""
        fits(controller=(cntlid, 16), queue=(queue, 16))
        answer = self._checked(self._library.nvmesim_fetch(self._at, cntlid, queue), cntlid)
        return Fetched(cntlid, queue, answer.what == TOOK)

    def execute(self, cntlid: int, place: int) -> Executed:
        """Makes a controller execute a fetched command."""
        fits(controller=(cntlid, 16), place=(place, 64))
        answer = self._checked(self._library.nvmesim_execute(self._at, cntlid, place), cntlid)
        if answer.what != POSTED:
            return Executed(cntlid, place, _OUTCOMES[answer.what])
        return Executed(cntlid, place, ExecuteOutcome.POSTED, _STATUSES[answer.sct, answer.sc], Rule(answer.rule))

    def submit(self, cntlid: int, queue: int, entry: bytes) -> Submitted:
        """One command from its entry to its completion: store, tail doorbell, fetch, execute, load, head doorbell.

        Raises:
            NotDone: there is no such queue, the controller does not run, or something waits at the queue already;
                nothing has happened then.
        """
        fits(controller=(cntlid, 16), queue=(queue, 16))
        if len(some_bytes("entry", entry)) != 64:
            raise ArgumentError(f"a submission queue entry has 64 bytes, not {len(entry)}")
        room = ctypes.create_string_buffer(16)
        answer = self._library.nvmesim_submit(self._at, cntlid, queue, entry, room)
        if answer.what != POSTED:
            self._done(answer.what, cntlid)
        return Submitted(_STATUSES[answer.sct, answer.sc], Rule(answer.rule), answer.value, room.raw)

    def power_cycle(self) -> PowerCycled:
        """Power-cycles the subsystem."""
        self._checked(self._library.nvmesim_power_cycle(self._at), 0)
        return PowerCycled()

    def window(self, cntlid: int, address: int, length: int) -> bytes:
        """Bytes of the memory of a controller's host."""
        fits(controller=(cntlid, 16), address=(address, 64), length=(length, 32))
        room = ctypes.create_string_buffer(max(length, 1))
        self._done(self._library.nvmesim_load(self._at, cntlid, address, room, length), cntlid)
        return room.raw[:length]

    def blocks(self, nsid: int, slba: int, count: int) -> bytes:
        """Blocks of a namespace as the medium has them."""
        fits(namespace=(nsid, 32), slba=(slba, 64), count=(count, 17))
        length = count * BLOCK_BYTES
        room = ctypes.create_string_buffer(max(length, 1))
        self._done(self._library.nvmesim_read_blocks(self._at, nsid, slba, room, length), 0)
        return room.raw[:length]

    def queues(self, cntlid: int) -> List[Queue]:
        """The queues of a controller."""
        fits(controller=(cntlid, 16))
        found: List[Queue] = []
        for number in range(5):
            sq = self._library.nvmesim_submission_queue(self._at, cntlid, number)
            cq = self._library.nvmesim_completion_queue(self._at, cntlid, number)
            for it in (sq, cq):
                if it.what != NO_QUEUE:
                    self._done(it.what, cntlid)
            if sq.what == OK:
                found.append(Queue(True, number, sq.base, sq.size, sq.head, sq.tail, sq.cqid))
            if cq.what == OK:
                found.append(Queue(False, number, cq.base, cq.size, cq.head, cq.tail, None, int(cq.phase)))
        return found

    def fetched(self, cntlid: int) -> List[FetchedCommand]:
        """The commands that a controller has fetched and not executed."""
        fits(controller=(cntlid, 16))
        first = self._library.nvmesim_fetched(self._at, cntlid, 0)
        if first.what != NO_SUCH:
            self._done(first.what, cntlid)
        return [_command(i, self._library.nvmesim_fetched(self._at, cntlid, i)) for i in range(first.count)]

    def is_attached(self, cntlid: int, nsid: int) -> bool:
        """Whether a controller has a namespace."""
        fits(controller=(cntlid, 16), namespace=(nsid, 32))
        return bool(self._checked(self._library.nvmesim_is_attached(self._at, cntlid, nsid), cntlid).value)

    def reservation(self, nsid: int) -> ReservationState:
        """The reservation of a namespace."""
        fits(namespace=(nsid, 32))
        hold = self._library.nvmesim_reservation(self._at, nsid)
        self._done(hold.what, 0)
        registered = [self._library.nvmesim_registrant(self._at, nsid, i) for i in range(hold.registrants)]
        rtype = ReservationType(hold.rtype)
        return ReservationState(rtype, _identifier(hold) or None, rtype.value > 4, hold.generation, hold.ptpl,
                                Protection(hold.protection), {_identifier(it): it.key for it in registered})

    def _checked(self, answer: _Answer, cntlid: int) -> _Answer:
        if answer.what >= CLOSED and answer.what != OUTSIDE:
            self._done(answer.what, cntlid)
        return answer

    def _done(self, what: int, cntlid: int) -> None:
        if what == CLOSED:
            raise SessionClosed("the subsystem was closed")
        if what == NO_CONTROLLER:
            raise NotDone(f"there is no controller {cntlid}")
        if what != OK:
            raise NotDone(_REASONS.get(what, f"the library answered {what}"))
