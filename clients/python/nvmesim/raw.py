"""What a raw host's stores and register writes come to: which entry a controller fetches from which queue.

This reads a script as its host wrote it. Bytes that the controller itself has put into the window are not known here,
so an entry that a host has read into its queue from a namespace is not.
"""
from __future__ import annotations

from dataclasses import dataclass
from typing import Dict, Optional, Union

from .enums import AdminOpcode, IoOpcode

WINDOW_BYTES = 4_194_304
"""The bytes of a controller's window of host memory."""

ENTRY_BYTES = 64
_CONFIGURATION, _QUEUE_SIZES, _QUEUE_LOW, _QUEUE_HIGH = 0x14, 0x24, 0x28, 0x2C


@dataclass
class _Queue:
    """A submission queue: where it begins, how many entries it has, and the place of the next."""

    base: int
    size: int
    head: int = 0


@dataclass(frozen=True)
class Entry:
    """A submission queue entry of 64 bytes, little-endian as the standard has it."""

    queue: int
    raw: bytes

    def field(self, offset: int, size: int) -> int:
        """The bytes from `offset` on as a number."""
        return int.from_bytes(self.raw[offset:offset + size], "little")

    @property
    def opcode(self) -> Union[AdminOpcode, IoOpcode, int]:
        """Its opcode, by its name if its queue has one."""
        try:
            return AdminOpcode(self.raw[0]) if self.queue == 0 else IoOpcode(self.raw[0])
        except ValueError:
            return self.raw[0]

    @property
    def io_opcode(self) -> Optional[IoOpcode]:
        """Its opcode if it is a known one of an I/O queue."""
        opcode = self.opcode
        return opcode if isinstance(opcode, IoOpcode) else None

    @property
    def cid(self) -> int:
        """The command identifier."""
        return self.field(2, 2)

    @property
    def nsid(self) -> int:
        """The namespace identifier."""
        return self.field(4, 4)


class RawQueues:
    """The submission queues of one raw host's controller."""

    def __init__(self) -> None:
        self._window = bytearray(WINDOW_BYTES)
        self._registers: Dict[int, int] = {}
        self._queues: Dict[int, _Queue] = {}

    def store(self, address: int, data: bytes) -> None:
        """The host stored bytes inside of its window."""
        self._window[address:address + len(data)] = data

    def write32(self, offset: int, value: int) -> bool:
        """The host wrote a register; whether that made the controller forget what it had fetched."""
        was_enabled = self._registers.get(_CONFIGURATION, 0) & 1
        self._registers[offset] = value
        if offset != _CONFIGURATION or was_enabled == value & 1:
            return False
        low, high = self._registers.get(_QUEUE_LOW, 0), self._registers.get(_QUEUE_HIGH, 0)
        size = (self._registers.get(_QUEUE_SIZES, 0) & 0xFFF) + 1
        self._queues = {0: _Queue(low | high << 32, size)} if value & 1 else {}
        return True

    def power_cycle(self) -> None:
        """Power was lost and came back: registers and queues are as at first, and the window keeps its bytes."""
        self._registers, self._queues = {}, {}

    def fetch(self, number: int) -> Optional[Entry]:
        """The entry that the controller took from this queue; None of a queue whose creation is not known here."""
        queue = self._queues.get(number)
        if queue is None:
            return None
        begin = queue.base + ENTRY_BYTES * queue.head
        queue.head = (queue.head + 1) % queue.size
        return Entry(number, bytes(self._window[begin:begin + ENTRY_BYTES]).ljust(ENTRY_BYTES, b"\0"))

    def succeed(self, entry: Entry) -> None:
        """The controller has executed the command, which may create or delete queues."""
        number = entry.field(40, 2)
        if entry.opcode is AdminOpcode.CREATE_IO_SUBMISSION_QUEUE:
            self._queues[number] = _Queue(entry.field(24, 8), entry.field(42, 2) + 1)
        elif entry.opcode is AdminOpcode.DELETE_IO_SUBMISSION_QUEUE:
            self._queues.pop(number, None)
