"""A disk's reservation, and the commands that change it."""
from __future__ import annotations

import struct
from typing import Optional

from .device import Command, Device
from .failures import Failure
from .progress import Progress
from .reports import RESERVATIONS, Registrant, Report

IDENTIFY, GET_FEATURES, REGISTER, REPORT, ACQUIRE = 0x06, 0x0A, 0x0D, 0x0E, 0x11
NAMESPACE, CONTROLLER, HOST_IDENTIFIER = 0, 1, 0x81
REPLACE_KEY, PREEMPT_AND_ABORT, PERSIST = 2, 2, 3 << 30
PAGE_BYTES, MOST_REPORT_BYTES = 4096, 1 << 20
WRONG_FORMAT = 0x18
STATUSES = {
    0x01: "Invalid Command Opcode", 0x02: "Invalid Field in Command", 0x04: "Data Transfer Error",
    0x06: "Internal Error", 0x0B: "Invalid Namespace or Format", 0x18: "Host Identifier Inconsistent Format",
    0x20: "Namespace is Write Protected", 0x82: "Namespace Not Ready", 0x83: "Reservation Conflict",
    0x300: "Internal Path Error", 0x301: "Asymmetric Access Persistent Loss", 0x302: "Asymmetric Access Inaccessible",
    0x303: "Asymmetric Access Transition", 0x360: "Controller Pathing Error", 0x370: "Host Pathing Error",
    0x371: "Command Aborted By Host",
}


class Disk:
    """A shared namespace with its reservation, and this host among its registrants."""

    def __init__(self, device: Device, progress: Progress) -> None:
        self._device, self._progress, self.path = device, progress, device.path
        self._is_extended = True
        controller = self._ask(Command("Identify Controller", IDENTIFY, CONTROLLER, wanted=PAGE_BYTES, is_admin=True,
                                       has_nsid=False))
        self._cntlid = int.from_bytes(controller[78:80], "little")
        oncs = int.from_bytes(controller[520:522], "little")
        # The name of the subsystem, its serial number and the namespace: the same on all nodes.
        self.place = (controller[768:1024], controller[4:24], device.nsid, self.path)
        namespace = self._ask(Command("Identify Namespace", IDENTIFY, NAMESPACE, wanted=PAGE_BYTES, is_admin=True))
        self._rescap = namespace[31] if oncs & 0x20 else 0
        if self._rescap & 0x7E == 0:
            raise Failure(f"{self.path} has no reservations")
        self.report()
        self._host = self._host_identifier()

    def _ask(self, command: Command) -> bytes:
        """The data that a command returns. Raises `Failure` with the name of a failed status."""
        self._progress.asks(self.path, command.name)
        status, data = self._device.submit(command)
        if status != 0:
            name = STATUSES.get(status, "an unknown status")
            raise Failure(f"{self.path}: {command.name} is answered {name} ({status >> 8:x}:{status & 0xFF:02x})")
        return data

    def _host_identifier(self) -> int:
        """The host's identifier; 0 if it has none, or the device does not report it."""
        size = 16 if self._is_extended else 8
        command = Command("Get Features", GET_FEATURES, HOST_IDENTIFIER, int(self._is_extended), wanted=size,
                          is_admin=True, has_nsid=False)
        self._progress.asks(self.path, command.name)
        status, data = self._device.submit(command)
        return int.from_bytes(data, "little") if status == 0 else 0

    def report(self) -> Report:
        """The reservation and its registrants, now."""
        size = PAGE_BYTES
        while size <= MOST_REPORT_BYTES:
            self._progress.asks(self.path, "Reservation Report")
            command = Command("Reservation Report", REPORT, size // 4 - 1, int(self._is_extended), wanted=size)
            status, data = self._device.submit(command)
            if status == WRONG_FORMAT and self._is_extended:
                self._is_extended = False
                continue
            if status != 0:
                data = self._ask(command)
            needed = (64 if self._is_extended else 24) * (1 + struct.unpack_from("<H", data, 5)[0])
            if needed <= size:
                return Report.of(data, self._is_extended)
            size = -(-needed // PAGE_BYTES) * PAGE_BYTES
        raise Failure(f"{self.path} has too many registrants")

    def is_own(self, registrant: Registrant, report: Report) -> bool:
        """Whether it is this host: by its identifier, or else by the controller through which it is reached."""
        host = self._host or next((it.host for it in report.registrants if it.cntlid == self._cntlid), 0)
        return registrant.host == host if host else registrant.cntlid == self._cntlid

    def own_key(self, report: Report) -> Optional[int]:
        return next((it.key for it in report.registrants if self.is_own(it, report)), None)

    def check_type(self, rtype: int) -> None:
        if not self._rescap >> rtype & 1:
            raise Failure(f"{self.path} has no reservations of type {rtype}, {RESERVATIONS[rtype]}")

    def register(self, key: int, old: Optional[int]) -> None:
        """Registers this host's key, replacing an old one. It persists if the device can."""
        persist = PERSIST if self._rescap & 1 else 0
        action = 0 if old in (None, key) else REPLACE_KEY
        self._ask(Command("Reservation Register", REGISTER, action | persist, sent=struct.pack("<QQ", old or 0, key)))

    def acquire(self, key: int, rtype: int) -> None:
        """Acquires the reservation. Another node may acquire it first, which the next report shows."""
        try:
            self._ask(Command("Reservation Acquire", ACQUIRE, rtype << 8, sent=struct.pack("<QQ", key, 0)))
        except Failure:
            if self.report().rtype != rtype:
                raise

    def preempt(self, key: int, victim: int, rtype: int) -> None:
        """Preempts a key, and aborts its host's commands."""
        self._ask(Command("Preempt and Abort", ACQUIRE, PREEMPT_AND_ABORT | rtype << 8,
                          sent=struct.pack("<QQ", key, victim)))
