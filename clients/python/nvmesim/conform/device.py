"""A namespace of an NVMe device through the ioctls of Linux, and its Identify data."""
from __future__ import annotations

import ctypes
import errno
import fcntl
import os
import struct
from dataclasses import dataclass
from typing import Optional, Protocol, Tuple

from ..errors import NvmesimError
from ..files import doing

_PASSTHROUGH = struct.Struct("<BBHIIIQQIIIIIIIIII")
_ADMIN, _IO, _IDENTIFIER = 0xC0484E41, 0xC0484E43, 0x4E40
_IDENTIFY, _GET_FEATURES = 0x06, 0x0A
_HOST_IDENTIFIER = 0x81
IDENTIFY_BYTES = 4096


class DeviceFault(NvmesimError):
    """The device can't be compared, with the reason."""


@dataclass(frozen=True)
class Command:
    """A command: its queue, its opcode, the double words 10 to 13, the bytes for the device, and how many it
    returns."""

    is_admin: bool
    opcode: int
    cdw10: int = 0
    cdw11: int = 0
    cdw12: int = 0
    sent: bytes = b""
    wanted: int = 0


@dataclass(frozen=True)
class Answer:
    """The result of a command: its status as transcripts have it, double word 0, and the returned data."""

    status: str
    value: int = 0
    data: bytes = b""


class Commands(Protocol):
    """Executes commands on one namespace: a device, or a test's wrapper of one."""

    def submit(self, command: Command) -> Answer:
        """Executes a command."""


class Device:
    """An open device, such as /dev/nvme0n1. It is opened exclusively, so nothing else can use it.

    Attributes:
        path: its name.
        nsid: its namespace.
    """

    def __init__(self, path: str) -> None:
        """Opens the device. Raises `FileFault` if that fails, and `DeviceFault` if it isn't a namespace."""
        self.path = path
        with doing("open", path):
            self._file = os.open(path, os.O_RDWR | os.O_EXCL | os.O_CLOEXEC)
        try:
            self.nsid = fcntl.ioctl(self._file, _IDENTIFIER)
        except OSError:
            os.close(self._file)
            raise DeviceFault(f"{path} is no namespace of an NVMe device, such as /dev/nvme0n1") from None

    def close(self) -> None:
        """Closes the device."""
        os.close(self._file)

    def abilities(self) -> Abilities:
        """The properties of the device."""
        return Abilities.of(self)

    def submit(self, command: Command) -> Answer:
        """Executes a command. Raises `DeviceFault` if the kernel refuses it."""
        size = max(len(command.sent), command.wanted)
        room = ctypes.create_string_buffer(command.sent, size) if size else None
        address = ctypes.addressof(room) if room is not None else 0
        fields = bytearray(_PASSTHROUGH.pack(command.opcode, 0, 0, self.nsid, 0, 0, 0, address, 0, size, command.cdw10,
                                             command.cdw11, command.cdw12, 0, 0, 0, 0, 0))
        try:
            status = fcntl.ioctl(self._file, _ADMIN if command.is_admin else _IO, fields)
        except OSError as fault:
            raise DeviceFault(f"{self.path}: the system refuses opcode {command.opcode:x}h: "
                              f"{errno.errorcode.get(fault.errno or 0, fault.errno)}") from None
        value = int.from_bytes(fields[68:72], "little")
        came = room.raw[:command.wanted] if room is not None and status == 0 else b""
        return Answer(f"{status >> 8 & 7:x}:{status & 0xFF:02x}", value, came)


def identify(device: Commands, cns: int) -> bytes:
    """An Identify data structure."""
    answer = device.submit(Command(True, _IDENTIFY, cns, wanted=IDENTIFY_BYTES))
    if answer.status != "0:00":
        raise DeviceFault(f"Identify with CNS {cns} is answered {answer.status}")
    return answer.data


@dataclass(frozen=True)
class Abilities:
    """A device's properties, from Identify.

    Attributes:
        blocks: the blocks of its namespace, of 512 bytes each.
        is_shared: whether the namespace may be attached to several controllers.
        cntlid: its controller.
        host: the identifier of the host that uses it.
        model: its model and serial number.
        most_blocks: the largest number of blocks of a command that is tried.
        has_compare, has_zeroes, has_protection, has_attachment: which commands it has.
        rtypes: which types of reservations it has; none if it has no reservations.
        has_persistence: whether these may persist through a loss of power.
        nqn: the name of its subsystem (SUBNQN).
        has_past_end: whether commands on blocks after the last one are sent to it.
        missing: what is left out for another reason than that the device lacks it, each with the reason.
    """

    blocks: int
    is_shared: bool
    cntlid: int
    host: int
    model: str
    most_blocks: int
    has_compare: bool
    has_zeroes: bool
    has_protection: bool
    has_attachment: bool
    rtypes: Tuple[int, ...]
    has_persistence: bool
    nqn: str = ""
    has_past_end: bool = True
    missing: Tuple[Tuple[str, str], ...] = ()

    @classmethod
    def of(cls, device: Commands, host: Optional[int] = None) -> Abilities:
        """Reads the properties of a device. Raises `DeviceFault` if it can't be compared.

        Args:
            device: the device.
            host: the identifier of its host; by default the one that the device reports.
        """
        controller, namespace = identify(device, 1), identify(device, 0)
        blocks, = struct.unpack_from("<Q", namespace)
        form = namespace[128 + 4 * (namespace[26] & 0xF):][:4]
        if blocks < 64:
            raise DeviceFault(f"the namespace has {blocks} blocks, but the comparison needs at least 64")
        if form[2] != 9 or form[0] or form[1]:
            raise DeviceFault(f"the namespace has blocks of {1 << form[2]} bytes and {form[0] + 256 * form[1]} of "
                              "metadata; the model has blocks of 512 bytes and no metadata")
        oncs, oacs = struct.unpack_from("<H", controller, 520)[0], struct.unpack_from("<H", controller, 256)[0]
        rescap = namespace[31] if oncs & 0x20 else 0
        most = 256 if controller[77] == 0 else min(256, 8 << controller[77])
        known = _host_of(device) if host is None else host
        return cls(blocks, bool(namespace[30] & 1), struct.unpack_from("<H", controller, 78)[0], known,
                   f"{_text(controller[24:64])} {_text(controller[4:24])}".strip(), most, bool(oncs & 1),
                   bool(oncs & 8), bool(controller[531] & 1), bool(oacs & 8),
                   tuple(it for it in range(1, 7) if rescap >> it & 1), bool(rescap & 1), _text(controller[768:1024]))


def _text(field: bytes) -> str:
    """A field of Identify, without the blanks or zeros that fill it up."""
    return field.decode("utf-8", "replace").strip("\0 ")


def _host_of(device: Commands) -> int:
    """The host's identifier; 0 if the device does not report one of 128 bits."""
    answer = device.submit(Command(True, _GET_FEATURES, _HOST_IDENTIFIER, 1, wanted=16))
    return int.from_bytes(answer.data, "little") if answer.status == "0:00" else 0
