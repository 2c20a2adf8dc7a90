"""Commands to a namespace, by the ioctls of Linux."""
from __future__ import annotations

import ctypes
import errno
import fcntl
import os
import struct
from typing import NamedTuple, Protocol, Tuple

from .failures import Failure

# linux/nvme_ioctl.h: struct nvme_passthru_cmd, NVME_IOCTL_ADMIN_CMD, NVME_IOCTL_IO_CMD and NVME_IOCTL_ID.
PASSTHROUGH = struct.Struct("<BBHIIIQQIIIIIIIIII")
ADMIN_COMMAND, IO_COMMAND, IDENTIFIER = 0xC0484E41, 0xC0484E43, 0x4E40


class Command(NamedTuple):
    """A command: its name and opcode, double words 10 and 11, the bytes for the device, and how many it returns."""

    name: str
    opcode: int
    cdw10: int = 0
    cdw11: int = 0
    sent: bytes = b""
    wanted: int = 0
    is_admin: bool = False
    has_nsid: bool = True


class Device(Protocol):
    """Executes commands on a namespace."""

    path: str
    nsid: int

    def submit(self, command: Command) -> Tuple[int, bytes]:
        """Executes a command. Returns its status, type and code, and the returned data."""


class LinuxDevice:
    """A namespace by the ioctls of Linux. It is opened for reading only, and its blocks are not read."""

    def __init__(self, path: str) -> None:
        self.path = path
        try:
            self._file = os.open(path, os.O_RDONLY | os.O_CLOEXEC)
        except OSError as fault:
            raise Failure(f"{path} can't be opened: {fault.strerror}") from None
        try:
            self.nsid = fcntl.ioctl(self._file, IDENTIFIER)
        except OSError:
            raise Failure(f"{path} is no namespace of an NVMe device, such as /dev/nvme0n1") from None

    def submit(self, command: Command) -> Tuple[int, bytes]:
        size = max(len(command.sent), command.wanted)
        room = ctypes.create_string_buffer(command.sent, size)
        fields = bytearray(PASSTHROUGH.pack(command.opcode, 0, 0, self.nsid if command.has_nsid else 0, 0, 0, 0,
                                            ctypes.addressof(room), 0, size, command.cdw10, command.cdw11,
                                            0, 0, 0, 0, 0, 0))
        try:
            status = fcntl.ioctl(self._file, ADMIN_COMMAND if command.is_admin else IO_COMMAND, fields)
        except OSError as fault:
            hint = "; root's rights are needed" if fault.errno in (errno.EACCES, errno.EPERM) else ""
            raise Failure(f"{self.path}: the system refuses {command.name}: {fault.strerror}{hint}") from None
        return status & 0x7FF, room.raw[:command.wanted]
