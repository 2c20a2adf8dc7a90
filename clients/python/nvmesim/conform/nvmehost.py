"""A namespace of a controller that VFIO hands to the program `nvmehost`, the proved driver: each command is a line of a
session with it."""
from __future__ import annotations

import json
import os
import shutil
import struct
from dataclasses import replace
from typing import Callable, Dict

from ..enums import AdminOpcode, IoOpcode
from ..errors import ProgramDied, ProgramHangs, ProgramNotFound
from ..process import Process
from .device import Abilities, Answer, Command, DeviceFault

VARIABLE = "NVMEHOST"
"""The variable of the environment that names the program."""

UNSENT = ("write protection", "attachment", "blocks after the last one")
"""What the proved driver sends no command on."""

_SECONDS = 300.0
_WHY_UNSENT = "nvmehost does not send it"
_SUCCESS = "0:00"


def host_of(cntlid: int) -> bytes:
    """The identifier of the host of a controller: 16 bytes, the same in each run."""
    return b"nvmesim-cntlid" + struct.pack("<H", cntlid)


def find_nvmehost() -> str:
    """The program: the one that the environment names, or that is on the path.

    Raises:
        ProgramNotFound: none is executable.
    """
    named = os.environ.get(VARIABLE) or "nvmehost"
    found = shutil.which(named)
    if found is None:
        raise ProgramNotFound(f"{named} is no program that can be run: `scripts/host FOLDER` builds bin/nvmehost, and the "
                              f"variable {VARIABLE} can name it")
    return found


class Nvmehost:
    """A session of the program over one controller, which it resets at the beginning and at the end.

    Attributes:
        path: its PCI address.
        nsid: the namespace that is compared.
    """

    def __init__(self, address: str, nsid: int) -> None:
        """Starts the program.

        Args:
            address: a PCI address, such as 0000:00:04.0, of a controller that is bound to vfio-pci.
            nsid: a namespace of it.
        """
        self.path, self.nsid = address, nsid
        self._process = Process([find_nvmehost(), address, "session"], _SECONDS)

    def close(self) -> None:
        """Ends the session, and waits until the controller is reset."""
        self._process.close()

    def abilities(self) -> Abilities:
        """The properties of the device, and of the driver. Sets the identifier of the host at a controller that has
        reservations."""
        able = Abilities.of(self, 0)
        host = host_of(able.cntlid)
        missing = [(name, _WHY_UNSENT) for name in UNSENT]
        if able.rtypes:
            status = self._ask(f"host-identifier {host.hex()}").status
            if status != _SUCCESS:
                missing.append(("reservations", f"{self.path} answers the Host Identifier with {status}"))
                able = replace(able, rtypes=())
        return replace(able, host=int.from_bytes(host, "little"), has_protection=False, has_attachment=False,
                       has_past_end=False, missing=tuple(missing))

    def submit(self, command: Command) -> Answer:
        """Executes a command. Raises `DeviceFault` if the program or the driver refuses it, or has ended."""
        opcodes = _ADMIN_LINES if command.is_admin else _IO_LINES
        if command.opcode not in opcodes:
            raise DeviceFault(f"{self.path}: nvmehost has no command for opcode {command.opcode:x}h")
        answer = self._ask(opcodes[command.opcode](command, self.nsid))
        return replace(answer, data=answer.data[:command.wanted])

    def _ask(self, line: str) -> Answer:
        """Sends a line, and returns its result."""
        try:
            text = self._process.exchange([line])[0]
        except (ProgramDied, ProgramHangs) as fault:
            raise DeviceFault("; ".join(fault.told.splitlines()) or f"{self.path}: {fault}") from None
        try:
            told = json.loads(text)
            if "refused" in told:
                raise DeviceFault(f"{self.path}: nvmehost refuses {line.split()[0]}: {told['refused']}")
            return Answer(told["status"], told["dw0"], bytes.fromhex(told.get("data", "")))
        except (ValueError, KeyError, TypeError):
            raise DeviceFault(f"{self.path}: nvmehost answers {line[:40]!r} with {text[:80]!r}") from None


def _slba(command: Command) -> int:
    return command.cdw10 | command.cdw11 << 32


def _count(command: Command) -> int:
    return (command.cdw12 & 0xFFFF) + 1


def _read(command: Command, nsid: int) -> str:
    return f"read {nsid} {_slba(command)} {_count(command)}"


def _zeroes(command: Command, nsid: int) -> str:
    return f"zeroes {nsid} {_slba(command)} {_count(command)}"


def _write(command: Command, nsid: int) -> str:
    return f"write {nsid} {_slba(command)} {command.sent.hex()}"


def _compare(command: Command, nsid: int) -> str:
    return f"compare {nsid} {_slba(command)} {command.sent.hex()}"


def _flush(_: Command, nsid: int) -> str:
    return f"flush {nsid}"


def _register(command: Command, nsid: int) -> str:
    crkey, nrkey = struct.unpack("<QQ", command.sent)
    iekey = " --iekey" if command.cdw10 >> 3 & 1 else ""
    return (f"resv-register {nsid} --rrega {command.cdw10 & 7}{iekey} --cptpl {command.cdw10 >> 30} --crkey {crkey} "
            f"--nrkey {nrkey}")


def _acquire(command: Command, nsid: int) -> str:
    crkey, prkey = struct.unpack("<QQ", command.sent)
    return (f"resv-acquire {nsid} --racqa {command.cdw10 & 7} --rtype {command.cdw10 >> 8 & 0xFF} --crkey {crkey} "
            f"--prkey {prkey}")


def _release(command: Command, nsid: int) -> str:
    crkey, = struct.unpack_from("<Q", command.sent)
    return f"resv-release {nsid} --rrela {command.cdw10 & 7} --rtype {command.cdw10 >> 8 & 0xFF} --crkey {crkey}"


def _report(command: Command, nsid: int) -> str:
    return f"resv-report {nsid} {command.cdw10 + 1}"


def _identify(command: Command, nsid: int) -> str:
    return f"identify {nsid if command.cdw10 == 0 else 0}"


_Line = Callable[[Command, int], str]
_IO_LINES: Dict[int, _Line] = {
    IoOpcode.FLUSH: _flush, IoOpcode.WRITE: _write, IoOpcode.READ: _read, IoOpcode.COMPARE: _compare,
    IoOpcode.WRITE_ZEROES: _zeroes, IoOpcode.RESERVATION_REGISTER: _register, IoOpcode.RESERVATION_REPORT: _report,
    IoOpcode.RESERVATION_ACQUIRE: _acquire, IoOpcode.RESERVATION_RELEASE: _release}
_ADMIN_LINES: Dict[int, _Line] = {AdminOpcode.IDENTIFY: _identify}
