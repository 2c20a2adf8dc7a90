"""A host's side of one controller: it brings the controller up and executes commands, one at a time."""
from abc import ABC, abstractmethod
from dataclasses import dataclass
from typing import Dict, List, Optional, Tuple

from nvmelab import looks
from nvmelab.entries import Command, Completion
from nvmelab.faults import Ended, LabFault
from nvmelab.queues import PAGE
from nvmelab.subsystem import Subsystem

# The registers before the doorbells.
REGISTERS = (0x00, 0x04, 0x08, 0x14, 0x1c, 0x24, 0x28, 0x2c, 0x30, 0x34)


@dataclass
class Data:
    """The data of a command: their offset in their page, their bytes before the command, and whether the host gave an
    address."""
    offset: int = 0
    content: bytes = b""
    is_mapped: bool = True

    @property
    def padded(self) -> bytes:
        """The data as a command sees them: padded with zeros to the end of their last page."""
        slack = -(self.offset + len(self.content)) % PAGE if self.content else 0
        return self.content + bytes(slack)


class NoQueue(LabFault):
    """The command's queue was deleted."""


class Host(ABC):
    """The host's side of one controller."""

    def __init__(self, subsystem: Subsystem, cntlid: int) -> None:
        self.subsystem = subsystem
        self.cntlid = cntlid

    @property
    @abstractmethod
    def queue_entries(self) -> int:
        """The number of entries of the first I/O submission queue."""

    @abstractmethod
    def bring_up(self) -> None:
        """Resets the controller, and makes it ready for admin and I/O commands."""

    @abstractmethod
    def run(self, is_admin: bool, command: Command, data: Data) -> Tuple[Completion, bytes]:
        """Executes a command. Returns its completion and the data it returned; none if they went to the controller or
        the command failed."""

    def admin(self, command: Command, data: Optional[Data] = None) -> Tuple[Completion, bytes]:
        return self.run(True, command, data or Data())

    def registers(self) -> Dict[int, int]:
        """The registers' values by their offsets."""
        answers = self.ask([looks.register_line(self.cntlid, offset) for offset in REGISTERS], [])
        return dict(zip(REGISTERS, map(looks.register_value, answers)))

    def ask(self, lines: List[str], wanted: List[str]) -> List[str]:
        """Sends lines, checks the first answers, and returns the others."""
        answers = self.subsystem.ask(lines)
        for line, answer, expected in zip(lines, answers, wanted):
            if answer != expected:
                raise Ended(f"`{line[:60]}` was answered `{answer[:60]}`")
        return answers[len(wanted):]
