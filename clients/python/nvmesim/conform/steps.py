"""The steps of a comparison: a line of a script for the model, and a command for the device."""
from __future__ import annotations

import struct
from dataclasses import dataclass
from typing import Callable, Dict, Sequence, Tuple

from ..answers import BLOCK_BYTES
from ..lines import spelled
from .device import Command

REGION = 16
"""Number of blocks at the beginning of the namespace, and at its end, that are read and written."""
REPORT_DWORDS = 256

_OPCODES = {"flush": 0x00, "write": 0x01, "read": 0x02, "compare": 0x05, "zeroes": 0x08, "register": 0x0D,
            "report": 0x0E, "acquire": 0x11, "release": 0x15}
_ADMIN = {"identify": 0x06, "protect": 0x09, "protection": 0x0A, "attach": 0x15, "detach": 0x15}


@dataclass(frozen=True)
class Step:
    """A command of a host: its word, and its numbers in the order of the line, with the blocks of the device.

    For `write` and `compare` the last number is a seed of the data, and for `attach` and `detach` the numbers are those
    of hosts, from 0.
    """

    host: int
    verb: str
    numbers: Tuple[int, ...] = ()

    @property
    def is_admin(self) -> bool:
        """Whether it goes to the admin queue."""
        return self.verb in _ADMIN

    @property
    def data(self) -> bytes:
        """The data of a Write or a Compare: all blocks differ."""
        _, count, seed = self.numbers
        return b"".join(struct.pack("<HH", seed, n + 1).ljust(16, bytes([seed % 251 + 1])).ljust(BLOCK_BYTES, b"\0")
                        for n in range(count)) if seed else bytes(BLOCK_BYTES * count)

    @property
    def words(self) -> str:
        """The step for a message: its word and numbers, and the host."""
        return f"'{' '.join(map(str, (self.verb, *self.numbers)))}' of host {self.host + 1}"

    def line(self, places: Places) -> str:
        """The step as a line of a script, whose namespace is 1."""
        c = self.host + 1
        numbers: Sequence[object] = self.numbers
        if self.verb in ("read", "zeroes", "write", "compare"):
            slba, count, *_ = self.numbers
            numbers = [places.of_model(slba), count]
            if self.verb in ("write", "compare"):
                numbers = [*numbers, spelled(self.data)]
        elif self.verb in ("attach", "detach"):
            numbers = [it + 1 for it in self.numbers]
        elif self.verb == "identify":
            return f"identify {c} 0 1"
        elif self.verb == "report":
            numbers = [REPORT_DWORDS]
        return " ".join(map(str, (self.verb, c, 1, *numbers)))

    def command(self, cntlids: Sequence[int]) -> Command:
        """The step as a command for a device, whose controllers have these identifiers."""
        return _FORMS[self.verb](self, cntlids)


@dataclass(frozen=True)
class Places:
    """Maps blocks of a device to the model, which has fewer: the last blocks stay the last."""

    device_blocks: int
    model_blocks: int

    def of_model(self, slba: int) -> int:
        """The model's block for a block of the device."""
        return slba if slba < self.device_blocks // 2 else slba - self.device_blocks + self.model_blocks


def _blocks(step: Step, _: Sequence[int]) -> Command:
    slba, count, *_rest = step.numbers
    sent = step.data if step.verb in ("write", "compare") else b""
    wanted = BLOCK_BYTES * count if step.verb == "read" else 0
    return Command(False, _OPCODES[step.verb], slba & 0xFFFFFFFF, slba >> 32, count - 1, sent, wanted)


def _flush(step: Step, _: Sequence[int]) -> Command:
    return Command(False, _OPCODES["flush"])


def _register(step: Step, _: Sequence[int]) -> Command:
    action, iekey, cptpl, crkey, nrkey = step.numbers
    keys = struct.pack("<QQ", crkey, nrkey)
    return Command(False, _OPCODES["register"], action | iekey << 3 | cptpl << 30, sent=keys)


def _acquire(step: Step, _: Sequence[int]) -> Command:
    action, rtype, crkey, prkey = step.numbers
    return Command(False, _OPCODES["acquire"], action | rtype << 8, sent=struct.pack("<QQ", crkey, prkey))


def _release(step: Step, _: Sequence[int]) -> Command:
    action, rtype, crkey = step.numbers
    return Command(False, _OPCODES["release"], action | rtype << 8, sent=struct.pack("<Q", crkey) + bytes(8))


def _report(step: Step, _: Sequence[int]) -> Command:
    return Command(False, _OPCODES["report"], REPORT_DWORDS - 1, 1, wanted=4 * REPORT_DWORDS)


def _identify(step: Step, _: Sequence[int]) -> Command:
    return Command(True, _ADMIN["identify"], 0, wanted=4096)


def _protect(step: Step, _: Sequence[int]) -> Command:
    return Command(True, _ADMIN["protect"], 0x84, step.numbers[0])


def _protection(step: Step, _: Sequence[int]) -> Command:
    return Command(True, _ADMIN["protection"], 0x84)


def _attachment(step: Step, cntlids: Sequence[int]) -> Command:
    listed = [cntlids[it] for it in step.numbers]
    sent = struct.pack(f"<H{len(listed)}H", len(listed), *listed).ljust(4096, b"\0")
    return Command(True, _ADMIN["attach"], int(step.verb == "detach"), sent=sent)


_FORMS: Dict[str, Callable[[Step, Sequence[int]], Command]] = {
    "read": _blocks, "write": _blocks, "compare": _blocks, "zeroes": _blocks, "flush": _flush, "register": _register,
    "acquire": _acquire, "release": _release, "report": _report, "identify": _identify, "protect": _protect,
    "protection": _protection, "attach": _attachment, "detach": _attachment,
}
