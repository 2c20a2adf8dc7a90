"""Commands as requests of a driver: the line of a script for a command, or the status of one that no line can express.

A driver makes its commands itself, so that a request has the fields that the subsystem looks at, and no others: what
else is in an entry is ignored by a raw host's controller too, and is left out. The data of a command reach to
the end of their last page, as those of a raw host do.
"""
import struct
from typing import Callable, Dict, List

from nvmelab import entries
from nvmelab.configuration import BLOCK_BYTES
from nvmelab.entries import Command
from nvmelab.host import Data
from nvmelab.queues import MOST_DATA, PAGE

INVALID_OPCODE, INVALID_FIELD, DATA_TRANSFER_ERROR = 0x01, 0x02, 0x04
ATTACH, DETACH = 0, 1

Maker = Callable[[Command, Data], List[object]]


class Unsaid(Exception):
    """No request can express this command. It gets this status without reaching the subsystem."""

    def __init__(self, status: int) -> None:
        super().__init__(f"status {status:#x}")
        self.status = status


def request_line(cntlid: int, is_admin: bool, command: Command, data: Data) -> str:
    """The line of the request for a command with its data.

    Raises:
        Unsaid: no request has its opcode (Invalid Command Opcode); a field has a value that the request has no word for
            (Invalid Field in Command); or it moves more bytes than its data have (Data Transfer Error).
    """
    make = (ADMIN if is_admin else IO).get(command.opcode)
    if make is None:
        raise Unsaid(INVALID_OPCODE)
    check(command.has_plain_form)
    verb, *words = make(command, data)
    return " ".join(map(str, (verb, cntlid, *words)))


def check(is_said: bool) -> None:
    """Refuses a field that the request has no word for."""
    if not is_said:
        raise Unsaid(INVALID_FIELD)


def moved(data: Data, length: int) -> bytes:
    """The bytes that a command finds at its data pointer, of which it moves `length`."""
    check(length <= MOST_DATA)
    if length > len(data.padded):
        raise Unsaid(DATA_TRANSFER_ERROR)
    return data.padded[:length]


def spelled(content: bytes) -> str:
    """Bytes in the form of a line, without trailing zeros."""
    return f"hex:{content.rstrip(bytes(1)).hex() or '00'}"


def keys(content: bytes) -> List[str]:
    return [f"{it:#x}" for it, in struct.iter_unpack("<Q", content)]


# The fields of commands, by the standard's names.


def starting_lba(command: Command) -> int:
    return command.double_word(10) | command.double_word(11) << 32


def block_count(command: Command) -> int:
    return (command.double_word(12) & 0xffff) + 1


def action(command: Command) -> int:
    """RREGA, RACQA or RRELA."""
    return command.double_word(10) & 7


def iekey(command: Command) -> int:
    return command.double_word(10) >> 3 & 1


def rtype(command: Command) -> int:
    return command.double_word(10) >> 8 & 0xff


def cptpl(command: Command) -> int:
    return command.double_word(10) >> 30


def eds(command: Command) -> int:
    return command.double_word(11) & 1


def cns(command: Command) -> int:
    return command.double_word(10) & 0xff


def sets_protection(command: Command) -> bool:
    """Requires that FID is Namespace Write Protection Config and SV (Save) is 0."""
    return command.double_word(10) & 0xff == entries.WRITE_PROTECTION and command.double_word(10) >> 31 == 0


# The words of each request after its controller.


def read(command: Command, data: Data) -> List[object]:
    moved(data, BLOCK_BYTES * block_count(command))
    return ["read", command.nsid, starting_lba(command), block_count(command)]


def sending_blocks(verb: str) -> Maker:
    def make(command: Command, data: Data) -> List[object]:
        content = moved(data, BLOCK_BYTES * block_count(command))
        return [verb, command.nsid, starting_lba(command), block_count(command), spelled(content)]
    return make


def zeroes(command: Command, data: Data) -> List[object]:
    return ["zeroes", command.nsid, starting_lba(command), block_count(command)]


def flush(command: Command, data: Data) -> List[object]:
    return ["flush", command.nsid]


def register(command: Command, data: Data) -> List[object]:
    return ["register", command.nsid, action(command), iekey(command), cptpl(command), *keys(moved(data, 16))]


def acquire(command: Command, data: Data) -> List[object]:
    check(iekey(command) == 0)
    return ["acquire", command.nsid, action(command), rtype(command), *keys(moved(data, 16))]


def release(command: Command, data: Data) -> List[object]:
    check(iekey(command) == 0)
    return ["release", command.nsid, action(command), rtype(command), *keys(moved(data, 8))]


def report(command: Command, data: Data) -> List[object]:
    """Requires EDS, since a driver asks for the extended data structure."""
    check(eds(command) == 1)
    dwords = command.double_word(10) + 1
    moved(data, 4 * dwords)
    return ["report", command.nsid, dwords]


def identify(command: Command, data: Data) -> List[object]:
    moved(data, PAGE)
    return ["identify", cns(command), command.nsid]


def protect(command: Command, data: Data) -> List[object]:
    check(sets_protection(command))
    return ["protect", command.nsid, command.double_word(11) & 7]


def protection(command: Command, data: Data) -> List[object]:
    check(command.double_word(10) & 0xff == entries.WRITE_PROTECTION)
    return ["protection", command.nsid]


def attachment(command: Command, data: Data) -> List[object]:
    """SEL is in bits 3:0; the data are a Controller List: a count, then that many identifiers."""
    sel = command.double_word(10) & 0xf
    check(sel in (ATTACH, DETACH))
    listed = moved(data, PAGE)
    count, = struct.unpack_from("<H", listed)
    check(2 + 2 * count <= PAGE)
    return ["attach" if sel == ATTACH else "detach", command.nsid, *struct.unpack_from(f"<{count}H", listed, 2)]


IO: Dict[int, Maker] = {
    0x00: flush, 0x01: sending_blocks("write"), 0x02: read, 0x05: sending_blocks("compare"), 0x08: zeroes,
    0x0d: register, 0x0e: report, 0x11: acquire, 0x15: release,
}
ADMIN: Dict[int, Maker] = {
    entries.IDENTIFY: identify, entries.SET_FEATURES: protect, entries.GET_FEATURES: protection,
    entries.ATTACHMENT: attachment,
}
