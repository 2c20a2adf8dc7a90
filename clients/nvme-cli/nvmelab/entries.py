"""Submission and completion queue entries, and the PRP entries for data."""
import struct
from typing import List, Tuple

from nvmelab.queues import DATA_PLACE, LIST_PLACE, NOWHERE, PAGE

DELETE_SUBMISSION, CREATE_SUBMISSION, DELETE_COMPLETION, CREATE_COMPLETION = 0x00, 0x01, 0x04, 0x05
CREATE_QUEUE = (CREATE_SUBMISSION, CREATE_COMPLETION)
IDENTIFY, SET_FEATURES, GET_FEATURES, ATTACHMENT = 0x06, 0x09, 0x0a, 0x15
WRITE_PROTECTION = 0x84


class Command:
    """A submission queue entry of 64 bytes, whose identifier and data pointer can be set."""

    def __init__(self, entry: bytes) -> None:
        self.entry = bytearray(entry)

    @classmethod
    def of(cls, opcode: int, nsid: int = 0, cdw10: int = 0, cdw11: int = 0) -> "Command":
        entry = bytearray(64)
        struct.pack_into("<B3xI", entry, 0, opcode, nsid)
        struct.pack_into("<II", entry, 40, cdw10, cdw11)
        return cls(bytes(entry))

    @property
    def opcode(self) -> int:
        return self.entry[0]

    @property
    def has_plain_form(self) -> bool:
        """Whether it is not fused and uses PRP entries: FUSE and PSDT are 0."""
        return self.entry[1] & 0xc3 == 0

    @property
    def nsid(self) -> int:
        return self.double_word(1)

    @property
    def sends_data(self) -> bool:
        """Whether data go to the controller: bit 0 of the opcode."""
        return bool(self.entry[0] & 1)

    def double_word(self, number: int) -> int:
        return struct.unpack_from("<I", self.entry, 4 * number)[0]

    def identify_by(self, cid: int) -> None:
        struct.pack_into("<H", self.entry, 2, cid)

    def point_to(self, prp1: int, prp2: int) -> None:
        struct.pack_into("<QQ", self.entry, 24, prp1, prp2)


class Completion:
    """A completion queue entry of 16 bytes."""

    def __init__(self, entry: bytes) -> None:
        self.entry = entry
        self.dw0, _, self.sq_head, self.sq_id, self.cid, field = struct.unpack("<IIHHHH", entry)
        self.phase = field & 1
        self.status = field >> 1

    @classmethod
    def of(cls, status: int, dw0: int = 0) -> "Completion":
        """A completion with only a status and double word 0."""
        return cls(struct.pack("<IIHHHH", dw0, 0, 0, 0, 0, status << 1))

    @property
    def is_success(self) -> bool:
        return self.status & 0x7ff == 0


def pointer(offset: int, length: int) -> Tuple[int, int, List[int]]:
    """PRP1, PRP2 and the PRP list for data at an offset of their first page.

    The page after the data is not mapped, so a command that moves more bytes gets Data Transfer Error.
    """
    place = DATA_PLACE + offset
    count = (offset + length + PAGE - 1) // PAGE
    later = [DATA_PLACE + PAGE * number for number in range(1, count)]
    if count == 1:
        return place, NOWHERE, []
    if count == 2:
        return place, later[0], []
    return place, LIST_PLACE, [*later, NOWHERE]


def list_bytes(entries: List[int]) -> bytes:
    return struct.pack(f"<{len(entries)}Q", *entries)
