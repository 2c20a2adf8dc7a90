"""The protocol of the preloaded library and the server: one request and its answer for each connection.

Numbers are little-endian. Every message begins with 4 bytes: the length of the rest.

A request of 80 bytes and data:

    0   1   the request: 1 a command, 2 a reset of the controller, 3 whether the device exists
    1   1   the queue: 0 the admin queue, 1 an I/O queue
    2   2   the controller, as the host's view numbers it: K of /dev/nvmeK
    4   4   the namespace of the device, 0 for the controller
    8   4   where the data begin in their page, a multiple of 4; FFFFFFFFh if they have a length and no address
    12  4   the length of the data in bytes, at most 131,072
    16  64  the entry of the command; its identifier and its data pointer are set by the server
    80      the data, as the host has them before the command; none without an address

An answer of 20 bytes and data:

    0   4   an error number of Linux, or 0; if it is not 0 the rest is 0
    4   16  the completion of a command
    20      the data that a command brought which succeeded and whose opcode has bit 0 clear; else none

An incomplete request is dropped without an effect.
"""
import struct
from dataclasses import dataclass
from typing import Optional

from nvmelab import queues
from nvmelab.entries import Command
from nvmelab.host import Data

COMMAND, RESET, LOOK = 1, 2, 3
LENGTH = struct.Struct("<I")
HEAD = struct.Struct("<BBHIII")
REQUEST_BYTES = 80
LONGEST = REQUEST_BYTES + queues.MOST_DATA
NOT_MAPPED = 0xffffffff


class Malformed(ValueError):
    """A malformed request."""


@dataclass
class Request:
    asked: int
    is_admin: bool
    controller: int
    nsid: int
    command: Command
    data: Data

    @classmethod
    def of(cls, message: bytes) -> "Request":
        if len(message) < REQUEST_BYTES:
            raise Malformed("too short")
        asked, queue, controller, nsid, offset, length = HEAD.unpack_from(message)
        content = message[REQUEST_BYTES:]
        is_mapped = offset != NOT_MAPPED
        is_offset = offset % 4 == 0 and offset < queues.PAGE
        if asked not in (COMMAND, RESET, LOOK) or queue > 1 or length > queues.MOST_DATA:
            raise Malformed("a field")
        if len(content) != (length if is_mapped else 0) or is_mapped and not is_offset:
            raise Malformed("data")
        # No address is not the same as no data: a command without data may still name the place of a queue.
        return cls(asked, queue == 0, controller, nsid, Command(message[HEAD.size:REQUEST_BYTES]),
                   Data(offset if is_mapped else 0, content, is_mapped or length == 0))


def answer(error: int, completion: Optional[bytes] = None, data: bytes = b"") -> bytes:
    body = LENGTH.pack(error) + (completion or bytes(16)) + data
    return LENGTH.pack(len(body)) + body
