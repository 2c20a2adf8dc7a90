"""A small NVMe/TCP host: a connection is a queue, and a host has an admin queue and I/O queues."""
import socket
import struct
from typing import Dict, List, NamedTuple, Optional, Tuple, Union

SUBSYSTEM = "nqn.2024-01.example:suvmileh"
DISCOVERY = "nqn.2014-08.org.nvmexpress.discovery"
IC_REQUEST, IC_RESPONSE, HOST_TERMINATION, TERMINATION = 0, 1, 2, 3
CAPSULE, RESPONSE, HOST_DATA, CONTROLLER_DATA, READY_TO_TRANSFER = 4, 5, 6, 7, 9
IN_CAPSULE, TRANSPORT = 0x01, 0x5a
DO_NOT_RETRY = 0x4000
CAP, VS, CC, CSTS = 0x00, 0x08, 0x14, 0x1c
ENABLE = 0x460001
BLOCK = 512
# The most bytes of a write that go into its capsule.
MOST_IN_CAPSULE = 8192


def table_of_crc() -> List[int]:
    """The table of CRC32C, for each byte."""
    table = []
    for value in range(256):
        for _ in range(8):
            value = value >> 1 ^ (0x82f63b78 if value & 1 else 0)
        table.append(value)
    return table


TABLE = table_of_crc()


def digest_of(data: bytes) -> bytes:
    """The CRC32C of bytes, in the form of a PDU."""
    value = 0xffffffff
    for byte in data:
        value = value >> 8 ^ TABLE[(value ^ byte) & 255]
    return struct.pack("<I", value ^ 0xffffffff)


class Ended(Exception):
    """The target ended the connection, with the Fatal Error Status of its termination request, or None without one, and
    with the bytes that this repeats."""

    def __init__(self, status: Optional[int], repeated: bytes = b"") -> None:
        super().__init__(f"the target has ended the connection, status {status}")
        self.status, self.repeated = status, repeated


class Completion(NamedTuple):
    """A completion queue entry, and the data that came before it."""
    status: int
    value: int
    sqhd: int
    cid: int
    data: bytes

    @property
    def code(self) -> int:
        """The Status Code Type and the Status Code, without Do Not Retry."""
        return self.status & 0x7ff


def ic_request(digests: int = 0, alignment: int = 0) -> bytes:
    """ICReq: bit 0 of `digests` asks for those of headers, bit 1 for those of data."""
    return struct.pack("<BBBBIHBBI", IC_REQUEST, 0, 128, 0, 128, 0, alignment, digests, 0).ljust(128, b"\0")


def entry_of(opcode: int, cid: int, nsid: int, words: bytes, length: int, kind: int) -> bytes:
    """A submission queue entry with an SGL; `words` are double words 10 and on."""
    sgl = struct.pack("<QI3xB", 0, length, kind)
    return (struct.pack("<BBHI16x", opcode, 0x40, cid, nsid) + sgl + words).ljust(64, b"\0")


# A port of this machine, or an address with its port.
Place = Union[int, Tuple[str, int]]


class Connection:
    """A connection that sends and receives whole PDUs. `digests` as in ICReq, `timeout` for each answer, and `reach`
    for TCP's connect(2) if that has another."""

    def __init__(self, port: Place, digests: int = 0, alignment: int = 0, opens: bool = True,
                 timeout: float = 20, reach: Optional[float] = None) -> None:
        place = port if isinstance(port, tuple) else ("127.0.0.1", port)
        self.socket = socket.create_connection(place, timeout=reach or timeout)
        self.socket.settimeout(timeout)
        self.socket.setsockopt(socket.IPPROTO_TCP, socket.TCP_NODELAY, 1)
        self.come = bytearray()
        self.digests, self.alignment = digests, alignment
        if opens:
            self.socket.sendall(ic_request(digests, alignment))
            kind, unit = self.unit()
            assert (kind, unit[11]) == (IC_RESPONSE, digests), bytes(unit)

    def close(self) -> None:
        self.socket.close()

    def unit(self) -> tuple:
        """The next PDU: its type, and its bytes."""
        while True:
            length = int.from_bytes(self.come[4:8], "little") if len(self.come) >= 8 else 8
            if len(self.come) >= max(length, 8):
                unit = bytes(self.come[:length])
                del self.come[:length]
                if unit[0] == TERMINATION:
                    raise Ended(int.from_bytes(unit[8:10], "little"), unit[24:])
                return unit[0], unit
            try:
                came = self.socket.recv(1 << 18)
            except ConnectionError as fault:
                raise Ended(None) from fault
            if not came:
                raise Ended(None)
            self.come += came

    def pdu(self, kind: int, header: bytes, data: bytes = b"", flags: int = 0) -> bytes:
        """A PDU with the digests that were agreed on; `header` follows the eight common bytes."""
        size = 8 + len(header)
        place = size + (4 if self.digests & 1 else 0)
        flags |= (1 if self.digests & 1 else 0) | (2 if data and self.digests & 2 else 0)
        length = place + len(data) + (4 if data and self.digests & 2 else 0)
        head = struct.pack("<BBBBI", kind, flags, size, place if data else 0, length) + header
        out = head + (digest_of(head) if self.digests & 1 else b"") + data
        return out + (digest_of(data) if data and self.digests & 2 else b"")

    def send(self, kind: int, header: bytes, data: bytes = b"", flags: int = 0) -> None:
        self.socket.sendall(self.pdu(kind, header, data, flags))

    def data_of(self, unit: bytes) -> bytes:
        """The data of a C2HData PDU. Checks its digests and offset."""
        place, count = unit[3], struct.unpack_from("<I", unit, 16)[0]
        assert place % (4 * (self.alignment + 1)) == 0, unit[:24]
        if self.digests & 1:
            assert digest_of(unit[:24]) == unit[24:28]
        data = unit[place:place + count]
        if self.digests & 2:
            assert digest_of(data) == unit[place + count:]
        return data


class Queue(Connection):
    """A queue. `call` sends a command and waits for its completion; `send_command` and `completion` are its halves."""

    def __init__(self, port: Place, digests: int = 0, alignment: int = 0, part: int = 32768,
                 timeout: float = 20, reach: Optional[float] = None) -> None:
        super().__init__(port, digests, alignment, timeout=timeout, reach=reach)
        self.next_cid, self.part = 0, part
        self.came: Dict[int, bytes] = {}
        self.going: Dict[int, bytes] = {}

    def connect(self, qid: int, host: int, cntlid: int = 0xffff, size: int = 32, keep_alive: int = 0,
                name: str = SUBSYSTEM, host_name: str = "", flags: int = 0, form: int = 0) -> Completion:
        identifier = host.to_bytes(16, "little")
        names = (name.encode(), (host_name or f"nqn.2024-01.example:{host:x}").encode())
        data = (identifier + struct.pack("<H", cntlid)).ljust(256, b"\0")
        data += b"".join(it.ljust(256, b"\0") for it in names) + bytes(256)
        words = struct.pack("<HHHBxI", form, qid, (size - 1) & 0xffff, flags, keep_alive)
        return self.call(0x7f, 1, words, data, in_capsule=True)

    def send_command(self, opcode: int, nsid: int = 0, words: bytes = b"", data: bytes = b"", length: int = 0,
                     in_capsule: Optional[bool] = None, cid: Optional[int] = None) -> int:
        if cid is None:
            cid, self.next_cid = self.next_cid, (self.next_cid + 1) % 0x8000
        inside = len(data) <= MOST_IN_CAPSULE if in_capsule is None else in_capsule
        kind = IN_CAPSULE if data and inside else TRANSPORT
        if data and not inside:
            self.going[cid] = data
        entry = entry_of(opcode, cid, nsid, words, len(data) or length, kind)
        self.send(CAPSULE, entry, data if inside else b"")
        return cid

    def completion(self) -> Completion:
        """The next completion. Keeps data that arrive before it, and sends data that are requested."""
        while True:
            kind, unit = self.unit()
            if kind == RESPONSE:
                if self.digests & 1:
                    assert digest_of(unit[:24]) == unit[24:28]
                value, sqhd, _, cid, field = struct.unpack_from("<QHHHH", unit, 8)
                return Completion(field >> 1, value, sqhd, cid, self.came.pop(cid, b""))
            cid, tag, start, count = struct.unpack_from("<HHII", unit, 8)
            if kind == CONTROLLER_DATA:
                self.came[cid] = self.came.get(cid, b"") + self.data_of(unit)
            else:
                assert kind == READY_TO_TRANSFER, unit
                self.send_data(cid, tag, self.going.pop(cid)[start:start + count])

    def send_data(self, cid: int, tag: int, data: bytes) -> None:
        """Sends the requested data in several PDUs."""
        for at in range(0, len(data), self.part):
            piece = data[at:at + self.part]
            last = 4 if at + len(piece) == len(data) else 0
            self.send(HOST_DATA, struct.pack("<HHIII", cid, tag, at, len(piece), 0), piece, last)

    def call(self, opcode: int, nsid: int = 0, words: bytes = b"", data: bytes = b"", length: int = 0,
             in_capsule: Optional[bool] = None) -> Completion:
        cid = self.send_command(opcode, nsid, words, data, length, in_capsule)
        completion = self.completion()
        assert completion.cid == cid, completion
        return completion

    def property(self, offset: int, size: int = 4) -> Completion:
        return self.call(0x7f, 4, struct.pack("<BxxxI", size // 8, offset))

    def set_property(self, offset: int, value: int, size: int = 4) -> Completion:
        return self.call(0x7f, 0, struct.pack("<BxxxIQ", size // 8, offset, value))


class Host:
    """A host with its queues."""

    def __init__(self, port: Place, host: int, queues: int = 1, size: int = 64, keep_alive: int = 0, digests: int = 0,
                 **how: float) -> None:
        self.port, self.host = port, host
        self.admin = Queue(port, digests, **how)
        completion = self.admin.connect(0, host, keep_alive=keep_alive)
        if completion.status:
            self.admin.close()
            raise ConnectionError(f"Connect is answered {completion.status:#x}")
        self.cntlid = completion.value & 0xffff
        assert self.admin.set_property(CC, ENABLE).status == 0
        assert self.admin.property(CSTS).value & 1
        self.queues = [Queue(port, digests, **how) for _ in range(queues)]
        for qid, queue in enumerate(self.queues, 1):
            completion = queue.connect(qid, host, self.cntlid, size)
            assert completion.status == 0, completion

    def identify(self, cns: int, nsid: int = 0, length: int = 4096) -> Completion:
        return self.admin.call(0x06, nsid, struct.pack("<I", cns), length=length)

    def log_page(self, page: int, length: int, offset: int = 0, nsid: int = 0xffffffff, asked: Optional[int] = None,
                 dw10: int = 0, dw14: int = 0) -> Completion:
        """`length` bytes of a log page; the host has a buffer for these, or for `asked` bytes."""
        words = length // 4 - 1
        dw10 |= page | (words & 0xffff) << 16
        return self.admin.call(0x02, nsid, struct.pack("<IIQI", dw10, words >> 16, offset, dw14),
                               length=length if asked is None else asked)

    def get_feature(self, fid: int, select: int = 0, dw11: int = 0, nsid: int = 0, length: int = 0) -> Completion:
        return self.admin.call(0x0a, nsid, struct.pack("<II", fid | select << 8, dw11), length=length)

    def set_feature(self, fid: int, dw11: int, nsid: int = 0, save: bool = False) -> int:
        return self.admin.call(0x09, nsid, struct.pack("<II", fid | save << 31, dw11)).status

    def discard(self, *ranges: Tuple[int, int], nsid: int = 1, attributes: int = 4, in_capsule: Optional[bool] = None,
                count: Optional[int] = None) -> int:
        """Dataset Management of ranges, each a place and a number of blocks."""
        data = b"".join(struct.pack("<IIQ", 0, blocks, slba) for slba, blocks in ranges)
        words = struct.pack("<II", (len(ranges) if count is None else count) - 1, attributes)
        return self.queues[0].call(0x09, nsid, words, data, in_capsule=in_capsule).status

    def read(self, slba: int, blocks: int, nsid: int = 1, length: Optional[int] = None, queue: int = 0) -> Completion:
        room = BLOCK * blocks if length is None else length
        return self.queues[queue].call(0x02, nsid, struct.pack("<QI", slba, blocks - 1), length=room)

    def write(self, slba: int, data: bytes, nsid: int = 1, in_capsule: Optional[bool] = None, flags: int = 0,
              queue: int = 0) -> int:
        words = struct.pack("<QI", slba, (len(data) // BLOCK - 1) | flags)
        return self.queues[queue].call(0x01, nsid, words, data, in_capsule=in_capsule).status

    def flush(self, nsid: int = 1) -> int:
        return self.queues[0].call(0x00, nsid).status

    def reserve(self, opcode: int, word: int, *keys: int, nsid: int = 1) -> int:
        data = struct.pack(f"<{len(keys)}Q", *keys)
        return self.queues[0].call(opcode, nsid, struct.pack("<I", word), data).status

    def register(self, key: int, new: int, action: int = 0, persist: int = 3) -> int:
        return self.reserve(0x0d, action | persist << 30, key, new)

    def acquire(self, key: int, other: int = 0, action: int = 0, kind: int = 1) -> int:
        return self.reserve(0x11, action | kind << 8, key, other)

    def close(self) -> None:
        for queue in [*self.queues, self.admin]:
            queue.close()
