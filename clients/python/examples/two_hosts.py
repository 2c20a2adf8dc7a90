#!/usr/bin/env python3
"""Two hosts share a namespace. Host a1h reserves it, and from then on a write of host b2h is fenced.

    NVMESIM_LIBRARY=~/nvmesim/lib/libnvmesim.so python3 two_hosts.py

It loads the library (`scripts/library FOLDER` builds it), whose hosts have no drivers, so it makes submission queue
entries itself. Each `submit` runs a command from its entry to its completion.
"""
from __future__ import annotations

from nvmesim import AdminOpcode, IoOpcode, LibraryHost, Subsystem
from nvmesim.library import Submitted

# The layout of each host's memory: queues of the admin and of one I/O pair, and a page of data.
ADMIN_SQ, ADMIN_CQ, IO_SQ, IO_CQ, DATA = 0x0000, 0x1000, 0x2000, 0x3000, 0x10000
LAST = 15
# Offsets of registers.
CC, AQA, ASQ, ACQ = 0x14, 0x24, 0x28, 0x30


def entry(opcode: int, nsid: int, prp1: int, dw10: int = 0, dw11: int = 0) -> bytes:
    """A submission queue entry of these fields."""
    made = bytearray(64)
    made[0] = opcode
    for at, size, value in ((4, 4, nsid), (24, 8, prp1), (40, 4, dw10), (44, 4, dw11)):
        made[at:at + size] = value.to_bytes(size, "little")
    return bytes(made)


def up(host: LibraryHost) -> None:
    """Enables a controller, and creates a pair of I/O queues."""
    for offset, value in ((AQA, LAST << 16 | LAST), (ASQ, ADMIN_SQ), (ACQ, ADMIN_CQ), (CC, 4 << 20 | 6 << 16 | 1)):
        host.write32(offset, value)
    host.submit(0, entry(AdminOpcode.CREATE_IO_COMPLETION_QUEUE, 0, IO_CQ, LAST << 16 | 1, 1))
    host.submit(0, entry(AdminOpcode.CREATE_IO_SUBMISSION_QUEUE, 0, IO_SQ, LAST << 16 | 1, 1 << 16 | 1))


def done(host: LibraryHost, opcode: IoOpcode, data: bytes = b"", dw10: int = 0) -> Submitted:
    """A command on namespace 1 with these data."""
    if data:
        host.store(DATA, data)
    return host.submit(1, entry(opcode, 1, DATA, dw10))


def tell(what: str, came: Submitted) -> None:
    """Prints the status of a command."""
    denied = f", denied by rule {int(came.rule)}" if came.rule else ""
    print(f"{what}: status {came.status.code}{denied}")


def main() -> None:
    with Subsystem(backend="library") as subsystem:
        a, b = subsystem.raw_controller(0xA1), subsystem.raw_controller(0xB2)
        disk = subsystem.namespace(64)
        for host in (a, b):
            subsystem.attach(host, disk)
        subsystem.start()
        for host in (a, b):
            up(host)
        key, none = (0x11).to_bytes(8, "little"), bytes(8)
        tell("a1h registers", done(a, IoOpcode.RESERVATION_REGISTER, none + key))
        tell("a1h acquires Write Exclusive", done(a, IoOpcode.RESERVATION_ACQUIRE, key + none, 1 << 8))
        tell("b2h writes", done(b, IoOpcode.WRITE, b"\xb2" * 512))
        tell("a1h writes", done(a, IoOpcode.WRITE, b"\xa1" * 512))
        tell("b2h reads", done(b, IoOpcode.READ))
        read = b.window(DATA, 512)
        print("b2h has read", "what a1h wrote" if read == b"\xa1" * 512 else "something else")


if __name__ == "__main__":
    main()
