"""Reservation Reports, parsed: the data that come with the answer of a `report`.

They have the extended data structure of the NVM Express Base Specification 2.0 (Reservation Status Extended): a header
of 64 bytes, and an entry of 64 bytes for each controller whose host is registered.
"""
from __future__ import annotations

from dataclasses import dataclass
from typing import Tuple

from .enums import ReservationType
from .errors import ProtocolError

HEADER_BYTES = ENTRY_BYTES = 64
_HOST_BYTES = 16


@dataclass(frozen=True)
class ReportedController:
    """A controller whose host is registered.

    Attributes:
        number: the controller, from 1 (CNTLID).
        is_holder: whether its host holds the reservation (RCSTS, bit 0).
        host: its host's identifier, of 128 bits (HOSTID).
        key: the host's key, of 64 bits (RKEY).
    """

    number: int
    is_holder: bool
    host: int
    key: int


@dataclass(frozen=True)
class ReservationReport:
    """The content of a Reservation Report on a namespace.

    Attributes:
        generation: the generation counter (GEN).
        rtype: the type of the reservation; NONE if nobody holds it (RTYPE).
        count: the controllers whose hosts are registered (REGCTL).
        persists: whether registrants and reservation outlast a loss of power (PTPLS).
        controllers: those of them whose entries have come whole; fewer than `count` if the report was cut.
    """

    generation: int
    rtype: ReservationType
    count: int
    persists: bool
    controllers: Tuple[ReportedController, ...]


def parse_report(data: bytes) -> ReservationReport:
    """Takes the bytes of a report apart.

    Raises:
        ProtocolError: they lack a part of the header, or have values that no report has.
    """
    if len(data) < HEADER_BYTES:
        raise ProtocolError(f"a report has a header of {HEADER_BYTES} bytes, and these are {len(data)}")
    rtype, persists = data[4], data[9]
    if rtype > ReservationType.EXCLUSIVE_ACCESS_ALL_REGISTRANTS or persists > 1:
        raise ProtocolError(f"no report has type {rtype} and PTPLS {persists}")
    count = _number(data, 5, 2)
    whole = min(count, (len(data) - HEADER_BYTES) // ENTRY_BYTES)
    entries = (data[HEADER_BYTES + ENTRY_BYTES * n:] for n in range(whole))
    return ReservationReport(_number(data, 0, 4), ReservationType(rtype), count, persists == 1,
                             tuple(map(_controller, entries)))


def _controller(entry: bytes) -> ReportedController:
    return ReportedController(_number(entry, 0, 2), entry[2] & 1 == 1, _number(entry, 16, _HOST_BYTES),
                              _number(entry, 8, 8))


def _number(data: bytes, offset: int, size: int) -> int:
    return int.from_bytes(data[offset:offset + size], "little")
