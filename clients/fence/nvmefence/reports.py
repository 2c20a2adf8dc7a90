"""Reservation Report, parsed."""
from __future__ import annotations

import struct
from typing import NamedTuple, Tuple

RESERVATIONS = {
    1: "Write Exclusive", 2: "Exclusive Access", 3: "Write Exclusive - Registrants Only",
    4: "Exclusive Access - Registrants Only", 5: "Write Exclusive - All Registrants",
    6: "Exclusive Access - All Registrants",
}


class Registrant(NamedTuple):
    """A controller whose host is registered."""

    cntlid: int
    host: int
    key: int


class Report(NamedTuple):
    """A Reservation Report: the type of the reservation, 0 if there is none, and the registrants."""

    rtype: int
    registrants: Tuple[Registrant, ...]

    @classmethod
    def of(cls, data: bytes, is_extended: bool) -> Report:
        count, found = struct.unpack_from("<H", data, 5)[0], []
        for n in range(count):
            if is_extended:
                cntlid, key, host = struct.unpack_from("<H6xQ16s", data, 64 + 64 * n)
            else:
                cntlid, host, key = struct.unpack_from("<H6x8sQ", data, 24 + 24 * n)
            found.append(Registrant(cntlid, int.from_bytes(host, "little"), key))
        return cls(data[4], tuple(found))

    @property
    def keys(self) -> Tuple[int, ...]:
        return tuple(dict.fromkeys(it.key for it in self.registrants))
