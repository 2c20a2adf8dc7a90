"""Who holds the reservation of a namespace, and who is registered, as bands over time."""
from __future__ import annotations

from dataclasses import dataclass
from typing import Dict, List, Optional, Sequence, Tuple

from ..looks import ReservationState
from ..words import host_words

Told = Tuple[int, int, ReservationState]
"""The answer of a query after an event: the event's number, the namespace, and its reservation."""
_Key = Tuple[int, int, str]


@dataclass(frozen=True)
class Band:
    """A host is registered with a namespace, or holds its reservation, after one event until another.

    Attributes:
        nsid: the namespace.
        host: the host's identifier.
        held: the reservation that it holds, by its name; an empty string if it is registered.
        begin: the event that began it.
        end: the event that ended it, or the last one.
    """

    nsid: int
    host: int
    held: str
    begin: int
    end: int

    @property
    def words(self) -> str:
        """It in words."""
        does = f"holds it as {self.held}" if self.held else "is registered"
        return f"Namespace {self.nsid}: {host_words(self.host)} {does}, from event {self.begin} to {self.end}"


def bands_of(told: Sequence[Told], last: int) -> List[Band]:
    """The bands of all that was reported, in order; `last` is the last event."""
    begun: Dict[_Key, int] = {}
    bands: List[Band] = []
    for number, nsid, state in told:
        now = _bands_in(nsid, state)
        for key in [it for it in begun if it[0] == nsid and it not in now]:
            bands.append(Band(*key, begun.pop(key), number))
        for key in now:
            begun.setdefault(key, number)
    bands += [Band(*key, begin, last) for key, begin in begun.items()]
    return sorted(bands, key=lambda it: (it.nsid, it.begin, it.host, it.held))


def _bands_in(nsid: int, state: ReservationState) -> List[_Key]:
    """What a state of a reservation has."""
    holders: List[Optional[int]] = [*state.registrants] if state.is_held_by_all else [state.holder]
    held = [(nsid, it, state.rtype.text) for it in holders if it is not None and state.rtype]
    return [*((nsid, it, "") for it in state.registrants), *held]
