"""The layout of a picture: lanes side by side, events below one another, requests in their slots."""
from __future__ import annotations

from dataclasses import dataclass
from typing import Dict, List, Optional, Sequence, Set, Tuple

from ..history import Command, Event
from ..script import Configuration
from ..words import host_words
from .bands import Band

ROW = 22
"""The height of an event, in pixels."""
HEAD = 46
"""The height of the lanes' names."""
GUTTER = 44
"""The width of the events' numbers."""
ROWS_OF_A_PART = 36
"""The most events of one part: a part is not broken over pages."""
_LETTER = 7.0
_MANY_HOSTS = 6
"""With more hosts than these the words are left of the lanes, and shorter."""
_BAR = 12
_RULE = 42


@dataclass(frozen=True)
class Lane:
    """A column: what it is, its name in two lines, where it begins, how wide it is, and its name whole."""

    kind: str
    title: str
    subtitle: str
    left: int
    width: int
    name: str

    @property
    def middle(self) -> float:
        """The middle of the column."""
        return self.left + self.width / 2


@dataclass(frozen=True)
class Layout:
    """The positions of lanes, and the slot of each request in its host's lane."""

    hosts: Dict[int, Lane]
    controllers: Dict[int, Lane]
    media: Lane
    access: Dict[int, Lane]
    registered: Dict[int, List[int]]
    slots: Dict[Command, int]
    held: Dict[Command, int]
    text_left: int
    width: int
    last: int

    @property
    def lanes(self) -> List[Lane]:
        """All lanes, from the left."""
        pairs = (it for n in self.hosts for it in (self.hosts[n], self.controllers[n]))
        return [*pairs, self.media, *self.access.values()]

    def band_left(self, band: Band) -> float:
        """The left edge of a host's band in the lane of its namespace."""
        return self.access[band.nsid].left + 8 + _BAR * self.registered[band.nsid].index(band.host)

    def slot_left(self, command: Command) -> float:
        """The left edge of a request's span."""
        lane = self.hosts[command.controller]
        return lane.left + 6 + _BAR * self.slots.get(command, 0)

    def held_left(self, command: Command) -> float:
        """The left edge of a fetched command's span in its controller's lane."""
        return self.controllers[command.controller].left + 14 + _BAR * self.held.get(command, 0)

    def end_of(self, command: Command) -> int:
        """The event that ends a command's span: its poll, its execution for a raw host, or the last of all."""
        if command.ticket is None:
            return command.executed or command.reset or self.last
        return command.polled or self.last

    def leaves_controller(self, command: Command) -> int:
        """The event at which a fetched command leaves its controller."""
        return command.executed or command.reset or self.last


def commands_of(events: Sequence[Event]) -> List[Command]:
    """All commands of these events, in the order in which they came up."""
    seen: Set[Command] = set()
    found: List[Command] = []
    for command in (it for event in events for it in event.commands):
        if command not in seen:
            seen.add(command)
            found.append(command)
    return found


def begin_of(command: Command) -> int:
    """The event at which a command came up."""
    return command.placed or command.fetched or 1


def _host_title(host: int, columns: int) -> str:
    """A host by its identifier; of a long one by its first and its last digits."""
    if len(host_words(host)) <= columns:
        return host_words(host)
    digits, kept = f"{host:x}", (columns - 3) // 2
    return f"{digits[:kept]}..{digits[-kept:]}h"


def is_wide(configuration: Configuration) -> bool:
    """Whether the words are left of the lanes."""
    return len(configuration.hosts) > _MANY_HOSTS


def lay_out(events: Sequence[Event], configuration: Configuration, texts: Sequence[str],
            bands: Sequence[Band] = ()) -> Layout:
    """The layout of a picture whose events have these texts next to them."""
    last, commands = len(events), commands_of(events)
    slots = _slots({it: (begin_of(it), it.polled or last) for it in commands if it.ticket is not None})
    held = _slots({it: (it.fetched, it.executed or it.reset or last) for it in commands if it.fetched is not None})
    is_narrow = len(configuration.hosts) > 4
    has_words_first = is_wide(configuration)
    text_width = round(_LETTER * max((len(it) for it in texts), default=10)) + 12
    left = GUTTER + 8 + text_width if has_words_first else GUTTER
    hosts: Dict[int, Lane] = {}
    controllers: Dict[int, Lane] = {}
    for number, host in configuration.hosts.items():
        subtitle = "raw" if number in configuration.raw else "driver"
        width = max(72 if is_narrow else 84, 12 + _BAR * _most(slots, number))
        name = host_words(host)
        hosts[number] = Lane("host", _host_title(host, 9 if is_narrow else 12), subtitle, left, width, name)
        left += width
        width = max(72 if is_narrow else 92, 18 + _BAR * _most(held, number) + _RULE)
        title = f"ctrl {number}" if is_narrow else f"controller {number}"
        controllers[number] = Lane("controller", title, "", left, width, f"controller {number} of {name}")
        left += width + 10
    media = Lane("media", "media", "", left, 72, "media")
    left += media.width
    registered = {nsid: sorted({it.host for it in bands if it.nsid == nsid})
                  for nsid in sorted({it.nsid for it in bands})}
    access: Dict[int, Lane] = {}
    for nsid, found in registered.items():
        width = max(76, 16 + _BAR * len(found))
        access[nsid] = Lane("access", f"reserved {nsid}", "held, or key", left + 10, width, f"namespace {nsid}: who is "
                            "registered, and who holds the reservation")
        left += 10 + width
    text_left = GUTTER + 8 if has_words_first else left + 14
    width = left + 12 if has_words_first else text_left + text_width
    return Layout(hosts, controllers, media, access, registered, slots, held, text_left, width, last)


def _most(slots: Dict[Command, int], controller: int) -> int:
    """How many slots a controller's lane has."""
    return max((slot + 1 for it, slot in slots.items() if it.controller == controller), default=0)


def _slots(spans: Dict[Command, Tuple[int, int]]) -> Dict[Command, int]:
    """A slot for each command by its first and last event: no two of a lane that overlap share one."""
    slots: Dict[Command, int] = {}
    taken: Dict[int, List[int]] = {}
    for command, (begin, end) in sorted(spans.items(), key=lambda it: it[1][0]):
        until = taken.setdefault(command.controller, [])
        free: Optional[int] = next((n for n, last in enumerate(until) if last < begin), None)
        if free is None:
            free = len(until)
            until.append(end)
        until[free] = end
        slots[command] = free
    return slots
