"""The requests in progress in one controller, by the names of their lines, and what answers are about."""
from __future__ import annotations

from dataclasses import dataclass, replace
from typing import Tuple

from ..errors import ProtocolError
from .plan import Step

UNNAMED = "?"
"""A command of a raw host, which no line of a request has placed."""

Names = Tuple[str, ...]
Pair = Tuple[int, int]


@dataclass(frozen=True)
class Posted:
    """A completion that was not delivered: its request, its status, how many commands its queue had given by then, and
    what represents the data that it brings."""

    name: str
    text: str
    taken: int
    found: bytes


@dataclass(frozen=True)
class Track:
    """The requests in a controller and in its host's driver. Pairs are of the admin queue and of the I/O queue.

    Attributes:
        lanes: requests that were placed and not fetched.
        fetched: commands that were fetched and not executed, by their places.
        posted: completions that were not delivered.
        tickets: the requests whose answers were not delivered, by their tickets.
        taken: the number of commands that were fetched since the driver came up.
        heard: the number of these that the driver knows of.
    """

    lanes: Tuple[Names, Names] = ((), ())
    fetched: Names = ()
    posted: Tuple[Tuple[Posted, ...], Tuple[Posted, ...]] = ((), ())
    tickets: Tuple[Tuple[str, str], ...] = ()
    taken: Pair = (0, 0)
    heard: Pair = (0, 0)
    queues: Tuple[Tuple[str, int], ...] = ()

    def placed(self, queue: int, name: str, ticket: str) -> Track:
        """A request was placed."""
        first, second = self.lanes
        lanes = ((*first, name), second) if queue == 0 else (first, (*second, name))
        return replace(self, lanes=lanes, tickets=(*self.tickets, (ticket, name)), queues=(*self.queues, (name, queue)))

    def took(self, queue: int) -> Track:
        """A command was fetched."""
        if queue > 1 or not self.lanes[queue]:
            return replace(self, fetched=(*self.fetched, UNNAMED))
        first, second = self.lanes
        lanes = (first[1:], second) if queue == 0 else (first, second[1:])
        taken = (self.taken[0] + (queue == 0), self.taken[1] + (queue == 1))
        return replace(self, lanes=lanes, fetched=(*self.fetched, self.lanes[queue][0]), taken=taken)

    def executed(self, place: int, text: str, found: bytes) -> Tuple[str, Track]:
        """The command at this place was executed, with this status and rule."""
        if place >= len(self.fetched):
            raise ProtocolError(f"a command at place {place} was executed, and {len(self.fetched)} were fetched")
        name = self.fetched[place]
        track = replace(self, fetched=(*self.fetched[:place], *self.fetched[place + 1:]))
        if name == UNNAMED:
            return name, track
        queue = dict(self.queues)[name]
        completion = Posted(name, text, self.taken[queue], found)
        first, second = self.posted
        posted = ((*first, completion), second) if queue == 0 else (first, (*second, completion))
        return name, replace(track, posted=posted)

    def polled(self, ticket: str, is_aborted: bool) -> Tuple[str, Track]:
        """The request with this ticket was answered or aborted."""
        names = dict(self.tickets)
        if ticket not in names:
            raise ProtocolError(f"ticket {ticket} was delivered, and no request waits under it")
        name = names[ticket]
        track = replace(self, tickets=tuple(it for it in self.tickets if it[0] != ticket),
                        queues=tuple(it for it in self.queues if it[0] != name))
        return name, track if is_aborted else track._heard(name, dict(self.queues)[name])

    def _heard(self, name: str, queue: int) -> Track:
        """The completion of a request was taken, which reported how many commands were fetched."""
        completions = [it for it in self.posted[queue] if it.name == name]
        rest = tuple(it for it in self.posted[queue] if it.name != name)
        taken = completions[0].taken if completions else self.heard[queue]
        first, second = self.posted
        posted = (rest, second) if queue == 0 else (first, rest)
        heard = (taken, self.heard[1]) if queue == 0 else (self.heard[0], taken)
        return replace(self, posted=posted, heard=heard)

    def emptied(self) -> Track:
        """The queues are gone; the requests that wait will be delivered as aborted."""
        return replace(self, lanes=((), ()), fetched=(), posted=((), ()), taken=(0, 0), heard=(0, 0))


def labelled(step: Step, answer: str, track: Track, found: bytes) -> Tuple[str, Track]:
    """An answer without controllers and tickets, which orders number differently, by the names of requests instead."""
    words = answer.split(" ")
    head, rest = words[0], words[2:]
    if head == "placed":
        return head, track.placed(step.line.queue, step.name, rest[0])
    if head == "fetch":
        return rest[1], track.took(int(rest[0])) if rest[1] == "took" else track
    if head == "execute" and rest[1] == "posted":
        name, track = track.executed(int(rest[0]), " ".join(rest[2:]), found)
        return " ".join((name, *rest[1:])), track
    if head == "execute":
        return rest[1], track
    if head == "poll" and len(rest) > 1:
        name, track = track.polled(rest[0], rest[1] == "aborted")
        return " ".join((name, *rest[1:])), track
    is_emptied = head == "reset" or head == "up" and rest == ["ok"]
    label = " ".join(rest) if head in ("up", "poll") else " ".join((head, *rest))
    return label, track.emptied() if is_emptied else track
