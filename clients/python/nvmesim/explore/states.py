"""States of a subsystem as an exploration distinguishes them, and what the answer of each event adds.

A state is what the queries report: reservations, attachments, blocks; of each controller its registers, queues,
fetched commands and driver. It also has the requests in progress, by the names of their lines, since the window with
their commands and data is not queried: a line determines what its request stores, and the data that a command returns
are represented by what all hosts shared at its execution. A raw host may store anything, so its controller's whole
history represents it. Two states with equal descriptions have equal answers to equal events from then on.
"""
from __future__ import annotations

import hashlib
from dataclasses import dataclass
from typing import Dict, Iterator, List, Tuple

from ..history import check_fits
from ..looks import fetched
from .plan import Plan, Position, Step
from .tracks import Track, labelled

# Commands whose answer has more of the shared state than a status.
_TELLING = ("read", "reservation_report", "identify", "get_features")
_WRITING = ("write", "write_zeroes")
_MOST_BLOCKS = 64
_MOST_A_LINE = 256

Range = Tuple[int, int, int]


class Looks:
    """Which queries an exploration asks."""

    def __init__(self, plan: Plan) -> None:
        """Chooses the lines for a plan."""
        self.controllers = list(plan.configuration.hosts)
        self.namespaces = list(plan.configuration.namespaces)
        self.ranges = list(_written(plan) if not plan.configuration.raw else _all_blocks(plan))
        total = sum(count for _, _, count in self.ranges)
        self.are_blocks_seen = total <= _MOST_BLOCKS and not plan.configuration.raw and not plan.fails
        """Whether blocks are looked at after each event; else the commands that wrote represent them. A look would be
        the call of the image that fails."""
        self.blocks = [f"?blocks {n} {slba} {count}" for n, slba, count in self.ranges]
        self.access = [*(f"?reservation {n}" for n in self.namespaces), "?attached"]
        self.shared = [*self.access, *(self.blocks if self.are_blocks_seen else ())]
        self._raw = plan.configuration.raw
        self._after_event: Dict[str, List[str]] = {}

    def after_event(self, step: Step) -> List[str]:
        """The lines that are asked after an event: what it can have changed.

        An execution may change what hosts share and mark what other controllers have fetched, and a power cycle or a
        crash may change everything; every other event changes its own controller and host alone.
        """
        found = self._after_event.get(step.name)
        if found is None:
            found = self._after_event[step.name] = self._changed(step)
        return found

    def _changed(self, step: Step) -> List[str]:
        """The lines that are asked after an event, by its kind."""
        if step.line.is_of_all:
            return self.all()
        number = step.line.controller
        own = self._own(number) if number in self.controllers else []
        if step.line.verb != "execute":
            return own
        return [*own, *(f"?fetched {it}" for it in self.controllers if it != number), *self.shared]

    def all(self) -> List[str]:
        """All lines that distinguish states."""
        return [*(line for it in self.controllers for line in self._own(it)), *self.shared]

    def _own(self, number: int) -> List[str]:
        """The lines about one controller and its host."""
        words = ("?fetched",) if number in self._raw else ("?fetched", "?driver", "?queues", "?registers")
        return [f"{it} {number}" for it in words]

    def last(self) -> List[str]:
        """The lines that are asked after the last event, for the outcome."""
        return [*self.access, *self.blocks]


def _all_blocks(plan: Plan) -> Iterator[Range]:
    """All blocks, for scripts with raw hosts, whose writes no line reports."""
    for nsid, size in plan.configuration.namespaces.items():
        for slba in range(0, size, _MOST_A_LINE):
            yield nsid, slba, min(_MOST_A_LINE, size - slba)


def _written(plan: Plan) -> Iterator[Range]:
    """The ranges of blocks that the script's requests write, joined, each at most 256 blocks."""
    touched: Dict[int, set[int]] = {}
    sizes = plan.configuration.namespaces
    for step in plan.steps:
        if step.line.verb in ("write", "zeroes"):
            _, nsid, slba, count = step.line.numbers()[:4]
            end = min(slba + count, sizes.get(nsid, 0))
            touched.setdefault(nsid, set()).update(range(slba, end))
    for nsid, blocks in touched.items():
        begin = previous = -2
        for block in [*sorted(blocks), -1]:
            if block != previous + 1 or block - begin == _MOST_A_LINE:
                if previous >= 0:
                    yield nsid, begin, previous + 1 - begin
                begin = block
            previous = block


@dataclass(frozen=True)
class State:
    """A state of the subsystem after some events.

    Attributes:
        position: how far the order is.
        looks: what the queries reported last, in the order in which they are first asked.
        tracks: the requests in progress in each controller.
        raw: what represents each raw host's controller and window: all that happened there.
        medium: what represents the medium if its blocks are not looked at: all that was written.
    """

    position: Position
    looks: Tuple[Tuple[str, str], ...]
    tracks: Tuple[Tuple[int, Track], ...] = ()
    raw: Tuple[Tuple[int, bytes], ...] = ()
    medium: bytes = b""

    def next(self, plan: Plan, looks: Looks, choice: int, answer: str, told: Dict[str, str]) -> Tuple[str, State]:
        """The label of an event's answer, and the state after it."""
        step = plan.step(self.position, choice)
        check_fits(step.line, answer)
        number, seen, tracks = step.line.controller, dict(self.looks), dict(self.tracks)
        name = _executing(step, seen.get(f"?fetched {number}", ""), number)
        found = self._shared(looks, seen) if name in _TELLING else b""
        if step.line.is_crash:
            label, tracks = answer, {}
        elif step.line.is_power_cycle:
            label, tracks = answer, {it: track.emptied() for it, track in tracks.items()}
        else:
            label, tracks[number] = labelled(step, answer, tracks.get(number, Track()), found)
        chains, medium = dict(self.raw), self.medium
        for it in plan.configuration.raw:
            if step.line.is_crash:
                chains.pop(it, None)
            elif it == number or step.line.is_power_cycle:
                chains[it] = _digest(chains.get(it, b""), step.name.encode(), answer.encode(), found)
        raw = tuple(sorted(chains.items()))
        if name in _WRITING and not looks.are_blocks_seen:
            medium = _digest(medium, label.encode(), dict(raw).get(number, b""))
        seen.update(told)
        told_apart = tuple(sorted(it for it in tracks.items() if it[1] != Track()))
        return label, State(plan.after(self.position, choice), tuple(seen.items()), told_apart, raw, medium)

    def _shared(self, looks: Looks, seen: Dict[str, str]) -> bytes:
        """What represents all that hosts share, if a command brings data of it."""
        return _digest(self.medium, *(seen.get(it, "").encode() for it in looks.shared))


def first_state(plan: Plan, told: Dict[str, str]) -> State:
    """The state in which every order begins."""
    return State(plan.begin(), tuple(told.items()))


def _digest(*pieces: bytes) -> bytes:
    """A number that represents a history; pieces are distinguished by their lengths."""
    digest = hashlib.blake2b(digest_size=16)
    for piece in pieces:
        digest.update(len(piece).to_bytes(8, "little"))
        digest.update(piece)
    return digest.digest()


def _executing(step: Step, told: str, number: int) -> str:
    """The opcode's name of the command that an execution is about; an empty string if there is none."""
    if step.line.verb != "execute" or not told:
        return ""
    place = step.line.numbers()[1]
    commands = fetched(told, number)
    return commands[place].name if place < len(commands) else ""
