"""The marked parts of a script, and the orders in which their events can come.

A comment `# host NAME` begins a part: its events keep their order, and come in any order with those of other parts. A
comment `# then` ends the parts before it: what follows comes after them, in its own order. Events before the first
mark come first, in their order; a script without marks is one order.
"""
from __future__ import annotations

from dataclasses import dataclass
from math import comb, prod
from typing import Dict, Iterator, List, NamedTuple, Tuple

from ..script import Configuration, LineKind, ScriptLine, configuration_of, read_lines
from .marks import BEFORE, CRASH, THEN, has_marks, is_crash, mark_of, nearest_mark

Choice = int
Order = Tuple[Choice, ...]


@dataclass(frozen=True)
class Step:
    """An event of a part: its name, such as `a.write1`, its part, and its line."""

    name: str
    part: str
    line: ScriptLine


@dataclass(frozen=True)
class Phase:
    """Parts whose events come in any order with one another. Phases come one after the other."""

    parts: Tuple[Tuple[Step, ...], ...]

    @property
    def length(self) -> int:
        """How many events it has."""
        return sum(map(len, self.parts))

    @property
    def orders(self) -> int:
        """How many orders it has."""
        count, placed = 1, 0
        for part in self.parts:
            placed += len(part)
            count *= comb(placed, len(part))
        return count


class Position(NamedTuple):
    """A position in an order: its phase, and the number of events of each part so far."""

    phase: int
    done: Tuple[int, ...]


class Plan:
    """A script with its parts.

    Attributes:
        text: the script.
        fails: the call of the image that fails in each order, 0 if none does.
        setup: its lines up to `start`, without comments.
        nearest: of a script without marks, the comment that nearly is one, in words; else an empty string.
        phases: its phases; the first one has the events before all marks, and may be empty.
        configuration: its lines before `start`.
    """

    def __init__(self, text: str, fails: int = 0) -> None:
        """Reads a script; the call of the image that fails in each order, or 0.

        Raises:
            ScriptError: it is no script, has marks and a comment that is nearly one, or a part has a name that it can't
                have.
        """
        self.text, self.fails = text, fails
        lines = list(read_lines(text))
        self.configuration: Configuration = configuration_of(lines)
        self.setup = [it.text for it in lines if it.kind in (LineKind.CONFIGURATION, LineKind.START)]
        self.nearest = "" if has_marks(lines) else nearest_mark(lines)
        self.phases = tuple(_phases(lines))
        self.steps = [step for phase in self.phases for part in phase.parts for step in part]
        self.by_name = {it.name: it for it in self.steps}

    @property
    def length(self) -> int:
        """How many events each order has."""
        return len(self.steps)

    @property
    def blocks(self) -> int:
        """The blocks of the medium that its namespaces take."""
        return self.configuration.blocks

    @property
    def has_crash(self) -> bool:
        """Whether the program crashes in it."""
        return any(it.line.is_crash for it in self.steps)

    @property
    def orders(self) -> int:
        """How many orders there are."""
        count = 1
        for phase in self.phases:
            count *= phase.orders
        return count

    @property
    def positions(self) -> int:
        """The number of positions, including the last one: a lower bound of the number of states."""
        count = 1
        for phase in self.phases:
            count += prod(len(part) + 1 for part in phase.parts) - 1
        return count

    @property
    def parts(self) -> Dict[str, int]:
        """The parts that are marked by hosts, each with its count of events."""
        found: Dict[str, int] = {}
        for step in self.steps:
            if step.part not in (BEFORE, THEN):
                found[step.part] = found.get(step.part, 0) + 1
        return found

    def begin(self) -> Position:
        """The first position of every order."""
        return self._settled(0, tuple(0 for _ in self.phases[0].parts))

    def choices(self, position: Position) -> List[Choice]:
        """The parts whose next event may come, by their places in the phase; none at the end."""
        if position.phase == len(self.phases):
            return []
        parts = self.phases[position.phase].parts
        return [n for n, part in enumerate(parts) if position.done[n] < len(part)]

    def step(self, position: Position, choice: Choice) -> Step:
        """The event that comes by a choice."""
        return self.phases[position.phase].parts[choice][position.done[choice]]

    def after(self, position: Position, choice: Choice) -> Position:
        """The position of an order after that."""
        number, done = position
        return self._settled(number, (*done[:choice], done[choice] + 1, *done[choice + 1:]))

    def _settled(self, number: int, done: Tuple[int, ...]) -> Position:
        """Leaves completed phases."""
        while sum(done) == self.phases[number].length:
            number += 1
            if number == len(self.phases):
                return Position(number, ())
            done = tuple(0 for _ in self.phases[number].parts)
        return Position(number, done)

    def steps_of(self, order: Order) -> Iterator[Step]:
        """The events of an order, or of its beginning."""
        position = self.begin()
        for choice in order:
            yield self.step(position, choice)
            position = self.after(position, choice)

    def completed(self, order: Order) -> Order:
        """The order that always takes the next event of the first part that has one left."""
        position = self.begin()
        for choice in order:
            position = self.after(position, choice)
        rest: List[Choice] = []
        while choices := self.choices(position):
            rest.append(choices[0])
            position = self.after(position, choices[0])
        return order + tuple(rest)


def _phases(lines: List[ScriptLine]) -> Iterator[Phase]:
    """The phases of a script."""
    phases: List[Dict[str, List[Step]]] = [{BEFORE: []}]
    counts: Dict[Tuple[str, str], int] = {}
    part = BEFORE
    is_started, is_marked = False, has_marks(lines)
    for it in lines:
        line = ScriptLine(it.number, it.text, LineKind.EVENT, (CRASH,)) if is_started and is_crash(it) else it
        mark = mark_of(line, is_started, is_marked)
        if mark is not None:
            if part in (BEFORE, THEN) or mark == THEN:
                phases.append({})
            part = mark
            phases[-1].setdefault(part, [])
        elif line.kind is LineKind.EVENT:
            number = counts[part, line.verb] = counts.get((part, line.verb), 0) + 1
            phases[-1][part].append(Step(f"{part}.{line.verb}{number}", part, line))
        is_started = is_started or line.kind is LineKind.START
    for parts in phases:
        yield Phase(tuple(tuple(it) for it in parts.values()))
