"""Outcomes that are alike in what matters, or in what was asked for, together."""
from __future__ import annotations

from dataclasses import dataclass
from typing import Callable, Dict, Hashable, List, Sequence, Tuple

from .outcomes import Outcome, Ways
from .plan import Plan, Step
from .values import Values

Key = Callable[[Values], Hashable]


@dataclass(frozen=True)
class Group:
    """Outcomes that are alike.

    Attributes:
        ways: the orders that come to one of them: how many, and the one that is shown most briefly.
        members: the outcomes, by their places.
    """

    ways: Ways
    members: Tuple[int, ...]

    @property
    def first(self) -> int:
        """The outcome of the order that represents the group."""
        return self.members[0]


def grouped(found: Sequence[Tuple[Outcome, Ways]], values: Sequence[Values], key: Key) -> List[Group]:
    """Ranked outcomes in groups, in the order of the first of each."""
    members: Dict[Hashable, List[int]] = {}
    for place, it in enumerate(values):
        members.setdefault(key(it), []).append(place)
    groups: List[Group] = []
    for places in members.values():
        ways = found[places[0]][1]
        for place in places[1:]:
            ways = ways.joined(found[place][1])
        groups.append(Group(ways, tuple(places)))
    return groups


def matters(plan: Plan, step: Step) -> bool:
    """Whether an event's answer distinguishes outcomes: that of a request does, of a bringing up, and of what a raw
    host's controller executes. Another event's answer, such as a poll that finds nothing, is ignored: what it did
    shows in these."""
    is_of_raw = step.line.verb == "execute" and step.line.controller in plan.configuration.raw
    return step.line.is_request or step.line.verb == "up" or is_of_raw
