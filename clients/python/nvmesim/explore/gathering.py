"""Counts the orders after what a walk found: each state passes on what leads to it."""
from __future__ import annotations

from typing import TYPE_CHECKING, Dict, List, Tuple

from .outcomes import Findings, Outcome, Ways
from .plan import Order, Plan

if TYPE_CHECKING:
    from .walk import Node

Some = Tuple[int, int, Order]
"""Orders, as `Ways` has them: how many, and the changes of one that is shown most briefly, and that one."""
Reaching = Dict[Tuple[int, int], Some]
"""The orders that lead to a state, by the set of answers so far and the part that came last."""


class _Answers:
    """Sets of named answers, each as a number with a bit for each answer."""

    def __init__(self, plan: Plan) -> None:
        self._bits: Dict[Tuple[str, str], int] = {}
        self._places = {step.name: n for n, step in enumerate(plan.steps)}

    def bit(self, name: str, label: str) -> int:
        """The set of one answer."""
        return 1 << self._bits.setdefault((name, label), len(self._bits))

    def listed(self, answers: int) -> Tuple[Tuple[str, str], ...]:
        """The answers of a set, as the script has them."""
        found = [pair for pair, place in self._bits.items() if answers >> place & 1]
        return tuple(sorted(found, key=lambda pair: self._places[pair[0]]))


def gather(plan: Plan, root: Node) -> Findings:
    """What all orders come to that went to their end."""
    answers = _Answers(plan)
    ways: Dict[Node, Reaching] = {root: {(0, -1): (1, 0, ())}}
    ends: Dict[Tuple[Tuple[str, ...], int], Ways] = {}
    level = [root]
    while level:
        following: Dict[Node, None] = {}
        for node in level:
            reaching = ways.pop(node)
            for choice, (label, follower) in node.edges.items():
                mark = 1000 * node.phase + choice
                bit = answers.bit(plan.step(node.state.position, choice).name, label)
                _pass_on(choice, mark, bit, reaching, ways.setdefault(follower, {}))
                following[follower] = None
            if node.last is not None:
                for (found, _), some in reaching.items():
                    key, it = (node.last, found), Ways(*some)
                    ends[key] = ends[key].joined(it) if key in ends else it
        level = list(following)
    return {Outcome(answers.listed(found), last): it for (last, found), it in ends.items()}


def _pass_on(choice: int, mark: int, bit: int, reaching: Reaching, following: Reaching) -> None:
    """Passes the orders that lead to a state on to one after it."""
    for (found, last), (count, changes, order) in reaching.items():
        best = changes + (last != mark), (*order, choice)
        key = found | bit, mark
        if key in following:
            other = following[key]
            count, best = count + other[0], min(best, other[1:])
        following[key] = count, *best
