"""Walks all orders, and runs each event once from each state.

From a state the events that may come next are run, each in a branch of its own. If one leads to a state that is
known, the rest of it reports nothing new. If two events commute, the second order of them is not run either: its
answers and its state are those of the first.
"""
from __future__ import annotations

import time
from dataclasses import dataclass, field
from typing import Callable, Dict, List, Optional, Set, Tuple

from .branches import MOST_BRANCHES, Branch, Branches
from .gathering import gather
from .independence import Independence
from .marks import CRASH
from .outcomes import Findings, in_one_form
from .plan import Choice, Order, Plan, Position
from .states import Looks, State, first_state


@dataclass
class Statistics:
    """The cost of an exploration.

    Attributes:
        states: states that were met.
        positions: how far orders were, distinguished by how many events of each part had come.
        events: events that were run.
        spared: events that were not run, since they commute with one that was run.
        lines: lines that were sent.
        most_live: the most branches that waited or ran at once.
        most_bytes: the most memory of states, copies and counts, if that is counted.
    """

    states: int = 0
    positions: int = 0
    events: int = 0
    spared: int = 0
    lines: int = 0
    most_live: int = 0
    most_bytes: int = 0


Report = Callable[[Statistics], None]
Edge = Tuple["Node", Choice]


@dataclass(eq=False)
class Node:
    """A state that was met: one order that leads to it, and what each choice gives.

    Attributes:
        edges: what each choice gave: the label of its answer, and the state after it.
        came_by: the choices that lead here, each with the state before it.
        left: how many choices were not begun.
        branch: a branch that waits here.
        last: what queries reported at the end of an order.
    """

    state: State
    path: Order
    edges: Dict[Choice, Tuple[str, Node]] = field(default_factory=dict)
    came_by: List[Tuple[Node, Choice]] = field(default_factory=list)
    left: int = 0
    branch: Optional[Branch] = None
    last: Optional[Tuple[str, ...]] = None

    @property
    def phase(self) -> int:
        """The phase of the plan in which it is."""
        return self.state.position.phase


@dataclass
class Asked:
    """An event that is being run from a state, and the lines that were sent for it."""

    node: Node
    choice: Choice
    looked: List[str]
    is_last: bool


class Walk:
    """An exploration of all orders.

    Attributes:
        is_whole: whether it went to the end.
    """

    def __init__(self, plan: Plan, branches: Branches, jobs: int = 1, report: Report = lambda statistics: None,
                 is_reduced: bool = True) -> None:
        """Prepares it.

        Args:
            plan: the script with its parts.
            branches: what runs events.
            jobs: the number of events that run at once.
            report: is called with the progress, now and then.
            is_reduced: whether the second order of two events that commute is spared.
        """
        self.plan, self.branches, self.jobs, self.report = plan, branches, jobs, report
        self.looks = Looks(plan)
        self.statistics = Statistics()
        self.is_whole = True
        self._commuting = Independence(plan) if is_reduced else None
        self._nodes: Dict[State, Node] = {}
        self._positions: Set[Position] = set()
        self._waiting: List[Edge] = []
        self._running: Dict[Branch, Asked] = {}
        self._awaited: Dict[Edge, List[Edge]] = {}
        self._is_begun: Set[Edge] = set()

    def explore(self, until: Optional[float] = None) -> Findings:
        """The outcomes of the orders.

        Args:
            until: the time, as `time.monotonic` has it, at which it is stopped. Ctrl-C stops it too. It then returns
            the findings so far, and `is_whole` is false.
        """
        branch = self.branches.begin()
        branch.ask(self.looks.all())
        while not (found := self.branches.wait([branch])):
            pass
        root, _ = self._meet((), first_state(self.plan, dict(zip(self.looks.all(), found[0][1]))))
        self._arrive(root, branch)
        try:
            while self._waiting or self._running:
                self._step()
                if until is not None and time.monotonic() > until:
                    self.is_whole = not self._waiting and not self._running
                    break
        except KeyboardInterrupt:
            self.is_whole = False
        return gather(self.plan, root)

    def _step(self) -> None:
        """Starts events while branches are free, and takes the results of those that finished."""
        while self._waiting and len(self._running) < self.jobs:
            self._begin(*self._waiting.pop())
        if self._running:
            for branch, answers in self.branches.wait(self._running):
                self._take(branch, self._running.pop(branch), answers)
            self.report(self.statistics)

    def _begin(self, node: Node, choice: Choice) -> None:
        """Runs an event from a state, unless its result is known or pending."""
        node.left -= 1
        twin = self._twin(node, choice)
        if twin is not None and twin[1] in twin[0].edges:
            self._spare(node, choice, twin)
        elif twin is not None and twin in self._is_begun:
            self._awaited.setdefault(twin, []).append((node, choice))
            self._is_begun.add((node, choice))
        else:
            self._run(node, choice)
        if not node.left and node.branch is not None:
            node.branch.close()
            node.branch = None

    def _run(self, node: Node, choice: Choice) -> None:
        """Runs an event from a state."""
        step = self.plan.step(node.state.position, choice)
        looked = self.looks.after_event(step)
        is_last = not self.plan.choices(self.plan.after(node.state.position, choice))
        asked = Asked(node, choice, looked, is_last)
        branch = self._branch_at(node)
        if step.line.is_crash:
            branch = self.branches.reopen(branch)
        self._running[branch] = asked
        self._is_begun.add((node, choice))
        event = () if step.line.is_crash else (step.line.sent,)
        lines = [*event, *looked, *(self.looks.last() if is_last and not self.plan.fails else ())]
        branch.ask(lines)
        self.statistics.events += 1
        self.statistics.lines += len(lines)
        self.statistics.most_live = max(self.statistics.most_live, self.branches.live)

    def _branch_at(self, node: Node) -> Branch:
        """A branch at a state that may continue from there: the one that waits there, if nothing else wants it."""
        waiting = node.branch
        if waiting is None:
            return self.branches.begin([it.line.sent for it in self.plan.steps_of(node.path)])
        if node.left and self.branches.can_fork:
            return waiting.fork()
        node.branch = None
        return waiting

    def _take(self, branch: Branch, asked: Asked, answers: List[str]) -> None:
        """Records the result of an event."""
        node, choice = asked.node, asked.choice
        if self.plan.step(node.state.position, choice).line.is_crash:
            answers = [CRASH, *answers]
        end = 1 + len(asked.looked)
        told = dict(zip(asked.looked, answers[1:end]))
        if self.plan.fails:
            told["calls left"] = str(branch.calls_left)
        label, state = node.state.next(self.plan, self.looks, choice, answers[0], told)
        follower, is_new = self._meet((*node.path, choice), state)
        self._join(node, choice, label, follower)
        if is_new and asked.is_last:
            last = self._looked(branch, self.looks.last()) if self.plan.fails else answers[end:]
            follower.last = tuple(map(in_one_form, last))
        if is_new and not asked.is_last:
            self._arrive(follower, branch)
        else:
            branch.close()

    def _looked(self, branch: Branch, lines: List[str]) -> List[str]:
        """The answers of queries whose calls of the image must not fail."""
        branch.end_faults()
        branch.ask(lines)
        while not (found := self.branches.wait([branch])):
            pass
        return found[0][1]

    def _join(self, node: Node, choice: Choice, label: str, follower: Node) -> None:
        """Records the result of a choice, and wakes those that waited for it."""
        node.edges[choice] = label, follower
        self._is_begun.discard((node, choice))
        follower.came_by.append((node, choice))
        for edge in self._awaited.pop((node, choice), ()):
            self._spare(*edge, (node, choice))

    def _meet(self, path: Order, state: State) -> Tuple[Node, bool]:
        """The node of a state, and whether it is new."""
        node = self._nodes.get(state)
        if node is not None:
            return node, False
        self.statistics.states += 1
        self._positions.add(state.position)
        self.statistics.positions = len(self._positions)
        node = self._nodes[state] = Node(state, path)
        return node, True

    def _arrive(self, node: Node, branch: Branch) -> None:
        """Lets a branch wait at a new state, whose choices come next. If too many wait, the first one ends."""
        choices = self.plan.choices(node.state.position)
        node.left, node.branch = len(choices), branch
        self._waiting += [(node, it) for it in reversed(choices)]
        if self.branches.live > MOST_BRANCHES:
            for other, _ in self._waiting:
                if other.branch is not None and other is not node:
                    other.branch.close()
                    other.branch = None
                    break

    def _twin(self, node: Node, choice: Choice) -> Optional[Edge]:
        """The same two events in the other order, of which this choice is the second, if they commute: the state
        after this choice's event, and the other event."""
        if self._commuting is None:
            return None
        for before, other in node.came_by:
            if before.phase != node.phase or choice not in before.edges:
                continue
            if self._commuting.commute(before.state, choice, other):
                return before.edges[choice][1], other
        return None

    def _spare(self, node: Node, choice: Choice, twin: Edge) -> None:
        """Derives the result of a choice from the same two events in the other order."""
        between, other = twin
        before = next(it for it, by in node.came_by if by == other and it.edges.get(choice, ("", None))[1] is between)
        self.statistics.spared += 1
        self._join(node, choice, before.edges[choice][0], between.edges[other][1])
