"""Explorations whose subsystems are stand-ins of this process, and orders that are run one by one."""
from __future__ import annotations

import copy
import io
from pathlib import Path
from typing import BinaryIO, Callable, Collection, Dict, List, Sequence, Tuple

from nvmesim.explore import Plan, Programs
from nvmesim.explore.branches import Branch
from nvmesim.explore.outcomes import Findings, Outcome, in_one_form
from nvmesim.explore.plan import Order
from nvmesim.explore.states import Looks, State, first_state
from nvmesim.explore.walk import Walk

from .standin import World

Ask = Callable[[Sequence[str]], List[str]]


class InProcess:
    """Branches that are stand-ins, which are copied. If `can_fork` is false, none is."""

    def __init__(self, plan: Plan, can_fork: bool = True) -> None:
        self.plan, self.can_fork, self.live = plan, can_fork, 0
        self.begun = 0

    def begin(self, lines: Sequence[str] = ()) -> Branch:
        self.begun += 1
        branch: Branch = self.opened(io.BytesIO(bytes(512 * 1024)))
        for line in lines:
            if line == "crash":
                branch = self.reopen(branch)
            else:
                branch.ask([line])
        return branch

    def opened(self, image: BinaryIO) -> Copied:
        return Copied(self, _set_up(self.plan, image))

    def reopen(self, branch: Branch) -> Branch:
        assert isinstance(branch, Copied) and isinstance(branch.world.image, io.BytesIO)
        branch.close()
        return self.opened(io.BytesIO(branch.world.image.getvalue()))

    def wait(self, asked: Collection[Branch]) -> List[Tuple[Branch, List[str]]]:
        """The first of them, so that some of several stay longer."""
        it = next(iter(asked))
        assert isinstance(it, Copied)
        return [(it, it.answers)]


class Copied:
    """A branch that is a stand-in."""

    def __init__(self, owner: InProcess, world: World) -> None:
        self.owner, self.world = owner, world
        self.answers: List[str] = []
        owner.live += 1

    calls_left = 0

    def end_faults(self) -> None:
        raise AssertionError("no call of a stand-in's image fails")

    def ask(self, lines: Sequence[str]) -> None:
        self.answers = list(map(self.world.answer, lines))

    def fork(self) -> Branch:
        assert self.owner.can_fork
        return Copied(self.owner, copy.deepcopy(self.world))

    def close(self) -> None:
        self.owner.live -= 1


def walk_of(plan: Plan, jobs: int = 1, can_fork: bool = True, is_reduced: bool = True) -> Walk:
    """An exploration over stand-ins of this process."""
    return Walk(plan, InProcess(plan, can_fork), jobs, is_reduced=is_reduced)


def orders_of(plan: Plan) -> List[Order]:
    """All orders of a plan, one by one."""
    found: List[Order] = []

    def go(order: Order, position: object) -> None:
        choices = plan.choices(position)  # type: ignore[arg-type]
        if not choices:
            found.append(order)
        for it in choices:
            go((*order, it), plan.after(position, it))  # type: ignore[arg-type]

    go((), plan.begin())
    return found


def _came_to(plan: Plan, order: Order, ask: Ask) -> Outcome:
    """The outcome of an order that is run from its beginning to its end, with all its events."""
    looks, labels = Looks(plan), []  # type: Tuple[Looks, List[Tuple[str, str]]]
    places = {it.name: n for n, it in enumerate(plan.steps)}
    state: State = first_state(plan, dict(zip(looks.all(), ask(looks.all()))))
    for choice, step in zip(order, plan.steps_of(order)):
        answer, *told = ask([step.line.text, *looks.after_event(step)])
        label, state = state.next(plan, looks, choice, answer, dict(zip(looks.after_event(step), told)))
        labels.append((step.name, label))
    return Outcome(tuple(sorted(labels, key=lambda it: places[it[0]])), tuple(map(in_one_form, ask(looks.last()))))


def _asked_of(plan: Plan) -> Ask:
    """Sends lines to a stand-in. A crash ends it, and another one starts over its medium."""
    image = io.BytesIO(bytes(512 * 1024))
    worlds = [_set_up(plan, image)]

    def ask(lines: Sequence[str]) -> List[str]:
        answers: List[str] = []
        for line in lines:
            if line == "# crash":
                worlds.append(_set_up(plan, image))
            answers.append("crash" if line == "# crash" else worlds[-1].answer(line))
        return answers

    return ask


def _set_up(plan: Plan, image: BinaryIO) -> World:
    world = World(image)
    for line in plan.setup:
        world.answer(line)
    return world


def one_by_one(plan: Plan) -> Dict[Outcome, int]:
    """The number of orders for each outcome: each order is run in its own stand-in."""
    found: Dict[Outcome, int] = {}
    for order in orders_of(plan):
        outcome = _came_to(plan, order, _asked_of(plan))
        found[outcome] = found.get(outcome, 0) + 1
    return found


def one_by_one_over(plan: Plan, program: Path) -> Dict[Outcome, int]:
    """The outcomes over programs: each order is run in its own program."""
    found: Dict[Outcome, int] = {}
    with Programs(program, plan.setup, 10.0) as programs:
        for order in orders_of(plan):
            branch = programs.begin()

            def ask(lines: Sequence[str]) -> List[str]:
                branch.ask(lines)
                while not (answered := programs.wait([branch])):
                    pass
                return answered[0][1]

            outcome = _came_to(plan, order, ask)
            found[outcome] = found.get(outcome, 0) + 1
            branch.close()
    return found


def counts_of(found: Findings) -> Dict[Outcome, int]:
    """The number of orders for each outcome."""
    return {outcome: ways.count for outcome, ways in found.items()}
