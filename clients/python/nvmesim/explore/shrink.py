"""Cuts a counterexample down: the fewest events of its order that still show what it shows.

An event is left out if the check still fails without it, with the same values: so a request does not become unanswered
because its poll was left out.
"""
from __future__ import annotations

import copy
from typing import Callable, Dict, Hashable, List, Optional, Sequence, Set, Tuple

from ..errors import ExpressionError
from .branches import Branch, Branches
from .marks import CRASH
from .outcomes import Outcome, in_one_form
from .plan import Choice, Order, Phase, Plan, Step
from .report import Check
from .states import Looks, first_state
from .values import Values

Named = Tuple[Choice, Step]


def shrunk(plan: Plan, branches: Branches, check: Check, order: Order) -> Tuple[Plan, Order]:
    """The plan with only the events that the counterexample needs, and its order.

    Args:
        plan: the script with its parts.
        branches: what runs events.
        check: what the order does not meet.
        order: the counterexample.
    """
    steps = list(zip(order, plan.steps_of(order)))
    wanted = _shown(plan, branches, check, steps)
    if wanted is None:
        return plan, order
    kept = _without(steps, _commands(steps), lambda it: _shown(plan, branches, check, it) == wanted)
    kept = _without(kept, [[it] for it in kept], lambda it: _shown(plan, branches, check, it) == wanted)
    return _plan_of(plan, {step.name for _, step in kept}), tuple(choice for choice, _ in kept)


def _commands(steps: Sequence[Named]) -> List[List[Named]]:
    """Events in groups that are left out together: each request with the events after it in its part."""
    groups: List[List[Named]] = []
    last: Dict[str, List[Named]] = {}
    for it in steps:
        step = it[1]
        if step.line.is_request or step.part not in last:
            groups.append([])
            last[step.part] = groups[-1]
        last[step.part].append(it)
    return groups


def _without(steps: List[Named], groups: Sequence[List[Named]], is_shown: Callable[[List[Named]], bool]) -> List[Named]:
    """Leaves out each group that can be left out, until none can."""
    is_shorter = True
    while is_shorter:
        is_shorter = False
        for group in reversed(groups):
            rest = [it for it in steps if it not in group]
            if len(rest) < len(steps) and is_shown(rest):
                steps, is_shorter = rest, True
    return steps


def _plan_of(plan: Plan, names: Set[str]) -> Plan:
    """A plan with these events alone, which keep their names."""
    found = copy.copy(plan)
    found.phases = tuple(Phase(tuple(tuple(it for it in part if it.name in names) for part in phase.parts))
                         for phase in plan.phases)
    found.steps = [it for it in plan.steps if it.name in names]
    found.by_name = {it.name: it for it in found.steps}
    return found


def _shown(plan: Plan, branches: Branches, check: Check, steps: Sequence[Named]) -> Optional[Hashable]:
    """The values of the check in an order that breaks it; None if it is met, or a value is missing."""
    rest = _plan_of(plan, {step.name for _, step in steps})
    looks = Looks(plan)
    branch = branches.begin()
    try:
        outcome, branch = _run(rest, looks, branches, branch, steps)
        values = Values(rest, outcome, looks.last())
        return None if check.is_met(values) else check.expression.looked_at(values)
    except (KeyError, ExpressionError):
        return None
    finally:
        branch.close()


def _run(plan: Plan, looks: Looks, branches: Branches, branch: Branch,
         steps: Sequence[Named]) -> Tuple[Outcome, Branch]:
    """The outcome of an order's events, and the branch after them."""
    state = first_state(plan, dict(zip(looks.all(), _asked(branches, branch, looks.all()))))
    labels: List[Tuple[str, str]] = []
    for choice, step in steps:
        queries = looks.after_event(step)
        if step.line.is_crash:
            branch = branches.reopen(branch)
            answer, told = CRASH, _asked(branches, branch, queries)
        else:
            answer, *told = _asked(branches, branch, [step.line.sent, *queries])
        label, state = state.next(plan, looks, choice, answer, dict(zip(queries, told)))
        labels.append((step.name, label))
    if plan.fails:
        branch.end_faults()
    last = tuple(map(in_one_form, _asked(branches, branch, looks.last())))
    return Outcome(tuple(labels), last), branch


def _asked(branches: Branches, branch: Branch, lines: List[str]) -> List[str]:
    """The answers of lines."""
    branch.ask(lines)
    while not (found := branches.wait([branch])):
        pass
    return found[0][1]
