"""Prints what an exploration found: the outcomes, an order that represents each, and counterexamples as scripts."""
from __future__ import annotations

import textwrap
from itertools import groupby
from typing import Callable, Dict, Hashable, Iterator, List, Sequence, Tuple

from ..enums import Protection
from ..looks import ReservationState
from ..words import data_words, hexadecimal, shortened
from .expressions import Expression
from .groups import Group, grouped, matters
from .outcomes import Findings, Outcome, Ways, ranked
from .plan import BEFORE, THEN, Order, Plan, Step
from .states import Looks
from .values import Values

_COLUMNS = 110
_FEW_BLOCKS = 16
FEWEST_ORDERS = 2
"""The smallest number of orders from which an expression is reported to hold."""


class Check:
    """An expression that must hold of every outcome, or of none."""

    def __init__(self, expression: Expression, is_wanted: bool) -> None:
        """`is_wanted`: whether it must always hold; else it must never."""
        self.expression, self.is_wanted = expression, is_wanted

    @property
    def name(self) -> str:
        """As it was asked for."""
        return f"{'always' if self.is_wanted else 'never'} {self.expression.text}"

    def is_met(self, values: Values) -> bool:
        """Whether an outcome meets the check."""
        return self.expression.holds(values) is self.is_wanted


class Report:
    """What an exploration found, ready to be printed.

    Attributes:
        found: the outcomes, ranked.
        values: the named answers of each.
        groups: those that are alike in what matters, together.
        shorter: of a check, by its name, a counterexample that was cut down.
    """

    def __init__(self, plan: Plan, found: Findings, checks: Sequence[Check] = (), is_whole: bool = True,
                 by: Sequence[Expression] = (), has_trifles: bool = False) -> None:
        """Takes the outcomes of a plan.

        Args:
            plan: the script with its parts.
            found: the outcomes.
            checks: what they must be.
            is_whole: whether they are those of all orders.
            by: what outcomes are grouped by; without it, by what matters.
            has_trifles: whether unimportant events distinguish outcomes too.
        """
        self.plan, self.checks, self.is_whole = plan, checks, is_whole
        self.by = by
        self.looks = Looks(plan).last()
        self.found: List[Tuple[Outcome, Ways]] = ranked(found)
        self.values = [Values(plan, outcome, self.looks) for outcome, _ in self.found]
        self.blocks = list(self._block_ranges())
        self._differing = [it for it in plan.steps if not it.line.is_request
                           and (has_trifles or matters(plan, it)) and self._differs(it)]
        self._is_attached_told = len({it.attached for it in self.values}) > 1
        self._table = [self._rows(it) for it in self.values]
        self.shorter: Dict[str, List[str]] = {}
        self.groups = grouped(self.found, self.values, self._key())

    def _key(self) -> Callable[[Values], Hashable]:
        """What the outcomes of a group have in common."""
        if self.by:
            return lambda it: tuple(_exactly(expression.value(it)) for expression in self.by)
        rows = dict(zip(map(id, self.values), self._table))
        return lambda it: tuple(rows[id(it)].items())

    @property
    def is_good(self) -> bool:
        """Whether all checks are met by all outcomes."""
        return all(check.is_met(it) for check in self.checks for it in self.values)

    @property
    def orders(self) -> int:
        """How many orders were judged."""
        return sum(ways.count for _, ways in self.found)

    def why_one_order(self) -> str:
        """Why there is only one order: the script has one part, or no concurrent events."""
        names = list(self.plan.parts)
        if not names:
            nearest = f" ({self.plan.nearest})" if self.plan.nearest else ""
            return f"The script has no mark '# host NAME'{nearest}"
        return f"The script has one part, {names[0]}" if len(names) == 1 else "The script's parts have one order"

    def lines(self) -> Iterator[str]:
        """The whole report."""
        told = ", ".join(f"{name} {_count(count, 'event')}" for name, count in self.plan.parts.items())
        told = told or _count(self.plan.length, "event")
        total = self.orders
        if not self.is_whole:
            yield f"PARTIAL: {_count(total, 'order')} of {self.plan.orders} were judged; the others may have more outcomes."
        yield f"{_count(total, 'order')} of {told}: {_count(len(self.groups), 'outcome')}"
        if self.plan.orders < FEWEST_ORDERS:
            yield f"{self.why_one_order()}, so nothing was tried in another order."
        same = self.same()
        for number, group in enumerate(self.groups, 1):
            yield ""
            yield f"{number}. {_count(group.ways.count, 'order')}, such as"
            yield from self._telling(group.ways.order)
            yield from _table({name: text for name, text in self.rows_of(group).items() if name not in same}, "   ")
        if same and len(self.groups) > 1:
            yield ""
            yield "The same in all outcomes:"
        elif same:
            yield ""
        yield from _table(same, "   ")
        for check in self.checks:
            yield from self._checked(check, total)

    def same(self) -> Dict[str, str]:
        """What is the same in all outcomes, by names."""
        first = self._table[0] if self._table else {}
        return {name: text for name, text in first.items() if all(it.get(name) == text for it in self._table)}

    def rows_of(self, group: Group) -> Dict[str, str]:
        """The named answers that all outcomes of a group share; the requested names first."""
        rows = {it.text: it.told(self.values[group.first]) for it in self.by}
        for name, text in self._table[group.first].items():
            if name not in rows and all(self._table[it].get(name) == text for it in group.members):
                rows[name] = text
        return rows

    def _rows(self, values: Values) -> Dict[str, str]:
        """An outcome by names: requests, other events that matter and differ, and the last state."""
        rows = {step.name: str(values.answers[step.name]) for step in self.plan.steps if step.line.is_request}
        for step in self._differing:
            rows[step.name] = str(values.answers[step.name])
        for nsid, told in values.reservations.items():
            rows[f"reservation {nsid}"] = reservation_words(told)
        for nsid, first, last in self.blocks:
            name = f"block {nsid}:{first}" if first == last else f"blocks {nsid}:{first} to {last}"
            rows[name] = data_words(values.blocks[nsid, first])
        if self._is_attached_told:
            rows["attached"] = values.attached
        return rows

    def _block_ranges(self) -> Iterator[Tuple[int, int, int]]:
        """Ranges of blocks that are alike in each outcome; of many blocks, those of zeros are left out."""
        watched = list(self.values[0].blocks) if self.values else []
        begun: List[Tuple[int, int, int]] = []
        last: Tuple[bytes, ...] = ()
        for nsid, block in watched:
            found = tuple(it.blocks[nsid, block] for it in self.values)
            if begun and found == last and begun[-1][0] == nsid and begun[-1][2] == block - 1:
                begun[-1] = nsid, begun[-1][1], block
            elif len(watched) <= _FEW_BLOCKS or any(it.strip(b"\0") for it in found):
                begun.append((nsid, block, block))
            last = found
        yield from begun

    def _differs(self, step: Step) -> bool:
        """Whether an event's answer distinguishes outcomes in addition to its request's."""
        found = (it.answers[step.name] for it in self.values)
        return len({it.request or it.text for it in found}) > 1

    def _telling(self, order: Order) -> Iterator[str]:
        """An order in short: the parts and their events, in order."""
        steps = [it for it in self.plan.steps_of(order) if it.part not in (BEFORE, THEN)]
        width = max((len(it.part) for it in steps), default=1)
        for part, group in groupby(steps, key=lambda it: it.part):
            text = "; ".join(shortened(it.line.sent, 48) for it in group)
            head = f"     {part:<{width}}  "
            yield from textwrap.wrap(text, _COLUMNS, initial_indent=head, subsequent_indent=" " * len(head),
                                     break_on_hyphens=False)

    def broken(self, check: Check) -> List[Tuple[Outcome, Ways]]:
        """The outcomes that do not meet a check."""
        return [it for it, values in zip(self.found, self.values) if not check.is_met(values)]

    def _checked(self, check: Check, total: int) -> Iterator[str]:
        """Whether a check is met, with an order that breaks it if not."""
        broken = self.broken(check)
        count = sum(ways.count for _, ways in broken)
        yield ""
        if not broken:
            judged = "" if self.is_whole else " that were judged"
            yield f"{check.name}: holds in all {_count(total, 'order')}{judged}"
            return
        yield f"{check.name}: fails in {count} of {_count(total, 'order')}, for instance by this script:"
        yield ""
        yield from self.example(check)

    def example(self, check: Check) -> List[str]:
        """A script that breaks a check; an empty one if none does."""
        broken = self.broken(check)
        if not broken:
            return []
        return self.shorter.get(check.name) or list(script_of(self.plan, broken[0][1].order))

    def counterexample(self) -> str:
        """The first counterexample as a script; an empty string if all checks are met."""
        for check in self.checks:
            if self.broken(check):
                return "".join(f"{it}\n" for it in self.example(check))
        return ""


def _exactly(value: Hashable) -> Hashable:
    """What distinguishes values of an expression: their text, since 0 and False are equal."""
    return repr(value)


def script_of(plan: Plan, order: Order) -> Iterator[str]:
    """A script that runs one order; comments mark whose events follow."""
    yield from plan.setup
    for part, group in groupby(plan.steps_of(order), key=lambda it: it.part):
        if part != BEFORE:
            yield "# then" if part == THEN else f"# {part}"
        for step in group:
            yield step.line.text


def reservation_words(told: ReservationState) -> str:
    """A reservation, its holder and its registrants."""
    held = "none"
    if told.rtype:
        who = "all registrants" if told.is_held_by_all or told.holder is None else f"host {hexadecimal(told.holder)}"
        held = f"{told.rtype.text} of {who}"
    keys = ", ".join(f"{hexadecimal(host)} key {hexadecimal(key)}" for host, key in told.registrants.items())
    protected = {Protection.NONE: "", Protection.PROTECTED: "; write protected",
                 Protection.UNTIL_POWER_CYCLE: "; write protected until a power cycle"}[told.protection]
    return f"{held}; registered: {keys or 'nobody'}{'; persists' if told.persists else ''}{protected}"


def _table(rows: Dict[str, str], indent: str) -> Iterator[str]:
    width = max(map(len, rows), default=0)
    for name, text in rows.items():
        yield f"{indent}{name:<{width}}  {text}"


def _count(number: int, what: str) -> str:
    return f"{number} {what}" + ("" if number == 1 else "s")
