"""The outcomes as a page: a table, the timeline of one order of each and where it parts from another, and each
counterexample next to the nearest good order."""
from __future__ import annotations

from html import escape
from typing import Callable, Iterator, Optional, Sequence, Tuple

from ..timeline.bands import Told
from ..timeline.page import PAGE
from ..timeline.picture import Picture
from ..timeline.style import PANEL, STYLE
from .plan import BEFORE, Order
from .report import Check, Report, script_of

Run = Callable[[str], Tuple[str, Sequence[Told]]]
"""Runs a script: its transcript, and the answers of queries about reservations."""

_MOST_DRAWN = 24


def page(report: Report, title: str, run: Run) -> str:
    """The page of a report.

    Args:
        report: what an exploration found.
        title: the heading.
        run: runs the scripts that are drawn. Orders with a crash or a call that fails are not drawn.
    """
    drawing = _Drawing(report, run)
    head = next(iter(report.lines())) if report.is_whole else " ".join(list(report.lines())[:2])
    body = [f"<h1>{escape(title)}</h1>", f"<p>{escape(head)}.</p>", _table_of(report), *drawing.checks(),
            *drawing.outcomes()]
    return PAGE.format(title=escape(title), style=STYLE + _STYLE, script=PANEL, body="\n".join(body), packed="")


def _table_of(report: Report) -> str:
    """A row for each outcome: how many orders, and what distinguishes it; then what is the same in all."""
    same = report.same()
    rows = [{name: text for name, text in report.rows_of(it).items() if name not in same} for it in report.groups]
    names = list(dict.fromkeys(name for it in rows for name in it))
    heads = "".join(f'<th scope="col">{escape(it)}</th>' for it in ("Outcome", "Orders", *names))
    body = "\n".join(
        f'<tr><td><a href="#outcome-{number}">{number}</a></td><td>{group.ways.count}</td>'
        + "".join(f"<td>{escape(row.get(name, ''))}</td>" for name in names) + "</tr>"
        for number, (group, row) in enumerate(zip(report.groups, rows), 1))
    alike = "".join(f"<tr><td>{escape(name)}</td><td>{escape(text)}</td></tr>" for name, text in same.items())
    return (f'<div class="wide"><table><thead><tr>{heads}</tr></thead><tbody>\n{body}\n</tbody></table></div>'
            f"<details><summary>The same in all outcomes</summary><table>{alike}</table></details>")


class _Drawing:
    """Draws orders of a report."""

    def __init__(self, report: Report, run: Run) -> None:
        self.report, self.plan, self._run = report, report.plan, run
        self.is_drawn = not report.plan.has_crash and not report.plan.fails

    def outcomes(self) -> Iterator[str]:
        """Each outcome with one of its orders, and where that parts from the nearest of another outcome."""
        groups = self.report.groups
        for number, group in enumerate(groups, 1):
            yield f'<h2 id="outcome-{number}">Outcome {number}: {group.ways.count} orders, such as this</h2>'
            others = [(n, it.ways.order) for n, it in enumerate(groups, 1) if n != number]
            if number <= _MOST_DRAWN:
                yield self._picture(group.ways.order, self._nearest(group.ways.order, others))

    def checks(self) -> Iterator[str]:
        """Whether each check is met; if not, a counterexample next to the nearest good order."""
        for check in self.report.checks:
            broken = self.report.broken(check)
            count = sum(ways.count for _, ways in broken)
            told = f"fails in {count} of {self.report.orders} orders" if broken else (
                f"holds in all {self.report.orders} orders")
            yield f'<h2 class="{"broken" if broken else "met"}"><code>{escape(check.name)}</code> {told}</h2>'
            if broken:
                yield self._compared(check, broken[0][1].order)

    def _compared(self, check: Check, order: Order) -> str:
        """A counterexample and the nearest good order."""
        good = [(0, ways.order) for (_, ways), values in zip(self.report.found, self.report.values)
                if check.is_met(values)]
        nearest = self._nearest(order, good)
        bad = f"<div><h3>A counterexample</h3>{self._picture(order, nearest, True)}</div>"
        if nearest is None:
            return f'<div class="beside">{bad}</div>'
        return (f'<div class="beside">{bad}<div><h3>The nearest order that is good</h3>'
                f"{self._picture(nearest[1], (0, order), True)}</div></div>")

    def _nearest(self, order: Order, others: Sequence[Tuple[int, Order]]) -> Optional[Tuple[int, Order]]:
        """Of other orders the one that goes the same way the longest."""
        return max(others, key=lambda it: _alike(order, it[1]), default=None)

    def _picture(self, order: Order, other: Optional[Tuple[int, Order]], is_short: bool = False) -> str:
        """The timeline of an order from the first mark on."""
        if not self.is_drawn:
            script = "\n".join(script_of(self.plan, order))
            return f"<pre>{escape(script)}</pre>"
        script = "".join(f"{it}\n" for it in self._split_script(order, other))
        transcript, told = self._run(script)
        before = sum(it.part == BEFORE for it in self.plan.steps)
        picture = Picture(script, transcript, told, before + 1, is_short)
        return f'<div class="pictures">{"".join(it.svg() for it in picture.parts)}</div>'

    def _split_script(self, order: Order, other: Optional[Tuple[int, Order]]) -> Iterator[str]:
        """The script of an order, with a comment where it parts from another."""
        lines = list(script_of(self.plan, order))
        place = None if other is None else _alike(order, other[1])
        if other is None or place is None or place == len(order):
            yield from lines
            return
        there = list(self.plan.steps_of(other[1]))[place].line.text
        name = f"outcome {other[0]}" if other[0] else "the other order"
        events = -len(self.plan.setup)
        for line in lines:
            if events == place and not line.startswith("#"):
                yield f"# — here it parts from {name}, where {there} comes next"
            events += not line.startswith("#")
            yield line


def _alike(order: Order, other: Order) -> int:
    """How many events two orders begin with alike."""
    return next((n for n, (one, two) in enumerate(zip(order, other)) if one != two), min(len(order), len(other)))


_STYLE = """
.beside { display: flex; gap: 28px; overflow-x: auto; align-items: flex-start; }
.beside > div { flex: 1 0 600px; min-width: 0; } .pictures svg.part { max-width: 100%; height: auto; }
@media (max-width: 1600px) { .beside { flex-direction: column; } .beside > div { flex: none; width: 100%; } }
.wide { overflow-x: auto; } h2.broken { color: var(--denied); } h2.met { color: var(--up); }
h2 code { font-size: .9em; } h3 { margin: 4px 0; } pre { background: var(--lane); padding: 10px; }
"""
