"""The progress of an exploration, and its remaining time."""
from __future__ import annotations

import time
from typing import Optional, TextIO

from .plan import Plan
from .walk import Statistics

_EVERY = 0.1
_FIRST = 3.0
"""Seconds until a long exploration prints an estimate."""
_LONG = 20.0


class Progress:
    """Reports the progress on standard error: repeatedly on a terminal, else once if the exploration is long."""

    def __init__(self, plan: Plan, stream: TextIO) -> None:
        """Measures time from the first report, since the program may be built before it."""
        self.plan, self.stream = plan, stream
        self._begun: Optional[float] = None
        self._shown = 0.0
        self._is_said = False
        self._is_terminal = stream.isatty()

    def report(self, statistics: Statistics) -> None:
        """Reports it, if it is time to."""
        now = time.monotonic()
        if self._begun is None:
            self._begun = now
        if self._is_terminal and now - self._shown > _EVERY:
            self._shown = now
            print(f"\r{self.told(statistics)}{self._left(statistics)}\033[K", end="", file=self.stream, flush=True)
        if not self._is_said and now - self._begun > _FIRST:
            self._is_said = True
            if seconds_left(self.plan, statistics, now - self._begun) > _LONG:
                self.end()
                print(f"nvmesim: {self.size(statistics)}; Ctrl-C prints what was found so far", file=self.stream,
                      flush=True)

    def size(self, statistics: Statistics) -> str:
        """How large it is, in short."""
        return (f"{self.plan.orders:,} orders, of {self.plan.positions:,} states at least and about "
                f"{states_in_all(self.plan, statistics):,}{self._left(statistics)}")

    def told(self, statistics: Statistics) -> str:
        """What it took so far."""
        size = f"{statistics.most_bytes / (1 << 20):,.0f} MB"
        rest = size if statistics.most_bytes else f"{statistics.spared:,} spared"
        return f"{statistics.states:,} states, {statistics.events:,} events run, {rest}, {self._seconds():.2f} seconds"

    def _seconds(self) -> float:
        """How long it has taken."""
        return 0.0 if self._begun is None else time.monotonic() - self._begun

    def _left(self, statistics: Statistics) -> str:
        left = seconds_left(self.plan, statistics, self._seconds())
        return f", about {in_words(left)} to go" if left >= 1 else ""

    def end(self) -> None:
        """Clears the line."""
        if self._is_terminal:
            print("\r\033[K", end="", file=self.stream, flush=True)


def states_in_all(plan: Plan, statistics: Statistics) -> int:
    """An estimate of the number of states: each position has as many as so far on average."""
    return statistics.states * plan.positions // max(1, statistics.positions)


def seconds_left(plan: Plan, statistics: Statistics, seconds: float) -> float:
    """An estimate of the remaining time, at the speed so far."""
    return seconds * (states_in_all(plan, statistics) / max(1, statistics.states) - 1)


def in_words(seconds: float) -> str:
    """A time in its largest unit."""
    for size, unit in ((86400, "days"), (3600, "hours"), (60, "minutes")):
        if seconds >= 2 * size:
            return f"{seconds / size:,.0f} {unit}"
    return f"{seconds:.0f} seconds"
