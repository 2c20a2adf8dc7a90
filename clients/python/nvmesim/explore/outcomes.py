"""Outcomes of orders, and how many orders have each."""
from __future__ import annotations

from dataclasses import dataclass
from typing import Dict, Iterable, List, Tuple

from .plan import Order

Labels = Tuple[Tuple[str, str], ...]


@dataclass(frozen=True)
class Outcome:
    """The outcome of an order: the answer of each event by its name, and the answers of queries after the last."""

    labels: Labels
    last: Tuple[str, ...]


def in_one_form(told: str) -> str:
    """The answer to a query with registrants and attachments sorted, since their order does not distinguish
    outcomes."""
    words = told.split(" ")
    label, size = {"reservation": ("registrant", 4), "attached": ("controller", 4)}.get(words[0], ("", 0))
    if label not in words:
        return told
    begin = words.index(label)
    groups = [words[n:n + size] for n in range(begin, len(words), size)]
    groups.sort(key=lambda group: [int(it, 0) for it in group[1::2]])
    return " ".join((*words[:begin], *(word for group in groups for word in group)))


@dataclass(frozen=True)
class Ways:
    """The orders with one outcome: how many, and the one with the fewest changes between parts.

    Of several such orders it is the first, by the order of the parts in the script.
    """

    count: int
    changes: int
    order: Order

    def joined(self, other: Ways) -> Ways:
        """These orders and others with the same outcome."""
        best = min((self.changes, self.order), (other.changes, other.order))
        return Ways(self.count + other.count, *best)


Findings = Dict[Outcome, Ways]


def joined(parts: Iterable[Findings]) -> Findings:
    """The findings of several explorations, merged."""
    found: Findings = {}
    for part in parts:
        for outcome, ways in part.items():
            found[outcome] = found[outcome].joined(ways) if outcome in found else ways
    return found


def ranked(found: Findings) -> List[Tuple[Outcome, Ways]]:
    """Outcomes in the order in which they are shown: by their representative orders, which differ."""
    return sorted(found.items(), key=lambda it: (it[1].changes, it[1].order))
