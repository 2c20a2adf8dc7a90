"""The lists of what may take memory: outside.txt has the names that never do, memory.txt the functions that have
others."""
from collections import Counter
from dataclasses import dataclass, field
from pathlib import Path
from typing import Dict, List, Set, Tuple

from support.documents.texts import Finding

FOLDER = Path(__file__).resolve().parent
OUTSIDE, LISTED = FOLDER / "outside.txt", FOLDER / "memory.txt"
HERE = "scripts/support/documents/memory.txt"
# The calls of the library for C that may take memory: those that open a subsystem, its associations or the commands of
# a connection, and those that put long texts together. No event does.
TAKING_CALLS = ("nvmesim_open", "nvmesim_open_lent", "nvmesim_open_brought", "nvmesim_fabrics_open",
                "nvmesim_transfers_open", "nvmesim_read_configuration", "nvmesim_configuration_lines",
                "nvmesim_look")


@dataclass
class Row:
    """A function's row: whether it takes memory, the count of each name in it, and the line of the list."""
    is_taking: bool
    counts: "Counter[str]"
    line: int


@dataclass
class Takers:
    """The functions that take memory and that a crate may call, by type and name; and its own that are of no type."""
    all: Set[Tuple[str, str]] = field(default_factory=set)
    own: Set[str] = field(default_factory=set)


@dataclass
class Lists:
    """Both lists, and their faults. A row is identified by its file and its function."""
    known: Set[str] = field(default_factory=set)
    rows: Dict[Tuple[str, str], Row] = field(default_factory=dict)
    wrong: List[Finding] = field(default_factory=list)

    def takers(self, crate: str, below: Set[str], hidden: Set[Tuple[str, str]]) -> Takers:
        """The functions that take memory and that a crate may call: its own, and those of the crates that it depends on
        which are not hidden from it."""
        found = Takers()
        for (path, function), row in self.rows.items():
            owner, _, name = function.rpartition("::")
            of_crate = path.split("/")[1]
            is_near = of_crate == crate or of_crate in below and (path, function) not in hidden
            if row.is_taking and name and is_near:
                found.all.add((owner, name))
                if of_crate == crate and not owner:
                    found.own.add(name)
        return found

    def add(self, path: str, line: str, n: int) -> None:
        """Adds a row."""
        words, _, why = line.partition(" -- ")
        kind, function, *names = [*words.split(), "", ""][:max(2, len(words.split()))]
        if kind not in ("takes", "holds") or not names or not why.strip() or not path:
            self.wrong.append(Finding(HERE, n, "no row: takes|holds FUNCTION NAME .. -- why"))
        if kind == "takes" and function.startswith("nvmesim_") and function not in TAKING_CALLS:
            self.wrong.append(Finding(HERE, n, f"{function} is an event or a query, and may take no memory"))
        key = (f"crates/{path}", "" if function == "-" else function)
        if key in self.rows:
            self.wrong.append(Finding(HERE, n, f"{function} is here twice"))
        self.rows[key] = Row(kind == "takes", counted(names), n)


def counted(words: List[str]) -> "Counter[str]":
    """The count of each listed name: NAME is once, NAME*3 three times."""
    counts: "Counter[str]" = Counter()
    for word in words:
        name, _, count = word.partition("*")
        counts[name] += int(count or 1)
    return counts


def lists() -> Lists:
    """Reads both lists."""
    found, path = Lists(), ""
    for line in OUTSIDE.read_text(encoding="utf-8").splitlines():
        if line.startswith("    "):
            found.known.update(line.split())
    for n, line in enumerate(LISTED.read_text(encoding="utf-8").splitlines(), 1):
        if line.startswith("    "):
            found.add(path, line, n)
        elif line and not line.startswith("#"):
            path = line.strip()
    return found
