"""What a check refuses: the items whose proofs fail, and which wrong definition of a batch each of them is due to.

Only errors and goals that stayed open count. A function that isn't proved because another isn't, a note and a warning
say nothing; nor does an item that rests on another one that is refused.
"""
import re
from dataclasses import dataclass

AT = r"(?P<folder>\S*?/)?(?P<path>(?:src|specs|proofs)/\S+?):(?P<line>\d+):\d+: "
GOAL = re.compile(rf"note: {AT}it is not proved that (?P<words>.*?) ?\(`(?P<name>[^`]+)`\)")
ERROR = re.compile(rf"{AT}error(?:\[[\w-]+\])?: (?:`(?P<name>[^`]+)`: )?(?P<words>.*)")
# The crate that a file is of, and the copy in which definitions are wrong.
FOLDER, WRONG = re.compile(r"crates/(\w+)/$"), "wrong/"
# What fails only because something else does.
SECONDARY = re.compile(r"w(?:as|ere) not (?:admitted|checked)")
# What may fail so too, unless it is a definition.
MISSING = re.compile(r"is not in scope|has no `|has no field")
END = re.compile(r"^(?:only=\d+ proved=\d+|logic=\S+)", re.M)


@dataclass(frozen=True)
class Outcome:
    """What came of a wrong definition: `noticed`, `unnoticed`, or `unread` if it is no definition at all; by which
    item of which crate, and in which words."""
    kind: str
    crate: str
    item: object
    words: str


@dataclass(frozen=True)
class Refusal:
    """An item that is refused, and by which words."""
    item: object
    words: str


def item_at(file, line):
    """The item of a file at a line: a function rather than what is around it."""
    found = [it for it in file.items if it.first <= line <= it.last and it.kind != "clause"]
    return min(found, key=lambda it: it.last - it.first, default=None)


def clause_of(file, function, goal):
    """The clause that a goal of a law or an example is of, else the function."""
    clauses = [it for it in file.items if it.kind == "clause" and it.function is function.function]
    name = goal.rpartition("-clause-")[2] if "-clause-" in goal else ""
    found = [it for it in clauses if it.name.partition("#")[2] == name] if name or len(clauses) == 1 else []
    return found[0] if len(found) == 1 and goal.startswith("returns") else function


def refusals_in(said, sources, crate, wrong):
    """The refusals that a check of a crate names, and whether each is for its own sake."""
    for line in said.lines:
        goal = GOAL.match(line)
        found = goal or ERROR.match(line)
        if not found:
            continue
        folder, name, words = found["folder"] or "", found["name"] or "", found["words"]
        other = FOLDER.search(folder)
        file = sources.files.get((wrong if folder.endswith(WRONG) else other[1] if other else crate, found["path"]))
        item = item_at(file, int(found["line"]) - 1) if file else None
        if not goal:
            # A wrong definition can move the lines of its own file, where an error names what it is of.
            item = file.names.get(name, item) if file else None
            is_definition = found["path"].startswith("specs/")
            is_first = not SECONDARY.search(words) and (is_definition or not MISSING.search(words))
            yield Refusal(item, f"{name + ': ' if name else ''}{words}"), is_first
        elif item and item.kind == "function":
            yield Refusal(clause_of(file, item, name), f"{name}: {words}"), True


def is_whole(said):
    """Whether a check came to its end."""
    return said.status in (0, 1) and bool(END.search(said.text))


class Reading:
    """What a check of a crate with some wrong definitions says of each of them."""

    def __init__(self, said, sources, crate, batch):
        self.sources, self.batch = sources, batch
        found = list(refusals_in(said, sources, crate, batch[0].crate))
        self.refused = {it.item for it, _ in found if it.item}
        self.is_lost = not is_whole(said) or any(it.item is None for it, _ in found)
        self.outcomes = {}
        for refusal, is_first in found:
            if is_first and refusal.item and not self.rests_on_refused(refusal.item):
                self.take(refusal)

    def rests_on_refused(self, item):
        """Whether an item rests on another one that is refused. A law's clauses are refused one by one, and a wrong
        definition for its own sake, though it may seem to rest on what needs it."""
        reached = self.sources.basis(item)[0]
        is_wrong = any(it.item is item for it in self.batch)
        return not is_wrong and any(it in reached for it in self.refused if it is not item)

    def take(self, refusal):
        entered = self.sources.basis(refusal.item)[1]
        seen = [it for it in self.batch if it.item in entered]
        if len(seen) != 1 or self.is_lost:
            return
        kind = "unread" if refusal.item.kind == "specs" else "noticed"
        before = self.outcomes.get(seen[0])
        if not before or (before.kind, kind) == ("noticed", "unread"):
            words = " ".join(refusal.words.split())[:160]
            self.outcomes[seen[0]] = Outcome(kind, refusal.item.crate, refusal.item, words)

    def tells(self, witness):
        """Whether the check says of a witness what it would say without what else was refused."""
        return not self.is_lost and not self.rests_on_refused(witness)
