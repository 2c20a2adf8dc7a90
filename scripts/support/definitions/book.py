"""Which wrong definitions there are, and what the records say of them.

A line of crates/NAME/wrong-definitions.record has the file, the definition, the rule, a digest, the crate that noticed
it, the item of that crate whose proof failed, and the goal; or, if it is no definition at all, the definition, and why
it is none. The digest is of the wrong definition and of all that the item
rests on, comments and layout left out; if no item is named, of the crate. A line with another digest than the present
one says nothing.
crates/NAME/same-definitions lists those that mean the same, each with the reason.
"""
from dataclasses import dataclass
from pathlib import Path

from support.definitions.citing import plain
from support.definitions.rules import wrong_definitions
from support.record import digest_of

HEAD = "# Which wrong definitions were noticed, at which text and by whom. scripts/wrong-definitions writes this file."


@dataclass(frozen=True)
class Mutant:
    """A wrong definition of a crate: its file, what it is called in records, the file's text with it, that text before
    the import of what it needs, and the definition as it is."""
    crate: str
    path: str
    label: str
    text: str
    bare: str
    item: object = None


# How the words of a line begin on what is no definition.
NONE = "no definition: "


@dataclass(frozen=True)
class Line:
    label: str
    digest: str
    crate: str
    item: str
    words: str

    @property
    def kind(self):
        return "unread" if self.words.startswith(NONE) else "noticed"

    def __str__(self):
        return " | ".join([self.label, self.digest, self.crate, self.item, self.words])


class BadRecord(Exception):
    """A record that can't be read."""


def mutants_of(crate, sources=None):
    """All wrong definitions of a crate, in the order of its files."""
    folder = Path(crate.folder)
    for file in sorted(folder.glob("specs/**/*.antt")):
        if "declared" not in file.relative_to(folder).parts and file.name != "Examples.antt":
            path = str(file.relative_to(folder))
            names = sources.files[crate.name, path].names if sources else {}
            for it in wrong_definitions(file.read_text()):
                yield Mutant(crate.name, path, f"{path[6:-5]} {it.name}: {it.rule}", it.text, it.bare, names.get(it.name))


def lines_in(file, count):
    """The lines of a record: `count` parts each, joined by bars."""
    if not file.exists():
        return
    for number, line in enumerate(file.read_text().splitlines(), 1):
        parts = line.split(" | ", count - 1)
        if line and not line.startswith("#"):
            if len(parts) != count:
                raise BadRecord(f"{file}: line {number} can't be read: {line[:80]}")
            yield parts


def wrong_item(text, mutant):
    """The wrong definition alone."""
    lines = text.split("\n")
    start = len("\n".join([*lines[:mutant.item.first], ""]))
    after = len("\n".join(["", *lines[mutant.item.last + 1:]]))
    return mutant.bare[start:len(mutant.bare) - after]


class Book:
    """The records of one crate."""

    def __init__(self, crate, crates, digests, sources):
        self.crate, self.crates, self.digests, self.sources = crate, crates, digests, sources
        self.file = Path(crate.folder, "wrong-definitions.record")
        self.lines = {parts[0]: Line(*parts) for parts in lines_in(self.file, 5)}
        self.same = dict(lines_in(Path(crate.folder, "same-definitions"), 2))

    def digest(self, mutant, crate, item):
        """What a line rests on; nothing if there is no such item any more."""
        wrong = plain(wrong_item(self.sources.files[mutant.crate, mutant.path].text, mutant))
        if not item:
            return digest_of([self.digests.of_crate(self.crates[crate]), mutant.label, wrong])[:16]
        return digest_of([self.digests.logic, mutant.label, wrong, *self.sources.basis_texts([item])])[:16]

    def item_of(self, line):
        """The item that a line names, and whether there is one."""
        path, _, name = line.item.partition(" ")
        file = self.sources.files.get((line.crate, path))
        found = [it for it in file.items if it.name == name] if file else []
        return found[0] if len(found) == 1 else None

    def is_recorded(self, mutant):
        line = self.lines.get(mutant.label)
        if not line or line.crate not in self.crates:
            return False
        item = self.item_of(line) if line.item != "-" else None
        is_known = line.item == "-" or item
        return bool(is_known) and line.digest == self.digest(mutant, line.crate, item)

    def take(self, mutant, outcome):
        """Keeps what was noticed, or is no definition; nothing else is recorded."""
        if outcome.kind == "noticed" or outcome.kind == "unread" and mutant.item:
            item, head = (outcome.item, "") if outcome.kind == "noticed" else (outcome.item or mutant.item, NONE)
            named = f"{item.path} {item.name}" if item and self.is_one(item) else "-"
            crate = item.crate if item else outcome.crate
            digest = self.digest(mutant, crate, item if named != "-" else None)
            self.lines[mutant.label] = Line(mutant.label, digest, crate, named, head + outcome.words)

    def is_one(self, item):
        """Whether no other item of the file has its name."""
        return sum(it.name == item.name for it in self.sources.files[item.crate, item.path].items) == 1

    def write(self):
        if self.lines:
            self.file.write_text("\n".join([HEAD, *map(str, sorted(self.lines.values(), key=str)), ""]))
