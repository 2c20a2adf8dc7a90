"""What was refused at which text: crates/NAME/wrong-bodies.record.

A line has a mutant's name, a digest and the goal that refused it. The digest is of the mutant, of the toolchain's logic
and of all that the refusal rests on: the changed function, its proof, the contracts of what it calls, and the
definitions that these name (support/definitions/citing.py). A mutant that is not of one function rests on its whole
crate. Comments and layout are left out. A line with another digest than the present one is ignored.
"""
import hashlib
import re
from dataclasses import dataclass
from pathlib import Path

HEAD = "# What was refused, at which text and by which goal. scripts/wrong-bodies writes this file."
LINE = re.compile(r"(\S+\.edit) ([0-9a-f]{16}) (\S.*)")


class BadRecord(Exception):
    """A record that can't be read."""


@dataclass(frozen=True)
class Line:
    name: str
    digest: str
    goal: str


def record_of(crate):
    return Path(crate.folder, "wrong-bodies.record")


def read(crate):
    """The lines of the crate's record by name; none if there is no record."""
    file, lines = record_of(crate), {}
    if not file.exists():
        return lines
    try:
        text = file.read_text()
    except (OSError, UnicodeDecodeError) as error:
        raise BadRecord(f"{crate.name}: its record can't be read: {error}") from error
    for number, line in enumerate(text.splitlines(), 1):
        if line.startswith("#") or not line:
            continue
        found = LINE.fullmatch(line)
        if not found or found[1] in lines:
            raise BadRecord(f"{crate.name}: line {number} of its record can't be read: {line[:80]}")
        lines[found[1]] = Line(*found.groups())
    return lines


def write(crate, lines):
    """Writes the record anew, by name."""
    text = [f"{it.name} {it.digest} {it.goal}" for it in sorted(lines, key=lambda it: it.name)]
    record_of(crate).write_text("\n".join([HEAD, *text, ""]))


class Digests:
    """The digests of mutants."""

    def __init__(self, logic, sources):
        self.logic, self.sources, self.seen = logic, sources, {}

    def of_crate(self, crate):
        """Of all that the crate's own items rest on."""
        if crate.name not in self.seen:
            items = [it for it in self.sources.items if it.crate == crate.name]
            self.seen[crate.name] = self.of_items(crate, items)
        return self.seen[crate.name]

    def of_items(self, crate, items):
        return digest_of([self.logic, crate.name, crate.of_kit, *self.sources.basis_texts(items)])

    def of_edit(self, crate, edit):
        """Of a mutant: it rests on what its function rests on, or on the whole crate if it is no function's."""
        own = self.sources.function(crate.name, edit.path, edit.function) if edit.function else None
        return digest_of([self.of_items(crate, [own]) if own else self.of_crate(crate), edit.text])[:16]


def digest_of(things):
    total = hashlib.sha256()
    for it in things:
        total.update(repr(it).encode())
    return total.hexdigest()
