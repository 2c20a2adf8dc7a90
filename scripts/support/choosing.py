"""The mutants, and which of them have to be tried."""
import hashlib
from dataclasses import dataclass, field

from support import edits, record
from support.definitions.citing import Sources


@dataclass
class Book:
    """The mutants of the crates, their records, and the faults of both."""
    crates: dict
    edits: dict = field(default_factory=dict)
    lines: dict = field(default_factory=dict)
    digests: dict = field(default_factory=dict)
    faults: list = field(default_factory=list)

    def is_recorded(self, edit):
        line = self.lines[edit.crate].get(edit.name)
        return line is not None and line.digest == self.digests[edit.label]

    def tally(self):
        return sum(map(len, self.edits.values()))


def read_book(rt, root, crates, logic):
    """Reads every mutant and every record."""
    book, digests = Book(crates), record.Digests(logic, Sources(crates))
    for folder in edits.orphans(root, crates.values()):
        book.faults.append(f"{folder.relative_to(root)}: these are never tried, since there is no crate")
    for name, crate in crates.items():
        book.edits[name], book.lines[name] = [], {}
        try:
            book.lines[name] = record.read(crate)
            files = edits.files_of(crate)
        except (record.BadRecord, edits.BadEdit) as error:
            book.faults.append(str(error))
            continue
        for file in files:
            try:
                edit = edits.read_edit(rt, crate, file)
            except edits.BadEdit as error:
                book.faults.append(str(error))
                continue
            book.edits[name].append(edit)
            book.digests[edit.label] = digests.of_edit(crate, edit)
    return book


def lacking(book):
    """The mutants without a valid record."""
    return {name: [it for it in found if not book.is_recorded(it)] for name, found in book.edits.items()}


def of_gate(book, commit):
    """The mutants that the merge gate tries besides `rt ci`, which tries must-fail itself: those without a record, and
    a tenth of the others, in crates that the commit selects, so that a false record is found after a few commits."""
    beside = {name: [it for it in found if it.file.parent.name != "must-fail"] for name, found in book.edits.items()}
    chosen = {name: [it for it in found if not book.is_recorded(it)] for name, found in beside.items()}
    rest = {name: [it for it in found if book.is_recorded(it)] for name, found in beside.items()}
    wanted = -(-sum(map(len, rest.values())) // 10)

    def by_commit(word):
        return hashlib.sha256(f"{commit} {word}".encode()).digest()

    for name in sorted(rest, key=by_commit):
        in_turn = sorted(rest[name], key=lambda it: by_commit(it.label))
        taken = in_turn[:wanted] if len(in_turn) > 2 * wanted else in_turn
        chosen[name] += taken
        wanted = max(wanted - len(taken), 0)
    return chosen
