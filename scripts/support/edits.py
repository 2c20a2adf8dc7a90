"""Mutants as their files have them, and which function each changes."""
import re
from dataclasses import dataclass
from pathlib import Path

from support.placing import has_copyable_proofs
from support.source import Function, functions_of

FOLDERS = ("must-fail", "wrong-bodies")


class BadEdit(Exception):
    """A mutant that can't be tried."""


@dataclass(frozen=True)
class Change:
    path: str
    old: str
    new: str


@dataclass(frozen=True)
class Edit:
    """A mutant: its crate, its file, and what it changes; the function, if it changes the body of one alone,
    with the text of that body and of its changes, and whether a copy of the function can be added."""
    crate: str
    file: Path
    text: str
    changes: tuple
    function: Function = None
    path: str = ""
    body: str = ""
    is_copied: bool = False

    @property
    def name(self):
        return self.file.name

    @property
    def label(self):
        return f"{self.crate}/{self.name}"


def changes_of(text):
    """An edit's changes, as its own file has them."""
    changes, path, old = [], "", ""
    for line in text.split("\n"):
        if line.startswith("file: "):
            path = line.removeprefix("file: ").strip()
        elif line.startswith("old: "):
            old = line.removeprefix("old: ")
        elif line.startswith("new:"):
            changes.append(Change(path, old, line.removeprefix("new:").removeprefix(" ")))
    return tuple(changes)


def says_the_same(change):
    """Whether a change is of spaces alone, such as one that makes a repeated text unique."""
    return '"' not in change.old and re.findall(r"\w+|\S", change.old) == re.findall(r"\w+|\S", change.new)


def is_within(function, line, change):
    """Whether a change of this line is one of the function's body, which can begin after the brace of its head."""
    begins = change.old.endswith("{") and change.new.startswith(change.old)
    return function.body < line < function.last or begins and line == function.body < function.last


def changed_function(folder, changes):
    """The file and the one function whose body the changes are in, or none. What changes spaces alone may be
    anywhere: a check has the mutant without it."""
    found, texts = set(), {}
    for it in changes:
        if not it.path.startswith("src/"):
            return "", None
        text = texts.get(it.path) or (folder / it.path).read_text()
        # A later change may apply to what an earlier one made, which leaves each line where it was.
        line = text[:text.index(it.old)].count("\n")
        texts[it.path] = text.replace(it.old, it.new)
        if says_the_same(it):
            continue
        here = [f for f in functions_of((folder / it.path).read_text(), it.path) if is_within(f, line, it)]
        if len(here) != 1:
            return "", None
        found.add((it.path, here[0]))
    return found.pop() if len(found) == 1 else ("", None)


def read_edit(rt, crate, file):
    """Reads a mutant, and finds where it belongs."""
    folder = Path(crate.folder)
    why = rt.read_edit(str(file), crate.folder)[1]
    if why:
        raise BadEdit(f"{crate.name}/{file.name}: it can't be applied: {why}")
    text = file.read_text()
    changes = changes_of(text)
    path, function = changed_function(folder, changes)
    if not function:
        return Edit(crate.name, file, text, changes)
    whole = (folder / path).read_text()
    body = "\n".join([*whole.split("\n")[function.body + 1:function.last], *(it.new for it in changes)])
    return Edit(crate.name, file, text, changes, function, path, body, has_copyable_proofs(folder, whole, function))


def files_of(crate, folders=FOLDERS):
    """The files of a crate's mutants; a file that is none, or a name that two of them have, is a fault."""
    found = {}
    for folder in folders:
        for file in sorted(Path(crate.folder, folder).rglob("*")):
            if file.suffix == ".md":
                continue
            if not re.fullmatch(r"[A-Za-z0-9_-][A-Za-z0-9_.-]*\.edit", file.name) or file.parent.name != folder:
                raise BadEdit(f"{crate.name}: {folder}/{file.name} is no mutant, which is a file NAME.edit")
            if file.name in found:
                raise BadEdit(f"{crate.name}/{file.name} is in two folders")
            found[file.name] = file
    return list(found.values())


def orphans(root, crates):
    """The folders of mutants outside every crate, which would never be tried."""
    found = [it for folder in FOLDERS for it in root.glob(f"**/{folder}") if it.is_dir()]
    homes = {Path(it.folder) for it in crates}
    return [it for it in found if it.parent not in homes and "out" not in it.relative_to(root).parts]


def are_apart(one, other):
    """Whether two mutants can share a check: as copies; or instead of their functions, if these are two
    and neither of them names the other. No copy is added if its function is replaced, since what calls
    that function, by whatever way, is not proved there."""
    def names(edit, function):
        return edit.function.name == function.name or re.search(rf"\b{function.word}\b", edit.body)

    if one.is_copied or other.is_copied:
        return one.is_copied and other.is_copied
    return not names(other, one.function) and not names(one, other.function)


def batches_of(edits, most):
    """The mutants of one crate in as few checks as may be, those of one function together, since each
    check proves the functions too that its copies are of; and those that are no function's, each of which needs a check
    of its own."""
    batches = []
    for edit in sorted((it for it in edits if it.function), key=lambda it: (it.is_copied, it.path, it.function.first)):
        room = next((b for b in batches if len(b) < most and all(are_apart(edit, it) for it in b)), None)
        if room is None:
            batches.append([edit])
        else:
            room.append(edit)
    return batches, [it for it in edits if not it.function]
