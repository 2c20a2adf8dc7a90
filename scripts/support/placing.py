"""Puts mutants into the text of one check: each instead of its function, or next to it as a copy.

A copy has the contract, the attributes and the proofs of its function, and a name of its own. So mutants of one
function, and of functions that call one another, share a check, in which the functions as they are are proved too.
"""
import re
from dataclasses import dataclass
from pathlib import Path

from support.source import HEAD, Function


@dataclass(frozen=True)
class Placed:
    """A mutant in a check: its name, its lines, and if it is a copy, the function that must be proved too."""
    edit: object
    function: Function
    copied: Function = None

    @property
    def crate(self):
        return self.edit.crate

    @property
    def path(self):
        return self.edit.path


def proofs_of(folder, name):
    """The folders that can have the proofs of a function."""
    tail = "/" + name.replace("::", "/")
    return [it for it in Path(folder, "proofs").rglob("*") if it.is_dir() and str(it).endswith(tail)]


def has_copyable_proofs(folder, text, function):
    """Whether a copy of the function can be added: a trait has no other names, a cycle of calls no other
    members, and proofs are copied if they are those of one function for certain."""
    head = "\n".join(text.split("\n")[function.first:function.body])
    return not function.is_of_trait and "#[cycle" not in head and len(proofs_of(folder, function.name)) < 2


def changed_lines(text, changes):
    """The lines of a file with a mutant in it, which are as many as before."""
    for it in changes:
        text = text.replace(it.old, it.new)
    return text.split("\n")


def renamed(lines, word):
    """A function's lines, under another name."""
    at = next(at for at, line in enumerate(lines) if HEAD.match(line))
    return [*lines[:at], re.sub(r"\bfn \w+", f"fn {word}", lines[at], count=1), *lines[at + 1:]]


def copied_proofs(folder, function, word):
    """The files of a function's proofs, for its copy: by their paths, with its name instead of the function's."""
    for home in proofs_of(folder, function.name):
        inside = home.relative_to(Path(folder, "proofs")).as_posix().replace("/", ".")
        mine = re.compile(rf"(\.proofs\.{re.escape(inside.removesuffix(function.word))}){function.word}\b")
        for file in (it for it in sorted(home.rglob("*")) if it.is_file()):
            to = home.with_name(word) / file.relative_to(home)
            yield to.relative_to(folder).as_posix(), mine.sub(rf"\g<1>{word}", file.read_text())


def name_of_copy(function, number):
    """The name of a copy, as `--only` has it."""
    return f"{function.name}_wrong_{number}"


def texts_of(folder, edits, beside):
    """The crate's files with these mutants in them, by their paths, and where each of them is; `beside` says
    of one whether it is there as a copy."""
    texts, placed = {}, []
    for path in dict.fromkeys(it.path for it in edits):
        here = [it for it in edits if it.path == path]
        whole = (folder / path).read_text()
        lines, copies = whole.split("\n"), {}
        for number, edit in enumerate(here):
            own, function = changed_lines(whole, edit.changes), edit.function
            if beside(edit):
                copies.setdefault(function.last, []).append((number, edit, own[function.first:function.last + 1]))
            else:
                lines[function.body:function.last] = own[function.body:function.last]
        texts[path], found = joined(lines, copies, here)
        placed += found
        for number, edit in enumerate(here):
            if beside(edit):
                texts.update(copied_proofs(folder, edit.function, f"{edit.function.word}_wrong_{number}"))
    return texts, placed


def joined(lines, copies, edits):
    """A file's lines with copies after their functions, and where each mutant is in them."""
    out, at_of, found = [], {}, {}
    for at, line in enumerate(lines):
        at_of[at] = len(out)
        out.append(line)
        for number, edit, own in copies.get(at, ()):
            function, first = edit.function, len(out) + 1
            name = name_of_copy(function, number)
            out += ["", *renamed(own, name.split("::")[-1])]
            moved = Function(name, first, first + function.body - function.first, len(out) - 1)
            found[edit] = Placed(edit, moved, function)
    for edit in (it for it in edits if it not in found):
        it = edit.function
        found[edit] = Placed(edit, Function(it.name, at_of[it.first], at_of[it.body], at_of[it.last]))
    return "\n".join(out), [found[it] for it in edits]
