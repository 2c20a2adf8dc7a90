"""In which functions a mutant is likely to show that is none of one function's, such as a wrong definition.

That is a guess, by the goal that refused it when it was tried last and by what the crate's texts name. These functions
are checked first, for a fraction of what a check of the whole crate takes.
"""
import re
from dataclasses import dataclass
from pathlib import Path

from support.placing import proofs_of
from support.source import functions_of

MOST = 6

# The file of a goal that a proof by hand leaves open: the function's own, or one of lemmas.
OWN = re.compile(r"(?:\./)?proofs/(\S+)/\w+\.antt:")
LEMMAS = re.compile(r"(?:\./)?proofs/(\w+)\.antt:")
CLAUSE = re.compile(r"returns\S*-clause-(\w+)")


@dataclass(frozen=True)
class Unit:
    """A function with its own texts: its head, with its contract, and all of it, with its proofs."""
    name: str
    head: str
    whole: str

    def names(self, word):
        return re.search(rf"\b{re.escape(word)}\b", self.whole)

    def cites(self, lemmas):
        """Whether it cites a file of lemmas."""
        return re.search(rf"\bproofs(?:::|\.){lemmas}\b", self.whole)


def units_of(folder):
    """The functions of a crate."""
    for file in sorted(folder.glob("src/**/*.rt")):
        text = file.read_text()
        lines = text.split("\n")
        for it in functions_of(text, file.relative_to(folder).as_posix()):
            proofs = [file.read_text() for home in proofs_of(folder, it.name) for file in sorted(home.rglob("*.antt"))]
            yield Unit(it.name, "\n".join(lines[it.first:it.body + 1]),
                       "\n".join([*lines[it.first:it.last + 1], *proofs]))


def by_goal(units, goal):
    """The functions that can have a goal: which have a clause of its name, whose proof it is in, or which cite the
    lemmas that it is in."""
    clauses = [re.compile(rf"\bensures\*? {it} ") for it in CLAUSE.findall(goal)]
    own, lemmas = OWN.match(goal), LEMMAS.match(goal)
    return [it for it in units if any(clause.search(it.head) for clause in clauses)
            or own and f"/{own[1]}".endswith("/" + it.name.replace("::", "/")) or lemmas and it.cites(lemmas[1])]


def naming(units, folder, word):
    """The functions that name a word, or if none does those that cite lemmas which name it."""
    files = [it for it in sorted(Path(folder, "proofs").glob("*.antt"))
             if re.search(rf"\b{re.escape(word)}\b", it.read_text())]
    return [it for it in units if it.names(word)] or [it for it in units if any(it.cites(file.stem) for file in files)]


def witnesses_of(folder, name, goal=""):
    """The functions to ask for the mutant of this name, with the goal that refused it once."""
    parts = name.removesuffix(".edit").split(".")[:-1] or [name]
    units = list(units_of(Path(folder)))
    own = [it for it in units if f"::{it.name}".endswith("::" + "::".join(parts))]
    likely, near = by_goal(units, goal), naming(units, folder, parts[-1])
    found = own or [it for it in likely if it in near] or likely or near
    return [it.name for it in found[:MOST]]
