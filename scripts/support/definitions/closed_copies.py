"""Copies of clauses that are computed: `refl` proves them, or nothing does.

A function takes the prover some ten modules, and what is refused there is searched for first. A clause in which nothing
is assumed, and two values are equal, is a lemma instead, in one module and without a search.
"""
import re

from support.definitions.copies import Copy
from support.definitions.items import TYPE as TYPE_HEAD
from support.definitions.items import clauses_of, without_comments

# The head of a type among its comments and attributes.
TYPE = re.compile(TYPE_HEAD.pattern, re.M)
# A variant of a type of code.
VARIANT = re.compile(r"(?<![\w.-])([A-Z]\w+)\.[A-Z]")
OPEN = re.compile(r"[→∀]|\busing\(|\bghost \w+:")
DIFFER = re.compile(r"\bdiffer\b|\bexpected type\b|\btwo (?:types|values) are\b")
ADVISED = re.compile(r"\bunfolding\(([^()]*)\)")


class ClosedCopy(Copy):
    """A copy of a clause as a lemma."""

    is_lemma, called = True, "witness"

    def can_stand_alone(self, _seeing):
        is_closed = not OPEN.search(f"{self.witness.body}\n{self.file.advice}") and "≡" in self.witness.body
        return is_closed and not self.own.files and bool(re.search(r"\bfn\(\)", self.witness.body))

    @property
    def file(self):
        return self.sources.files[self.place]

    @property
    def own_path(self):
        return f"proofs/{self.module(self.file)}.antt"

    def clause(self):
        lines, function = self.file.text.split("\n"), self.witness.function
        top = without_comments(lines[function.first:function.body + 1])
        text = dict(clauses_of(top))[self.witness.name.partition("#")[2]].rstrip().removesuffix("{}")
        return text[text.index("{") + 1:text.rindex("}")].strip()

    def opened(self):
        """What advice has the prover open: the imports of these, and their names."""
        advice = "\n".join([self.witness.body, *(it.advice for it in self.sources.around(self.file))])
        paths = " ".join(ADVISED.findall(advice))
        for path in dict.fromkeys(re.findall(r"\w+(?:::[\w-]+)+", paths)):
            first, *rest, name = path.split("::")
            new = ["Rattle", self.crate if first == "crate" else first, *rest]
            place, own = self.place_of(new, name) or (new, name)
            yield [*place, own]

    def types(self, clause):
        """The imports of types of code whose variants the clause names, as functions need none."""
        for name in sorted({it for it in VARIANT.findall(clause) if it not in self.file.aliases}):
            for it in self.sources.code(self.crate, [name]):
                if TYPE.search(it.head):
                    stem = it.path.removeprefix("src/").removesuffix(".rt").removesuffix("/mod")
                    places = [] if stem in ("lib", "main") else stem.split("/")
                    yield f"use {'.'.join(['Rattle', it.crate, 'specs', 'declared', *places, name])}.TheVariants as {name}"

    def lemma(self):
        uses = [re.sub(r"^ghost |;$", "", it) for it in self.uses(self.file.text)]
        # Two of them may have one name.
        opened = {f"opened-{at}": it for at, it in enumerate(self.opened())}
        uses += [f"use {'.'.join(it[:-1])}.{{{it[-1]} as {name}}}" for name, it in opened.items()]
        uses += ["use Rattle.std.proofs.Common.{refl}"]
        unfolding = [f"unfolding {' '.join(opened)}"] if opened else []
        clause = self.aliased(self.file, self.clause())
        uses += self.types(clause)
        return "\n".join([*uses, "", f"pub witness :\n    {clause}", *unfolding, "witness = refl", ""])

    def texts(self):
        return {**super().texts(), self.own_path: self.lemma()}

    def item_at(self, path, line, name):
        return self.witness if path == self.own_path else super().item_at(path, line, name)

    def outcome(self, said, verdict):
        """Two values that differ, and nothing that could not be computed."""
        found = super().outcome(said, verdict)
        is_given_up = found and found.kind == "noticed" and not DIFFER.search(found.words)
        return None if is_given_up else found
