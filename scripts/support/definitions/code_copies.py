"""Copies of functions of code whose contracts see a definition.

Such a copy has the function's own text, in a module below that of the function, where it may name what is private. What
it calls and the types that it uses stay as they are, so no contract of theirs may see the definition.
"""
import re

from support.definitions.copies import Copy, named_by
from support.definitions.items import BLOCK, TYPE
from support.source import HEAD

IMPORT = re.compile(r"^(?:pub(?:\([a-z]+\))? )?(use [^;]*;)", re.M)
MODULE = re.compile(r"^(?:pub(?:\([a-z]+\))? )?mod (\w+);", re.M)


def block_head(lines, at):
    """The head of the block that a line is in."""
    first = next(it for it in range(at, -1, -1) if BLOCK.match(lines[it]))
    last = next(it for it in range(first, at) if lines[it].endswith("{"))
    return "\n".join(lines[first:last + 1])


class CodeCopy(Copy):
    """A copy of a function of code."""

    is_of_text = False

    def can_stand_alone(self, seeing):
        function = self.witness.function
        # A cycle of calls has one proof, and a function of a trait the trait's name; what `Self` is must not see it.
        is_alone = not function.is_of_trait and "#[cycle" not in self.body() and not re.search(
            rf"\b{function.word}\b", self.body(function.body))
        called = [it for it in named_by(self.witness, self.sources) if it.kind == "function"]
        owners = {one for it in called if it.owner for one in self.sources.code(it.crate, it.owner.names)}
        return is_alone and not owners & seeing

    def body(self, first=None):
        """The function's text, or its lines from one on."""
        function = self.witness.function
        return "\n".join(self.file.text.split("\n")[first or function.first:function.last + 1])

    @property
    def file(self):
        return self.sources.files[self.place]

    @property
    def is_method(self):
        return self.body().startswith(" ")

    @property
    def code_path(self):
        stem = self.file.path.removesuffix(".rt").removesuffix("/mod")
        return f"{'src' if stem in ('src/lib', 'src/main') else stem}/{self.name}.rt"

    @property
    def asked_as(self):
        module = self.code_path.removeprefix("src/").removesuffix(".rt").replace("/", "::")
        owner = self.witness.function.name.rpartition("::")[0]
        return f"{owner if self.is_method else module}::{self.name}_w"

    def goal_of(self, goal):
        return goal["name"]

    def imports(self):
        """What the function's module imports and declares, as its copy's module has to import it."""
        mods = set(MODULE.findall(self.file.text))
        for line in IMPORT.findall(self.file.text):
            first = re.match(r"use (\w+)", line)
            is_near = first and (first[1] in mods or first[1] in ("self", "super"))
            yield re.sub(r"^use (?:self::)?", "use super::", line) if is_near else line

    def names(self, text):
        """What the function's module has and the function names."""
        found = set()
        for line in self.file.text.split("\n"):
            it = TYPE.match(line) or (HEAD.match(line) if not line.startswith(" ") else None)
            found |= {it[it.re.groups]} if it else set()
        return sorted(it for it in found if it != self.witness.function.word and re.search(rf"\b{it}\b", text))

    def code(self):
        function, lines = self.witness.function, self.file.text.split("\n")
        text = re.sub(rf"\bfn {function.word}\b", f"fn {self.name}_w", self.body(), count=1)
        text = self.advice(self.aliased(self.file, text))
        if self.is_method:
            text = f"{block_head(lines, function.first)}\n{text}\n}}"
        uses = [it if it.startswith("ghost") else f"ghost {it}" for it in self.uses(self.file.text)]
        names = self.names(text)
        own = [f"use super::{{{', '.join(names)}}};"] if names else []
        return "\n".join(["//! A copy.", *self.modules_advice(), *uses, *self.imports(), *own, "", text, ""])
