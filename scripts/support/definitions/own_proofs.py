"""A function's own proof, which has a folder: the answers to its goals, and what its loops keep.

A copy of the function has a copy of it, in the folder of the copy. Of a law's or an example's proof a clause has the
answer to its own goal, with what that names there.
"""
import re
from pathlib import PurePath

from support.definitions.items import folder_of


class OwnProof:
    """The files of the proof of a witness, and their items that its copy has. `inside` are these, and the function with
    its clauses, which the names of goals lead to: what a copy names of them is in the copy. `of_code` is what the
    function may name, as each of its goals does."""

    def __init__(self, sources, witness):
        self.folder, self.crate, self.files, self.items = "", witness.crate, [], set()
        self.inside, self.of_code = set(), set()
        if not witness.function:
            return
        self.folder = folder_of(witness.path, witness.function.name)
        found = [file for (crate, path), file in sources.files.items()
                 if crate == witness.crate and path.startswith("proofs/") and self.is_of(sources, path)]
        everything = {it for file in found for it in file.items}
        self.items = everything if witness.kind == "function" else reached(witness, everything)
        self.files = [it for it in found if self.items & {*it.items}]
        own = {it for it in sources.files[witness.crate, witness.path].items if it.function is witness.function}
        self.inside = self.items | own if self.files else set()
        self.of_code = {one for it in own for one in it.shown | it.inner}

    def is_of(self, sources, path):
        """Whether a file is of this function's proof, rather than of that of one whose folder is in its own."""
        *parts, _ = path.split("/")[1:]
        folders = ["/".join(parts[:it]) for it in range(len(parts), 0, -1)]
        return next((it for it in folders if (self.crate, it) in sources.folders), None) == self.folder

    def new_path(self, file, folder):
        return f"proofs/{folder}/{PurePath(file.path).relative_to(f'proofs/{self.folder}')}"

    def moved(self, text, folder):
        """A text in which the paths into this folder lead into another one."""
        old, new = (f"Rattle.{self.crate}.proofs.{it.replace('/', '.')}." for it in (self.folder, folder))
        return re.sub(rf"(?<![\w.]){re.escape(old)}", new, text)


def reached(witness, everything):
    """The items of a proof that a clause rests on."""
    found, waiting = set(), [witness]
    while waiting:
        it = waiting.pop()
        new = ({*it.shown, *it.inner} & everything) - found
        found |= new
        waiting += new
    return found
