"""What each definition, lemma, function and clause of the repository rests on.

It may be too much, and is never too little: what a name could be, it is. What names a definition that is shut rests on
its signature alone, and on its cases only if it opens it, by a line `unfolding`; an `abbrev` is always open, and so are
types. Who names a function rests on its contract.
"""
import re
from pathlib import Path

from support.definitions.items import ADVICE, OPENED, File, folder_of, parts_of, read_antt, read_code

# A word as far as the next bracket or mark, with its operators; and what is left of it without them.
WORDS = (re.compile(r"[^\s()\[\]{},;|.:`]+"), re.compile(r"[\w-]+"), re.compile(r"\w+"))
DOTTED = re.compile(r"([\w-]+)\.([\w-]+)")
PATH = re.compile(r"\w+(?:::[\w]+)+")
CALLED = re.compile(r"(\w+)\(\)")


def plain(text):
    """A text without comments and layout."""
    return " ".join(re.sub(r"(?m)^ *(?:--|//).*$", "", text).split())


class Sources:
    """All files of all crates, or those of some parts, and what each item names."""

    def __init__(self, crates, parts=("specs", "proofs", "src")):
        self.crates, self.parts = crates, parts
        self.below = {it.name: {it.name, *(one.name for one in it.below())} for it in crates.values()}
        self.files, self.code_names, self.folders, self.seen, self.advice, self.base = {}, {}, {}, {}, {}, {}
        for crate in crates.values():
            self.read(crate)
        for file in self.files.values():
            self.keep_names(file)
        for file in self.files.values():
            for item in file.items:
                self.name_all(file, item)
        self.join_proofs()

    def read(self, crate):
        folder = Path(crate.folder)
        for part in self.parts:
            for it in sorted(folder.glob(f"{part}/**/*.{'rt' if part == 'src' else 'antt'}")):
                path = str(it.relative_to(folder))
                file = self.files[crate.name, path] = File(crate.name, path, it.read_text())
                file.read_imports()
                (read_code if part == "src" else read_antt)(file)

    def keep_names(self, file):
        if file.path.startswith("src/"):
            for item in file.items:
                for name in item.names:
                    self.code_names.setdefault(name, []).append(item)
                if item.kind == "function":
                    self.folders[file.crate, folder_of(file.path, item.function.name)] = item

    def around(self, file):
        """The files of code around one, the outermost first, and itself."""
        stem = file.path.removesuffix(".rt")
        found = [it for it in self.files.values() if it.crate == file.crate and (
            it.path in (file.path, "src/lib.rt", "src/main.rt")
            or stem.startswith(it.path.removesuffix(".rt").removesuffix("/mod") + "/"))]
        return sorted(found, key=lambda it: (it is file, it.path not in ("src/lib.rt", "src/main.rt"), len(it.path)))

    def advice_for(self, file):
        """What the modules around a file, and the file itself, advise the prover at all their goals."""
        where = (file.crate, file.path)
        if where not in self.advice:
            self.advice[where] = self.advised(file, "\n".join(it.advice for it in self.around(file)))
        return self.advice[where]

    def code(self, crate, names, called=()):
        """The items of code of a crate, and of those below it, that have one of these names. A law or an example is meant
        only if it is called."""
        return {it for name in names for it in self.code_names.get(name, ())
                if it.crate in self.below[crate] and (name in called or not it.is_law)}

    def resolved(self, path, depth=0):
        """What a path may be: the items of that name."""
        if len(path) < 3 or path[0] != "Rattle" or path[1] not in self.crates or depth > 9:
            return set()
        crate, part, rest = path[1], path[2], path[3:]
        if part == "specs" and rest[:1] == ["declared"]:
            return self.code(crate, rest[1:])
        for count in range(len(rest) - 1, 0, -1):
            file = self.files.get((crate, f"{part}/{'/'.join(rest[:count])}.antt"))
            if file:
                return self.in_file(file, rest[count], depth)
        for count in range(len(rest), 0, -1):
            if (crate, "/".join(rest[:count])) in self.folders:
                return self.goal_of(self.folders[crate, "/".join(rest[:count])], rest[count:])
        return self.code(crate, rest)

    def clauses_of(self, whole):
        """The clauses of a law or an example by their names."""
        return {it.name.partition("#")[2]: it for it in self.files[whole.crate, whole.path].items
                if it.kind == "clause" and it.function is whole.function}

    def goal_of(self, whole, names):
        """The clause of a function that a goal's name is of, or the function."""
        clauses = self.clauses_of(whole) if names[:1] == ["Goals"] and len(names) > 1 else {}
        return {clauses.get(names[-1].rpartition("-clause-")[2], whole)}

    def in_file(self, file, name, depth):
        if name in file.names:
            return {file.names[name]}
        return self.resolved(file.imports[name], depth + 1) if name in file.imports else set(file.items)

    def home_of(self, path, name, depth=0):
        """The file that has what a module has by a name, the item, and its name there: a module may only hand it on."""
        if len(path) < 3 or path[0] != "Rattle" or depth > 9:
            return None
        file = self.files.get((path[1], f"{path[2]}/{'/'.join(path[3:]) or 'Lib'}.antt"))
        if not file or name in file.names:
            return file and (file, file.names[name], name)
        *above, own = file.imports.get(name, [""])
        return self.home_of(above, own, depth + 1)

    def meant(self, file, word):
        """The items that a word of a file may be."""
        if word not in file.known:
            found = set()
            for part in parts_of(word):
                if part in file.names:
                    found.add(file.names[part])
                elif part in file.imports:
                    found |= self.resolved(file.imports[part])
                elif file.path.startswith("src/"):
                    found |= self.code(file.crate, [part])
            file.known[word] = found
        return file.known[word]

    def named(self, file, text):
        """What a text names."""
        found = set()
        for word in {one for it in WORDS for one in it.findall(text)}:
            found |= self.meant(file, word)
        for one, other in DOTTED.findall(text) if file.aliases else ():
            if one in file.aliases:
                found |= self.resolved([*file.aliases[one], other])
        return found

    def advised(self, file, text):
        """What advice to the prover has it use, and what it has it open."""
        def of(word):
            lists = " ".join(re.findall(rf"\b{word}\(([^()]*)\)", text))
            paths = [it.split("::") for it in PATH.findall(lists)]
            return {one for it in paths
                    for one in self.resolved(["Rattle", file.crate if it[0] == "crate" else it[0], *it[1:]])}
        return of("using"), of("unfolding")

    def name_all(self, file, item):
        """Finds what an item names."""
        head, body = (re.sub(r"(?m)^ *(?:--|//).*$", "", it) for it in (item.head, item.body))
        if file.path.startswith("src/"):
            if item.kind in ("function", "clause"):
                for used, opened in (self.advised(file, "\n".join(ADVICE.findall(body))), self.advice_for(file)):
                    item.inner |= used
                    item.opens |= opened
            body = ADVICE.sub("", body)
            head = re.sub(r"(?m)^#.*$", "", head)
        item.shown |= self.named(file, head) - {item}
        item.inner |= self.named(file, body) - {item}
        if item.kind == "function":
            # A function may have the name of a definition. What it is a method of, it does not name.
            words = {*re.findall(r"\w+", body), *(item.owner.names if item.owner else ())}
            item.inner |= self.code(file.crate, words, CALLED.findall(body))
            item.inner.discard(item)
        opened = [one or other for one, other in OPENED.findall(f"{head}\n{body}")]
        item.opens |= self.named(file, " ".join(opened))

    def join_proofs(self):
        """What a function's own proof names, the function rests on; and a goal on what the function is."""
        # What a loop keeps is part of each goal.
        for file in sorted(self.files.values(), key=lambda it: "Invariants" not in it.path):
            parts = file.path.split("/")[1:-1] if file.path.startswith("proofs/") else []
            folders = ["/".join(parts[:it]) for it in range(len(parts), 0, -1)]
            owner = next((self.folders[file.crate, it] for it in folders if (file.crate, it) in self.folders), None)
            if owner:
                self.join_proof(file, owner)

    def join_proof(self, file, whole):
        clauses = self.clauses_of(whole)
        base = self.base.setdefault(whole, set(whole.inner))
        whole.inner |= set(file.items)
        whole.opens |= {one for it in file.items for one in it.opens}
        if "Invariants" in file.path:
            base |= set(file.items)
        for item in file.items:
            name = item.name.rpartition("-clause-")[2] if "-clause-" in item.name else ""
            own = clauses.get(name)
            # A goal is what the contract says after what the body does.
            item.inner |= {own} if own else whole.shown | base - {item}
            item.opens |= own.opens if own else whole.opens
            for it in [own] if own else clauses.values():
                it.inner.add(item)
                it.opens |= item.opens

    @property
    def items(self):
        return [it for file in self.files.values() for it in file.items]

    def function(self, crate, path, function):
        """The item of a function; nothing if two of its file have its name."""
        found = [it for it in self.files[crate, path].items if it.kind == "function" and it.name == function.name]
        return found[0] if len(found) == 1 else None

    def basis_texts(self, items):
        """The texts of all that these items rest on, comments and layout left out."""
        reached, entered = (set().union(*them) for them in zip((set(), set()), *map(self.basis, items)))
        return sorted((it.crate, it.path, it.name, plain(it.head), plain(it.body) if it in entered else "")
                      for it in reached)

    def basis(self, item):
        """All items that an item rests on, and those of them whose bodies it sees."""
        if item not in self.seen:
            reached, entered, opens = {item}, set(), set()
            waiting, entering = [*item.shown], [item]
            while waiting or entering:
                if entering:
                    it = entering.pop()
                    if it not in entered:
                        entered.add(it)
                        waiting += it.inner
                        entering += [one for one in it.opens - opens if one in reached]
                        opens |= it.opens
                    continue
                it = waiting.pop()
                if it not in reached:
                    reached.add(it)
                    waiting += it.shown
                    entering += [it] if it.is_open or it in opens else []
            self.seen[item] = reached, entered
        return self.seen[item]
