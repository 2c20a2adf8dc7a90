"""Copies of what leads from a witness to a definition, so that hundreds of wrong definitions share a check.

A copy has the items that see the definition, in modules of their own next to those of the crate, and for a clause a
function. All else it imports from where it is. Nothing else in the check sees it, so what is refused in it
is due to its definition, if the same copy is proved with the definition as it is.
"""
import re
from functools import cache

from support.definitions.book import wrong_item
from support.definitions.citing import DOTTED
from support.definitions.items import ADVICE, USE, clauses_of, folder_of, parts_of, without_comments
from support.definitions.own_proofs import OwnProof
from support.definitions.reading import split_at
from support.definitions.refusals import ERROR, GOAL, MISSING, SECONDARY, Outcome
from support.definitions.rules import with_words
from support.trial import NOT_PROVED

NAMED = re.compile(r"\b(\w+)::(specs|proofs)::([\w:]+)")
VERDICT = re.compile(r"fn \w+::(?:\w+::)*?(c\d+)(?:::|_)w: (.*)")
CODE_USE = re.compile(r"^use [\w:]+.*;$", re.M)
PUBLIC = re.compile(r"(?:\w+ )?pub ")
# An answer to all clauses at once, and its fields.
ANSWER = re.compile(r"^(returns \w+ =\s(?:(?:.|\n)*?\s)?record \{)((?:.|\n)*)\}\s*\Z", re.M)
IMPL = re.compile(r"^(?:unsafe )?impl\b", re.M)
PLAIN = re.compile(r"[\w-]+")
IN_BLOCK = re.compile(r"^( +(?:abbrev |unfoldable |opaque )?)(?:pub )?([\w-]+) :", re.M)
# What asks for all lemmas: a file that imports them, line by line, and a function that needs it.
ASKING = """ghost use Rattle.std.specs.Prelude.{◌≡◌, true};

#[tactic(auto, using(crate::proofs::AllCopies::all))]
fn w()
    ensures trivial { true ≡ true }
{}
"""
ALL = "use Rattle.std.proofs.Common.{◌≡◌, true, refl}\n\npub all : true ≡ true\nall = refl\n"


class Seeing:
    """Which items see a definition: by what they say, or in the body of a definition, which may be one for proofs. For
    copies of text, a type of code is what it is declared as, without its functions."""

    def __init__(self, sources, is_of_text=False):
        self.users, self.found = {}, {}
        opened = {one for item in sources.items for one in item.opens}
        for item in sources.items:
            is_definition = item.kind == "specs" or item.kind == "proofs" and (item.is_open or item in opened)
            for it in item.shown | (item.inner if is_definition else set()):
                if not (is_of_text and names_no_function(item, sources) and is_of_functions(it)):
                    self.users.setdefault(it, []).append(item)

    def of(self, definition):
        if definition not in self.found:
            found, waiting = {definition}, [definition]
            while waiting:
                new = [it for it in self.users.get(waiting.pop(), ()) if it not in found]
                found.update(new)
                waiting += new
            self.found[definition] = found
        return self.found[definition]


def is_text(item):
    """Whether an item is a definition or a lemma rather than code, or a part of a function's proof."""
    return item.kind in ("specs", "proofs") and item.path.count("/") == 1


def pieces(text):
    """The first place of each field of a record's inside, and the place after it."""
    borders = [-1, *split_at(text, ";"), len(text)]
    return [(start + 1, end) for start, end in zip(borders, borders[1:])]


def is_of_functions(item):
    """Whether an item is a function, or a block of them."""
    return item.kind == "function" or item.kind == "code" and bool(IMPL.search(item.head))


def names_no_function(item, sources):
    """Whether what an item names of code is only types and traits as they are declared, though functions may have the
    same names: a type itself, or text without an import of contracts. A trait's functions are part of it."""
    is_type = item.kind == "code" and not is_of_functions(item) and not any(it.kind == "function" for it in item.shown
                                                                            if it.owner is item)
    return is_type or is_text(item) and ".specs.contracts." not in sources.files[item.crate, item.path].text


def is_called(function, item):
    """Whether an item can call a function: only what has a body can, and by its name there."""
    return item.kind not in ("function", "clause") or function.kind != "function" or item.kind == "function" and bool(
        re.search(rf"\b{function.function.word}\b", item.body))


@cache
def named_by(item, sources):
    """What an item names. A block without a name is named by one of its lemmas: a `_` is another thing. A contract names
    no function, though one may have the name of what it names, or of the function that it is of."""
    words = {*re.findall(r"[\w-]+", f"{item.head}\n{item.body}")}
    found = {it for it in item.shown | item.inner if it.name != "_" or words & (it.names - {"_"})}
    if names_no_function(item, sources):
        return {it for it in found if not is_of_functions(it)}
    return {it for it in found if is_called(it, item)}


class Copy:
    """A witness with a copy of all that leads to a definition; `mutant` is what is wrong there, nothing in a control."""

    is_of_text = True

    def __init__(self, sources, crate, witness, definition, mutant=None):
        self.sources, self.crate, self.witness, self.definition, self.mutant = sources, crate, witness, definition, mutant
        self.name, self.lines, self.kept, self.left = "", {}, {witness}, set()
        self.own = OwnProof(sources, witness)

    def collect(self, seeing):
        """Finds the items to copy; whether a copy can be made."""
        while True:
            named = self.named()
            places = {(it.crate, it.path) for it in self.kept}
            new = {it for it in named if it in seeing or (it.crate, it.path) in places and is_text(it)
                   and not PUBLIC.match(it.head)}
            if new <= self.kept:
                break
            self.kept |= new
        self.files = {(it.crate, it.path): self.sources.files[it.crate, it.path] for it in self.kept}
        self.left = {it for it in named - self.kept if (it.crate, it.path) in self.files}
        is_by_hand = any(it.kind == "proofs" and not is_text(it) for it in named)
        return self.definition in self.kept and not is_by_hand and all(
            it is self.witness or is_text(it) for it in self.kept) and self.can_stand_alone(seeing) and not self.leaks()

    def named(self):
        """What is named by what is kept. A function's own proof names nothing of code that the function does not."""
        kept, own = ({one for it in some for one in named_by(it, self.sources)} for some in (self.kept, self.own.items))
        of_code = {it for it in own if it.kind == "function" and it in self.own.of_code}
        return (kept | own - of_code) - self.own.inside

    def leaks(self):
        """Whether a module's other name leads to what is copied in another module, which that one only hands on."""
        for it in self.kept | self.own.items:
            file = self.sources.files[it.crate, it.path]
            for alias, word in DOTTED.findall(f"{it.head}\n{it.body}") if file.aliases else ():
                path = file.aliases.get(alias, [])
                home = self.sources.home_of(path, word)
                if home and home[1] in self.kept and home[0] is not self.copied([*path, ""])[0]:
                    return True
        return False

    def can_stand_alone(self, _seeing):
        return is_text(self.witness) or bool(re.search(r"\bfn\(\)", self.witness.body))

    def with_wrong(self, mutant):
        """The same copy with a wrong definition."""
        made = type(self)(self.sources, self.crate, self.witness, self.definition, mutant)
        made.kept, made.left, made.files, made.own = self.kept, self.left, self.files, self.own
        return made

    @property
    def place(self):
        return self.witness.crate, self.witness.path

    @property
    def is_lemma(self):
        return self.witness.kind == "proofs"

    @property
    def code_path(self):
        return f"src/{self.name}.rt"

    @property
    def asked_as(self):
        """Its function, as `--only` names it."""
        return f"{self.name}::w"

    @property
    def folder(self):
        """That of its function's own proof."""
        return folder_of(self.code_path, self.asked_as)

    @property
    def called(self):
        """What a lemma is called in its copy: as it is, since others there may name it. An operator has no name that an
        import can change, and a block without a name is called by its first lemma."""
        if self.witness.name == "_":
            return IN_BLOCK.search(self.witness.head)[2]
        return self.witness.name if PLAIN.fullmatch(self.witness.name) else "witness"

    @property
    def import_line(self):
        return f"use Rattle.{self.crate}.proofs.{self.module(self.files[self.place])}.{{{self.called} as {self.name}}}"

    @property
    def saved_as(self):
        return f"Rattle-{self.crate}-proofs.{self.module(self.files[self.place])}.oantt"

    def module(self, file):
        words = re.split(r"[\W_]+", f"{file.crate}/{file.path.partition('/')[2].rpartition('.')[0]}")
        return self.name.capitalize() + "".join(it.capitalize() for it in words)

    def path_of(self, file):
        if file in self.own.files:
            return self.own.new_path(file, self.folder)
        return f"{file.path.partition('/')[0]}/{self.module(file)}.antt"

    def copied(self, path):
        """The copy of the file that a path leads into, and what the path has after it."""
        if path[0] == "Rattle" and len(path) > 3:
            for count in range(len(path), 3, -1):
                file = self.files.get((path[1], f"{path[2]}/{'/'.join(path[3:count])}.antt"))
                if file:
                    return file, ["Rattle", self.crate, path[2], self.module(file), *path[count:]]
        return None, path

    def is_kept(self, file, name):
        return any(file.names.get(it) in self.kept for it in parts_of(name.partition(" as ")[0].strip()))

    def uses(self, text, named=None):
        """The lines that import, where what is copied is imported from the copy. Of code only what is named, if it is
        known what that is, since a crate above can't import all."""
        found = []
        for it in USE.finditer(text):
            path, names = it[1].split("."), it[2].split(",") if it[2] is not None else None
            head = it[0].strip()[:it[0].strip().index(it[1])]
            end = ";" if it[0].endswith(";") else ""
            if it[3]:
                file, new = self.copied([*path, ""])
                found.append(it[0].strip())
                found += [f"{head}{'.'.join(new[:-1])} as copied_{it[3]}{end}"] if file else []
                continue
            if names is None:
                path, names = path[:-1], [path[-1]]
            from_each = {}
            for one in filter(None, map(str.strip, names)):
                if named is not None and "declared" in path and not named & {*re.findall(r"[\w-]+", one)}:
                    continue
                place, words = self.imported(path, one)
                from_each.setdefault(place, []).append(words)
            found += [f"{head}{it}.{{{', '.join(some)}}}{end}" for it, some in from_each.items()]
        return found

    def imported(self, path, words):
        """The module from which a name is imported that its file imports from a module, and by which words."""
        name, _, other = map(str.strip, words.partition(" as "))
        new, own = self.place_of(path, name) or (path, name)
        return ".".join(new), words if own in (name, *parts_of(name)) else f"{own} as {other or name}"

    def place_of(self, path, name):
        """The module of the copy that has what a module has by a name, or hands on, and its name there, if that is
        copied."""
        file, new = self.copied(path)
        if file and self.is_kept(file, name):
            return new, name
        home = self.sources.home_of(path, parts_of(name)[0])
        if not home or home[1] not in self.kept:
            return None
        file, _, own = home
        return ["Rattle", self.crate, file.path.partition("/")[0], self.module(file)], own

    def item_text(self, file, item):
        is_wrong = self.mutant and item is self.definition
        text = "\n".join(file.text.split("\n")[item.first:item.last + 1])
        text = wrong_item(file.text, self.mutant) if is_wrong else text
        if item is self.witness and item.name == "_":
            text = IN_BLOCK.sub(r"\1pub \2 :", text, count=1)
        elif item is self.witness and self.called != item.name:
            text = re.sub(rf"(?<![\w.-]){re.escape(item.name)}(?![\w-])", self.called, text)
        is_shown = PUBLIC.match(text) or text.startswith("module _")
        text = text if is_shown else re.sub(r"^((?:abbrev |unfoldable |opaque )?)", r"\1pub ", text, count=1)
        return self.aliased(file, text)

    def aliased(self, file, text):
        """A text where what is copied, and is named by a module's other name, is that of the copy."""
        for alias, path in file.aliases.items():
            other = self.copied([*path, ""])[0]
            if other:
                text = re.sub(rf"(?<![\w.-]){re.escape(alias)}\.([\w-]+)", lambda it: (
                    f"copied_{it[0]}" if self.is_kept(other, it[1]) else it[0]), text)
        return text

    def file_text(self, file):
        """A copy of a file."""
        # Of a type its variants too.
        left = [one for it in file.items if it in self.left for one in (it.name, *sorted(it.names - {*parts_of(it.name)}))]
        stem = file.path.rpartition(".")[0].replace("/", ".")
        texts = {it: self.item_text(file, it) for it in file.items if it in self.kept}
        named = {*re.findall(r"[\w-]+", "\n".join(texts.values()))}
        uses = self.uses(file.text, named) + (
            [f"use Rattle.{file.crate}.{stem}.{{{', '.join(left)}}}"] if left else [])
        return self.kept_text([*uses, ""], texts)

    def kept_text(self, above, texts):
        """The text of some items below some lines; at which line each is, is kept."""
        text = "\n".join([*above, *texts.values(), ""])
        text = with_words(text) if self.mutant and self.definition in texts else text
        self.lines.update((it, text.count("\n", 0, max(text.find(one), 0))) for it, one in texts.items())
        return text

    def advice(self, text):
        """Advice to the prover, where what is copied is named in the copy."""
        def named(it):
            crate, (*inner, name) = self.crate if it[1] == "crate" else it[1], it[3].split("::")
            found = self.place_of(["Rattle", crate, it[2], *inner], name)
            return "::".join(["crate", *found[0][2:], found[1]]) if found else it[0]
        return NAMED.sub(named, text)

    def modules_advice(self):
        """The advice of its function's module and of those around it, in one line, since a module has one; what is
        copied is named in the copy there."""
        around = self.sources.around(self.sources.files[self.place])
        lines = [it for file in around for it in ADVICE.findall(file.text) if it.startswith("#!")]
        parts = [lines[-1].removeprefix("#![tactic(").partition(",")[0].rstrip(")]")] if lines else []
        for word in ("using", "unfolding"):
            lists = [it for line in lines for it in re.findall(rf"\b{word}\(([^()]*)\)", line)]
            paths = dict.fromkeys(one.strip() for it in lists for one in it.split(","))
            parts += [f"{word}({', '.join(paths)})"] if paths else []
        return [self.advice(f"#![tactic({', '.join(parts)})]")] if lines else []

    def code(self):
        """A function with the clause, with its module."""
        file = self.sources.files[self.place]
        function = self.witness.function
        top = without_comments(file.text.split("\n")[function.first:function.body + 1])
        clause = dict(clauses_of(top))[self.witness.name.partition("#")[2]].rstrip().removesuffix("{}").rstrip()
        head = re.sub(rf"(?:pub )?\bfn {function.word}\b", "fn w", top[:top.index(" ensures")].rstrip(), count=1)
        head = self.aliased(file, head)
        uses = [it if it.startswith("ghost") else f"ghost {it}" for it in self.uses(file.text)]
        return "\n".join(["//! A copy.", *self.modules_advice(), *CODE_USE.findall(file.text), *uses, "",
                          self.advice(head), self.aliased(file, clause), "{}", ""])

    def texts(self):
        """All files of the copy."""
        made = {} if self.is_lemma else {self.code_path: self.code()}
        for (_, path), file in self.files.items():
            if not path.startswith("src/"):
                made[self.path_of(file)] = self.file_text(file)
        made.update((self.path_of(it), self.own_text(it)) for it in self.own.files)
        return made

    def alone(self, text):
        """The answer to a clause that is alone: its goal is a record of one field, which may be one of several."""
        clause = self.witness.name.partition("#")[2]
        goal = f"returns-clause-{clause}"
        joint = ANSWER.search(text)
        if joint and clause:
            some = [joint[2][start:end] for start, end in pieces(joint[2])]
            field = next((it for it in some if it.split("=")[0].strip() == clause), joint[2])
            return f"{text[:joint.start(2)]}{field}{text[joint.end(2):]}"
        text = re.sub(rf"^{goal} (\w+)((?: [\w-]+)*) = ?((?:.|\n)*)", lambda it: (
            f"{goal} {it[1]} = record {{ {clause} = ({f'λ{it[2]}. ' if it[2] else ''}{it[3].rstrip()}) }}"), text, flags=re.M)
        return re.sub(rf"(?<![\w-]){goal}(?![\w-])", "returns", text)

    def own_text(self, file):
        """A copy of a file of the function's own proof."""
        lines = file.text.split("\n")
        texts = {it: self.aliased(file, "\n".join(lines[it.first:it.last + 1])) for it in file.items if it in self.own.items}
        if self.witness.kind == "clause":
            texts = {it: self.alone(one) for it, one in texts.items()}
        uses = self.uses(self.own.moved(file.text, self.folder))
        return self.kept_text([*uses, ""], texts)

    def item_at(self, path, line, name):
        file = next((it for it in [*self.files.values(), *self.own.files] if path == self.path_of(it)), None)
        if not file:
            return None
        before = [it for it in file.items if self.lines.get(it, line) < line]
        named = self.witness if name == self.called else file.names.get(name)
        return named or (before[-1] if before else None)

    def errors(self, said):
        """The items of the copy that are refused, each with the first words on it that are for its own sake, if any."""
        found = {}
        for it in filter(None, map(ERROR.match, said)):
            item = self.item_at(it["path"], int(it["line"]), it["name"] or "")
            is_first = not SECONDARY.search(it["words"]) and item and (
                item.kind == "specs" or not MISSING.search(it["words"]))
            if item and not found.get(item):
                found[item] = f"{item.name}: {it['words']}" if is_first else ""
        return found

    def outcome(self, said, verdict):
        """What a check says of the copy, by the verdict on it: an outcome, whose kind is `proved` if all is."""
        errors = self.errors(said)
        for item, words in errors.items():
            if words and not any(it in self.sources.basis(item)[0] for it in errors if it is not item):
                kind = "unread" if item.kind == "specs" else "noticed"
                return Outcome(kind, item.crate, item, " ".join(words.split())[:160])
        goals = [it for it in map(GOAL.match, said) if it and it["path"] == self.code_path]
        if verdict == "proved" and not errors:
            return Outcome("proved", self.crate, self.witness, "")
        if goals and not errors and verdict.startswith(NOT_PROVED):
            words = f"{self.goal_of(goals[0])}: {goals[0]['words']}"
            return Outcome("noticed", self.crate, self.witness, " ".join(words.split())[:160])
        return None

    def goal_of(self, _goal):
        return f"returns-clause-{self.witness.name.partition('#')[2]}".removesuffix("-clause-")


def verdicts_on(copies, said, saved):
    """The prover's words on each copy. On a lemma it has none: that is proved if its module was saved."""
    heads = (VERDICT.match(it) for it in said)
    found = {it[1]: it[2] for it in heads if it}
    return {it: ("proved" if it.saved_as in saved else "") if it.is_lemma else found.get(it.name, "") for it in copies}


def texts_of(copies):
    """All files of these copies, with what asks for the lemmas, and the functions to ask for."""
    files = {path: text for it in copies for path, text in it.texts().items()}
    lines = [it.import_line for it in copies if it.is_lemma]
    files |= {"proofs/AllCopies.antt": "\n".join([*lines, ALL]), "src/all_copies.rt": ASKING}
    return files, ["all_copies::w", *(it.asked_as for it in copies if not it.is_lemma)]
