"""The items of the repository's files: definitions, lemmas, functions, and what each file imports."""
import re
from dataclasses import dataclass, field

from support.definitions.reading import items_of
from support.source import functions_of, module_of

USE = re.compile(r"^ *(?:unfoldable )?(?:pub )?(?:ghost )?use ([\w.]+?)(?:\.\{([^}]*)\})?(?: as ([\w-]+))?;?$", re.M)
HEAD = re.compile(r"(?:(abbrev|unfoldable|opaque) )?(?:pub )?(?:(record|data|module) )?(\S+)")
INNER = re.compile(r"^ +(?:pub )?([\w-]+(?: [\w-]+)*) :", re.M)
OPENED = re.compile(r"^ *unfolding (.*)$|\bunfold ([^()\n]*?) in\b", re.M)
ADVICE = re.compile(r"^ *#!?\[tactic\(.*$", re.M)
TYPE = re.compile(r"^(?:pub(?:\([a-z]+\))? )?(?:unsafe )?(?:struct|enum|trait|const|static|type|union|macro_rules!) (\w+)")
BLOCK = re.compile(r"^(?:unsafe )?impl\b.*?(\w+)(?:<[^{]*>)?(?: where.*)? \{")
METHODS = re.compile(r"\s*(?:unsafe )?impl\b(?:(?! for ).)*\{\s*\}\s*")
OF_TRAIT = re.compile(r"(?:unsafe )?impl\b.*?(\w+)(?:<.*>)? for ")
IMPORT = re.compile(r"^ *ghost use [^;]*;\n?", re.M)
OWN_CLAUSE = re.compile(r"^ +(?:requires|ensures)\b", re.M)
CLAUSE = re.compile(r"^ +ensures\*? (?:([\w-]+) )?\{", re.M)


@dataclass(eq=False)
class Item:
    """A definition, a lemma, a function or another item of code; of a law or an example each clause is an item too.
    `head` is what those see that name it, and `body` what only those see that open it."""
    crate: str
    path: str
    name: str
    kind: str
    first: int
    last: int
    head: str = ""
    body: str = ""
    is_open: bool = False
    function: object = None
    names: set = field(default_factory=set)
    # What the head names, what the body names, and what the body opens.
    shown: set = field(default_factory=set)
    inner: set = field(default_factory=set)
    opens: set = field(default_factory=set)
    # Of a function in a block: the block.
    owner: object = None
    # Whether it is a law or an example: a function without parameters, and with an empty body.
    is_law: bool = False

    def __repr__(self):
        return f"{self.crate} {self.path} {self.name}"


@dataclass
class File:
    """A file with its items, and what it imports: names, and modules under other names."""
    crate: str
    path: str
    text: str
    items: list = field(default_factory=list)
    names: dict = field(default_factory=dict)
    imports: dict = field(default_factory=dict)
    aliases: dict = field(default_factory=dict)
    known: dict = field(default_factory=dict)
    advice: str = ""

    def read_imports(self):
        for it in USE.finditer(self.text):
            path = it[1].split(".")
            if it[2] is not None:
                for one in filter(None, map(str.strip, it[2].split(","))):
                    name, _, other = one.partition(" as ")
                    for part, own in zip(parts_of(other or name), parts_of(name)):
                        self.imports[part] = [*path, own]
            elif it[3]:
                self.aliases[it[3]] = path
            else:
                self.imports[path[-1]] = path


def parts_of(name):
    """A name, or the parts of an operator."""
    return name.replace("◌", " ").split()


def line_of(text, at):
    return text.count("\n", 0, at)


def read_antt(file):
    """The items of a file of definitions or lemmas: equations belong to the signature above them."""
    pending, last, by_name = "", None, {}
    for start, end in items_of(file.text):
        text = file.text[start:end]
        if USE.match(text) or text.startswith(("mod ", "pub mod ")):
            continue
        if text.startswith("unfolding "):
            pending += text
            continue
        head = HEAD.match(text)
        item = by_name.get(text.split()[0]) or (None if re.search(r"\s:\s", text) or head[2] else last)
        if item:
            item.body += f"\n{pending}\n{text}"
        else:
            item = Item(file.crate, file.path, head[3], file.path.split("/")[0], line_of(file.text, start), 0, text)
            item.is_open = head[1] == "abbrev" or bool(head[2])
            inner = INNER.findall(text) if head[2] in ("data", "module") else []
            item.names = {part for it in [head[3], *" ".join(inner).split()] for part in parts_of(it)}
            file.items.append(item)
            by_name[head[3]] = item
        item.last, pending, last = line_of(file.text, end - 1), "", item
    for it in file.items:
        file.names.update(dict.fromkeys(it.names, it))


def folder_of(path, function):
    """The folder of a function's proof, below proofs/ of its crate; the function as `--only` names it."""
    module = module_of(path)
    is_free = not module or function.startswith(module)
    return (function if is_free else module + function).replace("::", "/")


def without_comments(lines):
    return "\n".join(it for it in lines if not it.lstrip().startswith("//"))


def clauses_of(text):
    """The clauses that a contract ensures: each with its name and its text."""
    starts = list(CLAUSE.finditer(text))
    for it, end in zip(starts, [*(it.start() for it in starts[1:]), len(text)]):
        yield it[1] or "", text[it.start():end]


def read_function(file, function, lines):
    """A function, and each clause of a law or an example, whose body is empty."""
    where = (file.crate, file.path)
    top = without_comments(lines[function.first:function.body + 1])
    body = without_comments(lines[function.body:function.last + 1])
    seen = "\n".join(it for it in top.split("\n") if not it.lstrip().startswith("#["))
    advice = "\n".join(ADVICE.findall(top))
    lines_of = (function.first, function.last)
    whole = Item(*where, function.name, "function", *lines_of, seen, f"{advice}\n{body}", False, function, {function.word})
    if not body.strip().endswith("{}"):
        return [whole]
    whole.is_law = f"fn {function.word}()" in seen
    own = (seen[:seen.find(" ensures")] if " ensures" in seen else seen).replace(f"fn {function.word}", "fn", 1)
    clauses = [Item(*where, f"{function.name}#{name}", "clause", *lines_of, "", f"{own}\n{advice}\n{text}", True, function)
               for name, text in clauses_of(seen)]
    return [whole, *clauses]


def promises_nothing(function, owner, item):
    """Whether a function is a trait's in a block of a type, and has no clauses: it promises what its trait says."""
    return bool(function.is_of_trait and owner and OF_TRAIT.search(owner.head) and not OWN_CLAUSE.search(item.head))


def read_code(file):
    """The items of a source file: its functions, and what is between them, by the type or trait that it is of."""
    lines, functions = file.text.split("\n"), functions_of(file.text, file.path)
    owners = {}
    inside = {at for it in functions for at in range(it.first, it.last + 1)}
    chunk, above = None, None
    for at, line in enumerate(lines):
        head = TYPE.match(line) or BLOCK.match(line)
        if at in inside:
            owners[at] = chunk
            continue
        if line.startswith(("///", "#[")):
            above = at if above is None else above
            continue
        if head:
            trait = OF_TRAIT.match(line)
            first = at if above is None else above
            chunk = Item(file.crate, file.path, head[1], "code", first, at, without_comments(lines[first:at]), is_open=True)
            chunk.names = {head[1], trait[1]} if trait else {head[1]}
            file.items.append(chunk)
        if chunk:
            chunk.head, chunk.last = f"{chunk.head}\n{without_comments([line])}", at
        elif line.startswith("#![tactic("):
            file.advice += line
        above = None
    for it in functions:
        found = read_function(file, it, lines)
        found[0].owner = owners[it.first] if lines[it.last].startswith(" ") else None
        file.items += found
        if promises_nothing(it, owners[it.first], found[0]):
            found[0].names = set()
        elif owners[it.first] and it.is_of_trait:
            # What is known of a type or a trait is also what its methods promise.
            owners[it.first].shown.add(found[0])
    # An import says nothing: what it imports is named where it is used.
    for it in file.items:
        it.head = IMPORT.sub("", it.head) if it.kind == "code" else it.head
    # A block of methods alone says nothing that its methods don't say.
    file.items = [it for it in file.items if not (it.kind == "code" and METHODS.fullmatch(it.head))]
