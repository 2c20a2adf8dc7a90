"""The functions of a formatted source file, by its indentation."""
import re
from dataclasses import dataclass

HEAD = re.compile(r"( *)(pub(?:\([a-z]+\))? )?(?:const )?(?:unsafe )?(?:extern \"C\" )?fn (\w+)")
IMPL = re.compile(r"(?:unsafe )?impl\b(.*)")
TRAIT = re.compile(r"(?:pub(?:\([a-z]+\))? )?(?:unsafe )?trait (\w+)")


@dataclass(frozen=True)
class Function:
    """A function as the prover's `--only` names it, with the lines of its text, its comments among them: body and last
    are the braces of its body, and both its last line if it has none."""
    name: str
    first: int
    body: int
    last: int
    is_of_trait: bool = False

    @property
    def word(self):
        return self.name.split("::")[-1]


@dataclass
class Owner:
    """The block that functions are in: of a type or a trait, or none."""
    name: str = ""
    shows_all: bool = False

    def passes(self, line):
        """Reads one line, and says whether it is the head of a block."""
        if found := IMPL.match(line):
            head = without_parameters(found[1])
            self.name, self.shows_all = type_of(head), " for " in head
        elif found := TRAIT.match(line):
            self.name, self.shows_all = found[1], True
        elif line.startswith("}"):
            self.name, self.shows_all = "", False


def without_parameters(head):
    """The head of an impl block without the parameters after its first word."""
    head = head.strip()
    if not head.startswith("<"):
        return head
    depth = 0
    for at, letter in enumerate(head):
        depth += {"<": 1, ">": -1}.get(letter, 0)
        if depth == 0:
            return head[at + 1:].strip()
    return head


def last_names(path):
    """The last name of a path, and of each type among its parameters: `Error` of `io::Error`, `FromError` of
    `From<io::Error>`."""
    names = re.findall(r"(?<!')\b(?:\w+::)*([A-Z]\w+)(?!\w*::)", path)
    return "".join(names)


def type_of(head):
    """What the prover calls an impl block: its type, with its trait after it."""
    of_trait, _, of_type = head.removesuffix("{").strip().rpartition(" for ")
    name = re.match(r"(?:\w+::)*(\w+)", of_type.strip())
    return (name[1] if name else "") + last_names(of_trait)


def module_of(path):
    """The module of a file of src, with `::` after it; nothing for the root."""
    name = path.removeprefix("src/").removesuffix(".rt").removesuffix("/mod").replace("/", "::")
    return "" if name in ("lib", "main") else name + "::"


def ends_of(lines, first, indent):
    """The lines of the braces of the body, of the function whose head begins at `first`; both are its last line if
    it has no body, or one in that line."""
    depth = 0
    for at in range(first, len(lines)):
        line = lines[at].rstrip()
        if line == indent + "{" or line.endswith(" {") and not line.startswith(indent + "    "):
            return at, next(i for i in range(at + 1, len(lines)) if lines[i].rstrip() == indent + "}")
        depth += line.count("{") - line.count("}")
        is_whole = line == indent + "{}" or at == first and "{" in line and line.endswith("}")
        if is_whole or depth == 0 and line.endswith(";"):
            return at, at
    raise ValueError(f"no end of the function in line {first + 1}")


def top_of(lines, at):
    """The first line of a function's comments and attributes."""
    while at and lines[at - 1].lstrip().startswith(("///", "#[")):
        at -= 1
    return at


def functions_of(text, path):
    """Each function of a file below src, in order."""
    lines, found, owner, at = text.split("\n"), [], Owner(), 0
    while at < len(lines):
        owner.passes(lines[at])
        head = HEAD.match(lines[at])
        if head:
            body, last = ends_of(lines, at, head[1])
            is_method = bool(owner.name and head[1])
            name = f"{owner.name}::{head[3]}" if is_method else module_of(path) + head[3]
            is_of_trait = is_method and owner.shows_all
            found.append(Function(name, top_of(lines, at), body, last, is_of_trait))
            at = last
        at += 1
    return found
