"""For each theorem of docs/THEOREMS.md, which definitions its statement is made of, and how long they are."""
import re
import textwrap
from pathlib import Path
from types import SimpleNamespace
from typing import Dict, Iterable, Iterator, List, Set, Tuple

from support.definitions.citing import Sources
from support.definitions.items import Item
from support.documents.texts import Document, Finding, uses

THEOREMS = "docs/THEOREMS.md"
# A link to a law: its name and its crate.
LAW = re.compile(r"\[`(\w+)`\]\(\S*?crates/(\w+)/src/laws\.rt\)")
TYPE = re.compile(r"^(?:pub(?:\([a-z]+\))? )?(?:struct|enum|trait) ", re.M)
COMMENT = re.compile(r"\s*(?:--|//|#\[|$)")
# What steps are, which every theorem speaks of: the heading, and the definitions.
STEPS = (
    ("What a subsystem's events are", (("nvme_machine", "specs/Subsystems.antt", "Run"),)),
    ("What a fleet's events are",
     (("nvme_mailbox", "specs/Fleets.antt", "Step"), ("nvme_fleet", "specs/Layers.antt", "Step"))),
)
INTRODUCTION = """# Reading lists

What to read to know what a theorem of `docs/THEOREMS.md` says, down to numbers, lists and bytes: definitions of
`crates/*/specs`, and types of `crates/*/src`. A proof is no part of it.

`scripts/documents --reading-lists` makes this page from the imports of those files. A definition is on a list where a
definition of the list, or the contract of the law, has its name; so a list may have one too many, where a word means
something else, and lacks none. Lines are those of the definitions, without comments. What a definition is made of comes
before it, module by module; within a module the order is that of the file.

The lists of a subsystem's and of a fleet's events come first. Those of the theorems have what they need beyond these.
"""
# A module: its crate and its path.
Place = Tuple[str, str]


def sources_of(top: Path) -> Sources:
    """The definitions and the code of all crates."""
    crates: Dict[str, SimpleNamespace] = {}
    for name, others in uses(top):
        below = {one.name: one for it in others if it in crates for one in (*crates[it].below(), crates[it])}
        crates[name] = SimpleNamespace(name=name, folder=top / "crates" / name, below=lambda it=below: [*it.values()])
    return Sources(crates, ("specs", "src"))


def parts_of(item: Item) -> Iterator[Item]:
    """The definitions and types that an item names."""
    return (it for it in item.shown | item.inner if it.kind == "specs" or it.kind == "code" and TYPE.search(it.head))


def cone_of(begin: Iterable[Item]) -> Set[Item]:
    """These definitions and all that they use."""
    found, waiting = set(begin), [*begin]
    while waiting:
        new = {*parts_of(waiting.pop())} - found
        found |= new
        waiting += new
    return found


def law_of(sources: Sources, crate: str, name: str) -> List[Item]:
    """The definitions that the contract of a law cites; none if the crate has no such law."""
    file = sources.files.get((crate, "src/laws.rt"))
    clauses = [it for it in file.items if it.kind == "clause" and it.function.word == name] if file else []
    return [one for it in clauses
            for one in sorted((one for one in it.inner if one.kind == "specs"), key=lambda one: it.body.find(one.name))]


def theorems(document: Document, sources: Sources) -> Iterator[Tuple[str, Dict[str, List[Item]]]]:
    """Each section that links to laws: its heading, and for each law the definitions that its contract cites. Laws of
    one name in several crates are one."""
    for heading, first, end in document.innermost_sections():
        laws: Dict[str, List[Item]] = {}
        for name, crate in dict.fromkeys(LAW.findall(" ".join(document.lines[first:end - 1]))):
            laws.setdefault(name, []).extend(law_of(sources, crate, name))
        if laws:
            yield heading, laws


def order_of(cone: Set[Item], sources: Sources) -> List[Place]:
    """The modules of a list, each after those that its definitions are made of; crates lowest first if that is all
    the same."""
    rank = {name: at for at, name in enumerate(sources.crates)}
    below: Dict[Place, Set[Place]] = {(it.crate, it.path): set() for it in cone}
    for item in cone:
        below[item.crate, item.path] |= {(it.crate, it.path) for it in parts_of(item) if it in cone}
    found: List[Place] = []

    def visit(modules: Iterable[Place], above: Tuple[Place, ...]) -> None:
        for it in sorted(modules, key=lambda it: (rank[it[0]], it)):
            if it not in found and it not in above:
                visit(below[it], (*above, it))
                found.append(it)

    visit(below, ())
    return found


def lines_of(items: Iterable[Item]) -> int:
    """How many lines definitions have, without comments."""
    return sum(not COMMENT.match(line) for it in items for line in f"{it.head}\n{it.body}".split("\n"))


def list_of(cone: Set[Item], sources: Sources) -> List[str]:
    """The lines of one list."""
    lines = []
    for crate, path in order_of(cone, sources):
        found = sorted((it for it in cone if (it.crate, it.path) == (crate, path)), key=lambda it: it.first)
        part, _, module = path.rpartition(".")[0].partition("/")
        entry = (f"`{crate}`, `{module}`{' (types)' if part == 'src' else ''}, {count(lines_of(found), 'line')}: "
                 f"{', '.join(f'`{it.name}`' for it in found)}")
        lines += textwrap.wrap(entry, 120, initial_indent="- ", subsequent_indent="  ", break_on_hyphens=False)
    return lines


def count(number: int, what: str) -> str:
    return f"{number:,} {what}{'' if number == 1 else 's'}"


def section(heading: str, said: str, cone: Set[Item], sources: Sources) -> str:
    """One section: the heading, what it is, how much, and the list."""
    modules = len({(it.crate, it.path) for it in cone})
    how_much = f"{count(len(cone), 'definition')} of {count(modules, 'module')}, {count(lines_of(cone), 'line')}"
    text = textwrap.fill(f"{said}{how_much}{':' if cone else '.'}", 120, break_on_hyphens=False)
    return "\n".join([f"## {heading}", "", text, *(["", *list_of(cone, sources)] if cone else []), ""])


def page(found: Dict[str, Document], sources: Sources) -> str:
    """The whole page, from the files."""
    known: Set[Item] = set()
    pieces = [INTRODUCTION]
    for heading, places in STEPS:
        begin = [sources.files[crate, path].names[name] for crate, path, name in places]
        said = " and ".join(f"`{it.name}` of `{module_of(it)}`" for it in begin)
        cone = cone_of(begin) - known
        pieces.append(section(heading, f"{said}, with what they are made of: ", cone, sources))
        known |= cone
    for heading, laws in theorems(found[THEOREMS], sources):
        begin = [it for cited in laws.values() for it in cited]
        stated = ", ".join(dict.fromkeys(called(it, begin) for it in begin))
        said = f"{' and '.join(f'`{it}`' for it in laws)} states {stated}; beyond the events: "
        pieces.append(section(heading, said, cone_of(begin) - known, sources))
    return "\n".join(pieces)


def module_of(item: Item) -> str:
    return Path(item.path).stem


def called(definition: Item, others: List[Item]) -> str:
    """A definition's name, with its module if another one is called so."""
    is_alone = {it for it in others if it.name == definition.name} == {definition}
    return f"`{definition.name}`" + ("" if is_alone else f" of `{module_of(definition)}`")


def check(top: Path, found: Dict[str, Document]) -> Iterator[Finding]:
    """The page can be made: each theorem has a statement, and each definition that one is made of is found."""
    sources = sources_of(top)
    page(found, sources)
    begin: List[Item] = []
    for heading, laws in theorems(found[THEOREMS], sources):
        for law, cited in laws.items():
            begin += cited
            if not cited:
                yield Finding(THEOREMS, 1, f"{heading}: no definition is stated by {law}")
    places = {(it.crate, it.path) for it in cone_of(begin)}
    for path in sorted({tuple(it) for place in places for it in sources.files[place].imports.values()}):
        is_ours = path[0] == "Rattle" and path[1] in sources.crates and path[2] == "specs"
        if is_ours and path[3] not in ("declared", "contracts") and not sources.home_of([*path[:-1]], path[-1]):
            file = "/".join(("crates", *path[1:-1]))
            yield Finding(THEOREMS, 1, f"{path[-1]} of {file} is imported but not found there")
