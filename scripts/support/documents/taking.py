"""Only the listed functions take memory, keep it, or act when a value is dropped.

No contract covers this. A vector carries its allocator, so a body could extend or clone it without an allocator; a
forgotten value leaks its memory; a type with its own `Drop` could write to its medium after every clause. So each name
that the code uses is one of the repository's own, or one of another crate that outside.txt knows to take nothing; or
memory.txt has the function with it, just as often as it is there. What calls a function that takes memory is in that
list too, whether it is given an allocator or not. Tests are free to take memory.
"""
import re
from collections import Counter
from dataclasses import dataclass, field
from pathlib import Path
from typing import Dict, Iterator, List, Set, Tuple

from support.documents.allowed import HERE, Lists, Row, Takers, lists
from support.documents.program import OWN, Named, Source, names, read
from support.documents.texts import Finding, crates, uses
from support.documents.tokens import Token, closing

# Crates that are tests or measurements.
TESTS = re.compile(r".*_(?:tests|bench|examples|refusals)$")
# Methods of lists, texts and files that take memory. The repository may have one of the same name, and no token reports
# which of them is called.
TAKING = set("""append clone clone_from collect concat create default drain entry extend extend_from_slice
    extend_from_within extend_one from_iter get_or_insert_with insert insert_str into_owned join lines make_mut open
    or_default or_insert or_insert_with push push_back push_front push_reserved push_str put read_line read_to_end
    read_to_string repeat replace reserve reserve_exact resize resize_with splice split_off to_lowercase to_mut to_owned
    to_string to_uppercase to_vec try_clone try_reserve try_reserve_exact unzip with_capacity write_fmt""".split())
# Names that no type or module of the repository may have, since they would hide another crate's.
RESERVED = {"Vec", "String", "Box", "Rc", "Arc", "VecDeque", "HashMap", "HashSet", "BTreeMap", "BTreeSet", "BinaryHeap",
            "LinkedList", "Cow", "LruCache", "BufReader", "BufWriter", "ManuallyDrop", "MaybeUninit", "OnceCell",
            "Global", "Layout", "Drop", "Clone", "mem", "std", "core", "alloc", "ptr", "boxed", "vec", "string"}
# What nobody may do to a value, tests neither.
ENDLESS = {"forget", "leak", "ManuallyDrop"}
# The words before the name of an item.
DEFINED = ("fn", "struct", "enum", "trait", "mod", "const", "static")
TYPES = ("struct", "enum", "trait", "mod")


@dataclass
class Owned:
    """What the repository defines: functions, variants and constants; types, modules and crates."""
    items: Set[str] = field(default_factory=set)
    types: Set[str] = field(default_factory=set)
    traits: Set[str] = field(default_factory=set)
    # Of each crate those that it depends on, and their dependencies.
    below: Dict[str, Set[str]] = field(default_factory=dict)
    # The functions that only their own crate can call, by their files.
    hidden: Set[Tuple[str, str]] = field(default_factory=set)

    def has(self, name: str) -> bool:
        """Whether it defines anything of this name."""
        return name in self.items or name in self.types

    def add(self, code: List[Token]) -> None:
        """Adds what a source defines."""
        for at, (word, it) in enumerate(zip(code, code[1:])):
            if word.is_name(*DEFINED) and it.is_name():
                self.items.add(it.text)
                if word.is_name(*TYPES) and it.text not in RESERVED:
                    self.types.add(it.text)
            if word.is_name("trait"):
                self.traits.add(it.text)
            if word.is_name("enum") and it.is_name():
                self.items.update(variants(code, at))


def variants(code: List[Token], at: int) -> Iterator[str]:
    """The variants of an enum, and the names at the same depth."""
    first = next((n for n in range(at, len(code)) if code[n].is_sign("{")), len(code))
    n, end = first + 1, closing(code, first)
    while n < end:
        if code[n].kind == "sign" and code[n].text in "([{":
            n = closing(code, n)
        elif code[n].is_name():
            yield code[n].text
        n += 1


def is_own(it: Named, owned: Owned) -> bool:
    """Whether a name is the repository's own, as far as it can tell: what could be another crate's too is not."""
    key = it.key
    if key.startswith("."):
        return key[1:] in owned.items and key[1:] not in TAKING
    if key.endswith("("):
        return owned.has(key[:-1])
    owner, _, name = key.partition("::")
    if owner == "Self" and (name in TAKING or owner_of(it) not in owned.types):
        return False
    return bool(name) and (owner in OWN or owner in owned.types) and owned.has(name)


def owner_of(it: Named) -> str:
    """The type or trait of the function that a name is in."""
    return it.function.rpartition("::")[0]


def takes(it: Named, owned: Owned, takers: Takers, imported_names: Set[str]) -> bool:
    """Whether a name may be that of a function that takes memory."""
    if it.key.startswith("."):
        return any(name == it.key[1:] for owner, name in takers.all if owner)
    if it.key.endswith(("(", "()")):
        name = it.key.rstrip("()")
        return name in takers.own or name in imported_names and ("", name) in takers.all
    owner, _, name = it.key.partition("::")
    owner = owner_of(it) if owner == "Self" else owner
    is_one = owner in owned.types - owned.traits and owner[:1].isupper()
    return bool(name) and ((owner, name) in takers.all if is_one else any(other == name for _, other in takers.all))


def listable(source: Source, owned: Owned, known: Set[str], takers: Takers) -> Iterator[Named]:
    """The names that have to be in the list."""
    imported_names = {it.path[-1] for it in source.uses}
    for it in names(source):
        is_taking = takes(it, owned, takers, imported_names)
        if it.key not in known and (is_taking or not it.key.endswith("()") and not is_own(it, owned)):
            yield it


def counted_in(path: str, source: Source, owned: Owned, given: Lists) -> Dict[str, Dict[str, List[int]]]:
    """The names that have to be in the list, by their functions: on which lines each is."""
    crate = path.split("/")[1]
    found: Dict[str, Dict[str, List[int]]] = {}
    for it in listable(source, owned, given.known, given.takers(crate, owned.below.get(crate, set()), owned.hidden)):
        found.setdefault(it.function, {}).setdefault(it.key, []).append(it.line)
    return found


def compared(path: str, source: Source, owned: Owned, given: Lists) -> Iterator[Finding]:
    """The differences between a source and the list."""
    counts = counted_in(path, source, owned, given)
    rows = {function: row for (file, function), row in given.rows.items() if file == path}
    for function in sorted({*counts, *rows}):
        row, names_here = rows.get(function, Row(False, Counter(), 0)), counts.get(function, {})
        for key in sorted({*names_here, *row.counts}):
            lines, most = names_here.get(key, []), row.counts[key]
            what = f"{function or '-'} has {key} {len(lines)} times, and {most} are listed"
            if len(lines) > most:
                yield Finding(path, lines[0], f"{what} in {HERE}; scripts/documents --memory-rows prints rows")
            elif len(lines) < most:
                yield Finding(HERE, row.line, f"{path}: {what}")


def lacking_rows(top: Path) -> Iterator[str]:
    """The missing rows, of each function whose row is not so; add the kind and the reason."""
    given, found = lists(), sources(top)
    owned = owned_by(top, found)
    for path, source in found.items():
        if TESTS.match(path.split("/")[1]):
            continue
        for function, lines in counted_in(path, source, owned, given).items():
            row = given.rows.get((path, function))
            if row is None or row.counts != {key: len(it) for key, it in lines.items()}:
                words = (key if len(it) == 1 else f"{key}*{len(it)}" for key, it in sorted(lines.items()))
                yield f"{path.removeprefix('crates/')}\n    takes|holds {function or '-'} {' '.join(words)} -- why"


def imported(path: str, source: Source, owned: Owned, given: Lists) -> Iterator[Finding]:
    """What is imported of other crates is known, and by its own name."""
    for it in source.uses:
        full, last = "::".join(it.path), "::".join(it.path[-2:])
        if it.path[0] in OWN or it.path[0] in owned.types:
            continue
        if full not in given.known and (last not in given.known or it.path[-1] == "*"):
            yield Finding(path, it.line, f"{full} is not known to take no memory")
        elif it.path[-1] != "*" and it.name != it.path[-1]:
            yield Finding(path, it.line, f"{full} gets another name")


def endings(path: str, source: Source, owned: Owned, given: Lists) -> Iterator[Finding]:
    """Code that runs when a value is dropped, or that prevents a drop."""
    for of_trait, owner, line in source.impls:
        if of_trait in {it.name for it in source.uses if it.path[-1] == "Drop"} | {"Drop"}:
            yield Finding(path, line, f"{owner} has its own Drop, which no clause covers")
    for it in source.uses:
        is_foreign = it.path[-1] in ENDLESS and it.path[0] not in OWN
        if is_foreign or it.path[-1] == "Drop" and it.name != "Drop":
            yield Finding(path, it.line, f"no clause covers a drop, or a leak: {'::'.join(it.path)}")
    for named in names(source):
        owner, _, name = named.key.rpartition("::")
        if name in ENDLESS and owner not in ("", *OWN) or named.key.lstrip(".").rstrip("(") in ENDLESS - {"forget"}:
            yield Finding(path, named.line, f"no clause covers a drop, or a leak: {named.key}")


def forms(path: str, source: Source, owned: Owned, given: Lists) -> Iterator[Finding]:
    """Forms that the other rules can't see through: macros, functions of C, names that hide others."""
    for what, line in source.unread:
        yield Finding(path, line, what)
    for word, line in source.derived:
        if word not in given.known:
            yield Finding(path, line, f"{word} in an attribute is not known to take no memory")
    code = source.code
    for at, it in enumerate(code[:-1]):
        if it.is_name("macro_rules", "macro"):
            yield Finding(path, it.line, "a macro, whose uses no check reads")
        is_block = it.is_name("extern") and any(one.is_sign("{") for one in code[at + 1:at + 3])
        if is_block or it.is_name("extern") and code[at + 1].is_name("crate"):
            yield Finding(path, it.line, "functions that are no code of the repository")
        if it.is_name(*TYPES, "type", "fn") and code[at + 1].is_name(*RESERVED):
            yield Finding(path, it.line, f"{code[at + 1].text} is a name of another crate")


# The rules; those after the first are for what is no test.
RULES = (endings, forms, imported, compared)


def of_source(path: str, source: Source, owned: Owned, given: Lists) -> Iterator[Finding]:
    """The faults of a source."""
    for rule in RULES[:1] if TESTS.match(path.split("/")[1]) else RULES:
        yield from rule(path, source, owned, given)


def sources(top: Path) -> Dict[str, Source]:
    """The sources of all crates, by their paths."""
    found = (path for name in crates(top) for path in sorted((top / "crates" / name / "src").glob("**/*.rt")))
    return {str(it.relative_to(top)): read(it.read_text(encoding="utf-8")) for it in found}


def owned_by(top: Path, found: Dict[str, Source]) -> Owned:
    """What the repository defines."""
    owned = Owned(types={*crates(top), *(Path(it).stem for it in found)} - {"lib", "main"} - RESERVED)
    for path, source in found.items():
        owned.add(source.code)
        owned.hidden.update((path, it) for it in source.hidden)
    for name, others in uses(top):
        owned.below[name] = {*others, *(it for other in others for it in owned.below.get(other, ()))}
    return owned


def check(top: Path, _found: object) -> Iterator[Finding]:
    """No type ends in a way of its own, and memory is taken where the lists say."""
    given, found = lists(), sources(top)
    owned = owned_by(top, found)
    yield from given.wrong
    for path, source in found.items():
        yield from of_source(path, source, owned, given)
    for (path, _), row in given.rows.items():
        if path not in found:
            yield Finding(HERE, row.line, f"{path} is missing")
    for name, others in uses(top):
        for other in () if TESTS.match(name) else filter(TESTS.match, others):
            yield Finding("crates.txt", 1, f"{name} depends on {other}, which is a test and may take memory")
