"""Parses a source's tokens into the code that runs: its names, and the functions that they are in.

Contracts, ghost members and attributes are left out. Code that can't be parsed is reported, so no spelling hides a
name.
"""
import re
from dataclasses import dataclass, field
from typing import Dict, Iterator, List, Optional, Set, Tuple

from support.documents.tokens import Token, closing, tokens

# What a crate's own paths begin with.
OWN = ("crate", "self", "super", "Self")
CLAUSES = ("ensures", "requires")
OVER_LINES = re.compile(r"(?<!\\)\n")
# Words of the language before a bracket, which call nothing.
WORDS = {"as", "break", "const", "dyn", "else", "for", "fn", "if", "impl", "in", "let", "match", "move", "mut", "pub", "ref",
         "return", "where", "while"}


# Structs that hold a place on the heap without giving it back: code that destructures one could forget the place.
BARE = ("BoxPointer", "Slot")
# What is before a name that is given here, and calls nothing.
BINDING = ("fn", "let", "mut", "mod", "const", "static", "type", "struct", "enum", "trait", "as", "ref", "crate")


@dataclass(frozen=True)
class Named:
    """A name that the code uses: how, with what is before it; in which function, of which type; and on which line.

    The way is `.name` of a method, `Type::name` of a path, `name!` of a macro, `name(` of a call by one name, `name()`
    of a name that is alone, such as a function that is passed on, and `Type{` of a destructured value."""
    key: str
    function: str
    line: int


@dataclass(frozen=True)
class Imported:
    """An import: its path, its local name, and the line."""
    path: Tuple[str, ...]
    name: str
    line: int


@dataclass
class Source:
    """A parsed source: its code, the context of each name, and what was not understood."""
    code: List[Token] = field(default_factory=list)
    derived: List[Tuple[str, int]] = field(default_factory=list)
    unread: List[Tuple[str, int]] = field(default_factory=list)
    functions: List[Tuple[int, int, str]] = field(default_factory=list)
    # Those of them that only their own crate can call.
    hidden: Set[str] = field(default_factory=set)
    impls: List[Tuple[str, str, int]] = field(default_factory=list)
    uses: List[Imported] = field(default_factory=list)
    inside_use: List[Tuple[int, int]] = field(default_factory=list)


def is_at(found: List[Token], at: int, sign: str) -> bool:
    """Whether a sign is at this place."""
    return at < len(found) and found[at].is_sign(sign)


def after_braces(found: List[Token], at: int) -> Optional[int]:
    """The place after the braces here and those of a `by`, or nothing if there are none."""
    if not is_at(found, at, "{"):
        return None
    at = closing(found, at) + 1
    if at < len(found) and found[at].is_name("by"):
        return after_braces(found, at + 1)
    return at


def after_ghost(found: List[Token], at: int) -> Optional[int]:
    """The place after a clause or what is ghost, or nothing if it has no form of these."""
    word, at = found[at].text, at + 1
    if word == "ghost" and found[at].is_name("use"):
        while at < len(found) and not found[at].is_sign(";"):
            at += 1
        return at + 1
    at += is_at(found, at, "*")
    named = at < len(found) and found[at].is_name()
    at += named
    if word in CLAUSES:
        return after_braces(found, at)
    if not named or not (is_at(found, at, ":") or is_at(found, at, "=")):
        return None
    end = after_braces(found, at + 1)
    return after_braces(found, end + 1) if end and is_at(found, end, "=") else end


def read(text: str) -> Source:
    """A source without what is ghost, with its functions and its imports."""
    found, source, at = list(tokens(text)), Source(), 0
    while at < len(found):
        it = found[at]
        end: Optional[int] = None
        if it.is_name("ghost", *CLAUSES):
            end = after_ghost(found, at)
            if end is None:
                source.unread.append((f"{it.text} here is no clause and no member", it.line))
        elif it.is_sign("#") and (is_at(found, at + 1, "[") or is_at(found, at + 1, "!")):
            first = at + 1 + is_at(found, at + 1, "!")
            end = closing(found, first) + 1
            source.derived += derives(found[first:end])
        source.unread += unclear(found[at:end or at + 1], end is not None)
        if end is None:
            source.code.append(it)
            end = at + 1
        at = end
    found_here = list(functions(source.code))
    source.functions = [it[:3] for it in found_here]
    source.hidden = {it[2] for it in found_here if it[3]} - {it[2] for it in found_here if not it[3]}
    source.impls = list(impls(source.code))
    for first, end in use_places(source.code):
        source.inside_use.append((first, end))
        source.uses += imports(source.code[first + 1:end], ())
    return source


def unclear(found: List[Token], is_ghost: bool) -> Iterator[Tuple[str, int]]:
    """Forms that the toolchain might parse differently, so that code could hide after them."""
    for it, after in zip(found, [*found[1:], Token("sign", "", 0)]):
        if is_ghost and it.is_sign("-") and after.is_sign("-"):
            yield "two hyphens in what is ghost, which may begin a comment", it.line
        elif is_ghost and it.kind == "text" and it.text.endswith("'"):
            yield "a character in what is ghost, which may end a name", it.line
        elif it.kind == "text" and OVER_LINES.search(it.text):
            yield "a text that goes over a line without a backslash", it.line


def derives(attribute: List[Token]) -> Iterator[Tuple[str, int]]:
    """What an attribute derives."""
    if len(attribute) > 1 and attribute[1].is_name("derive"):
        yield from ((it.text, it.line) for it in attribute[2:] if it.is_name())
    elif len(attribute) > 1 and attribute[1].is_name("derive_where", "cfg_attr", "macro_use", "path"):
        yield attribute[1].text, attribute[1].line


def header_end(code: List[Token], at: int) -> int:
    """The place of the brace or semicolon that ends the head of an item."""
    depth = 0
    while at < len(code):
        it = code[at]
        if it.kind == "sign" and it.text in "([":
            depth += 1
        elif it.kind == "sign" and it.text in ")]":
            depth -= 1
        elif depth == 0 and it.is_sign("{") and code[at - 1].kind == "sign" and code[at - 1].text in "<,":
            at = closing(code, at)
        elif depth == 0 and (it.is_sign("{") or it.is_sign(";")):
            return at
        at += 1
    return at


def outside_angles(code: List[Token]) -> List[Token]:
    """The tokens that are in no angle brackets."""
    depth, kept = 0, []
    for it in code:
        depth -= it.is_sign(">")
        if depth == 0:
            kept.append(it)
        depth += it.is_sign("<")
    return kept


def is_item(code: List[Token], at: int, word: str) -> bool:
    """Whether an item begins here with this word, rather than the type of a function or of what has a trait."""
    if not code[at].is_name(word):
        return False
    before = code[at - 1] if at else None
    begins = before is None or before.kind == "sign" and before.text in "};{])" or before.is_name(
        "pub", "unsafe", "const", "extern", "final", "async") or before.kind == "text"
    return begins if word == "impl" else at + 1 < len(code) and code[at + 1].is_name()


def of_and_for(head: List[Token]) -> Tuple[str, str]:
    """The trait and the type that the head of an `impl` names, by their last words; no trait if there is none."""
    kept = outside_angles(head)
    kept = kept[:next((n for n, it in enumerate(kept) if it.is_name("where")), len(kept))]
    place = next((n for n, it in enumerate(kept) if it.is_name("for")), None)
    of_trait = [it.text for it in kept[1:place or 1] if it.is_name()]
    owner = [it.text for it in kept[1 if place is None else place + 1:] if it.is_name() and not it.is_name("mut", "dyn")]
    return of_trait[-1] if of_trait else "", owner[-1] if owner else ""


def impls(code: List[Token]) -> Iterator[Tuple[str, str, int]]:
    """Each `impl`: its trait, its type and its line."""
    for at in range(len(code)):
        if is_item(code, at, "impl"):
            yield (*of_and_for(code[at:header_end(code, at)]), code[at].line)


def functions(code: List[Token]) -> Iterator[Tuple[int, int, str, bool]]:
    """Each function: its first and its last place, its name after that of its type or trait, and whether only its own
    crate can call it, since it is neither public nor of a trait."""
    owners: List[Tuple[int, str, bool]] = []
    for at in range(len(code)):
        owners = [it for it in owners if it[0] > at]
        if is_item(code, at, "impl") or is_item(code, at, "trait"):
            begin = header_end(code, at)
            of_trait, owner = of_and_for(code[at:begin]) if code[at].text == "impl" else (code[at + 1].text,) * 2
            owners.append((closing(code, begin), owner, bool(of_trait)))
        elif is_item(code, at, "fn"):
            begin = header_end(code, at)
            end = closing(code, begin) if is_at(code, begin, "{") else begin
            is_hidden = not is_public(code, at) and not any(it[2] for it in owners[-1:])
            yield at, end, "::".join([*(it[1] for it in owners[-1:]), code[at + 1].text]), is_hidden


def is_public(code: List[Token], at: int) -> bool:
    """Whether `pub` without a limit to its crate precedes the function here."""
    while at and (code[at - 1].is_name("const", "unsafe", "extern", "final") or code[at - 1].kind == "text"):
        at -= 1
    return at > 0 and code[at - 1].is_name("pub")


def use_places(code: List[Token]) -> Iterator[Tuple[int, int]]:
    """Beginning and end of each `use`."""
    for at, it in enumerate(code):
        if it.is_name("use"):
            yield at, next((n for n in range(at, len(code)) if code[n].is_sign(";")), len(code))


def imports(tree: List[Token], before: Tuple[str, ...]) -> Iterator[Imported]:
    """What a tree of a `use` takes in."""
    path, at = list(before), 0
    while at < len(tree):
        it = tree[at]
        if it.is_sign("{"):
            for part in parts(tree[at + 1:closing(tree, at)]):
                yield from imports(part, tuple(path))
            return
        if it.is_name("as"):
            yield Imported(tuple(path), tree[at + 1].text, it.line)
            return
        if it.is_name() or it.is_sign("*"):
            path.append(it.text)
        at += 1
    if tree:
        named = path[-2] if path[-1] == "self" and len(path) > 1 else path[-1]
        yield Imported(tuple(it for it in path if it != "self" or len(path) == 1), named, tree[0].line)


def parts(tree: List[Token]) -> Iterator[List[Token]]:
    """The parts between the commas of a tree."""
    depth, part = 0, []
    for it in tree:
        depth += it.is_sign("{")
        depth -= it.is_sign("}")
        if depth == 0 and it.is_sign(","):
            yield part
            part = []
        else:
            part.append(it)
    if part:
        yield part


def opening_angle(code: List[Token], at: int) -> int:
    """The place of the angle bracket that opens the one that closes here."""
    depth = 0
    while at > 0:
        depth += code[at].is_sign(">")
        depth -= code[at].is_sign("<")
        if depth == 0:
            return at
        at -= 1
    return at


def type_before(code: List[Token], at: int) -> str:
    """The last word of what is before the `::` here: of `Vec::<u8>::new` it is `Vec`, of `<[u8]>::len` none."""
    if code[at - 1].is_sign(">"):
        at = opening_angle(code, at - 1)
        at -= is_at(code, at - 1, "::")
        return code[at - 1].text if at and is_at(code, at, "::") and code[at - 1].is_name() else "<>"
    return code[at - 1].text if at and code[at - 1].is_name() else ""


def names(source: Source) -> Iterator[Named]:
    """Each name that the code uses and that may be one of another crate: methods, paths, macros and calls."""
    code, renamed = source.code, {it.name: it.path[-1] for it in source.uses if it.path and it.path[-1] != "*"}
    skipped = {n for first, end in source.inside_use for n in range(first, end)}
    held: Dict[int, str] = {n: name for first, end, name in source.functions for n in range(first, end + 1)}
    for at in range(1, len(code)):
        it, before = code[at], code[at - 1]
        if not it.is_name() or at in skipped:
            continue
        is_called, goes_on = is_at(code, at + 1, "("), is_at(code, at + 1, "::")
        is_path = goes_on and not is_at(code, at + 2, "<")
        key = ""
        if before.is_sign(".") and not code[at - 2].is_sign("."):
            key = f".{it.text}" if is_called or goes_on else ""
        elif is_at(code, at + 1, "!") and at + 2 < len(code) and code[at + 2].text in ("(", "[", "{"):
            key = f"{it.text}!"
        elif before.is_sign("::"):
            owner = type_before(code, at - 1)
            key = "" if is_path else f"{renamed.get(owner, owner)}::{it.text}"
        elif is_called and it.text not in WORDS and not before.is_name("fn"):
            key = f"{renamed.get(it.text, it.text)}("
        elif it.text == "unsafe" or it.text in BARE and not before.is_name("struct", "impl", "for"):
            is_value = is_at(code, at + 1, "{") and not before.is_sign("->")
            key = it.text if it.text == "unsafe" else f"{it.text}{{" if is_value else ""
        elif not goes_on and not it.text[:1].isupper() and not before.is_name(*BINDING) and not is_at(code, at + 1, ":"):
            key = f"{it.text}()"
        if key:
            yield Named(key, held.get(at, ""), it.line)
