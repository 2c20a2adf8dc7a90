"""The definitions of a file of specs/: their signatures, their cases and the fields of their records."""
import re
from dataclasses import dataclass

HEAD = re.compile(r"(?:(?:abbrev|unfoldable) )?(?:pub )?(?:(record) )?([\w-]+)")
RESULT = re.compile(r"(Type 0|Bool|ℕ)\s*$")
OPENING, CLOSING = "([{", ")]}"


@dataclass(frozen=True)
class Case:
    """One equation of a definition, or one field of a record: where its right side begins and ends in the file."""
    name: str
    left: str
    start: int
    end: int

    def right(self, text):
        return text[self.start:self.end]


@dataclass(frozen=True)
class Definition:
    """A definition: its name, what it gives (`Type 0`, `Bool`, `ℕ` or something else) and its cases in order."""
    name: str
    gives: str
    is_record: bool
    cases: tuple


def items_of(text):
    """The file's top-level items: each from a line that is not indented, and closes no bracket, up to the next one."""
    starts = [it.start() for it in re.finditer(r"^(?=[^\s)}\]-])", text, re.M)]
    for start, end in zip(starts, [*starts[1:], len(text)]):
        comment = re.search(r"\n--", text[start:end])
        yield start, start + comment.start() if comment else end


def split_at(text, mark, keep_depth=0):
    """The places of `mark` outside of all brackets."""
    depth, found = keep_depth, []
    for at, letter in enumerate(text):
        depth += (letter in OPENING) - (letter in CLOSING)
        if depth == 0 and text.startswith(mark, at):
            found.append(at)
    return found


def case_of(text, start, end):
    """The equation in this part of the file; `None` where there is none."""
    equals = split_at(text[start:end], " =")
    if not equals:
        return None
    begins = start + equals[0] + 2
    return Case(text[start:end].split()[0], text[start:start + equals[0]], begins, start + len(text[start:end].rstrip()))


def fields_of(text, start, end):
    """The fields of a record."""
    for it in re.finditer(r"^  (?:pub )?([\w-]+(?: [\w-]+)*) :((?:.|\n    )*)", text[start:end], re.M):
        yield Case(it[1], it[1], start + it.start(2), start + it.end(2))


def definitions_of(text):
    """All definitions of the file, in order."""
    found, open_name, gives, cases = [], None, "", []

    def close():
        if open_name and cases:
            found.append(Definition(open_name, gives, False, tuple(cases)))

    for start, end in items_of(text):
        item = text[start:end]
        head = HEAD.match(item)
        if head and head[1]:
            found.append(Definition(head[2], "", True, tuple(fields_of(text, start, end))))
            continue
        if open_name and item.split()[0] == open_name:
            case = case_of(text, start, end)
            cases += [case] if case else []
        elif head and " : " in item and not item.startswith(("use ", "pub use ", "mod ", "pub mod ", "open ")):
            close()
            result = RESULT.search(item)
            open_name, gives, cases = head[2], result[1] if result else "", []
    close()
    return found
