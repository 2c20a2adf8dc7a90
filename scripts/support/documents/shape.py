"""Limits on the size of files and functions, so that each can be read in one go, and on the width of lines."""
import re
from pathlib import Path
from typing import Dict, Iterator, List, Tuple

from support import source
from support.documents.texts import CRATE_PARTS, Finding, crates

MOST_COLUMNS = 120
# The formatter puts an attribute on one line.
ATTRIBUTE = re.compile(r"\s*#!?\[")
MOST_LINES = 499
MOST_BODY = 39
MOST_PARAMETERS = 6
SUFFIXES = ("*.rt", "*.py", "*.c", "*.h", "*.rs")
FOLDERS = ("crates", "clients", "scripts", "bench")
# Functions whose bodies have more lines, or that have more parameters: their numbers, and why. These lists only become
# shorter, and their numbers smaller, except for exports: C hands over one field at a time.
TABLE = "a table, of a line or two for each case"
LONG_BODIES: Dict[Tuple[str, str], Tuple[int, str]] = {
    ("crates/nvme_grammar/src/keyword.rt", "Keyword::places"): (67, TABLE),
    ("crates/nvme_program/src/reason.rt", "ReasonDisplay::fmt"): (59, TABLE),
    ("crates/controller_tests/src/tests/ns.rt", "tests::ns::faults_are_named"): (43, TABLE),
    ("crates/controller_tests/src/tests/driver.rt", "tests::driver::an_unknown_completion_fails_the_driver"):
        (43, TABLE),
    ("crates/nvme_transcript/src/short.rt", "short::put_line"): (41, TABLE),
}
LENT = "each borrowed part is a parameter, so that a contract can name it: streams, medium, window, marks"
MANY_PARAMETERS: Dict[Tuple[str, str], Tuple[int, str]] = {
    ("crates/nvme_exec/src/admission.rt", "admission::admit"): (7, LENT),
    ("crates/nvme_exec/src/carrying.rt", "carrying::carry_out"): (7, LENT),
    ("crates/nvme_exec/src/execution.rt", "execution::execute_into"): (7, LENT),
    ("crates/nvme_exec/src/execution.rt", "execution::perform"): (7, LENT),
    ("crates/nvme_library/src/opening.rt", "opening::nvmesim_open"): (8, "what C hands over: lists and their lengths"),
    ("crates/nvme_library/src/reading.rt", "reading::nvmesim_read_configuration"):
        (8, "what C hands over: lists and their lengths"),
    ("crates/nvme_library/src/opening.rt", "opening::nvmesim_open_lent"):
        (8, "what C hands over: lists and their lengths"),
    ("crates/nvme_library/src/opening.rt", "opening::nvmesim_open_brought"):
        (8, "what C hands over: lists and their lengths"),
    ("crates/nvme_library/src/over.rt", "over::nvmesim_execute_over"): (8, "what C hands over: a room and its blocks"),
    ("crates/nvme_library/src/completing_over.rt", "completing_over::nvmesim_complete_over"):
        (9, "what C hands over: a room, its blocks and a buffer"),
    ("crates/nvme_library/src/placing.rt", "placing::nvmesim_place"): (7, "what C hands over: an entry and its data"),
    ("crates/nvme_host/src/reservations.rt", "reservations::nvmehost_register"):
        (8, "what C hands over: the fields of the command"),
    ("crates/nvme_host/src/reservations.rt", "reservations::nvmehost_acquire"):
        (7, "what C hands over: the fields of the command"),
    ("crates/nvme_script/src/program.rt", "program::run_over"): (7, LENT),
    ("crates/nvme_script/src/run.rt", "run::run_event"): (8, LENT),
    ("crates/nvme_script/src/run.rt", "run::run_events"): (7, LENT),
    ("crates/nvme_live/src/conversation.rt", "conversation::set_up"): (9, LENT),
    ("crates/nvme_live/src/conversation.rt", "conversation::converse"): (9, LENT),
    ("crates/nvme_live/src/session.rt", "session::start"): (8, LENT),
    ("crates/nvme_live/src/session.rt", "session::run_from_start"): (9, LENT),
}
SELF = re.compile(r"(?:&(?:'\w+ )?)?(?:mut )?self(?:: .*)?")
NAME = re.compile(r"\bfn \w+")
HERE = "scripts/support/documents/shape.py"


def parameters_of(head: str) -> int:
    """How many parameters the head of a function has, without `self`."""
    plain = head.replace("->", "  ")
    begin = plain.index("(", end_of_name(plain))
    depth, parts = 0, [""]
    for letter in plain[begin:]:
        depth += (letter in "([{<") - (letter in ")]}>")
        if depth == 0:
            break
        if depth == 1 and letter == ",":
            parts.append("")
        else:
            parts[-1] += letter
    parts[0] = parts[0][1:]
    return sum(bool(it.strip()) and not SELF.fullmatch(it.strip()) for it in parts)


def end_of_name(head: str) -> int:
    """The end of a function's name and of its generic parameters."""
    at, depth = NAME.search(head).end(), 0
    while head[at] == "<" or depth:
        depth += (head[at] == "<") - (head[at] == ">")
        at += 1
    return at


def too_large(name, size: int, most: int, known: Dict, seen: Dict) -> bool:
    """Whether something is too large; records the size of a listed exception."""
    if size <= most:
        return False
    seen[name] = size
    return size > known.get(name, (most, ""))[0]


def check_functions(path: str, text: str, bodies: Dict, heads: Dict) -> Iterator[Finding]:
    """The functions of one file of a crate."""
    lines = text.split("\n")
    for it in source.functions_of(text, path.split("/src/", 1)[1] if "/src/" in path else path):
        name, body = (path, it.name), it.last - it.body + 1
        if too_large(name, body, MOST_BODY, LONG_BODIES, bodies):
            yield Finding(path, it.first + 1, f"the body of {it.name} has {body} lines; at most {MOST_BODY} are allowed")
        head = "\n".join(line for line in lines[it.first:it.body + 1]
                         if not line.lstrip().startswith(("//", "#[")))
        count = parameters_of(head)
        if too_large(name, count, MOST_PARAMETERS, MANY_PARAMETERS, heads):
            yield Finding(path, it.first + 1, f"{it.name} has {count} parameters; at most {MOST_PARAMETERS} are allowed")


def check_widths(top: Path) -> Iterator[Finding]:
    """The lines of the crates' sources, definitions and proofs."""
    for path in sorted(path for part in CRATE_PARTS for path in top.glob(f"crates/*/{part}/**/*")):
        for n, line in enumerate(path.read_text(encoding="utf-8").split("\n") if path.is_file() else (), 1):
            if len(line) > MOST_COLUMNS and not ATTRIBUTE.match(line):
                yield Finding(str(path.relative_to(top)), n, f"{len(line)} columns; at most {MOST_COLUMNS} are allowed")


def known_still(known: Dict, seen: Dict) -> Iterator[Finding]:
    """Entries of a list of exceptions that allow more than there is."""
    for name, (size, _) in known.items():
        if seen.get(name, 0) < size:
            yield Finding(HERE, 1, f"{name} has {seen.get(name, 'no more than others')}, and {size} are allowed")


def check(top: Path, _found: object) -> Iterator[Finding]:
    """Files have fewer than 500 lines, functions fewer than 40 lines and at most six parameters; lines at most 120
    columns."""
    yield from check_widths(top)
    bodies: Dict[Tuple[str, str], int] = {}
    heads: Dict[Tuple[str, str], int] = {}
    paths: List[Path] = sorted(path for folder in FOLDERS for it in SUFFIXES for path in (top / folder).glob(f"**/{it}")
                               if not {"out", "target"} & set(path.relative_to(top).parts))
    for path in paths:
        name, text = str(path.relative_to(top)), path.read_text(encoding="utf-8")
        size = text.count("\n")
        if size > MOST_LINES:
            yield Finding(name, 1, f"{size} lines; at most {MOST_LINES} are allowed")
    for crate in crates(top):
        for path in sorted((top / "crates" / crate / "src").glob("**/*.rt")):
            yield from check_functions(str(path.relative_to(top)), path.read_text(encoding="utf-8"), bodies, heads)
    yield from known_still(LONG_BODIES, bodies)
    yield from known_still(MANY_PARAMETERS, heads)
