"""Tables and lists of documents that have all of what the code has, and nothing else: files that make system calls,
calls that take memory, and the places to edit for a new member."""
import re
from pathlib import Path
from typing import Dict, Iterator, Tuple

from support.documents.allowed import lists
from support.documents.names import code_of
from support.documents.program import Source
from support.documents.taking import TESTS, sources
from support.documents.texts import Document, Finding, crates

# The sources that make system calls, which no contract covers, with their numbers of lines.
AUDITED, AUDIT = "docs/PROVED.md", "Files to audit by hand"
ROW = re.compile(r"\| `(crates/[\w/]+\.rt)` \| (\d+) \|")
# What of the standard library is the system's: files, streams, arguments, the runtime that has them.
SYSTEM = ("env", "fs", "net", "os", "process", "rt", "thread")
# The public calls that take memory.
TAKING, MEMORY = "docs/ARCHITECTURE.md", "Memory"
# A function that anyone may call, with its indentation, up to its parameters' end; the type or trait that it belongs
# to; and an allocator, or a runtime that has one: what a module has for its crate alone may have another that gives it.
CALL = re.compile(r"^( *)pub fn (\w+)[^({]*(?:<[^(]*>)?\(([^)]*)\)", re.M)
OWNER = re.compile(r"^(?:pub )?(?:impl(?:<.*?>)? (?:[\w:<>, ]+ for )?|trait )(\w+)", re.M)
GIVEN = re.compile(r"\balloc: |\brt: &")
# The lists of places. Each begins with words such as: Search for `Compare`. The compiler and the check name most places
# of a new member, but a list without one claims that there is none.
LISTS = "docs/CONTRIBUTING.md"
SOUGHT = re.compile(r"[Ss]earch for `(\w+)`")
HEADING = re.compile(r"^Adding ")
IMPORT = re.compile(r"^(?:ghost )?(?:pub )?use [^{\n]*(?:\{[^}]*\})?.*$", re.M)
# Files that speak of a member by choice: examples, example runs, laws, tests and measurements.
BY_CHOICE = re.compile(r"/(?:examples|laws|tests)(?:/|\.rt$)|_examples\.rt$"
                       r"|crates/(?:nvme_bench|definition_examples|nvme_session_runs)/")


def lines_of(document: Document, heading: str) -> Iterator[Tuple[int, str]]:
    """The lines of a section."""
    first, end = document.section(heading)
    return ((n, line) for n, line in document.prose if first < n < end)


def calls_the_system(source: Source) -> bool:
    """Whether a source names the operating system: by an import, by a path or as the runtime parameter of `main`."""
    named = any(it.is_name("HostRuntime") for it in source.code)
    paths = zip(source.code, source.code[1:], source.code[2:])
    return named or any(one.is_name("std", "core") and sign.is_sign("::") and it.is_name(*SYSTEM) for one, sign, it in paths) \
        or any(it.path[0] in ("std", "core") and len(it.path) > 1 and it.path[1] in SYSTEM for it in source.uses)


def check_audited(top: Path, found: Dict[str, Document]) -> Iterator[Finding]:
    """The table has these files and no other, each with as many lines as it has."""
    rows = ((n, ROW.match(line)) for n, line in lines_of(found[AUDITED], AUDIT))
    listed = {it[1]: (n, int(it[2])) for n, it in rows if it}
    wanted = {path for path, source in sources(top).items()
              if not TESTS.match(path.split("/")[1]) and calls_the_system(source)}
    for path in sorted(wanted - listed.keys()):
        yield Finding(AUDITED, 1, f"{path} calls the system, and no row of '{AUDIT}' has it")
    for path, (n, count) in listed.items():
        if path not in wanted:
            yield Finding(AUDITED, n, f"{path} does not call the system")
        elif (size := (top / path).read_text(encoding="utf-8").count("\n")) != count:
            yield Finding(AUDITED, n, f"{path} has {size} lines")


def taking_calls(top: Path) -> Iterator[Tuple[str, str]]:
    """Each public call that takes memory by the list of these, as documents name it, and its file."""
    taking = {key for key, row in lists().rows.items() if row.is_taking}
    for name in (it for it in crates(top) if not TESTS.match(it)):
        for path in sorted((top / "crates" / name / "src").glob("**/*.rt")):
            text, file = code_of(path.read_text(encoding="utf-8")), str(path.relative_to(top))
            owners = [(it.start(), it[1]) for it in OWNER.finditer(text)]
            for found in CALL.finditer(text):
                owner = [it for at, it in owners if at < found.start()][-1:] if found[1] else []
                function = "::".join([*owner, found[2]])
                if (file, function) in taking and GIVEN.search(found[3]):
                    yield function, file


def check_memory(top: Path, found: Dict[str, Document]) -> Iterator[Finding]:
    """The table has the calls that take memory in its first cells."""
    told = {name: n for n, line in lines_of(found[TAKING], MEMORY) if line.startswith("|")
            for name in re.findall(r"`([\w:]+)`", line.split("|")[1])}
    known = dict(taking_calls(top))
    for name in sorted(known.keys() - told.keys()):
        yield Finding(known[name], 1, f"{name} takes memory, and no row of {TAKING} names it")
    for name in sorted(told.keys() - known.keys()):
        yield Finding(TAKING, told[name], f"no public call {name} takes memory")


def files_with(top: Path, word: str) -> Iterator[Path]:
    """The files of code and of definitions that name a word outside their imports."""
    for part, ending in (("src", "rt"), ("specs", "antt")):
        for path in sorted(top.glob(f"crates/*/{part}/**/*.{ending}")):
            text = IMPORT.sub("", code_of(path.read_text(encoding="utf-8")))
            if not BY_CHOICE.search(path.as_posix()) and re.search(rf"\b{word}\b", text):
                yield path


def check_places(top: Path, found: Dict[str, Document]) -> Iterator[Finding]:
    """Each file with a word that is looked for is in the lists: one may send its reader to another."""
    document = found[LISTS]
    sections = [(first, end) for heading, first, end in document.sections() if HEADING.match(heading)]
    named = {word for n, span in document.spans if any(first < n < end for first, end in sections)
             for word in re.findall(r"\w+", span)}
    for n, line in document.prose:
        for word in SOUGHT.findall(line):
            for path in files_with(top, word):
                if path.stem not in named:
                    yield Finding(LISTS, n, f"no list has {path.relative_to(top)}, which names {word}")


def check(top: Path, found: Dict[str, Document]) -> Iterator[Finding]:
    """All faults of these tables and lists."""
    for part in (check_audited, check_memory, check_places):
        yield from part(top, found)
