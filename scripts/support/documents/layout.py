"""How texts are laid out: no blanks at the ends of lines, no path of a machine, tables whose rows have all cells."""
import re
from pathlib import Path
from typing import Dict, Iterator, List

from support.documents.texts import Document, Finding, texts

BLANKS = re.compile(r"[ \t\r]+$")
MACHINE = re.compile(r"(?<![\w.}*/)-])/(?:work|home|opt|root|tmp|Users|mnt)\b")
# README's tables are read at a glance: the most words of a cell.
MOST_WORDS = 40
COLUMNS = 120
# README is one page, which shows what it is about.
MOST_LINES = 120
PICTURES = ("docs/pictures/fenced.svg", "docs/pictures/timeline.svg")
CELL = re.compile(r"(?<!\\)\|")


def check(top: Path, found: Dict[str, Document]) -> Iterator[Finding]:
    """What is wrong about the lines of texts and the tables of documents."""
    yield from check_texts(top)
    yield from check_front(found["README.md"])
    for document in found.values():
        yield from check_tables(document)
        yield from check_prose(document)


def check_texts(top: Path) -> Iterator[Finding]:
    """What is wrong about the lines of any text."""
    for path, text in texts(top):
        for n, line in enumerate(text.split("\n"), 1):
            if BLANKS.search(line):
                yield Finding(path, n, "blanks at the end of the line")
            if found := MACHINE.search(line):
                yield Finding(path, n, f"a path of a machine: {found[0]}")


def check_prose(document: Document) -> Iterator[Finding]:
    """Lines have at most 120 columns, except for rows of tables and marks."""
    for n, line in document.prose:
        if len(line) > COLUMNS and not line.startswith(("|", "<!--")):
            yield Finding(document.path, n, f"{len(line)} columns; at most {COLUMNS} are allowed")


def check_front(document: Document) -> Iterator[Finding]:
    """README has at most `MOST_LINES` lines, and shows the hosts and a timeline."""
    lines = document.text.rstrip("\n").split("\n")
    if len(lines) > MOST_LINES:
        yield Finding(document.path, MOST_LINES + 1, f"{len(lines)} lines; at most {MOST_LINES} are allowed")
    targets = [target for _, target in document.links]
    for it in PICTURES:
        if it not in targets:
            yield Finding(document.path, 1, f"does not show {it}")


def cells_of(row: str) -> int:
    return len(CELL.findall(row.strip().strip("|"))) + 1


def check_tables(document: Document) -> Iterator[Finding]:
    """Each row of a table has as many cells as its head."""
    head: List[str] = []
    last = 0
    for n, line in document.prose:
        if not line.startswith("|"):
            continue
        head = head if n == last + 1 else [line]
        last = n
        if cells_of(line) != cells_of(head[0]):
            yield Finding(document.path, n, f"{cells_of(line)} cells in the row of a table of {cells_of(head[0])}")
        longest = max(len(cell.split()) for cell in CELL.split(line.strip().strip("|")))
        if document.path == "README.md" and longest > MOST_WORDS:
            yield Finding(document.path, n, f"a cell of {longest} words; at most {MOST_WORDS} are allowed")
