"""The repository's texts, and a document of Markdown parsed: fences, code spans, links, headings, tables."""
import re
from dataclasses import dataclass, field
from functools import cached_property
from pathlib import Path
from typing import Dict, Iterator, List, Optional, Tuple

# Texts that people read: these at the top, and all files with these endings in these folders.
TOP_TEXTS = ("README.md", "CONTRIBUTING.md", "CHANGELOG.md", "nvmesim", "nvmelive", "nvmetcp", "crates.txt")
FOLDERS = ("docs", "man", "scripts", "bench", ".ci", "clients")
CRATE_PARTS = ("src", "specs", "proofs")
# Crates that are programs or tests.
OTHERS = re.compile(r".*_(?:tests|bench|examples)$|nvmesim$")

FENCE = re.compile(r"^(```+|~~~+)\s*(\w*)\s*$")
MARK = re.compile(r"^<!-- excerpt: (.+?) -->$")
HEADING = re.compile(r"^(#+) +(.*?) *#*$")
SPAN = re.compile(r"(?<!`)`([^`]+)`(?!`)")
LINK = re.compile(r"\]\(([^()\s]+)\)")


@dataclass(frozen=True)
class Finding:
    """A fault at a line of a text, from 1."""
    path: str
    line: int
    what: str

    def __str__(self) -> str:
        return f"{self.path}:{self.line}: {self.what}"


@dataclass
class Fence:
    """A fenced block: the line of its first fence, its language, its lines, and the files of its mark, if any."""
    line: int
    language: str
    lines: List[str] = field(default_factory=list)
    files: Optional[List[str]] = None


@dataclass
class Document:
    """One document of Markdown, by its path from the top."""
    path: str
    text: str

    @cached_property
    def lines(self) -> List[str]:
        return self.text.split("\n")

    @cached_property
    def fences(self) -> List[Fence]:
        return list(fences_of(self.lines))

    @cached_property
    def prose(self) -> List[Tuple[int, str]]:
        """The lines outside fences and indented blocks, with their numbers; what is between is left out."""
        inside = {n for it in self.fences for n in range(it.line, it.line + len(it.lines) + 2)}
        return [(n, line) for n, line in enumerate(self.lines, 1) if n not in inside and not line.startswith("    ")]

    @property
    def spans(self) -> Iterator[Tuple[int, str]]:
        """Each code span of the prose with its line; one may continue in the next line."""
        for first, paragraph in self.paragraphs():
            for found in SPAN.finditer(paragraph):
                yield first + paragraph.count("\n", 0, found.start()), found[1].replace("\n", " ")

    def paragraphs(self) -> Iterator[Tuple[int, str]]:
        """The prose in pieces that no code span crosses: between blank lines, rows of tables and gaps."""
        first, piece = 0, []
        for n, line in [*self.prose, (0, "")]:
            is_apart = not line.strip() or line.startswith(("|", "- ")) or n != first + len(piece)
            if piece and is_apart:
                yield first, "\n".join(piece)
                piece = []
            if line.strip():
                first = first if piece else n
                piece.append(line)

    @property
    def links(self) -> Iterator[Tuple[int, str]]:
        """The target of each link and picture of the prose, with its line."""
        for n, line in self.prose:
            for found in LINK.finditer(SPAN.sub("", line)):
                yield n, found[1]

    @cached_property
    def anchors(self) -> List[str]:
        """The anchors of the headings."""
        return [anchor_of(found[2]) for _, line in self.prose if (found := HEADING.match(line))]

    def sections(self) -> Iterator[Tuple[str, int, int]]:
        """Each section below the title: its heading, its first line and the line after its last. Those of lower levels
        are parts of it, and come after it."""
        heads = [(n, len(found[1]), found[2]) for n, line in self.prose if (found := HEADING.match(line))]
        for at, (n, level, heading) in enumerate(heads):
            if level > 1:
                end = next((m for m, other, _ in heads[at + 1:] if other <= level), len(self.lines) + 1)
                yield heading, n, end

    def section(self, wanted: str) -> Tuple[int, int]:
        """The line of a heading, and the line after its section; no lines without such a heading."""
        return next(((first, end) for heading, first, end in self.sections() if heading == wanted), (0, 0))

    def innermost_sections(self) -> Iterator[Tuple[str, int, int]]:
        """Each section that has no section within it."""
        found = list(self.sections())
        for heading, first, end in found:
            if not any(first < other < end for _, other, _ in found):
                yield heading, first, end


def fences_of(lines: List[str]) -> Iterator[Fence]:
    """The fenced blocks of a document."""
    fence = None
    for n, line in enumerate(lines, 1):
        found = FENCE.match(line)
        if fence and found:
            yield fence
            fence = None
        elif fence:
            fence.lines.append(line)
        elif found:
            mark = MARK.match(lines[n - 2]) if n > 1 else None
            fence = Fence(n, found[2], files=mark[1].split() if mark else None)


def anchor_of(heading: str) -> str:
    """The anchor that a heading gets: small letters, no signs, hyphens for blanks."""
    return re.sub(r"[^\w\- ]", "", heading.lower()).replace(" ", "-")


def documents(top: Path) -> Dict[str, Document]:
    """All documents of the repository by their paths, in order."""
    folders = ("*.md", "docs/**/*.md", "clients/**/*.md", "bench/*.md", "crates/*/*.md")
    paths = ((str(it.relative_to(top)), it) for some in folders for it in sorted(top.glob(some)))
    return {path: Document(path, it.read_text(encoding="utf-8")) for path, it in paths}


def texts(top: Path) -> Iterator[Tuple[str, str]]:
    """Each text that people read, the sources of the crates among them, by its path from the top."""
    paths = [top / it for it in TOP_TEXTS]
    for folder in FOLDERS:
        paths += sorted((top / folder).rglob("*"))
    for part in CRATE_PARTS:
        paths += sorted(top.glob(f"crates/*/{part}/**/*"))
    for path in paths:
        if path.is_file() and not {"__pycache__", "out", "target"} & set(path.relative_to(top).parts):
            yield str(path.relative_to(top)), path.read_text(encoding="utf-8", errors="replace")


def crates(top: Path) -> List[str]:
    """The crates of crates.txt, lowest first."""
    return [name for name, _ in uses(top)]


def uses(top: Path) -> List[Tuple[str, List[str]]]:
    """Each crate of crates.txt with the names after it."""
    lines = (top / "crates.txt").read_text(encoding="utf-8").split("\n")
    parts = [line.partition(":") for line in lines if line and not line.startswith("#")]
    # A name may have its kind after it, as in `nvme_library staticlib:`.
    return [(name.split()[0], rest.split()) for name, _, rest in parts]
