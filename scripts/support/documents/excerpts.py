"""Excerpts of code in documents: each names its file, and is equal to a part of it."""
import re
from pathlib import Path
from typing import Dict, Iterator, List, Tuple

from support.documents.texts import Document, Fence, Finding

# What only code, contracts and definitions have.
CODE = re.compile(r"[≡≢→ℕλ]|^\s*(pub |abbrev |unfoldable |ensures |requires |fn |ghost )"
                  r"|^\s*\w+( \w+| \([^)]*\))+ = ", re.M)
ELISION = ".."


def check(top: Path, found: Dict[str, Document]) -> Iterator[Finding]:
    """Faults of the code in documents."""
    for document in found.values():
        yield from check_document(top, document)


def check_document(top: Path, document: Document) -> Iterator[Finding]:
    for fence in document.fences:
        if fence.files is not None:
            for line, what in faults_of(top, fence):
                yield Finding(document.path, line, what)
        elif CODE.search("\n".join(fence.lines)):
            yield Finding(document.path, fence.line, "code without a mark <!-- excerpt: FILE --> in the line before")
    for n, line in enumerate(document.lines, 1):
        if line.startswith("    ") and CODE.search(line) and not any(holds(it, n) for it in document.fences):
            yield Finding(document.path, n, "code in an indented block: it belongs into a fence with a mark")


def holds(fence: Fence, line: int) -> bool:
    return fence.line <= line <= fence.line + len(fence.lines) + 1


def faults_of(top: Path, fence: Fence) -> Iterator[Tuple[int, str]]:
    """The lines of a marked fence if it is not what its files have. Each part of it, between blank lines, is in
    one of the files; the parts of one file in its order."""
    sources = {}
    for name in fence.files or []:
        if not (top / name).is_file():
            yield fence.line - 1, f"an excerpt of {name}, which is missing"
            return
        sources[name] = without_comments(name, (top / name).read_text(encoding="utf-8"))
    begins = dict.fromkeys(sources, 0)
    for first, part in parts_of(fence):
        pattern = pattern_of(part)
        for name, text in sources.items():
            if match := pattern.search(text, begins[name]):
                begins[name] = match.end()
                break
        else:
            yield first, f"not so in {' or '.join(sources)}: {part[0].strip()}"


def parts_of(fence: Fence) -> Iterator[Tuple[int, List[str]]]:
    """The parts of a fence between blank lines, each with the number of its first line."""
    part: List[str] = []
    for n, line in enumerate([*fence.lines, ""], fence.line + 1):
        if line.strip():
            part.append(line)
        elif part:
            yield n - len(part), part
            part = []


def without_comments(name: str, text: str) -> str:
    """A source without comments that fill a line."""
    comment = "#" if name.endswith(".nvme") else ("--", "//")
    return "".join(f"{line}\n" for line in text.split("\n") if not line.lstrip().startswith(comment))


def pattern_of(part: List[str]) -> "re.Pattern[str]":
    """Finds a part: its lines follow one another except for an elision, and after the last of them the source does not
    continue with an indented line, or with a clause of the same name."""
    text, is_elided = "^", False
    for line in part:
        if line.strip() == ELISION and text != "^":
            is_elided = True
            continue
        same = rf"[ \t]*{re.escape(line.strip())}[ \t]*\n"
        text, is_elided = text + rf"(?:(?!{same}).*\n)*" * is_elided + same, False
    clauses = [line.split()[0] for line in part if line[:1].strip()]
    end = "(?! )" + "".join(rf"(?!{re.escape(it)} )" for it in clauses[-1:])
    return re.compile(text + ("" if is_elided else end), re.M)
