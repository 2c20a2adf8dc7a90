"""What documents name is in the repository: paths, crates, definitions, links; the picture has the crates, and the
manual pages the lines of scripts and of sessions."""
import re
import xml.etree.ElementTree as xml
from functools import lru_cache
from pathlib import Path
from typing import Dict, FrozenSet, Iterator, List, Tuple

from support.definitions.items import File, read_antt
from support.documents.texts import CRATE_PARTS, Document, Finding, crates, uses

PATH = re.compile(r"(?:\./)?[\w.*-]+(?:/[\w.*{},-]+)*/?$")
FILE = re.compile(r"[\w-]+\.(?:md|rt|antt|py|txt|nvme|svg|edit|record|1)$")
PLACE = re.compile(r"\b(?:NAME|CRATE|TOPIC|TYPE|FUNCTION|MEANING)\b")
FOLDERS = ("crates", "docs", "scripts", "bench", "man", ".ci", "clients")
PARTS = ("src", "specs", "proofs", "data", "must-fail", "wrong-bodies")
CRATE = re.compile(r"(?:nvme|script|part|fleet|controller)_[a-z0-9_]+$")
WORD = re.compile(r"[A-Za-z_]\w*")
# Modules of definitions that a table need not name.
ASIDE = re.compile(r"^(?:Lib|Example\w*|\w+(?:Examples|Laws))$")
# A link from a name to a source, and what a source of code defines.
NAMED_LINK = re.compile(r"\[`([\w:]+)`\]\(([^()\s#]+\.(?:antt|rt))\)")
ITEM = re.compile(r"\b(?:fn|struct|enum|trait|type|const|mod) (\w+)")
# The mark before a file that the reader is asked to save.
SAVED = re.compile(r"^<!-- file: (\S+) -->$", re.M)
CARRIED = re.compile(r"Carried by ((?:`[\w:]+`(?:,| and)? ?)+)")
# The documents that cite definitions, and the picture.
CITING = ("README.md", "docs/ARCHITECTURE.md", "docs/CONTRIBUTING.md", "docs/DECISIONS.md", "docs/PROOFS.md",
          "docs/PROVED.md", "docs/THEOREMS.md")
PICTURE = "docs/pictures/layers.svg"
# The timeline in README, and the script that it shows.
TIMELINE = "docs/pictures/timeline.svg"
TIMED = "crates/nvme_examples/data/fenced.nvme"
# The documents that have each crate, each module of definitions, and what is proved of each crate.
CRATES = "docs/ARCHITECTURE.md"
CONTRACTS = "docs/PROVED.md"
SECTION = "Crate by crate"
# Each manual page, and the part of a document whose tables have the forms of its lines.
USING = "docs/USING.md"
MANUALS = (("man/nvmesim.1", USING, "Lines after `start`", re.compile(r"\| `([a-z0-9]+ C[^`]*)` \|")),
           ("man/nvmelive.1", USING, "Lines of a session", re.compile(r"\| `(\?[^`]*)` \|")))


def check(top: Path, found: Dict[str, Document]) -> Iterator[Finding]:
    """All faults of names."""
    for document in found.values():
        yield from check_paths(top, document)
        yield from check_definitions(top, document)
        yield from check_links(top, document, found)
        yield from check_named_links(top, document)
    for one in (check_crates, check_modules, check_contracts, check_manual):
        yield from one(top, found)
    yield from check_picture(top)
    yield from check_timeline(top)


def globs(text: str) -> List[str]:
    """The patterns of a path: NAME and other placeholders represent anything, {a,b} for one of them."""
    found = re.search(r"\{([\w,]+)\}", text)
    if found:
        return [it for one in found[1].split(",") for it in globs(text.replace(found[0], one, 1))]
    return [re.sub(r"\.\.", "*", PLACE.sub("*", text))]


def is_there(top: Path, text: str) -> bool:
    """Whether a path of a document is in the repository: from the top, from crates, or in a crate."""
    for pattern in globs(text.rstrip("/")):
        tries = [f"{begin}{pattern}{end}" for begin in ("", "crates/", "crates/*/") for end in ("", ".antt", ".rt")]
        if not any(any(top.glob(it)) for it in tries):
            return False
    return True


def is_made(text: str) -> bool:
    """Whether a path is a build product."""
    return "out" in text.split("/")


def check_paths(top: Path, document: Document) -> Iterator[Finding]:
    """Each path or file at the beginning of a code span exists, or is one that the reader is asked to save."""
    saved = SAVED.findall(document.text)
    for n, span in document.spans:
        word = span.split()[0] if span.split() else ""
        of_folder = word.removeprefix("./").split("/")[0]
        if "::" in word or word.startswith(".."):
            continue
        is_known = of_folder in (*FOLDERS, *PARTS, *crates(top)) or "." in word
        is_path = PATH.match(word) and "/" in word and is_known
        if word in saved:
            continue
        if is_path and not is_made(word) and not is_there(top, word.removeprefix("./")):
            yield Finding(document.path, n, f"{word} is missing")
        elif FILE.match(word) and not is_path and not PLACE.match(word) and not any(named(top, word)):
            yield Finding(document.path, n, f"no file is called {word}")


def named(top: Path, name: str) -> Iterator[Path]:
    """The files of this name, except for what a build makes."""
    for pattern in ("", "crates/*/", *(f"crates/*/{it}/**/" for it in PARTS), *(f"{it}/**/" for it in FOLDERS[1:])):
        yield from top.glob(pattern + name)


def check_crates(top: Path, found: Dict[str, Document]) -> Iterator[Finding]:
    """The architecture has each crate in a table, and no document names a crate that does not exist."""
    known = crates(top)
    of_kit = {it for _, names in uses(top) for it in names}
    for document in found.values():
        heads = [line.split("|")[1] for _, line in document.prose if line.startswith("|")]
        rows = {name for head in heads for name in SPANS.findall(head)}
        if document.path == CRATES:
            for name in known:
                if name not in rows:
                    yield Finding(document.path, 1, f"no table has the crate {name}")
        for n, span in document.spans:
            name = span.split("::")[0].split("/")[0]
            if CRATE.match(name) and name not in known and name not in of_kit and not is_word(top, name):
                yield Finding(document.path, n, f"crates.txt has no crate {name}")


def check_modules(top: Path, found: Dict[str, Document]) -> Iterator[Finding]:
    """A table has each module of definitions, except for those of examples and of laws."""
    modules = {it.stem for it in (top / "crates/nvme_spec/specs").glob("*.antt")}
    rows = {name for _, line in found[CONTRACTS].prose if line.startswith("|") for name in SPANS.findall(line)}
    for name in sorted(modules - rows):
        if not ASIDE.search(name):
            yield Finding(CONTRACTS, 1, f"no table has the module {name}")


def check_contracts(top: Path, found: Dict[str, Document]) -> Iterator[Finding]:
    """docs/PROVED.md has a section for each crate, or names it before them as one without a statement."""
    first, end = found[CONTRACTS].section(SECTION)
    inner = [(n, heading) for heading, n, _ in found[CONTRACTS].sections() if first < n < end]
    begin = min(inner, default=(end,))[0]
    told = [*(it for _, it in inner), *(span for n, span in found[CONTRACTS].spans if first < n < begin)]
    for name in sorted({*crates(top), *told}):
        if told.count(name) != 1 or name not in crates(top):
            yield Finding(CONTRACTS, first, f"{name} is no crate, or is not here exactly once")


SPANS = re.compile(r"`(\w+)`")
# Words of proofs, which only the page on proofs may cite: lemmas, tactics, parts of goals' names.
PROOFS = "docs/PROOFS.md"


@lru_cache(maxsize=None)
def words_of(top: Path, *parts: str) -> FrozenSet[str]:
    """The words in these parts of the crates."""
    paths = (it for part in parts for it in top.glob(f"crates/*/{part}/**/*.*"))
    return frozenset(word for it in paths for word in WORD.findall(code_of(it.read_text(encoding="utf-8"))))


@lru_cache(maxsize=None)
def files_of(top: Path) -> FrozenSet[str]:
    """The names of crates and of their files."""
    return frozenset((*crates(top), *(it.stem for part in CRATE_PARTS for it in top.glob(f"crates/*/{part}/**/*.*"))))


def is_word(top: Path, name: str) -> bool:
    """Whether a source or a definition has this word, or a file of the crates is called so."""
    return name in files_of(top) or name in words_of(top, "src", "specs")


def code_of(text: str) -> str:
    """A source without its comments."""
    return re.sub(r"(?m)^\s*(//|--).*$", "", text)


def check_definitions(top: Path, document: Document) -> Iterator[Finding]:
    """Each name of a definition, a function or a type that a code span has is one; what carries a theorem is a law."""
    if document.path not in CITING:
        return
    for n, span in document.spans:
        for name in [] if "/" in span or FILE.match(span) else WORD.findall(span):
            is_name = not name.isupper() and ("_" in name or name[:1].isupper())
            is_cited = is_word(top, name) or document.path == PROOFS and name in words_of(top, "proofs")
            if is_name and not is_cited:
                yield Finding(document.path, n, f"no definition or function is called {name}")
    laws = "\n".join(it.read_text(encoding="utf-8") for it in top.glob("crates/*/src/laws.rt"))
    for first, paragraph in document.paragraphs():
        for found in CARRIED.finditer(paragraph.replace("\n", " ")):
            for name in re.findall(r"`(\w+)`", found[1]):
                if not re.search(rf"\bfn {name}\b", laws):
                    yield Finding(document.path, first, f"no law is called {name}")


def check_links(top: Path, document: Document, found: Dict[str, Document]) -> Iterator[Finding]:
    """Each relative link leads to a file, and to a heading if it names one."""
    for n, target in document.links:
        if re.match(r"[a-z]+:", target):
            continue
        file, _, anchor = target.partition("#")
        path = (top / document.path).parent / file if file else top / document.path
        name = str(Path(*path.resolve().relative_to(top.resolve()).parts)) if path.exists() else ""
        if not name:
            yield Finding(document.path, n, f"a link to {file}, which is missing")
        elif anchor and (name not in found or anchor not in found[name].anchors):
            yield Finding(document.path, n, f"a link to #{anchor}, which {name} has not")


@lru_cache(maxsize=None)
def defined_in(text: str, is_spec: bool) -> FrozenSet[str]:
    """The names that a source defines: definitions and constructors of specs, items of code."""
    if not is_spec:
        return frozenset(ITEM.findall(code_of(text)))
    file = File("", "specs/", text)
    read_antt(file)
    return frozenset(file.names)


def check_named_links(top: Path, document: Document) -> Iterator[Finding]:
    """A link named after a definition, as [`Step`](crates/nvme_machine/specs/Subsystems.antt), leads to its file."""
    for n, (name, target) in ((n, it.groups()) for n, line in document.prose for it in NAMED_LINK.finditer(line)):
        path = (top / document.path).parent / target
        is_spec = path.suffix == ".antt"
        if path.is_file() and name.split("::")[-1] not in defined_in(path.read_text(encoding="utf-8"), is_spec):
            yield Finding(document.path, n, f"a link to {name}, which {target.split('crates/')[-1]} does not define")


def check_manual(top: Path, found: Dict[str, Document]) -> Iterator[Finding]:
    """Each manual page has the form of each line that its document has."""
    for manual, path, wanted, row in MANUALS:
        lines = (top / manual).read_text(encoding="utf-8").split("\n")
        first, end = found[path].section(wanted)
        for n, line in found[path].prose:
            cell = row.match(line)
            if cell and first < n < end and cell[1] not in lines:
                yield Finding(manual, 1, f"no line {cell[1]}")


def check_timeline(top: Path) -> Iterator[Finding]:
    """The timeline has the events of its script, in order."""
    space = "{http://www.w3.org/2000/svg}"
    texts = xml.parse(top / TIMELINE).getroot().iter(space + "tspan")
    shown = [it.text for it in texts if it.get("class") == "line"]
    lines = (top / TIMED).read_text(encoding="utf-8").split("\n")
    events = [it for it in lines[lines.index("start") + 1:] if it and not it.startswith("#")]
    if shown != events:
        yield Finding(TIMELINE, 1, f"its events are not those of {TIMED}")


def check_picture(top: Path) -> Iterator[Finding]:
    """The picture has each crate once, above or to the left of what it depends on; and a title and a description."""
    root = xml.parse(top / PICTURE).getroot()
    space = "{http://www.w3.org/2000/svg}"
    if any(root.find(space + it) is None for it in ("title", "desc")):
        yield Finding(PICTURE, 1, "no title, or no description")
    places: Dict[str, Tuple[int, int]] = {}
    for text in root.iter(space + "text"):
        if text.get("class") == "crate":
            name = text.text or ""
            if name in places or name not in crates(top):
                yield Finding(PICTURE, 1, f"{name} is there twice, or is no crate")
            place = (int(text.get("y", 0)), int(text.get("x", 0)))
            if place in places.values():
                yield Finding(PICTURE, 1, f"{name} covers another crate")
            places[name] = place
    for name, below in uses(top):
        if name not in places:
            yield Finding(PICTURE, 1, f"{name} is missing")
            continue
        for other in below:
            if other in places and places[other] <= places[name]:
                yield Finding(PICTURE, 1, f"{name} depends on {other}, which is above it or to its left")
