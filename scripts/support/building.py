"""The folder out/: the programs that run, those that were proved, and of which sources they are."""
import fcntl
import hashlib
import os
import re
import subprocess
import sys
import tempfile
import time
from pathlib import Path
from typing import Callable, Dict, Iterator, List

from support import toolchain
from support.documents.texts import uses

PROGRAMS = ("nvmesim", "nvmelive")
PARTS = ("src", "specs", "proofs")
# A line on progress in the log of a proof.
PROGRESS = re.compile(r"^\w+: [^:]*\d+ of \d+ crates.*$", re.M)

Tell = Callable[[str], None]


class NotBuilt(Exception):
    """The programs can't be built or proved, with the reason."""


def cone(top: Path) -> List[str]:
    """The crates that the programs are made of, by their names in order."""
    below = dict(uses(top))
    found, left = set(), [it for it in PROGRAMS if it in below]
    while left:
        name = left.pop()
        if name not in found:
            found.add(name)
            left += [it for it in below[name] if it in below]
    return sorted(found)


def listing(top: Path) -> Iterator[str]:
    """What `sha256sum` prints of the sources, in the order of their names: crates.txt, and what is in src, specs and
    proofs of each crate."""
    found = [top / "crates.txt"]
    for name in cone(top):
        found += [it for part in PARTS for it in (top / "crates" / name / part).rglob("*") if it.is_file()]
    for path in sorted(found, key=lambda it: it.relative_to(top).as_posix()):
        yield f"{sum_of(path)}  {path.relative_to(top).as_posix()}\n"


def digest(top: Path) -> str:
    """The SHA-256 of that list."""
    return hashlib.sha256("".join(listing(top)).encode()).hexdigest()


def sum_of(path: Path) -> str:
    """The SHA-256 of a file."""
    return hashlib.sha256(path.read_bytes()).hexdigest()


def write(path: Path, content: bytes, mode: int = 0o644) -> None:
    """Replaces a file atomically."""
    path.parent.mkdir(parents=True, exist_ok=True)
    handle, name = tempfile.mkstemp(dir=path.parent)
    with os.fdopen(handle, "wb") as file:
        file.write(content)
    os.chmod(name, mode)
    os.replace(name, path)


def write_record(path: Path, fields: Dict[str, str]) -> None:
    """Writes a record: a line for each field."""
    write(path, "".join(f"{name}: {value}\n" for name, value in fields.items()).encode())


def record_of(path: Path, sources: str) -> Dict[str, str]:
    """The fields of a record, none if it is missing or of other sources."""
    lines = path.read_text(encoding="utf-8").splitlines() if path.is_file() else []
    fields = dict(line.split(": ", 1) for line in lines if ": " in line)
    return fields if fields.get("sources") == sources else {}


def proof(top: Path, sources: str) -> Dict[str, str]:
    """The record of the proved programs, if both were proved from these sources and are unchanged since."""
    folder = top / "out/proved"
    fields = record_of(folder / "record", sources)
    is_kept = all((folder / it).is_file() and fields.get(it) == sum_of(folder / it) for it in PROGRAMS)
    return fields if is_kept else {}


def gate(top: Path) -> Path:
    """The record of a gate that passed."""
    return top / "out/passed"


def set_times(top: Path, begun: float) -> None:
    """Dates the programs in out/bin to when their sources were read, so that a later change is newer."""
    for name in PROGRAMS:
        os.utime(top / "out/bin" / name, (begun - 1, begun - 1))


def put(top: Path, sources: str, programs: Dict[str, bytes], begun: float) -> None:
    """Puts the programs of these sources into out/bin, where they run."""
    folder = top / "out/bin"
    (folder / "sources").unlink(missing_ok=True)
    for name, program in programs.items():
        write(folder / name, program, 0o755)
    write(folder / "sources", sources.encode())
    set_times(top, begun)


def is_in_place(top: Path, sources: str) -> bool:
    """Whether the programs in out/bin are of these sources."""
    folder = top / "out/bin"
    is_whole = all((folder / it).is_file() for it in (*PROGRAMS, "sources"))
    return is_whole and (folder / "sources").read_text(encoding="utf-8") == sources


def use_proved(top: Path, sources: str, begun: float) -> None:
    """Makes the proved programs those that run."""
    put(top, sources, {it: (top / "out/proved" / it).read_bytes() for it in PROGRAMS}, begun)


def keep(top: Path, sources: str, how: str) -> None:
    """Keeps the programs in crates/*/out as the proved ones of these sources, which run from now on."""
    begun = time.time()
    fields = {"sources": sources, "proved": how, "toolchain": toolchain.ask("version")}
    for name in PROGRAMS:
        program = top / "crates" / name / "out" / name
        if not program.is_file():
            raise NotBuilt(f"there is no program {program}")
        write(top / "out/proved" / name, program.read_bytes(), 0o755)
        fields[name] = sum_of(program)
    write_record(top / "out/proved/record", fields)
    use_proved(top, sources, begun)


def is_proving(top: Path) -> bool:
    """Whether a process proves the programs."""
    if not (top / "out/prove.lock").is_file():
        return False
    with open(top / "out/prove.lock", encoding="utf-8") as file:
        try:
            fcntl.flock(file, fcntl.LOCK_SH | fcntl.LOCK_NB)
        except BlockingIOError:
            return True
    return False


def progress(top: Path) -> str:
    """The progress of a running proof."""
    log = (top / "out/prove.log").read_text(encoding="utf-8", errors="replace")
    return (PROGRESS.findall(log) or ["begun"])[-1]


def describe(top: Path) -> str:
    """How the program is built that would run now."""
    sources = digest(top)
    if fields := proof(top, sources):
        return f"proved {fields['proved']}, of the sources {sources}, by {fields['toolchain']}"
    if is_in_place(top, sources):
        way = f"being proved: {progress(top)}" if is_proving(top) else "./nvmesim --prove proves it"
        return f"built without its proofs, of the sources {sources}; {way}"
    return (f"not built yet, of the sources {sources}; the first run builds it without its proofs, "
            "./nvmesim --prove with")


def prove(top: Path, tell: Tell) -> None:
    """Proves and builds both programs, unless that was done; after another process that does so."""
    (top / "out").mkdir(exist_ok=True)
    with open(top / "out/prove.lock", "w", encoding="utf-8") as held:
        if is_proving(top):
            tell("another process is proving the programs: waiting for it; out/prove.log has its progress")
        fcntl.flock(held, fcntl.LOCK_EX)
        begun, sources = time.time(), digest(top)
        if proof(top, sources):
            use_proved(top, sources, begun)
            tell("the programs are proved already, of the sources as they are")
            return
        tell("proving and building the programs, 15 to 30 minutes in a fresh clone; what is proved stays, so that a "
             "proof that is stopped continues where it was")
        run_proof(top, tell)
        if digest(top) != sources:
            raise NotBuilt("a source was changed meanwhile; the proved part is kept, and another run proves the rest")
        keep(top, sources, f"here, at {time.strftime('%Y-%m-%d %H:%M')}")
    tell("proved: from now on the proved programs run")


def run_proof(top: Path, tell: Tell) -> None:
    """Runs scripts/prove on the programs, and passes its lines on."""
    path = top / "out/prove.log"
    words = [sys.executable, str(top / "scripts/prove"), "--log", str(path), *PROGRAMS]
    path.write_text("")
    with open(path, "a", encoding="utf-8") as log, \
            subprocess.Popen(words, cwd=top, stdin=subprocess.DEVNULL, stdout=subprocess.PIPE, text=True,
                             stderr=subprocess.STDOUT, errors="replace") as child:
        for line in child.stdout:
            tell(line.rstrip("\n"))
            log.write(line)
            log.flush()
    if child.returncode == 2:
        raise NotBuilt("this toolchain is not one that scripts/prove knows")
    if child.returncode != 0:
        last = path.read_text(encoding="utf-8", errors="replace").splitlines()[-20:]
        raise NotBuilt(f"what went wrong is in {path}:\n" + "\n".join(last))
