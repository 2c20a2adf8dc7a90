"""Puts the programs, their manual pages, the Python package, the lab, the fence agent, examples and documents under a
prefix, with a manifest of all files."""
import os
import re
import shutil
import subprocess
import sys
import tempfile
from pathlib import Path
from typing import Dict, Iterator, List, Tuple

from support import building
from support.building import PROGRAMS, sum_of

LIBRARY = "lib/nvmesim"
SHARE = "share/nvmesim"
MANIFEST = f"{SHARE}/MANIFEST"
SUM = re.compile(r"^[0-9a-f]{64}  (.+)$", re.M)
# What a wrapper of the repository says, and what it says if it is installed.
MOVED = (('top=$(dirname "$(realpath "${BASH_SOURCE[0]}")")', 'top=$(dirname "$(dirname "$(realpath "${BASH_SOURCE[0]}")")")'),
         ("support=$top/scripts/support", f"support=$top/{LIBRARY}"))
LAB = """#!/usr/bin/env bash
# nvmelab: the lab, in which nvme-cli finds the subsystem as its disks; see `--help`.
set -euo pipefail
library=$(dirname "$(dirname "$(realpath "${BASH_SOURCE[0]}")")")/lib/nvmesim
NVMELIVE=${NVMELIVE:-$library/nvmelive} exec "$library/lab/lab" "$@"
"""
# Others that put files of their own under the prefix, each with its words before it; and those of a release, in which
# the library is a proved one, or none.
Others = Tuple[Tuple[str, ...], ...]
OTHERS: Others = (("scripts/library", "--install"), ("scripts/host", "--install"),
                  ("clients/nvme-tcp/install",))
RELEASED: Others = (("scripts/library", "--install-proved"), ("scripts/host", "--install"),
                    ("clients/nvme-tcp/install",))


class NotInstalled(Exception):
    """The installation failed, with the reason."""


def version_of(top: Path) -> str:
    """The newest heading of CHANGELOG.md, as --version has it."""
    for line in (top / "CHANGELOG.md").read_text(encoding="utf-8").splitlines():
        if line.startswith("## "):
            return line[3:]
    raise NotInstalled("CHANGELOG.md names no version")


def number_of(top: Path) -> str:
    """The version's number alone."""
    return version_of(top).split(",")[0]


def asked(top: Path, *words: str) -> str:
    """What a command of the repository prints."""
    done = subprocess.run([str(top / words[0]), *words[1:]], stdout=subprocess.PIPE, text=True)
    if done.returncode != 0:
        raise NotInstalled(f"{' '.join(words)} has failed")
    return done.stdout.strip()


def put(text: str, place: Path, mode: int = 0o644) -> None:
    place.parent.mkdir(parents=True, exist_ok=True)
    place.write_text(text, encoding="utf-8")
    place.chmod(mode)


def copy(path: Path, place: Path) -> None:
    place.parent.mkdir(parents=True, exist_ok=True)
    shutil.copyfile(path, place)
    place.chmod(0o755 if os.access(path, os.X_OK) else 0o644)


def copy_tree(folder: Path, place: Path, *without: str) -> None:
    """Copies the files of a folder, except for those of some names and what is made when they run."""
    passed = {"__pycache__", "out", *without}
    for path in sorted(folder.rglob("*")):
        if path.is_file() and not passed & set(path.relative_to(folder).parts):
            copy(path, place / path.relative_to(folder))


def wrapper_of(top: Path, name: str) -> str:
    """The script that is before a program, if it is installed."""
    text = (top / name).read_text(encoding="utf-8")
    for here, there in MOVED:
        if text.count(here) != 1:
            raise NotInstalled(f"{name} has not the line {here}")
        text = text.replace(here, there)
    return text


def put_programs(top: Path, stage: Path) -> None:
    """The programs, their wrappers, and the lab."""
    for name in PROGRAMS:
        copy(Path(asked(top, name, "--where")), stage / LIBRARY / name)
        put(wrapper_of(top, name), stage / "bin" / name, 0o755)
        copy(top / "man" / f"{name}.1", stage / "share/man/man1" / f"{name}.1")
    copy(top / "scripts/support/words.sh", stage / LIBRARY / "words.sh")
    copy(top / "scripts/support/installed.sh", stage / LIBRARY / "program.sh")
    put(version_of(top) + "\n", stage / LIBRARY / "version")
    put(building.describe(top).split("; ")[0] + "\n", stage / LIBRARY / "build")
    copy_tree(top / "clients/nvme-cli", stage / LIBRARY / "lab", "test", "tests", "README.md")
    copy(top / "clients/nvme-cli/tests/two-hosts.nvme", stage / SHARE / "examples/lab.nvme")
    put(LAB, stage / "bin/nvmelab", 0o755)


def put_package(top: Path, stage: Path) -> None:
    """The Python package: as a wheel for pip, and as a folder for PYTHONPATH."""
    (stage / SHARE).mkdir(parents=True, exist_ok=True)
    words = "import sys, wheels; wheels.build_wheel(sys.argv[1])"
    subprocess.run([sys.executable, "-Bc", words, str(stage / SHARE)], cwd=top / "clients/python/packaging", check=True)
    copy_tree(top / "clients/python/nvmesim", stage / LIBRARY / "python/nvmesim")
    copy_tree(top / "clients/python/examples", stage / SHARE / "examples")


def put_fence(top: Path, stage: Path) -> None:
    """The fence agent, which Pacemaker finds by a link in its own folder, and its manual page."""
    copy(top / "clients/fence/fence_nvme_pr", stage / LIBRARY / "fence/fence_nvme_pr")
    copy_tree(top / "clients/fence/nvmefence", stage / LIBRARY / "fence/nvmefence")
    copy(top / "man/fence_nvme_pr.8", stage / "share/man/man8/fence_nvme_pr.8")


def put_others(top: Path, stage: Path, others: Others) -> None:
    """Examples, documents, and what others put there."""
    for path in sorted((top / "crates/nvme_examples/data").iterdir()):
        if path.name == "examples" or path.suffix in (".nvme", ".out"):
            copy(path, stage / SHARE / "examples" / path.name)
    for name in ("README.md", "CHANGELOG.md"):
        copy(top / name, stage / "share/doc/nvmesim" / name)
    copy_tree(top / "docs", stage / "share/doc/nvmesim/docs")
    for words in others:
        if os.access(top / words[0], os.X_OK):
            if subprocess.run([str(top / words[0]), *words[1:], str(stage)]).returncode != 0:
                raise NotInstalled(f"{words[0]} has failed")


def fields_of(top: Path) -> Dict[str, str]:
    """The fields of the manifest before the files."""
    digest = building.digest(top)
    gate, proved = building.record_of(building.gate(top), digest), building.proof(top, digest)
    commit = subprocess.run(["git", "-C", str(top), "rev-parse", "HEAD"], capture_output=True, text=True).stdout.strip()
    passed = f"passed at {gate['passed']}, commit {gate['commit']}, uncommitted changes: {gate['changes']}" if gate else "no"
    return {"nvmesim": version_of(top), "platform": "x86_64-linux", "commit": commit or "none", "sources": digest,
            "proved": proved.get("proved", "no"), "gate": passed, "toolchain": proved.get("toolchain", "unknown")}


def files_of(stage: Path) -> Iterator[str]:
    """The files under a folder, in the order of their names."""
    return iter(sorted(it.relative_to(stage).as_posix() for it in stage.rglob("*") if it.is_file()))


def manifest(top: Path, stage: Path) -> str:
    """What is installed, and of what it was made: fields, and then the lines that sha256sum prints of the files."""
    head = "".join(f"{name}: {value}\n" for name, value in fields_of(top).items())
    return head + "\n" + "".join(f"{sum_of(stage / it)}  {it}\n" for it in files_of(stage))


def fill(top: Path, stage: Path, others: Others = OTHERS) -> None:
    """Puts all there is into an empty folder."""
    put_programs(top, stage)
    put_package(top, stage)
    put_fence(top, stage)
    put_others(top, stage, others)
    put(manifest(top, stage), stage / MANIFEST)


def names_in(path: Path) -> List[str]:
    """The files that a manifest lists."""
    return SUM.findall(path.read_text(encoding="utf-8"))


def build_of(prefix: Path) -> str:
    """How the installed programs were built: proved or not, and of which sources."""
    return (prefix / LIBRARY / "build").read_text(encoding="utf-8").strip()


def commands_of(prefix: Path) -> List[str]:
    """The commands that are installed under a prefix."""
    return [Path(it).name for it in names_in(prefix / MANIFEST) if it.startswith("bin/")]


def install(top: Path, prefix: Path) -> None:
    """Installs under a prefix, instead of what was installed there before."""
    with tempfile.TemporaryDirectory() as room:
        fill(top, Path(room))
        if (prefix / MANIFEST).is_file():
            remove(prefix)
        for name in files_of(Path(room)):
            copy(Path(room, name), prefix / name)


def remove(prefix: Path) -> None:
    """Removes what the manifest under a prefix lists, and the folders that are empty then."""
    if not (prefix / MANIFEST).is_file():
        raise NotInstalled(f"nothing is installed under {prefix}: there is no {prefix / MANIFEST}")
    names = names_in(prefix / MANIFEST)
    for name in names:
        (prefix / name).unlink(missing_ok=True)
    # These are ours alone: what was made there since goes too.
    for own in (LIBRARY, SHARE):
        shutil.rmtree(prefix / own, ignore_errors=True)
    folders = {it for name in names for it in Path(name).parents if it != Path(".")}
    for folder in sorted(folders, key=lambda it: len(it.parts), reverse=True):
        if (prefix / folder).is_dir() and not any((prefix / folder).iterdir()):
            (prefix / folder).rmdir()
