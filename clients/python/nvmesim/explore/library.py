"""The libraries that the program loads: compiled on first use, and again if a source has changed."""
from __future__ import annotations

import hashlib
import os
import shutil
import subprocess
import tempfile
from pathlib import Path
from typing import List

from ..errors import NvmesimError

HERE = Path(__file__).parent
FLAGS = ["-std=c11", "-O2", "-Wall", "-Wextra", "-Wpedantic", "-fPIC", "-shared", "-fvisibility=hidden",
         "-U_FORTIFY_SOURCE"]
AFTER = ["-ldl", "-Wl,-z,now"]


class NoLibrary(NvmesimError):
    """The library can't be built: there is no C compiler, or it fails."""


def folder() -> Path:
    """The folder of compiled libraries: in the caller's cache folder."""
    named = os.environ.get("XDG_CACHE_HOME")
    return (Path(named) if named else Path.home() / ".cache") / "nvmesim"


def forking_library() -> Path:
    """The library that forks the program where it waits."""
    return _library("forking", [HERE / "forking.c"])


def walking_library() -> Path:
    """The library that walks all orders inside the program."""
    return _library("walking", sorted((HERE / "walker").glob("*.[ch]")))


def _library(name: str, sources: List[Path]) -> Path:
    """A library, compiled if it is not there yet. Its name has its sources' digest.

    Raises:
        NoLibrary: it can't be built.
    """
    digest = hashlib.sha256("\0".join([*FLAGS, *AFTER]).encode())
    for it in sources:
        digest.update(b"\0" + it.read_bytes())
    compiler = os.environ.get("CC", "cc")
    if not shutil.which(compiler):
        raise NoLibrary(f"there is no C compiler {compiler!r}")
    try:
        place = folder() / f"lib{name}-{digest.hexdigest()[:16]}.so"
        if not place.exists():
            place.parent.mkdir(parents=True, exist_ok=True)
            _compile(compiler, [os.fspath(it) for it in sources if it.suffix == ".c"], place)
    except (OSError, RuntimeError) as fault:
        raise NoLibrary(f"the library can't be stored: {fault}") from None
    return place


def _compile(compiler: str, sources: List[str], place: Path) -> None:
    """Compiles the library next to its place, then moves it there."""
    number, new = tempfile.mkstemp(dir=place.parent, suffix=".new")
    os.close(number)
    try:
        done = subprocess.run([compiler, *FLAGS, "-o", new, *sources, *AFTER], stdin=subprocess.DEVNULL,
                              stdout=subprocess.PIPE, stderr=subprocess.STDOUT, text=True)
        if done.returncode != 0:
            said = done.stdout.splitlines() or ["no message"]
            raise NoLibrary(f"{compiler!r} does not compile the library: {said[0]}")
        os.chmod(new, 0o755)
        os.replace(new, place)
    finally:
        if os.path.exists(new):
            os.unlink(new)
