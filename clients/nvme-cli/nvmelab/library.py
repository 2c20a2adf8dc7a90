"""The preloaded library: compiled on first use, and again if its sources have changed."""
import hashlib
import os
import shutil
import subprocess
import tempfile
from pathlib import Path

from nvmelab.faults import LabFault

SOURCES = Path(__file__).resolve().parent.parent / "library"
FLAGS = ["-std=c11", "-O2", "-Wall", "-Wextra", "-Wpedantic", "-fPIC", "-shared", "-U_FORTIFY_SOURCE"]


def sources() -> "list[Path]":
    return sorted(SOURCES.glob("*.[ch]"))


def name_of_library() -> str:
    """The library's name, which has the digest of its sources, so that an existing library is up to date."""
    digest = hashlib.sha256("\0".join(FLAGS).encode())
    for source in sources():
        digest.update(source.name.encode() + b"\0" + source.read_bytes() + b"\0")
    return f"libnvmelab-{digest.hexdigest()[:16]}.so"


def library(folder: Path) -> Path:
    """The library in this folder, compiled if it is not there yet."""
    place = folder / name_of_library()
    if place.exists():
        return place
    compiler = os.environ.get("CC", "cc")
    if not shutil.which(compiler):
        raise LabFault(f"there is no C compiler `{compiler}`, which the library for /dev and /sys needs on first use")
    number, new = tempfile.mkstemp(dir=folder, suffix=".new")
    os.close(number)
    words = [compiler, *FLAGS, "-o", new, *[str(it) for it in sources() if it.suffix == ".c"], "-ldl"]
    done = subprocess.run(words, stdout=subprocess.PIPE, stderr=subprocess.STDOUT, text=True)
    if done.returncode != 0:
        os.unlink(new)
        said = done.stdout.splitlines() or ["no message"]
        raise LabFault(f"`{compiler}` does not compile the library: {said[0]}")
    os.chmod(new, 0o755)
    os.replace(new, place)
    return place
