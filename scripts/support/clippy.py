"""Runs clippy over a crate for Rust, whose root names the lints. Any warning is a fault."""
import shutil
import subprocess
from pathlib import Path
from typing import Dict, Sequence


def is_there() -> bool:
    """Whether cargo has clippy. rustup has a program of that name even without it."""
    if not shutil.which("cargo"):
        return False
    words = ["cargo", "clippy", "--version"]
    return subprocess.run(words, stdout=subprocess.DEVNULL, stderr=subprocess.DEVNULL).returncode == 0


def problem(crate: Path, environment: Dict[str, str], given: Sequence[str] = ()) -> str:
    """What clippy says of all parts of a crate: nothing, if it has no warning."""
    words = ["cargo", "clippy", "--all-targets", "--offline", "--locked", "--quiet", *given, "--manifest-path",
             str(crate / "Cargo.toml"), "--", "-D", "warnings"]
    ran = subprocess.run(words, env=environment, stdout=subprocess.PIPE, stderr=subprocess.STDOUT, text=True)
    return ran.stdout or "clippy failed" if ran.returncode else ""
