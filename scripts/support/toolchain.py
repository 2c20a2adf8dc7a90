"""The toolchain's command `rt`, read as a module."""
import importlib.machinery
import importlib.util
import os
import signal
import subprocess
import sys
from pathlib import Path


class NoToolchain(Exception):
    """There is no `rt`, or it is not what these scripts know."""


def ask(word):
    """What `rt WORD` prints."""
    try:
        ran = subprocess.run(["rt", word], capture_output=True, text=True, check=True)
    except (OSError, subprocess.CalledProcessError) as error:
        raise NoToolchain(f"`rt {word}`: {error}") from error
    return ran.stdout.strip()


def logic():
    """The logic that proofs are checked by, as `rt version` names it. Kits of the toolchain that differ otherwise can
    have the same."""
    version = ask("version")
    return version[version.find("logic "):] if "logic " in version else version


def load(root):
    """Reads `rt`, which is next to the page that `rt doc` names, and goes to the top of the repository, as `rt`
    wants."""
    path = Path(ask("doc")).parent / "bin" / "rt"
    if not path.is_file():
        raise NoToolchain(f"{path} is missing")
    loader = importlib.machinery.SourceFileLoader("rt_command", str(path))
    module = importlib.util.module_from_spec(importlib.util.spec_from_loader("rt_command", loader))
    sys.modules["rt_command"] = module
    loader.exec_module(module)
    os.chdir(root)
    # Its first call sets a signal's handler, as only the main thread may. What it guards ends when this process does.
    module.rtlib.guarded()
    # What checks in other checkouts on this machine proved is taken from there, as `rt check` does.
    if hasattr(module, "share_work"):
        module.share_work(True)
    # Python's own handler would wait for the checks that threads have begun.
    signal.signal(signal.SIGINT, signal.SIG_DFL)
    return module


def crates_of(rt, root):
    """Each crate of the repository by its name, lowest first."""
    return {it.name: it for it in rt.rtlib.crates_below(str(root))}
