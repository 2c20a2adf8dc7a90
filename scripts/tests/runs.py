"""What all tests share: the programs, folders of their own, runs with a timeout, and messages."""
import functools
import os
import shutil
import subprocess
import tempfile
from itertools import count
from pathlib import Path
from typing import Any, Mapping, Optional, Tuple

TOP = Path(__file__).resolve().parents[2]
EXAMPLES = TOP / "crates/nvme_examples/data"
# The timeout of a run in seconds; a run takes a few hundredths.
WITHIN = 60
NUMBERS = count()
# The folder of all tests, which is removed at the end. Programs that run as another user look into it.
ROOM = tempfile.TemporaryDirectory(prefix="nvmesim-tests-")
os.chmod(ROOM.name, 0o755)


class Wrong(AssertionError):
    """A check failed."""


def built(name: str) -> Path:
    """The program that the environment names, as NVMESIM=PATH, or that make builds."""
    asked = os.environ.get(name.upper()) or subprocess.run(
        [str(TOP / name), "--where"], stdout=subprocess.PIPE, text=True, check=True).stdout.strip()
    return Path(asked).resolve(strict=True)


@functools.lru_cache(maxsize=None)
def program(name: str) -> Path:
    """A copy of the program, which no build replaces."""
    return Path(shutil.copy(built(name), Path(ROOM.name, name)))


def new_room(files: Mapping[str, Optional[bytes]] = {}, **more: Optional[bytes]) -> Path:
    """A new folder with these files, except for those without bytes."""
    room = Path(ROOM.name, f"run{next(NUMBERS)}")
    room.mkdir()
    for name, content in {**files, **more}.items():
        if content is not None:
            (room / name).write_bytes(content)
    return room


def ended(started: "subprocess.Popen[bytes]", given: Optional[bytes] = None) -> Tuple[int, bytes, bytes]:
    """Waits for a run, which is given these bytes by a pipe if there are any: its status and its streams."""
    try:
        output, errors = started.communicate(given, timeout=WITHIN)
    except subprocess.TimeoutExpired:
        started.kill()
        started.communicate()
        raise Wrong(f"a run that did not end within {WITHIN} seconds") from None
    return started.returncode, output or b"", errors or b""


def clip(value: Any) -> str:
    """A value for a message, shortened if it is long."""
    text = repr(value)
    return text if len(text) <= 400 else f"{text[:300]} .. {text[-80:]} ({len(value)} in all)"


def difference(found: Optional[bytes], wanted: Optional[bytes]) -> str:
    """The first difference of bytes from the expected ones, for a message."""
    if found is None or wanted is None:
        return f"{clip(found)}, not {clip(wanted)}"
    at = next((i for i, (a, b) in enumerate(zip(found, wanted)) if a != b), min(len(found), len(wanted)))
    start = max(0, at - 60)
    return (f"{len(found)} bytes instead of {len(wanted)}, and from byte {at} on not the same: .."
            f"{clip(found[start:at + 60])}, not ..{clip(wanted[start:at + 60])}")
