"""File systems of a run's own: one that can only be read, and one without room.

They are mounted if the machine allows it, in a namespace that nobody else sees and that ends with the run. If it does
not, calls fail as they would there. The output reports which it was.
"""
import subprocess
from pathlib import Path
from typing import List, Optional, Sequence, Tuple

from tests.faults.bench import Plan, Shown, must_be, orders_of, run
from tests.faults.model import Command, Disk, pattern, results_of, script_of
from tests.runs import WITHIN, new_room, program

FAULT = b"nvmesim: file fault\n"
# How one comes to mounts of one's own: as anybody who is given a namespace of users too, and as root.
WAYS: Tuple[Tuple[str, ...], ...] = (("-U", "-r", "-m"), ("-m",))
READ_ONLY = """set -e
mount --bind disk disk
mount -o remount,ro,bind disk
if touch disk/written 2>/dev/null; then exit 1; fi
"""
FULL = """set -e
mount -t tmpfs -o size=16k none disk
cp script disk/script
truncate -s 65536 disk/image
"""
RUN = """touch ready
env "$@" </dev/null >transcript 2>errors || echo $? >status
cp disk/image image
"""


def read_if_any(file: Path) -> Optional[bytes]:
    """The bytes of a file, if there is one."""
    return file.read_bytes() if file.is_file() else None


def run_mounted(room: Path, mounting: str, words: Sequence[str]) -> Optional[Shown]:
    """A run in a folder whose `disk` is mounted so; None if the machine does not let it be mounted."""
    orders = [f"{name}={value}" for name, value in orders_of(room, None, "disk/image").items()]
    for way in WAYS:
        command = ["unshare", *way, "sh", "-c", mounting + RUN, "sh", *orders, str(program("nvmesim")), *words]
        try:
            subprocess.run(command, cwd=room, capture_output=True, timeout=WITHIN, check=False)
        except FileNotFoundError:
            return None
        if (room / "ready").exists():
            return Shown(int(read_if_any(room / "status") or 0), (room / "transcript").read_bytes(),
                         (room / "errors").read_bytes(), read_if_any(room / "image"), 0)
    return None


def test_read_only() -> None:
    """An image on a file system that can only be read is refused before the first event, and stays as it is. A script
    there is read as any other."""
    before, commands = pattern(15, 4, 9), [Command("write", 0, 4, b"new"), Command("read", 0, 1)]
    script, what = script_of(commands, 4), "a file system that can only be read"
    in_memory = results_of(commands, Disk(bytes(4 * 512))).transcript()
    for words, status, transcript, errors in ((["disk/image", "disk/script"], 2, b"", FAULT),
                                              (["-", "disk/script"], 0, in_memory, b"")):
        room = new_room()
        (room / "disk").mkdir()
        (room / "disk/script").write_bytes(script)
        (room / "disk/image").write_bytes(before)
        shown = run_mounted(room, READ_ONLY, words)
        if shown is None:
            must_be(what, run(script, before, Plan("open", 1, "EROFS")), 2, b"", FAULT, before)
            print(f"{what} can't be mounted here: its opening fails with EROFS")
            return
        must_be(what, shown, status, transcript, errors, before)


def test_full() -> None:
    """An image with holes on a file system of some pages: blocks find room until there is none."""
    what = "a file system without room"
    commands: List[Command] = [Command("write", 8 * i, 1, f"page {i}".encode()) for i in range(8)]
    commands.append(Command("read", 0, 64))
    room = new_room(script=script_of(commands, 128))
    (room / "disk").mkdir()
    # The script takes a page; the others are the image's.
    told = results_of(commands, Disk(bytes(65536), "pwrite", 4, "ENOSPC", True))
    shown = run_mounted(room, FULL, ["disk/image", "disk/script"])
    if shown is None:
        print(f"{what} can't be mounted here: its writes fail with ENOSPC")
        shown = run(script_of(commands, 128), bytes(65536), Plan("pwrite", 4, "ENOSPC", True))
    must_be(what, shown, 0, told.transcript(), b"", told.image())
