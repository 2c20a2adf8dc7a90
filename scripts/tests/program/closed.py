"""Standard streams that are closed before the program starts, which must never become the image or the script; and
images that are no regular files."""
import os
from pathlib import Path

from tests.program.case import HELLO_SHOWN, Case, carried

SCRIPT = carried("write 1 1 1 1 hex:48656c6c6f", "read 1 1 1 1")
BEFORE = bytes([7]) * 33000
AFTER = BEFORE[:512] + b"Hello".ljust(512, b"\0") + BEFORE[1024:]
FILES = {"image": BEFORE, "script": SCRIPT.encode()}
NO_FILE = "'{0}' is no regular file; an image must be one"
ABSENT = "'{0}' can't be opened as the image, for reading and writing: No such file or directory (os error 2)"


def closing(what: str, closed: str, *words: str) -> Case:
    """A run without these standard streams: the image is as the script leaves it, and the transcript is where it
    belongs or nowhere. The script is named or is standard input; without that it is empty."""
    is_read = "script" in words or "0" not in closed
    return Case(what, ("image", *words), SCRIPT, FILES, output=HELLO_SHOWN if is_read and "1" not in closed else "",
                left={"image": AFTER if is_read else BEFORE}, closed=tuple(map(int, closed)))


def make_paths(room: Path) -> None:
    """A pipe, and links to it and to the image."""
    os.mkfifo(room / "pipe")
    (room / "link_to_pipe").symlink_to("pipe")
    (room / "link_to_image").symlink_to("image")


def refused(what: str, path: str, why: str = NO_FILE) -> Case:
    """A run on a path that is no image."""
    return Case(what, (path, "script"), "", FILES, 2, errors=f"nvmesim: file fault\nnvmesim: {why.format(path)}\n",
                left={"link_to_image": BEFORE}, before=make_paths)


CASES = (
    closing("no stream closed", "", "script"),
    closing("no standard output", "1", "script"),
    closing("no standard error", "2", "script"),
    closing("no standard input", "0", "script"),
    closing("no standard stream", "012", "script"),
    closing("no standard output, script from standard input", "1"),
    closing("no standard output and error, script from standard input", "12"),
    closing("no standard input, script from there", "0"),
    refused("a pipe", "pipe"),
    refused("a link to a pipe", "link_to_pipe"),
    refused("a device", "/dev/zero"),
    refused("a folder", "."),
    refused("no file", "absent", ABSENT),
    Case("a link to an image", ("link_to_image", "script"), "", FILES, output=HELLO_SHOWN,
         left={"image": AFTER, "link_to_image": AFTER}, before=make_paths),
)
