"""Files that can't be images or scripts, images that change while the program runs, and limits."""
import os
import resource
import signal
import socket
from pathlib import Path
from typing import Any, Callable, Dict, List, Optional, Tuple

from tests.faults.bench import Plan, Shown, finish, must_be, run, start
from tests.faults.model import Command, Disk, pattern, results_of, script_of
from tests.runs import Wrong, new_room

FAULT = b"nvmesim: file fault\n"
NO_MEMORY = b"nvmesim: out of memory\n"
NOBODY = 65534


def test_sizes() -> None:
    """An image of 5,000 bytes has nine blocks, and what is after them stays."""
    before = pattern(9, 9, 392)
    commands = [Command("write", 8, 1, b"the last block"), Command("read", 7, 2)]
    shown = run(script_of(commands, 10), before)
    must_be("ten blocks on 5,000 bytes", shown, 1, b"", b"nvmesim: line 4: DoesNotFit\n", before)
    told = results_of(commands, Disk(before))
    shown = run(script_of(commands, 9), before)
    must_be("nine blocks on 5,000 bytes", shown, 0, told.transcript(), b"", told.image())
    if shown.image[-392:] != before[-392:]:
        raise Wrong("nine blocks on 5,000 bytes: the last 392 bytes were changed")


def run_meeting(script: bytes, before: bytes, change: Callable[[Path], None]) -> Shown:
    """A run whose image is changed by someone else once the program has opened it, and before it reads its script: the
    script comes through a pipe with a name, which is opened after the image."""
    room = new_room(image=before)
    os.mkfifo(room / "script")
    started = start(room, ["image", "script"])
    with open(room / "script", "wb") as pipe:
        change(room / "image")
        pipe.write(script)
    return finish(room, started)


def try_shortened() -> None:
    """Another process truncates the image in its third block: lost blocks can't be read, and a write extends it."""
    before, cut = pattern(10, 9, 392), 1200
    commands = [Command("read", 1, 1), Command("read", 2, 1), Command("read", 1, 3), Command("compare", 5, 1, b"any"),
                Command("write", 3, 1, b"after the end"), Command("read", 3, 1), Command("read", 4, 1)]
    shown = run_meeting(script_of(commands, 9), before, lambda image: os.truncate(image, cut))
    block = b"after the end".ljust(512, b"\0")
    answers = [(b"poll 1 1 0:00 00000000 512 " + before[512:1024].hex().encode()), b"poll 1 2 2:81 00000000",
               b"poll 1 3 2:81 00000000", b"poll 1 4 2:81 00000000", b"poll 1 5 0:00 00000000",
               b"poll 1 6 0:00 00000000 512 " + b"after the end".hex().encode(), b"poll 1 7 2:81 00000000"]
    must_be("an image that is shortened", shown, 0, None, b"", before[:cut] + bytes(1536 - cut) + block)
    polled = [line for line in shown.output.splitlines() if line.startswith(b"poll")]
    if polled != answers:
        raise Wrong(f"an image that is shortened: answered {polled}, not {answers}")


def try_removed() -> None:
    """Another process removes or replaces the image: the program continues with the one it opened."""
    before, other = pattern(11, 4), pattern(12, 4)
    commands = [Command("write", 1, 1, b"gone"), Command("read", 0, 2)]
    told = results_of(commands, Disk(before))

    def replace(image: Path) -> None:
        (image.parent / "other").write_bytes(other)
        os.replace(image.parent / "other", image)

    for change, left in ((os.unlink, None), (replace, other)):
        shown = run_meeting(script_of(commands, 4), before, change)
        must_be("an image that is removed or replaced", shown, 0, told.transcript(), b"", left)


def make_paths(room: Path) -> List[Tuple[str, str]]:
    """Paths that are no files, each with what it is."""
    os.symlink("nowhere", room / "broken")
    os.symlink("round", room / "round")
    os.mkfifo(room / "pipe")
    with socket.socket(socket.AF_UNIX) as made:
        made.bind(os.path.relpath(room / "socket"))
    return [("no file", "absent"), ("a folder", "."), ("a broken link", "broken"), ("a link to itself", "round"),
            ("a path of 5,000 bytes", "a/" * 2500), ("a name of 5,000 bytes", "a" * 5000), ("an empty path", ""),
            ("a path through a file", "script/image"), ("a socket", "socket"), ("a pipe", "pipe"),
            ("a device", "/dev/zero"), ("a full device", "/dev/full")]


def run_words(room: Path, words: List[str], how: Optional[Dict[str, Any]] = None) -> Shown:
    """A run on these words."""
    return finish(room, start(room, words, **(how or {})))


def test_paths() -> None:
    """An image must be a regular file, and a script must be readable. A refusal changes nothing."""
    before, script = pattern(13, 4, 9), script_of([Command("write", 0, 4, b"new")], 4)
    room = new_room(script=script, image=before)
    paths = make_paths(room)
    for what, path in paths:
        must_be(f"{what} as the image", run_words(room, [path, "script"]), 2, b"", FAULT, before)
    unread = [it for it in paths if not it[1].startswith("/dev") and it[0] != "a pipe"]
    for what, path in unread:
        must_be(f"{what} as the script", run_words(room, ["image", path]), 2, b"", FAULT, before)
    os.symlink("image", room / "link")
    told = results_of([Command("write", 0, 4, b"new")], Disk(before))
    must_be("a link to an image", run_words(room, ["link", "script"]), 0, told.transcript(), b"", told.image())


def test_rights() -> None:
    """An image that can't be read or not be written, and a script that can't be read, by someone who is not root."""
    how: Dict[str, Any] = {"user": NOBODY, "group": NOBODY, "extra_groups": []} if os.geteuid() == 0 else {}
    script, before = script_of([Command("write", 0, 1, b"new")], 1), pattern(14, 1)
    cases = (("a read-only image", 0o444, 0o444, FAULT), ("an image for writing alone", 0o222, 0o444, FAULT),
             ("a script that can't be read", 0o666, 0, FAULT), ("files that may be used", 0o666, 0o444, b""))
    for what, image, text, errors in cases:
        room = new_room(script=script, image=before)
        room.chmod(0o777)
        (room / "image").chmod(image)
        (room / "script").chmod(text)
        started = start(room, ["image", "script"], **how)
        started.wait()
        (room / "image").chmod(0o666)
        shown = finish(room, started)
        told = results_of([Command("write", 0, 1, b"new")], Disk(before))
        is_good = not errors
        must_be(what, shown, 0 if is_good else 2, told.transcript() if is_good else b"", errors,
                told.image() if is_good else before)


def test_opening() -> None:
    """Each open and each stat of a file failing in turn."""
    before, commands = pattern(15, 4, 9), [Command("write", 0, 4, b"new"), Command("read", 0, 1)]
    told = results_of(commands, Disk(before))
    for kind, how in (("open", "EACCES"), ("open", "EROFS"), ("open", "ENOMEM"), ("open", "EINTR"), ("stat", "EIO"),
                      ("stat", "ENOMEM")):
        for at in range(1, 10):
            what = f"{kind} {at} failing with {how}"
            shown = run(script_of(commands, 4), before, Plan(kind, at, how))
            if shown.hits == 0 or how == "EINTR":
                must_be(what, shown, 0, told.transcript(), b"", told.image())
            else:
                is_memory = how == "ENOMEM"
                must_be(what, shown, 4 if is_memory else 2, b"", NO_MEMORY if is_memory else FAULT, before)
            if shown.hits == 0:
                break
        if at < 3:
            raise Wrong(f"{kind}: {at - 1} calls failed, which is too few")


def test_limit() -> None:
    """A limit on how long files may be. With its signal ignored, writes after it fail like those to a full disk; else
    the signal stops the program at the first of them."""
    before = pattern(16, 8)
    commands = [Command("write", 1, 1, b"within"), Command("write", 3, 3, b"two of three" * 60), Command("read", 0, 8)]
    told = results_of(commands, Disk(before, "pwrite", 3, "EFBIG"))
    limit = lambda: resource.setrlimit(resource.RLIMIT_FSIZE, (2048, 2048))
    kept = signal.signal(signal.SIGXFSZ, signal.SIG_IGN)
    try:
        for is_ignored in (True, False):
            room = new_room(script=script_of(commands, 8), image=before)
            how = {"preexec_fn": limit, "restore_signals": not is_ignored}
            shown = run_words(room, ["image", "script"], how)
            must_be("a limit on how long files may be", shown, 0 if is_ignored else -signal.SIGXFSZ,
                    told.transcript() if is_ignored else b"", b"", told.image())
    finally:
        signal.signal(signal.SIGXFSZ, kept)


def test_changed() -> None:
    """Images that someone else changes during a run."""
    try_shortened()
    try_removed()
