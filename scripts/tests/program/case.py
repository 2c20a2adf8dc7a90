"""A run of the program: its input, and its expected result."""
import os
import resource
import shutil
import signal
import subprocess
import threading
from dataclasses import dataclass, field
from pathlib import Path
from typing import Callable, Iterator, Mapping, Optional, Sequence, Union

from tests.runs import Wrong, clip, ended, new_room, program

# A file of more bytes than this is large: its holes are not read.
LARGE = 16 << 20
# One controller with a shared namespace of 64 blocks: the first four lines of many scripts.
SETUP = "controller 1 host 0xa1\nnamespace 1 blocks 64 shared\nattached 1 1\nstart\n"


def carried(*requests: str) -> str:
    """The setup, after which the driver of controller 1 comes up, and each of these requests is placed, rung, fetched,
    executed and delivered."""
    return f"{SETUP}up 1\n" + "".join(f"{it}\nring 1\nfetch 1 1\nexecute 1 0\npoll 1\n" for it in requests)


def answered(*answers: str) -> str:
    """What the script of `carried` prints if each request is executed. An answer is given from after its ticket on."""
    lines = (f"placed 1 {ticket}\nrung 1\nfetch 1 1 took\nexecute 1 0 posted {it.split()[0]} 0\npoll 1 {ticket} {it}\n"
             for ticket, it in enumerate(answers, 1))
    return "up 1 ok\n" + "".join(lines)


# A Write and a Read of a block, and what they print.
HELLO = carried("write 1 1 0 1 hex:48656c6c6f", "read 1 1 0 1")
HELLO_SHOWN = answered("0:00 00000000", "0:00 00000000 512 48656c6c6f")

# Opens a standard stream in the folder of a run, and returns its descriptor.
Opened = Callable[[Path], int]


@dataclass(frozen=True)
class Case:
    """A run in a folder of its own with these files: the words of the command line, standard input, and the expected
    result: the status, standard output, standard error, and the files of the folder. Files that `left` does not list
    must be unchanged."""
    name: str
    words: Sequence[str] = ()
    given: Union[str, Opened] = ""
    files: Mapping[str, bytes] = field(default_factory=dict)
    status: int = 0
    output: str = ""
    errors: str = ""
    left: Mapping[str, bytes] = field(default_factory=dict)
    # The file of standard output; without it the output is compared with `output`.
    shown_on: Optional[Opened] = None
    # Preparations in the folder before the run, and actions during it.
    before: Optional[Callable[[Path], None]] = None
    beside: Optional[Callable[[Path], None]] = None
    # Whether the file `image` must still take no room on the disk, and have its old modification time.
    is_left_alone: Optional[bool] = None
    # The most bytes of a file that the program writes.
    limit: Optional[int] = None
    # The standard streams that are closed before the program starts.
    closed: Sequence[int] = ()

    def check(self) -> None:
        """Runs the case, and fails if anything differs."""
        if wrong := "; ".join(faults(self, tried(self))):
            raise Wrong(wrong)


@dataclass(frozen=True)
class Shown:
    """What a run showed and left."""
    status: int
    output: str
    errors: str
    files: Mapping[str, bytes]
    is_left_alone: Optional[bool]


def is_left_alone(image: Path) -> bool:
    """Whether a file takes no room on the disk, and its modification time is 0."""
    about = image.stat()
    return about.st_mtime == 0 and about.st_blocks == 0


def preparing(case: Case) -> Optional[Callable[[], None]]:
    """Returns what to run before the program: writes past the limit then fail, and no signal stops it."""
    def prepare() -> None:
        if case.limit is not None:
            signal.signal(signal.SIGXFSZ, signal.SIG_IGN)
            resource.setrlimit(resource.RLIMIT_FSIZE, (case.limit, case.limit))
        for descriptor in case.closed:
            os.close(descriptor)

    return prepare if case.closed or case.limit is not None else None


def tried(case: Case) -> Shown:
    """Runs a case in a folder of its own, which is removed afterwards."""
    room = new_room(case.files)
    if case.before:
        case.before(room)
    given = subprocess.PIPE if isinstance(case.given, str) else case.given(room)
    output = case.shown_on(room) if case.shown_on else subprocess.PIPE
    started = subprocess.Popen([str(program("nvmesim")), *case.words], cwd=room, stdin=given, stdout=output,
                               stderr=subprocess.PIPE, preexec_fn=preparing(case))
    if case.beside:
        threading.Thread(target=case.beside, args=(room,), daemon=True).start()
    status, said, errors = ended(started, case.given.encode("latin-1") if isinstance(case.given, str) else None)
    for descriptor in (it for it in (given, output) if it != subprocess.PIPE):
        os.close(descriptor)
    files = {it.name: content_of(it) for it in room.iterdir() if it.is_file()}
    alone = None if case.is_left_alone is None else is_left_alone(room / "image")
    shutil.rmtree(room)
    return Shown(status, said.decode("latin-1"), errors.decode("latin-1"), files, alone)


def sparse(blocks: int, written: Mapping[int, bytes]) -> bytes:
    """The form in which large files are compared: the length, and the blocks that are not zeros."""
    return repr((512 * blocks, sorted(written.items()))).encode()


def content_of(path: Path) -> bytes:
    """The content of a file, or the `sparse` form of a large one, whose holes are not read."""
    size = path.stat().st_size
    if size <= LARGE:
        return path.read_bytes()
    written, at = {}, 0
    with open(path, "rb") as file:
        while True:
            try:
                at = os.lseek(file.fileno(), at, os.SEEK_DATA)
            except OSError:
                return sparse(size // 512, written)
            end = os.lseek(file.fileno(), at, os.SEEK_HOLE)
            for place in range(at - at % 512, end, 512):
                block = os.pread(file.fileno(), 512, place)
                if block.strip(b"\0"):
                    written[place // 512] = block
            at = end


def faults(case: Case, shown: Shown) -> Iterator[str]:
    """The differences between a run and the expected one."""
    wanted = Shown(case.status, case.output, case.errors, {**case.files, **case.left}, case.is_left_alone)
    for what, found, right in (("status", shown.status, wanted.status), ("output", shown.output, wanted.output),
                               ("standard error", shown.errors, wanted.errors), ("files", shown.files, wanted.files),
                               ("the image is left alone", shown.is_left_alone, wanted.is_left_alone)):
        if found != right:
            yield f"{what}: {clip(found)}, not {clip(right)}"
