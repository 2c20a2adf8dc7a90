"""What the trials of the lab share: a place of their own, labs as children, and checks that tell what was found."""
import fcntl
import os
import socket
import struct
import subprocess
import time
from contextlib import contextmanager
from dataclasses import dataclass, field
from pathlib import Path
from typing import Callable, Dict, Iterator, List, Optional

HERE = Path(__file__).resolve().parent
PACKAGE = HERE.parent
LAB = PACKAGE / "lab"
CONFIG = HERE / "two-hosts.nvme"
# No trial's single step takes longer, unless it hangs.
LONGEST_SECONDS = 300


class Fault(Exception):
    """A check failed."""


def check_is(what: str, found: object, wanted: object) -> None:
    if found != wanted:
        raise Fault(f"{what} is {found!r}, not {wanted!r}")


@dataclass
class Ended:
    """How a process ended: its status, standard output and standard error."""
    status: int
    output: str
    errors: str


@dataclass
class Bench:
    """A folder for everything that the trials make, the program, and the client."""
    place: Path
    program: str
    lab: Path = LAB
    others: Dict[str, str] = field(default_factory=dict)

    @property
    def simulator(self) -> str:
        return os.environ.get("NVMESIM", "") or str(Path(self.program).with_name("nvmesim"))

    @property
    def client(self) -> str:
        return str(self.place / "client")

    @property
    def environment(self) -> Dict[str, str]:
        return {**os.environ, "TMPDIR": str(self.place), "NVMELIVE": self.program, "PYTHONDONTWRITEBYTECODE": "1",
                "NVMESIM": self.simulator, **self.others}

    def words(self, options: List[str], command: List[str], config: Path = CONFIG) -> List[str]:
        return [str(self.lab), *options, str(config), *(["--", *command] if command else [])]

    def run(self, command: List[str], options: Optional[List[str]] = None, config: Path = CONFIG,
            given: str = "") -> Ended:
        """Runs a command in a lab to its end."""
        return self.run_words(self.words(options or [], command, config), given)

    def run_words(self, words: List[str], given: str = "") -> Ended:
        done = subprocess.run(words, input=given, stdout=subprocess.PIPE, stderr=subprocess.PIPE, text=True,
                              cwd=self.place, env=self.environment, timeout=LONGEST_SECONDS)
        return Ended(done.returncode, done.stdout, done.stderr)

    def try_client(self, *words: str, options: Optional[List[str]] = None, config: Path = CONFIG) -> None:
        """Runs the client in a lab, in which all its checks must pass."""
        done = self.run([self.client, *words], options, config)
        if done.status != 0:
            raise Fault(f"client {' '.join(words)} ended with {done.status}: {done.errors.strip()}")

    def begin(self, command: List[str], options: Optional[List[str]] = None,
              config: Path = CONFIG) -> "subprocess.Popen[str]":
        """Begins a command in a lab, with pipes for all its streams."""
        return subprocess.Popen(self.words(options or [], command, config), cwd=self.place, env=self.environment,
                                text=True, stdin=subprocess.PIPE, stdout=subprocess.PIPE, stderr=subprocess.PIPE)

    @contextmanager
    def held(self, options: Optional[List[str]] = None, config: Path = CONFIG) -> Iterator[None]:
        """Keeps one lab meanwhile, so that those who join it need not begin one."""
        shell = self.begin(["sh", "-c", "echo begun; cat"], options, config)
        check_is("the word of a lab that is kept", shell.stdout.readline(), "begun\n")
        try:
            yield
        finally:
            shell.communicate()
        self.wait_over()

    def compile_client(self) -> None:
        """Compiles the client, and the library too: neither may give a warning."""
        strict = ["-O1", "-Wall", "-Wextra", "-Wpedantic", "-Werror"]
        for words, sources in ((["-std=gnu11", "-o", self.client], HERE / "client"),
                               (["-std=c11", "-fPIC", "-shared", "-o", str(self.place / "library")],
                                PACKAGE / "library")):
            done = self.run_words([os.environ.get("CC", "cc"), *strict, *words, *map(str, sorted(sources.glob("*.c")))])
            check_is(f"the compilation of {sources}, which prints {done.errors!r},", done.status, 0)

    def is_over(self) -> bool:
        """Whether no lab is left: each folder is gone, and its lock is free."""
        found = list(self.place.glob("nvme-lab-*/*"))
        return not any(it.is_dir() or it.suffix == ".lock" and is_held(it) for it in found)

    def wait_over(self) -> None:
        wait_until("a lab's folder to go", self.is_over)


def is_held(lock: Path) -> bool:
    with open(lock, "r+b") as file:
        try:
            fcntl.flock(file, fcntl.LOCK_EX | fcntl.LOCK_NB)
        except OSError:
            return True
    return False


def wait_until(what: str, is_so: Callable[[], bool], seconds: float = 60.0) -> None:
    limit = time.monotonic() + seconds
    while not is_so():
        if time.monotonic() > limit:
            raise Fault(f"waited in vain for {what}")
        time.sleep(0.01)


def view_of(process: int) -> Path:
    """The view that a process in a lab has."""
    words = Path(f"/proc/{process}/environ").read_bytes().split(b"\0")
    return Path(next(it for it in words if it.startswith(b"NVME_LAB="))[9:].decode())


def server_of(view: Path) -> int:
    """The process that listens at a view's socket."""
    with socket.socket(socket.AF_UNIX, socket.SOCK_STREAM) as stream:
        stream.connect(str(view / "socket"))
        return struct.unpack("3i", stream.getsockopt(socket.SOL_SOCKET, socket.SO_PEERCRED, 12))[0]


def children_of(process: int) -> List[int]:
    return [int(it) for it in Path(f"/proc/{process}/task/{process}/children").read_text().split()]
