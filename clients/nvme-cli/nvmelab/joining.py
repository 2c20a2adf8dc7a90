"""Starts a lab, or joins the running one of the same CONFIG."""
import fcntl
import hashlib
import json
import os
import secrets
import select
import shutil
import signal
import socket
import subprocess
import sys
import tempfile
from dataclasses import dataclass
from pathlib import Path
from typing import Dict, List, Optional

from nvmelab import server
from nvmelab.configuration import LARGEST_MEDIUM, Configuration, judge_by, read_configuration
from nvmelab.faults import LabFault
from nvmelab.keeping import Keeping
from nvmelab.subsystem import Subsystem

PACKAGE = Path(__file__).resolve().parent.parent
# After this many seconds the output of a starting server is shown: the program is being built.
QUIET_SECONDS = 2.0
SHOW_SECONDS = 0.2
# The name of a socket has at most 107 bytes, of which a lab's own part takes the rest.
MOST_BASE = 56


def base_folder() -> Path:
    """The folder of this user's labs, which no other user can enter."""
    base = Path(tempfile.gettempdir()) / f"nvme-lab-{os.getuid()}"
    try:
        base.mkdir(mode=0o700, exist_ok=True)
        found = base.lstat()
    except OSError as fault:
        raise LabFault(f"{base} can't be made: {fault.strerror}") from fault
    if len(os.fsencode(base)) > MOST_BASE:
        raise LabFault(f"{base} is too long for the name of a socket; TMPDIR can name a shorter one")
    if base.is_symlink() or found.st_uid != os.getuid() or found.st_mode & 0o077:
        raise LabFault(f"{base} is not a folder of this user alone")
    return base


def simulator_of(program: str) -> str:
    """The nvmesim that checks CONFIG: the one that NVMESIM names, else the one next to this nvmelive."""
    found = os.environ.get("NVMESIM", "") or str(Path(program).with_name("nvmesim"))
    if not os.access(found, os.X_OK):
        raise LabFault(f"there is no program {found}, which judges CONFIG; the variable NVMESIM names one")
    return str(Path(found).resolve())


@dataclass
class Lab:
    """The lab of one CONFIG: its text, its options, and its folder."""
    name: str
    text: str
    program: List[str]
    image: Optional[str]
    keeping: Optional[Keeping]
    has_drivers: bool
    place: Path

    @classmethod
    def of(cls, name: str, program: List[str], image: Optional[str], keeping: Optional[Keeping],
           has_drivers: bool) -> "Lab":
        path = Path(name).resolve()
        try:
            text = path.read_text("ascii", "surrogateescape")
        except OSError as fault:
            raise LabFault(f"{name} can't be read: {fault.strerror}") from fault
        digest = hashlib.sha256(str(path).encode("utf-8", "surrogateescape")).hexdigest()[:16]
        return cls(name, text, program, image and str(Path(image).resolve()), keeping, has_drivers,
                   base_folder() / digest)

    @property
    def folder(self) -> Path:
        return self.place

    @property
    def lock(self) -> Path:
        return self.place.with_suffix(".lock")

    @property
    def log(self) -> Path:
        return self.place.with_suffix(".log")

    @property
    def options(self) -> Dict[str, object]:
        """The options in which a second lab of the same CONFIG must agree."""
        script = self.keeping and self.keeping.path
        return {"text": self.text, "image": self.image, "script": script, "drivers": self.has_drivers}

    def join(self, host: str) -> Path:
        """Joins the lab as a host, and starts it if it does not run. Returns the folder of the host's view. The lab
        lasts as long as this process."""
        held = os.open(self.lock, os.O_RDWR | os.O_CREAT | os.O_CLOEXEC, 0o600)
        try:
            fcntl.flock(held, fcntl.LOCK_EX)
            view = self.ask_to_join(host)
            if view is None:
                self.start()
                view = self.ask_to_join(host)
            if view is None:
                raise LabFault(f"the lab ended at once; its output is in {self.log}")
            return view
        finally:
            os.close(held)

    def power_cycle(self) -> None:
        """Power-cycles the running lab."""
        said = self.say(server.POWER_CYCLE)
        if said is None:
            raise LabFault(f"no lab of {self.name} runs, so there is no power to cycle")
        if said != server.POWER_IS_BACK:
            raise LabFault(f"{self.name}: {said or 'the lab has ended'}")

    def ask_to_join(self, host: str) -> Optional[Path]:
        """Joins the running lab; None if none runs."""
        said = self.say(host)
        kind, _, rest = (said or "").partition(" ")
        if kind == "joined":
            return Path(rest)
        if said:
            raise LabFault(f"{self.name}: {said}")
        return None

    def say(self, word: str) -> Optional[str]:
        """Sends a word to the running lab, and returns its answer; None if none runs."""
        with socket.socket(socket.AF_UNIX, socket.SOCK_STREAM) as stream:
            try:
                stream.connect(str(self.folder / "socket"))
            except OSError:
                return None
            self.compare()
            try:
                stream.sendall(f"{word}\n".encode())
                return stream.makefile("r").readline().strip()
            except OSError:
                return None

    def compare(self) -> None:
        """Refuses a running lab with another CONFIG or other options than this one."""
        running = json.loads((self.folder / "options").read_text())
        if running["text"] != self.text:
            raise LabFault(f"{self.name} has changed since its lab was started, which still runs")
        for option in ("image", "script"):
            wanted = self.options[option]
            if wanted is not None and wanted != running[option]:
                raise LabFault(f"the lab of {self.name} runs already, without --{option} {wanted}")
        if self.has_drivers and not running["drivers"]:
            raise LabFault(f"the lab of {self.name} runs already, without --drivers")

    def start(self) -> None:
        """Starts the server in its own session, so that no terminal signal reaches it."""
        if self.keeping is not None:
            self.keeping.check([self.name, *([self.image] if self.image else [])])
        shutil.rmtree(self.folder, ignore_errors=True)
        try:
            self.folder.mkdir(mode=0o700)
            configuration = self.read()
            options = {**self.options, "force": self.keeping is not None and self.keeping.is_forced,
                       "configuration": configuration.packed(), "token": secrets.token_hex(8)}
            (self.folder / "options").write_text(json.dumps(options))
            image = self.image or self.make_image(configuration.image_bytes)
            words = [sys.executable, "-c", "from nvmelab.main import serve_here; serve_here()", str(self.folder),
                     str(self.lock), self.name, image, *self.program]
            with open(self.log, "wb") as log:
                started = subprocess.Popen(words, cwd="/", env=server_environment(), stdin=subprocess.DEVNULL,
                                          stdout=subprocess.PIPE, stderr=log, start_new_session=True)
        except OSError as fault:
            shutil.rmtree(self.folder, ignore_errors=True)
            raise LabFault(f"the lab can't be started: {fault.strerror}: {fault.filename}") from fault
        except LabFault:
            shutil.rmtree(self.folder, ignore_errors=True)
            raise
        try:
            said = self.wait_for(started)
        except BaseException:
            os.killpg(started.pid, signal.SIGTERM)
            raise
        if said != "ready":
            started.wait()
            raise LabFault(self.reason(said))
        started.returncode = 0

    def reason(self, said: str) -> str:
        """Why the server did not start: the program's last output if it ended, for instance because the image is in
        use."""
        told = [it for it in self.log.read_text(errors="replace").splitlines() if it.startswith("nvmelive: ")]
        if told and said.startswith("the program has ended"):
            # The lab itself can't wait for an image.
            return told[-1].removesuffix("; --wait waits for it")
        return said or f"the lab did not start; its output is in {self.log}"

    def read(self) -> Configuration:
        """Parses CONFIG by the programs, over as many zeros as the image has bytes."""
        length = os.path.getsize(self.image) if self.image else LARGEST_MEDIUM
        judge = judge_by(simulator_of(self.program[0]), self.folder, length, self.name)
        reader = Subsystem(self.program, "-")
        try:
            # No time limit: the program may have to be built first.
            return read_configuration(self.text, self.name, self.has_drivers, lambda it: reader.ask(it, None), judge)
        finally:
            reader.end()

    def make_image(self, length: int) -> str:
        """A sparse file of zeros for the blocks, which is removed with the lab."""
        image = self.folder / "image"
        with open(image, "wb") as file:
            file.truncate(length)
        return str(image)

    def wait_for(self, started: "subprocess.Popen[bytes]") -> str:
        """The server's first line. Shows the server's output while that takes long."""
        limit = QUIET_SECONDS
        with started.stdout as answers, open(self.log, "rb") as log:
            while not select.select([answers], [], [], limit)[0]:
                limit = SHOW_SECONDS
                sys.stderr.write(log.read().decode("utf-8", "replace"))
                sys.stderr.flush()
            return answers.readline().decode("utf-8", "replace").strip()


def server_environment() -> Dict[str, str]:
    """The server's environment, without the devices of a lab in which it may be started."""
    found = {name: value for name, value in os.environ.items() if name not in ("NVME_LAB", "LD_PRELOAD")}
    found["PYTHONPATH"] = str(PACKAGE)
    found["PYTHONDONTWRITEBYTECODE"] = "1"
    return found
