"""The file of a kept script: never an input of the lab, and an existing one only with --force."""
import fcntl
import os
import stat
from dataclasses import dataclass
from typing import BinaryIO, List, Optional

from nvmelab.faults import LabFault


@dataclass(frozen=True)
class Keeping:
    """The absolute path of a kept script."""
    path: str
    is_forced: bool

    def check(self, inputs: List[str]) -> None:
        """Refuses an input of the lab, a file that isn't regular, and without --force any existing file."""
        found = self.status()
        if found is None:
            return
        if any(os.path.exists(it) and os.path.samefile(it, self.path) for it in inputs):
            raise LabFault(f"{self.path} is also read by this lab; nothing was written")
        if is_stream(found):
            return
        if not stat.S_ISREG(found.st_mode):
            raise LabFault(f"{self.path} is no regular file, and is not written")
        if not self.is_forced:
            raise LabFault(f"{self.path} exists; --force replaces it")

    def status(self) -> Optional[os.stat_result]:
        """The status of the file, links followed; None if it does not exist."""
        try:
            return os.stat(self.path)
        except FileNotFoundError:
            return None
        except OSError as fault:
            raise self.unwritten(fault) from fault

    def unwritten(self, fault: OSError) -> LabFault:
        return LabFault(f"{self.path} can't be written: {fault.strerror}")

    def opened(self) -> BinaryIO:
        """Opens and empties the script, and locks it against other labs."""
        found = self.status()
        is_new = not self.is_forced and (found is None or not is_stream(found))
        try:
            flags = os.O_WRONLY | os.O_CREAT | os.O_CLOEXEC | (os.O_EXCL if is_new else 0)
            script = open(os.open(self.path, flags, 0o666), "wb")
            if not is_stream(os.fstat(script.fileno())):
                fcntl.flock(script, fcntl.LOCK_EX | fcntl.LOCK_NB)
                script.truncate()
            return script
        except BlockingIOError as fault:
            raise LabFault(f"{self.path} is in use: another program has it locked") from fault
        except OSError as fault:
            raise self.unwritten(fault) from fault


def is_stream(found: os.stat_result) -> bool:
    """Whether writing to it replaces nothing: a pipe, a terminal, /dev/null."""
    return stat.S_ISFIFO(found.st_mode) or stat.S_ISCHR(found.st_mode)
