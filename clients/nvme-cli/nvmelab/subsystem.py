"""The program nvmelive as a child process, which answers each line with one line."""
import os
import select
import subprocess
from typing import BinaryIO, List, Optional

from nvmelab.configuration import Configuration
from nvmelab.faults import Ended, LabFault
from nvmelab.keeping import Keeping

# The time limit of an answer, after which the program counts as hanging. The first answer may include a build.
ANSWER_SECONDS = 60.0
PIECE = 1 << 20


class Subsystem:
    """One run of the program, and the script of its lines."""

    def __init__(self, program: List[str], image: str) -> None:
        self.script: Optional[BinaryIO] = None
        # The received part of an incomplete answer.
        self.come = b""
        try:
            self.process = subprocess.Popen([*program, image], stdin=subprocess.PIPE, stdout=subprocess.PIPE, bufsize=0)
        except OSError as fault:
            raise LabFault(f"{program[0]} can't be run: {fault.strerror}") from fault
        # Neither side ever waits for the other to take what it says.
        os.set_blocking(self.process.stdin.fileno(), False)

    def start(self, configuration: Configuration, name: str, keeping: Optional[Keeping] = None) -> None:
        """Describes the subsystem and starts it. If that fails, no script is written."""
        lines = [*configuration.handed, "start"]
        for line, answer in zip(lines, self.ask(lines, seconds=None)):
            if answer not in ("ok", "started"):
                raise LabFault(f"{name}: `{line.strip()}` is answered `{answer}`")
        if keeping is not None:
            self.script = keeping.opened()
            self.keep(lines)

    def ask(self, lines: List[str], seconds: Optional[float] = ANSWER_SECONDS) -> List[str]:
        """Sends all lines at once, and returns their answers."""
        self.keep(lines)
        text = encoded(lines)
        answers: List[str] = []
        while len(answers) < len(lines):
            text = self.move(text, seconds)
            *whole, self.come = self.come.split(b"\n")
            answers += [it.decode("ascii", "replace") for it in whole]
        return answers

    def keep(self, lines: List[str]) -> None:
        """Writes lines to the script, if any, without queries."""
        if self.script is not None:
            self.script.write(encoded([it for it in lines if not it.startswith("?")]))
            self.script.flush()

    def move(self, text: bytes, seconds: Optional[float]) -> bytes:
        """Waits until the program accepts or returns bytes, and transfers them. Returns the unsent bytes."""
        going = [self.process.stdin] if text else []
        readable, writable, _ = select.select([self.process.stdout], going, [], seconds)
        if not readable and not writable:
            raise Ended(f"the program has not answered for {seconds:.0f} seconds")
        if readable:
            came = os.read(self.process.stdout.fileno(), PIECE)
            if not came:
                raise Ended(self.last_words())
            self.come += came
        if writable:
            try:
                text = text[os.write(self.process.stdin.fileno(), text):]
            except OSError as fault:
                raise Ended(self.last_words()) from fault
        return text

    def last_words(self) -> str:
        status = self.process.poll()
        return "the program has ended" if status is None else f"the program has ended with status {status}"

    def end(self) -> None:
        """Ends the program by closing its input."""
        for stream in (self.process.stdin, self.process.stdout):
            try:
                stream.close()
            except OSError:
                pass
        try:
            self.process.wait(10)
        except subprocess.TimeoutExpired:
            self.process.kill()
            self.process.wait()


def encoded(lines: List[str]) -> bytes:
    """Lines as the program reads them."""
    return b"".join(line.encode("ascii", "surrogateescape") + b"\n" for line in lines)
