"""A session whose lines are typed: the program, the lines that it received, and copies of it for queries."""
from __future__ import annotations

import os
import tempfile
from contextlib import contextmanager
from typing import Iterator, List, Optional, Sequence

from ..answers import BLOCK_BYTES
from ..errors import NotDone, ProtocolError, ScriptError
from ..history import Event, Follower
from ..process import PathLike, Process
from ..script import Configuration, LineKind, ScriptLine, configuration_of, events_of, read_lines


class Talk:
    """A session line by line. Before `start` its lines are kept, and may be taken back; a refused `start` ends nothing.

    Attributes:
        setup: the lines that describe the subsystem, `start` among them once it was answered.
        events: the events that happened, in their order.
        configuration: the parsed lines before `start`; empty before `start`.
    """

    def __init__(self, program: PathLike, image: PathLike = "-", seconds: float = 10.0, is_meant: bool = False,
                 any_size: bool = False) -> None:
        """Starts the program over an image, or over zeros in memory for `-`.

        Args:
            program: the program `nvmelive`.
            image: the image.
            seconds: how long an answer may take.
            is_meant: whether the image is meant as one, also if it begins as a script does.
            any_size: whether a namespace may have more than 65,536 blocks.
        """
        self._any_size = ["--any-size"] if any_size else []
        self._command: List[PathLike] = [program, *self._any_size, *(["--image"] if is_meant else []), image]
        self._seconds = seconds
        self._program = program
        self.setup: List[str] = []
        self.events: List[Event] = []
        self.configuration = Configuration({}, (), {})
        self._follower: Optional[Follower] = None
        self._process = self._begin(self._command)

    def _begin(self, command: Sequence[PathLike]) -> Process:
        return Process(command, self._seconds)

    def close(self) -> int:
        """Ends the session; the program's exit status."""
        return self._process.close()

    @property
    def told(self) -> str:
        """The program's standard error."""
        return self._process.told

    @property
    def is_in_memory(self) -> bool:
        """Whether the medium is the blocks in memory, and no image."""
        return self._command[-1] == "-"

    @property
    def is_started(self) -> bool:
        """Whether `start` was answered."""
        return self._follower is not None

    @property
    def script(self) -> List[str]:
        """The lines of the session so far, as a script."""
        return [*self.setup, *(it.line.text for it in self.events)]

    def run_first(self, script: PathLike, text: str) -> List[str]:
        """Begins again with a script, which the program runs first; what it prints for it.

        Raises:
            ProgramDied: the program refuses it, with its reason.
        """
        try:
            lines = list(read_lines(text, program=self._program))
        except ScriptError:
            lines = []  # the program's message is better
        self.close()
        self._process = self._begin([*self._command, script])
        events = events_of(lines)
        is_whole = any(it.kind is LineKind.START for it in lines)
        told = self._process.receive(len(events)) if is_whole else []
        self._process.exchange([""])  # the program has ended by now, if it refuses the script
        if is_whole:
            self.setup = [it.text for it in lines if it.kind in (LineKind.CONFIGURATION, LineKind.START)]
            self._follow()
            self.events = [self._taken(line, answer) for line, answer in zip(events, told)]
        return told

    def say(self, line: str) -> str:
        """The answer of a line, whatever line it is.

        Raises:
            SessionError: the program ended, or does not answer.
        """
        words = line.split()
        if words == ["start"] and not self.is_started:
            return self._start(line)
        (answer,) = self._process.exchange([line])
        if answer == "ok" and words and not line.startswith("#"):
            self.setup.append(line)
        elif self.is_started and words and words[0][0] not in "?#" and not answer.startswith("!"):
            taken = ScriptLine(len(self.script) + 1, line, LineKind.EVENT, tuple(words))
            self.events.append(self._taken(taken, answer))
        return answer

    def look(self, line: str) -> str:
        """The answer of a query. Raises `NotDone` with the program's words if there is nothing to look at."""
        (answer,) = self._process.exchange([line])
        if answer.startswith("!"):
            raise NotDone(answer[1:].strip().split(": ", 1)[-1])
        return answer

    def numbers(self, line: str) -> List[int]:
        """The numbers of a line as the program reads it. Raises `ScriptError` with its reason."""
        (read,) = read_lines(line, True, self._program)
        return read.numbers()

    def change(self, setup: Sequence[str]) -> None:
        """Begins again with these lines before `start`."""
        self._process.close()
        self._process = self._begin(self._command)
        self._process.exchange(list(setup))
        self.setup = list(setup)

    def _start(self, line: str) -> str:
        """Begins again with the lines that are kept, so that the program counts them as they are listed."""
        self.change(self.setup)
        (answer,) = self._process.exchange([line])
        if answer == "started":
            self.setup.append(line)
            self._follow()
        else:
            self.change(self.setup)
        return answer

    def _follow(self) -> None:
        self.configuration = configuration_of(read_lines("\n".join(self.setup), program=self._program))
        self._follower = Follower(self.configuration.raw)

    def _taken(self, line: ScriptLine, answer: str) -> Event:
        assert self._follower is not None
        return self._follower.take(line, answer)

    @contextmanager
    def copy(self) -> Iterator[Process]:
        """A copy of the program over zeros, which received all lines of the session; its events do not affect this
        one."""
        blocks = sum(self.configuration.namespaces.values())
        with tempfile.NamedTemporaryFile(prefix="nvmesim-copy-") as image:
            os.truncate(image.name, BLOCK_BYTES * max(1, blocks))
            process = self._begin([self._command[0], *self._any_size, "--image", image.name])
            try:
                answers = process.exchange(self.script)
                if answers[len(self.setup):] and answers[-1].startswith("!"):
                    raise ProtocolError(f"{answers[-1]!r} answers a line that was taken before")
                yield process
            finally:
                process.abandon()
