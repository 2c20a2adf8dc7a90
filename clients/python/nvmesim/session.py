"""One session with `nvmelive`: lines and their answers, with the resulting script and transcript."""
from __future__ import annotations

from types import TracebackType
from typing import List, Optional, Sequence, Type

from .arguments import a_path, a_text, one_line, seconds_of, shown
from .errors import ArgumentError, ConfigurationRefused, LineError, NotDone, ProtocolError
from .history import Event, Follower
from .process import PathLike, Process, find_program
from .script import LineKind, ScriptLine, number_taken, read_lines

SECONDS = 10.0
"""The time limit of an answer, if none is given."""


class Session:
    """A session, line by line. Use it in a `with`, or close it.

    Lines that set up come first, then `start`, then events. Queries, after `start`, change nothing.
    """

    def __init__(self, image: Optional[PathLike] = None, program: Optional[PathLike] = None,
                 seconds: float = SECONDS, any_size: bool = False) -> None:
        """Starts the program.

        Args:
            image: a file whose blocks of 512 bytes are the medium; None for 1,024 blocks of zeros in memory.
            program: the program `nvmelive`; None for the one that `find_program` finds.
            seconds: the time limit of each answer.
            any_size: whether a namespace may have more than 65,536 blocks.

        Raises:
            ProgramNotFound: there is no such program.
        """
        medium = "-" if image is None else a_path("image", image)
        self._program = find_program(program)
        options = ["--any-size"] if any_size else []
        self._process = Process([self._program, *options, medium], seconds_of(seconds))
        self._lines: List[str] = []
        self._answers: List[str] = []
        self._raw: List[int] = []
        self._follower: Optional[Follower] = None

    def __enter__(self) -> Session:
        return self

    def __exit__(self, kind: Optional[Type[BaseException]], fault: Optional[BaseException],
                 trace: Optional[TracebackType]) -> None:
        if kind is not None and not issubclass(kind, Exception):
            self._process.abandon()  # Ctrl-C waits for nobody
        else:
            self.close()

    def close(self) -> int:
        """Ends the session; the program's exit status, 0 for a session that ended well."""
        return self._process.close()

    @property
    def script(self) -> str:
        """The script so far: `nvmesim` runs it over an equal image, and prints the transcript."""
        return "".join(f"{it}\n" for it in self._lines)

    @property
    def transcript(self) -> str:
        """The answers of the events so far, as `nvmesim` prints them."""
        return "".join(f"{it}\n" for it in self._answers)

    @property
    def is_started(self) -> bool:
        """Whether `start` was answered."""
        return self._follower is not None

    @property
    def follower(self) -> Follower:
        """What is known of the commands in progress. Raises `NotDone` before `start`."""
        if self._follower is None:
            raise NotDone("the session was not started")
        return self._follower

    def ask(self, line: str) -> str:
        """The answer to a line, unparsed.

        Raises:
            LineError: the program did not take the line; nothing changed.
            SessionError: the program ended, or does not answer.
        """
        return self.ask_all([line])[0]

    def ask_all(self, lines: Sequence[str]) -> List[str]:
        """The answers of several lines, which are all sent first. Raises like `ask`, for the first fault."""
        if isinstance(lines, (str, bytes)) or not isinstance(lines, Sequence):
            raise ArgumentError(f"lines is a list of texts, not {shown(lines)}")
        answers = self._process.exchange(lines)
        for line, answer in zip(lines, answers):
            if answer.startswith("!"):
                raise LineError(line, answer[1:].strip())
        return answers

    def look(self, line: str) -> str:
        """The answer of a query, which begins with `?`."""
        if not one_line("line", line).startswith("?"):
            raise ArgumentError(f"a query begins with '?', and {shown(line)} does not")
        return self.ask(line)

    def configure(self, line: str) -> None:
        """A line that describes the subsystem, before `start`."""
        if not one_line("line", line).split():
            raise ArgumentError("line describes the subsystem, and this one is empty")
        answer = self.ask(line)
        if answer != "ok":
            raise ProtocolError(f"{answer!r} does not answer the line {line!r}")
        self._lines.append(line)
        words = line.split()
        if words[0] == "controller" and words[-1] == "raw":
            self._raw.append(number_taken(words[1]))

    def start(self) -> None:
        """Ends the description, and lets the events begin.

        Raises:
            ConfigurationRefused: the description has a fault; the session has ended.
        """
        answer = self.ask("start")
        if answer.startswith("refused line "):
            self.close()
            raise ConfigurationRefused(answer[len("refused "):])
        if answer != "started":
            raise ProtocolError(f"{answer!r} does not answer start")
        self._lines.append("start")
        self._follower = Follower(self._raw)

    def event(self, line: str) -> Event:
        """One event: its answer, and the commands that it is about."""
        follower, answer = self.follower, self.ask(line)
        words = tuple(line.split())
        event = follower.take(ScriptLine(len(self._lines) + 1, line, LineKind.EVENT, words), answer)
        self._lines.append(line)
        self._answers.append(answer)
        return event

    def run(self, script: str) -> List[Event]:
        """Runs the lines of a script, or of a part of one, in this session; what its events gave.

        Raises:
            ScriptError: the text is no script; nothing was sent.
        """
        kinds = (LineKind.CONFIGURATION, LineKind.START, LineKind.EVENT)
        wanted = [it for it in read_lines(a_text("script", script), self.is_started, self._program) if it.kind in kinds]
        events: List[Event] = []
        for line in wanted:
            if line.kind is LineKind.EVENT:
                events.append(self.event(line.text))
            elif line.kind is LineKind.START:
                self.start()
            else:
                self.configure(line.text)
        return events
