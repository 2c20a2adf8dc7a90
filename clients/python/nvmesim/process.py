"""The program `nvmelive` as a process: finds it, and exchanges lines and answers over pipes, with a time limit."""
from __future__ import annotations

import functools
import os
import selectors
import shutil
import subprocess
import sys
import time
from pathlib import Path
from typing import IO, List, Optional, Sequence, Union

from .arguments import a_path, one_line
from .errors import ProgramHangs, ProgramNotFound, ProtocolError, SessionClosed, death_of

PathLike = Union[str, "os.PathLike[str]"]

VARIABLE = "NVMELIVE"
"""The variable of the environment that names the program."""

INSTALLED = "lib/nvmesim"
"""The folder of the installed programs under the PREFIX of `scripts/install`."""

_PIECE = 1 << 16
_MOST_TOLD = 1 << 16


def find_program(given: Optional[PathLike] = None, name: str = "nvmelive", variable: str = VARIABLE) -> Path:
    """The program: the one that is given, that the environment names, that the repository of this package builds, that
    is installed with this package, that is on the path, or that is installed in one of the usual places.

    Args:
        given: the program, if the caller knows it.
        name: what the program is called.
        variable: the variable of the environment that names it.

    Raises:
        ProgramNotFound: none is executable.
    """
    named = given if given is not None else os.environ.get(variable) or None
    if named is not None:
        found = shutil.which(a_path("program", named))
        if found is None:
            raise ProgramNotFound(f"{os.fspath(named)} is no program that can be run")
        return Path(found)
    top = Path(__file__).resolve().parents[3]
    if (top / "crates.txt").is_file() and os.access(top / name, os.X_OK):
        return built_program(top / name)
    found = _next_to_package(name) or shutil.which(name) or _installed(name)
    if found is None:
        raise ProgramNotFound(f"there is no program {name} on the path, nor in {INSTALLED} under any of "
                              f"{', '.join(map(str, _prefixes()))}: scripts/install puts it there, and the variable "
                              f"{variable} can name one")
    return Path(found)


def _next_to_package(name: str) -> Optional[str]:
    """The program of an installation that has this package in its folder `python`."""
    folder = Path(__file__).resolve().parents[2]
    return shutil.which(folder / name) if folder.parts[-2:] == tuple(INSTALLED.split("/")) else None


def _prefixes() -> List[Path]:
    """The prefixes of installed programs: this Python's, the user's, the system's."""
    return list(dict.fromkeys((Path(sys.prefix), Path.home() / ".local", Path("/usr/local"), Path("/usr"))))


def _installed(name: str) -> Optional[str]:
    """The program of the first installation that there is."""
    return next((found for it in _prefixes() if (found := shutil.which(it / INSTALLED / name))), None)


@functools.lru_cache(maxsize=None)
def built_program(script: Path) -> Path:
    """The program that a script at the top of the repository runs. If it is missing, the script builds it with a notice
    on standard error."""
    asked = subprocess.run([os.fspath(script), "--where"], stdin=subprocess.DEVNULL, stdout=subprocess.PIPE, text=True)
    if asked.returncode != 0:
        raise ProgramNotFound(f"{script} can't build its program")
    return Path(asked.stdout.strip())


class Process:
    """One run of the program. A thread reads its standard error, so that the program never blocks on it."""

    def __init__(self, command: Sequence[PathLike], seconds: float) -> None:
        """Starts a command.

        Args:
            command: the program and its words.
            seconds: the time limit of each answer.
        """
        self.seconds = seconds
        self._last = ""
        self._told = b""
        self._pending = b""
        self._is_closed = False
        try:
            self._child = subprocess.Popen([os.fspath(it) for it in command], stdin=subprocess.PIPE,
                                           stdout=subprocess.PIPE, stderr=subprocess.PIPE, bufsize=0)
        except OSError as fault:
            raise ProgramNotFound(f"{os.fspath(command[0])} can't be run: {fault.strerror}") from None
        for pipe in (self._input, self._output, self._errors):
            os.set_blocking(pipe.fileno(), False)

    @property
    def _input(self) -> IO[bytes]:
        assert self._child.stdin is not None
        return self._child.stdin

    @property
    def _output(self) -> IO[bytes]:
        assert self._child.stdout is not None
        return self._child.stdout

    @property
    def _errors(self) -> IO[bytes]:
        assert self._child.stderr is not None
        return self._child.stderr

    @property
    def told(self) -> str:
        """The last part of standard error so far."""
        return self._told.decode("utf-8", "replace")

    def exchange(self, lines: Sequence[str]) -> List[str]:
        """Writes lines, and reads an answer for each; as many lines as the pipe takes are written ahead.

        Raises:
            ProgramDied: the program ended, or closed its output.
            ProgramHangs: an answer did not come in time; the program is killed.
            SessionClosed: the session was closed.
            ArgumentError: a line is no text, or has a line feed in it; nothing was sent.
        """
        for it in lines:
            one_line("a line", it)
        return self._talk(lines, len(lines))

    def receive(self, count: int) -> List[str]:
        """Reads `count` lines that answer none of ours: the transcript of a script that the program runs first.
        Raises as `exchange` does."""
        return self._talk([], count)

    def _talk(self, lines: Sequence[str], count: int) -> List[str]:
        """Writes lines, and reads as many."""
        if self._is_closed:
            raise SessionClosed("the session is closed")
        unsent = memoryview("".join(f"{it}\n" for it in lines).encode("utf-8"))
        answers: List[str] = []
        with selectors.DefaultSelector() as selector:
            selector.register(self._output, selectors.EVENT_READ)
            selector.register(self._errors, selectors.EVENT_READ)
            if unsent:
                selector.register(self._input, selectors.EVENT_WRITE)
            until = time.monotonic() + self.seconds
            while len(answers) < count:
                self._last = lines[len(answers)] if len(answers) < len(lines) else ""  # the first without an answer
                ready = selector.select(max(0.0, until - time.monotonic()))
                if not ready:
                    self._give_up()
                for key, _ in ready:
                    if key.fileobj is self._input:
                        unsent = self._send(unsent, selector)
                    elif key.fileobj is self._errors:
                        self._drain(selector)
                    elif came := self._receive():
                        answers += came
                        until = time.monotonic() + self.seconds
        if len(answers) > count or self._pending:
            extra = answers[count] if len(answers) > count else self._pending.decode("utf-8", "replace")
            raise ProtocolError(f"{extra!r} answers no line")
        return answers

    def _send(self, unsent: memoryview, selector: selectors.BaseSelector) -> memoryview:
        """Writes what the pipe takes. Returns the rest."""
        try:
            unsent = unsent[os.write(self._input.fileno(), unsent[:_PIECE]):]
        except BrokenPipeError:
            unsent = unsent[:0]
        if not unsent:
            selector.unregister(self._input)
        return unsent

    def _drain(self, selector: Optional[selectors.BaseSelector] = None) -> None:
        """Reads standard error."""
        try:
            piece = os.read(self._errors.fileno(), _PIECE)
        except BlockingIOError:
            return
        self._told = (self._told + piece)[-_MOST_TOLD:]
        if not piece and selector is not None:
            selector.unregister(self._errors)

    def _receive(self) -> List[str]:
        """The complete answers that were received."""
        piece = os.read(self._output.fileno(), _PIECE)
        if not piece:
            self._bury()
        *whole, self._pending = (self._pending + piece).split(b"\n")
        return [it.decode("utf-8", "replace") for it in whole]

    def _bury(self) -> None:
        """Raises the error for a program that ended."""
        status: Optional[int]
        try:
            status = self._child.wait(1.0)
        except subprocess.TimeoutExpired:
            status = None
        self._end()
        raise death_of(status, self._last, self.told)

    def _give_up(self) -> None:
        """Kills a program that does not answer."""
        self._end()
        raise ProgramHangs(self.seconds, self._last, self.told)

    def _end(self) -> None:
        """Kills the program if it still runs, reads the rest of its standard error, and closes the pipes."""
        self._is_closed = True
        if self._child.poll() is None:
            self._child.kill()
            self._child.wait()
        while True:
            before = len(self._told)
            self._drain()
            if len(self._told) in (before, _MOST_TOLD):
                break
        for pipe in (self._input, self._output, self._errors):
            pipe.close()

    def abandon(self) -> None:
        """Kills the program, if it still runs, without waiting for it to finish."""
        if not self._is_closed:
            self._end()

    def close(self) -> int:
        """Closes the input, and waits for the program within the time limit. Returns its exit status, negative for a
        signal."""
        if self._is_closed:
            return self._child.returncode
        self._input.close()
        until = time.monotonic() + self.seconds
        with selectors.DefaultSelector() as selector:
            for pipe in (self._output, self._errors):
                selector.register(pipe, selectors.EVENT_READ)
            while selector.get_map() and time.monotonic() < until:
                for key, _ in selector.select(max(0.0, until - time.monotonic())):
                    if key.fileobj is self._errors:
                        self._drain(selector)
                    elif not os.read(self._output.fileno(), _PIECE):
                        selector.unregister(self._output)
        try:
            self._child.wait(max(0.0, until - time.monotonic()))
        except subprocess.TimeoutExpired:
            self._give_up()
        self._end()
        return self._child.returncode
