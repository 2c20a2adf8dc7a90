"""Files that commands read and write: an output is never an input, replaces a file only with --force, and is atomic."""
from __future__ import annotations

import argparse
import os
import secrets
import stat
import sys
from contextlib import contextmanager, suppress
from pathlib import Path
from typing import Iterable, Iterator, Optional, Tuple, Union

from .errors import FileFault, OutputRefused
from .process import PathLike

STANDARD = "-"
"""The name of standard input."""


@contextmanager
def doing(action: str, name: PathLike) -> Iterator[None]:
    """Raises an `OSError` as a `FileFault`, with the action and the file."""
    try:
        yield
    except BrokenPipeError:
        raise
    except OSError as fault:
        raise FileFault(action, os.fspath(name), fault.strerror or str(fault)) from fault


def add_force(parser: argparse.ArgumentParser) -> None:
    """The option that lets a command replace files."""
    parser.add_argument("--force", action="store_true", help="replace output files that exist")


class Output:
    """A file that a command writes, checked before the command does anything."""

    def __init__(self, name: PathLike, inputs: Iterable[Optional[PathLike]] = (), is_forced: bool = False) -> None:
        """Checks that the file can be written.

        Args:
            name: the file.
            inputs: the command's inputs and its other outputs; `-` is standard input, None is no file.
            is_forced: whether a file that exists is replaced.

        Raises:
            OutputRefused: it is one of the inputs, no regular file, or exists and `is_forced` is false.
            FileFault: its folder does not exist.
        """
        self.name = os.fspath(name)
        self._path = Path(os.path.realpath(self.name))
        self._inputs, self._is_forced = [it for it in inputs if it is not None], is_forced
        self._check()

    def _check(self) -> None:
        """Refuses a file that must not be written."""
        with doing("write", self.name):
            os.stat(self._path.parent)
        if any(_is_same(self._path, it) for it in self._inputs):
            raise OutputRefused(f"{self.name} is also read or written otherwise by this command; nothing was written")
        found = _status(self._path)
        if found is None or self._is_stream(found):
            return
        if not stat.S_ISREG(found.st_mode):
            raise OutputRefused(f"{self.name} is no regular file, and is not written")
        if not self._is_forced:
            raise OutputRefused(f"{self.name} exists; --force replaces it")

    def _is_stream(self, found: os.stat_result) -> bool:
        """Whether bytes sent there replace nothing: a pipe, a terminal, /dev/null."""
        return stat.S_ISFIFO(found.st_mode) or stat.S_ISCHR(found.st_mode) or stat.S_ISSOCK(found.st_mode)

    def write(self, content: Union[str, bytes]) -> None:
        """Writes a temporary file next to it, then moves that to its place. A second call replaces what the first
        wrote."""
        data = content.encode("utf-8") if isinstance(content, str) else content
        self._check()
        with doing("write", self.name):
            found = _status(self._path)
            if found is not None and self._is_stream(found):
                with self._path.open("wb") as stream:
                    stream.write(data)
            else:
                self._put(data, found)
        self._is_forced = True

    def _put(self, data: bytes, found: Optional[os.stat_result]) -> None:
        """Writes the data to a new file, which replaces the old one when it is complete."""
        new = self._path.with_name(f".{self._path.name[:200]}.{secrets.token_hex(4)}.new")
        file = os.open(new, os.O_WRONLY | os.O_CREAT | os.O_EXCL | os.O_CLOEXEC, 0o666)
        try:
            with open(file, "wb") as opened:
                opened.write(data)
            if found is not None:
                os.chmod(new, stat.S_IMODE(found.st_mode))
            os.replace(new, self._path)
        finally:
            with suppress(FileNotFoundError):
                os.unlink(new)


def _status(path: PathLike) -> Optional[os.stat_result]:
    """The status of the file at a path, links followed; None if there is none."""
    try:
        return os.stat(path)
    except FileNotFoundError:
        return None


def _identity(name: PathLike) -> Optional[Tuple[int, int]]:
    """The device and inode of a file; None if it does not exist."""
    try:
        found = os.fstat(sys.stdin.fileno()) if name == STANDARD else os.stat(name)
    except (OSError, ValueError):
        return None
    return found.st_dev, found.st_ino


def _is_same(path: Path, other: PathLike) -> bool:
    """Whether both are the same file, even if it does not exist yet."""
    found = _identity(path)
    if found is None:
        return other != STANDARD and os.path.realpath(other) == os.fspath(path)
    return found == _identity(other)
