"""The medium that each run begins with: zeros, or a copy of an image as it was when the exploration began.

Zeros are in memory if the program's own blocks are enough, and else in a file of holes. An image is copied once, and
that copy once for each run. So the file itself is never written, and later changes to it do not matter.
Holes of a file stay holes: an image that is mostly zeros takes little room and time.
"""
from __future__ import annotations

import errno
import fcntl
import hashlib
import os
import stat
import tempfile
from contextlib import contextmanager
from types import TracebackType
from typing import Iterator, Optional, Tuple, Type

from ..answers import BLOCK_BYTES
from ..errors import NvmesimError
from ..files import doing
from ..process import PathLike

IN_MEMORY = 1024
"""The blocks of zeros that the program has in memory."""
_PIECE = 1 << 20
_MOST_BLOCKS = 1 << 54


class MediumError(NvmesimError):
    """A file that can't be an image, or that differs from the recorded one."""


class Medium:
    """What each run of an exploration begins with. Use it in a `with`, or close it.

    Its copies are files without a name, in the folder for temporary files: whatever becomes of the explorer, none of
    them stays.

    Attributes:
        digest: what distinguishes images, in hexadecimal digits; an empty string for zeros.
    """

    def __init__(self, image: Optional[PathLike] = None, blocks: int = 0) -> None:
        """Takes a copy of an image; None for zeros: this number of blocks, and at least 1,024.

        Raises:
            MediumError: the image is no regular file, or in use by a program that may write it.
            FileFault: it can't be read, or not be copied.
        """
        self.digest = ""
        self._kept: Optional[int] = None
        if image is None:
            self._kept = None if blocks <= IN_MEMORY else _file_of(blocks)
            return
        with doing("read", image):
            if not stat.S_ISREG(os.stat(image).st_mode):
                raise MediumError(f"{os.fspath(image)} is no regular file; an image must be one")
            with open(image, "rb") as file:
                _share(file.fileno(), os.fspath(image))
                self._kept = self.copy_of(file.fileno())
        self.digest = _digest_of(self._kept)

    def __enter__(self) -> Medium:
        return self

    def __exit__(self, kind: Optional[Type[BaseException]], fault: Optional[BaseException],
                 trace: Optional[TracebackType]) -> None:
        self.close()

    def close(self) -> None:
        """Removes the copy."""
        if self._kept is not None:
            os.close(self._kept)
            self._kept = None

    def fresh(self) -> Optional[int]:
        """A copy for one run, which the caller closes: the number of an open file; None for zeros in memory."""
        return None if self._kept is None else self.copy_of(self._kept)

    @contextmanager
    def of_a_run(self, blocks: int = 0) -> Iterator[str]:
        """The word IMAGE of the program for one run: `-`, or a copy of the run's own, which goes with it. Without an
        image it has at least this number of blocks."""
        copy = _file_of(blocks) if self._kept is None and blocks > IN_MEMORY else self.fresh()
        if copy is None:
            yield "-"
            return
        try:
            yield f"/proc/{os.getpid()}/fd/{copy}"
        finally:
            os.close(copy)

    def make_file(self) -> None:
        """Puts the zeros in memory into a file, as an image that outlasts its program."""
        if self._kept is None:
            self._kept = _file_of(IN_MEMORY)

    def copy_of(self, source: int) -> int:
        """A copy of an open file, which the caller closes: the number of an open file."""
        with doing("write", f"a copy of the image in {tempfile.gettempdir()}"):
            with tempfile.TemporaryFile(buffering=0) as file:
                target = os.dup(file.fileno())
            try:
                _copy(source, target)
            except OSError:
                os.close(target)
                raise
        return target


def _file_of(blocks: int) -> Optional[int]:
    """A file of `blocks` blocks of zeros, all of it a hole, which the caller closes; None for more blocks than a file
    can have: the program reports that better."""
    if blocks > _MOST_BLOCKS:
        return None
    with doing("make", f"an image of {blocks} blocks"), tempfile.TemporaryFile(buffering=0) as file:
        file.truncate(blocks * BLOCK_BYTES)
        return os.dup(file.fileno())


def _share(file: int, name: str) -> None:
    """Locks an image against programs that write it, as long as it is open here."""
    try:
        fcntl.flock(file, fcntl.LOCK_SH | fcntl.LOCK_NB)
    except BlockingIOError:
        raise MediumError(f"{name} is in use: another program has it locked, and may write it") from None


def _copy(source: int, target: int) -> None:
    """Copies the bytes of a file, with its holes."""
    os.truncate(target, os.fstat(source).st_size)
    for begin, end in _pieces(source):
        while begin < end:
            piece = os.pread(source, min(_PIECE, end - begin), begin)
            if not piece:
                return
            os.pwrite(target, piece, begin)
            begin += len(piece)


def _pieces(file: int) -> Iterator[Tuple[int, int]]:
    """The parts of the file that are no holes, each by its beginning and its end."""
    end = 0
    while True:
        try:
            begin = os.lseek(file, end, os.SEEK_DATA)
        except OSError as fault:
            if fault.errno == errno.ENXIO:
                return
            raise
        end = os.lseek(file, begin, os.SEEK_HOLE)
        yield begin, end


def _digest_of(file: int) -> str:
    digest, place = hashlib.sha256(), 0
    while piece := os.pread(file, _PIECE, place):
        digest.update(piece)
        place += len(piece)
    return digest.hexdigest()
