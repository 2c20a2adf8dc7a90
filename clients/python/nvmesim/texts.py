"""Reads the files that are named on a command line."""
from __future__ import annotations

import sys
from pathlib import Path

from .errors import NvmesimError
from .files import STANDARD, doing
from .recordings import expanded, is_recording


def text_of(name: str) -> str:
    """The text of a file, or of standard input if the name is `-`. A recording's text is its script.

    Raises:
        NvmesimError: it is no text, or a recording that is refused.
        FileFault: it can't be read.
    """
    with doing("read", "standard input" if name == STANDARD else name):
        data = sys.stdin.buffer.read() if name == STANDARD else Path(name).read_bytes()
    if is_recording(data):
        data = expanded(name, data)
    try:
        return data.decode("utf-8").replace("\r\n", "\n")
    except UnicodeDecodeError as fault:
        raise NvmesimError(f"{name} is no text: its byte {fault.start} is no UTF-8") from None
