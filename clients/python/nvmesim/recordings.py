"""Recordings, which `nvmetcp --record` keeps: the program `nvmetcp` makes their scripts."""
from __future__ import annotations

import subprocess
import sys

from .errors import NvmesimError
from .process import find_program

_BEGIN = b"nvmetcp recording "
_PROGRAM, _VARIABLE = "nvmetcp", "NVMETCP"
_INPUT = "/dev/stdin"
_REFUSED, _TORN = 1, "torn end: "


def is_recording(data: bytes) -> bool:
    """Whether these are the bytes of a recording."""
    return data.startswith(_BEGIN)


def expanded(name: str, data: bytes) -> bytes:
    """The script of a recording. If its end is torn, that of all before it, and standard error has a warning.

    Args:
        name: what messages call it.
        data: its bytes.

    Raises:
        ProgramNotFound: there is no program `nvmetcp`, and none can be built.
        NvmesimError: the program refuses the recording.
    """
    program = find_program(None, _PROGRAM, _VARIABLE)
    ran = subprocess.run([program, "expand", _INPUT], input=data, stdout=subprocess.PIPE, stderr=subprocess.PIPE)
    if ran.returncode == 0:
        return ran.stdout
    told = ran.stderr.decode("utf-8", "replace").strip()
    why = told.partition(f"{_INPUT}: ")[2] or told
    if ran.returncode != _REFUSED or not why.startswith(_TORN):
        raise NvmesimError(f"{name}: {why}")
    print(f"nvmesim: {name}: {why}", file=sys.stderr)
    return ran.stdout
