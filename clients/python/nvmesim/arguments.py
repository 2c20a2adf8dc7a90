"""Checks of arguments: one that no line can express is refused by its name, with the expected range."""
from __future__ import annotations

import operator
import os
from typing import Any

from .errors import ArgumentError

_MOST_SHOWN = 60


def whole(name: str, value: Any, bits: int, least: int = 0) -> int:
    """A whole number of at most `bits` bits.

    Raises:
        ArgumentError: it isn't a whole number, or is out of range.
    """
    try:
        number = operator.index(value)
    except TypeError:
        number = -1
    if isinstance(value, bool) or not least <= number < 2**bits:
        most = str(2**bits - 1) if bits <= 32 else f"2^{bits} - 1"
        raise ArgumentError(f"{name} is a whole number from {least} to {most}, not {shown(value)}")
    return number


def flag(name: str, value: Any) -> bool:
    """True or false, also by 1 or 0. Raises `ArgumentError` for anything else."""
    if value not in (True, False) or not isinstance(value, int):
        raise ArgumentError(f"{name} is True or False, not {shown(value)}")
    return bool(value)


def some_bytes(name: str, value: Any) -> bytes:
    """At least one byte. Raises `ArgumentError` for anything else."""
    try:
        data = bytes(memoryview(value))
    except TypeError:
        raise ArgumentError(f"{name} is bytes, not {shown(value)}") from None
    if not data:
        raise ArgumentError(f"{name} must have at least one byte")
    return data


def a_text(name: str, value: Any) -> str:
    """A text of one line or several. Raises `ArgumentError` for anything else."""
    if not isinstance(value, str):
        raise ArgumentError(f"{name} is a text, not {shown(value)}")
    return value


def one_line(name: str, value: Any) -> str:
    """A text without a line feed. Raises `ArgumentError` for anything else."""
    text = a_text(name, value)
    if "\n" in text:
        raise ArgumentError(f"{name} has no line feed in it, and {shown(text)} has one")
    try:
        text.encode("utf-8")
    except UnicodeEncodeError:
        raise ArgumentError(f"{name} is no text") from None
    return text


def a_path(name: str, value: Any) -> str:
    """The name of a file. Raises `ArgumentError` for anything else, and for an empty one."""
    try:
        path: str = os.fsdecode(value)
    except TypeError:
        raise ArgumentError(f"{name} is the name of a file, not {shown(value)}") from None
    if not path or "\0" in path:
        raise ArgumentError(f"{name} is the name of a file, not {shown(value)}")
    return path


def seconds_of(value: Any) -> float:
    """A time limit in seconds. Raises `ArgumentError` unless it is greater than 0 and at most a year."""
    if isinstance(value, bool) or not isinstance(value, (int, float)) or not 0 < value < 366 * 86400:
        raise ArgumentError(f"seconds is a number greater than 0, not {shown(value)}")
    return value


def shown(value: Any) -> str:
    """A value for a message, cut to a few dozen characters."""
    text = repr(value)
    return text if len(text) <= _MOST_SHOWN else f"{text[:_MOST_SHOWN - 2]}.."
