"""Statuses by their codes, with the rules that give them."""
from __future__ import annotations

import re
from typing import Dict, Iterator, Tuple

from ..enums import Rule, Status
from ..errors import NotDone

_RULES: Dict[str, Tuple[Rule, ...]] = {
    "0:01": (Rule.OPCODE,), "0:02": (Rule.FORM, Rule.ATTACHMENT, Rule.FIELD, Rule.ACTION),
    "0:04": (Rule.DATA_POINTER,), "0:0b": (Rule.IDENTIFIER,), "0:0c": (Rule.FIELD,),
    "0:13": (Rule.FIELD, Rule.DATA_POINTER), "0:18": (Rule.FIELD,), "0:1b": (Rule.PREEMPTED,),
    "0:20": (Rule.PROTECTION,), "0:80": (Rule.RANGE,), "0:83": (Rule.RESERVATION, Rule.ACTION),
    "1:00": (Rule.FIELD,), "1:01": (Rule.FIELD,), "1:02": (Rule.FIELD,), "1:0c": (Rule.FIELD,), "1:0d": (Rule.FIELD,),
    "1:0e": (Rule.FIELD,), "1:18": (Rule.ACTION,), "1:19": (Rule.ACTION,), "1:1a": (Rule.ACTION,),
    "1:1c": (Rule.ACTION,),
}
_FAILED = {
    Status.COMPARE_FAILURE: "the command was allowed, and the blocks differ from the data",
    Status.WRITE_FAULT: "the command was allowed, and the medium failed",
    Status.UNRECOVERED_READ_ERROR: "the command was allowed, and the medium failed",
    Status.SUCCESSFUL_COMPLETION: "the command was executed",
}


def status_lines(code: str) -> Iterator[str]:
    """A status by its name, and what gives it.

    Raises:
        NotDone: no command of this subsystem is answered so.
    """
    form = re.fullmatch(r"([0-7]):([0-9a-fA-F]{1,2})h?", code)
    status = Status.of(f"{form[1]}:{int(form[2], 16):02x}") if form else None
    if status is None:
        raise NotDone(f"{code} is no status of this subsystem, whose statuses are "
                      + ", ".join(it.code for it in Status))
    yield f"{status.code} is {status.text}"
    if status in _FAILED:
        yield f"    {_FAILED[status]}"
    for rule in _RULES.get(status.code, ()):
        yield f"    rule {rule.value}: {rule.words}"
