"""What answers can be, field by field: a comparison with anything else can't fail, and is refused beforehand."""
from __future__ import annotations

import ast
import difflib
import re
from typing import AbstractSet, Any, Dict, FrozenSet, Iterator, List, Mapping, Optional, Tuple

from ..enums import Protection, Refusal, ReservationType, Rule, Status, UpOutcome
from ..script import ScriptLine

UNANSWERED = "unanswered"
ABORTED = "aborted"
NOT_EXECUTED = "not executed"

_OF_ALL = frozenset(("0:00", "0:02", "0:0b", "0:1b"))
# The statuses of each request of a driver besides those of all requests, by USING.md, "Rules".
_OF_REQUEST: Dict[str, Tuple[str, ...]] = {
    "read": ("0:80", "0:83", "2:81"), "write": ("0:20", "0:80", "0:83", "2:80"),
    "compare": ("0:80", "0:83", "2:81", "2:85"), "zeroes": ("0:20", "0:80", "0:83", "2:80"),
    "flush": ("0:83", "2:80"), "register": ("0:83",), "acquire": ("0:83",), "release": ("0:83",), "report": (),
    "identify": (), "protect": ("1:0e",), "protection": (), "attach": ("0:83", "1:18", "1:19", "1:1c"),
    "detach": ("0:83", "1:1a", "1:1c"),
}
_MISSES = frozenset(("nocontroller", "nodriver", "notraw"))
_STATUSES = frozenset(it.text for it in Status)
_TEXTS: Dict[str, FrozenSet[str]] = {
    "up": frozenset(it.value for it in UpOutcome if it is not UpOutcome.REFUSED) | _STATUSES,
    "ring": frozenset(("rung", "NotUp")),
    "fetch": frozenset(("took", "idle")),
    "execute": _STATUSES | {"none", "full"},
    "poll": _STATUSES | {ABORTED, "nothing", "NotUp", "UnknownCommand"},
    "reset": frozenset(("reset",)),
    "store": frozenset(("stored", "outside")),
    "write32": frozenset(("wrote32",)),
    "powercycle": frozenset(("powercycle",)),
    "crash": frozenset(("crash",)),
}
_HEX = re.compile(r"(?:(?:[0-9a-f]{2})*(?:0[1-9a-f]|[1-9a-f][0-9a-f]))?\Z")
_MOST_LISTED = 12


def codes_of(line: ScriptLine) -> FrozenSet[str]:
    """The statuses that the answer of a line can have, and an empty string for none."""
    if line.is_request:
        return _OF_ALL | set(_OF_REQUEST[line.verb]) | {""}
    return frozenset(it.code for it in Status) | {""} if line.verb in ("up", "execute", "poll") else frozenset(("",))


def texts_of(line: ScriptLine) -> FrozenSet[str]:
    """All texts that the answer of a line can be."""
    misses = frozenset() if line.is_of_all else _MISSES
    if not line.is_request:
        return _TEXTS[line.verb] | misses
    return _texts(codes_of(line)) | {ABORTED, UNANSWERED} | {f"refused {it.value}" for it in Refusal} | misses


def _texts(codes: AbstractSet[str]) -> FrozenSet[str]:
    return frozenset(it.text for it in Status if it.code in codes)


def values_of(line: ScriptLine, field: str, requests: AbstractSet[str]) -> Optional[AbstractSet[Any]]:
    """What a field of a line's answer can be; None if that is not a few values."""
    if field == "executed":
        return _texts(codes_of(line)) | {NOT_EXECUTED} if line.is_request else frozenset(("",))
    known: Mapping[str, AbstractSet[Any]] = {
        "text": texts_of(line), "status": codes_of(line), "rule": frozenset(map(int, Rule)),
        "request": frozenset(("",)) | (requests if line.verb in ("execute", "poll") else frozenset())}
    return known.get(field)


def reservation_values(field: str, hosts: AbstractSet[int]) -> Optional[AbstractSet[Any]]:
    """What a field of a reservation can be; None if that is not a few values."""
    known: Mapping[str, AbstractSet[Any]] = {
        "rtype": frozenset(map(int, ReservationType)), "name": frozenset(it.text for it in ReservationType),
        "protection": frozenset(map(int, Protection)), "holder": frozenset(("all", None)) | hosts}
    return known.get(field)


def pairs_of(node: ast.Compare) -> Iterator[Tuple[ast.expr, Any]]:
    """Each value of a comparison that is compared with a constant for being the same, and that constant."""
    sides: List[ast.expr] = [node.left, *node.comparators]
    for left, how, right in zip(sides, node.ops, sides[1:]):
        if isinstance(how, (ast.Eq, ast.NotEq)):
            others = [right]
        elif isinstance(how, (ast.In, ast.NotIn)) and isinstance(right, (ast.Tuple, ast.List, ast.Set)):
            others = right.elts
        else:
            continue
        for one, other in ((it, left) for it in others):
            for value, constant in ((one, other), (other, one)):
                if isinstance(constant, ast.Constant) and not isinstance(value, ast.Constant):
                    yield value, constant.value


def is_hexadecimal(text: Any) -> bool:
    """Whether bytes can be shown so: lower-case digits, without zeros at the end."""
    return not isinstance(text, str) or _HEX.match(text) is not None


def spelled(value: Any, is_host: bool = False) -> str:
    """A value as an expression has it; a host in hexadecimal digits."""
    return f"{value:#x}" if is_host and isinstance(value, int) else repr(value)


def hint_for(wanted: Any, known: AbstractSet[Any], is_host: bool = False) -> str:
    """What was probably meant, or what there is."""
    texts = sorted(it for it in known if isinstance(it, str) and it)
    near = difflib.get_close_matches(wanted, texts, 1, 0.5) if isinstance(wanted, str) else []
    if near:
        return f"; did you mean {near[0]!r}?"
    shown = sorted(known - {""}, key=lambda it: (str(type(it)), it is not None and it))
    return f"; it can be {', '.join(spelled(it, is_host) for it in shown)}" if len(shown) <= _MOST_LISTED else ""
