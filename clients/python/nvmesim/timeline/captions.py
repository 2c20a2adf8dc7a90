"""The comments of a script as captions: those above the script, and above each event."""
from __future__ import annotations

from typing import Dict, List, Sequence, Tuple

from ..script import LineKind, ScriptLine


def captions_of(lines: Sequence[ScriptLine]) -> Tuple[str, Dict[int, str]]:
    """The comments before `start` in one text, and those above events by the numbers of the events."""
    head: List[str] = []
    above: List[str] = []
    captions: Dict[int, str] = {}
    number = 0
    is_started = False
    for line in lines:
        if line.kind is LineKind.COMMENT:
            (above if is_started else head).append(line.text.lstrip("#").strip())
        elif line.kind is LineKind.START:
            is_started = True
        elif line.kind is LineKind.EVENT:
            number += 1
            if text := " ".join(filter(None, above)):
                captions[number] = text
            above = []
    return " ".join(filter(None, head)), captions
