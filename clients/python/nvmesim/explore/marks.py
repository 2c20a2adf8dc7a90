"""Marks: the comments that part a script, and the comments that were surely meant to be marks."""
from __future__ import annotations

import re
from typing import List, Optional, Sequence

from ..errors import ScriptError
from ..script import LineKind, ScriptLine

BEFORE = "before"
"""The name of the part before all marks."""
THEN = "then"
"""The name of the parts after a mark `# then`."""

CRASH = "crash"
"""The comment `# crash` is an event: the program is killed, and opened again over its image."""

_CRASH = re.compile(r"#[ \t]+crash[ \t\r]*\Z", re.ASCII)
_MARK = re.compile(r"#[ \t]+(?:host[ \t]+([A-Za-z_]\w*)|(then))[ \t\r]*\Z", re.ASCII)
_NAME = re.compile(r"[A-Za-z_]\w*\Z", re.ASCII)
# How many words a comment has at most that is taken for a mark gone wrong: more are a sentence.
_MOST_WORDS = {"host": 3, "then": 2, CRASH: 1}
# Words of English that are one letter away from a mark's.
_OTHER_WORDS = frozenset(("cost", "hose", "hot", "lost", "most", "post", "hen", "than", "the", "them", "they", "thin",
                          "when", "clash", "crass"))


def has_marks(lines: Sequence[ScriptLine]) -> bool:
    """Whether a script has a mark, or the comment `# crash`. One that has none is one order, and its comments are no
    slips."""
    return any(it.kind is LineKind.COMMENT and (is_crash(it) or _MARK.match(it.text)) for it in lines)


def nearest_mark(lines: Sequence[ScriptLine]) -> str:
    """The first comment after `start` that is nearly a mark, with its line, for a script that has none; else an empty
    text."""
    events = [it.number for it in lines if it.kind is LineKind.START]
    comments = (it for it in lines if it.kind is LineKind.COMMENT and events and it.number > events[0])
    return next((f"line {it.number}, {it.text!r}, is nearly {nearest!r}" for it in comments
                 if (nearest := _nearest(it.text))), "")


def mark_of(line: ScriptLine, is_started: bool, is_marked: bool = True) -> Optional[str]:
    """The name that a mark gives, or `then`; None for another comment, and for a line that is none.

    Args:
        line: the line.
        is_started: whether it is after `start`, as a mark must be; before `start` only a mark itself is refused.
        is_marked: whether its script has marks: a comment that nearly is one is refused only there.

    Raises:
        ScriptError: it is nearly a mark, is before `start`, or gives a name that no part can have.
    """
    if line.kind is not LineKind.COMMENT or is_crash(line):
        return None
    found = _MARK.match(line.text)
    if found is None:
        nearest = _nearest(line.text)
        if nearest and is_started and is_marked:
            raise ScriptError(line.number, f"{line.text!r} is nearly the mark {nearest!r}: write that, or a comment "
                              f"that begins with another word")
        return None
    if not is_started:
        raise ScriptError(line.number, f"the mark {line.text!r} is before start")
    if found[1] in (BEFORE, THEN):
        raise ScriptError(line.number, f"no host can be called {found[1]}")
    return THEN if found[2] else found[1]


def is_crash(line: ScriptLine) -> bool:
    """Whether a line is the comment `# crash`."""
    return line.kind is LineKind.COMMENT and _CRASH.match(line.text) is not None


def _nearest(text: str) -> str:
    """The mark that a comment nearly is, or an empty string for a comment that is far from all."""
    words = re.findall(r"\w+", text)
    for wanted, most in _MOST_WORDS.items():
        if words and len(words) <= most and _is_near(words[0].lower(), wanted):
            return f"# host {_name_in(words[1:])}" if wanted == "host" else f"# {wanted}"
    return ""


def _name_in(words: List[str]) -> str:
    """The name that was meant, if it can be one."""
    return words[0] if words and _NAME.match(words[0]) and words[0] not in (BEFORE, THEN) else "NAME"


def _is_near(word: str, wanted: str) -> bool:
    """Whether a word is this one, or becomes it by one letter more, less or another, or by two that change places."""
    if word == wanted or word in _OTHER_WORDS:
        return word == wanted
    if len(word) == len(wanted):
        places = [n for n, letter in enumerate(word) if letter != wanted[n]]
        is_swap = len(places) == 2 and places[1] == places[0] + 1 and sorted(word) == sorted(wanted)
        return len(places) == 1 or is_swap
    longer, shorter = max(word, wanted, key=len), min(word, wanted, key=len)
    return any(longer[:n] + longer[n + 1:] == shorter for n in range(len(longer)))
