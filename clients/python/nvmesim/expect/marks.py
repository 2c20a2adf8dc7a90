"""Reads the expectations of a script: comments `# expect ..` and `# expect-blocks ..` after its events.

They are comments, so every program runs the script unchanged. A comment that nearly is an expectation is refused, since
a typo must not make a test that can't fail.
"""
from __future__ import annotations

import re
from dataclasses import dataclass
from typing import List, Optional, Sequence, Tuple, Union

from ..answers import BLOCK_BYTES
from ..errors import ScriptError
from ..script import MOST_BLOCKS, LineKind, ScriptLine, read_lines
from . import patterns

EXPECT = "expect"
"""The first word of a comment with the expected answer of the event above it."""
EXPECT_BLOCKS = "expect-blocks"
"""The first word of a comment with the expected content of blocks after the event above it."""

_COMMENT = re.compile(r"#([ \t]*)(\S*)[ \t\r]*(.*?)[ \t\r]*\Z")
_SLIPS = ("expected", "expecting", "expectation", "expectations", "expected-blocks")


@dataclass(frozen=True)
class AnswerExpected:
    """An answer that an event must have.

    Attributes:
        line: the comment's line, from 1.
        text: the comment.
        event: the number of the event before it, from 1.
        words: the answer's words, `*` among them.
    """

    line: int
    text: str
    event: int
    words: Tuple[str, ...]

    @property
    def wanted(self) -> str:
        """The expected answer, as the comment has it."""
        return " ".join(self.words)

    def holds(self, answer: str) -> bool:
        """Whether an answer is as expected."""
        return patterns.holds(self.words, answer)


@dataclass(frozen=True)
class BlocksExpected:
    """The expected content of blocks of a namespace at a place of the script.

    Attributes:
        line: the comment's line, from 1.
        text: the comment.
        event: the number of the event before it; 0 if there is none.
        nsid, slba, count: the namespace, the first block, and the number of blocks, 1 to 256.
        data: the bytes of all of them.
    """

    line: int
    text: str
    event: int
    nsid: int
    slba: int
    count: int
    data: bytes


Expectation = Union[AnswerExpected, BlocksExpected]


@dataclass(frozen=True)
class ScriptTest:
    """A script with expectations: its name, its text, its lines, and the expectations in their order."""

    name: str
    text: str
    lines: Tuple[ScriptLine, ...]
    expectations: Tuple[Expectation, ...]


def read_test(name: str, text: str) -> ScriptTest:
    """Reads a script that is a test.

    Raises:
        ScriptError: it isn't a script, has no expectation, has one that can never hold, or a comment that nearly is
        one.
    """
    lines = tuple(read_lines(text))
    found: List[Expectation] = []
    last: Optional[ScriptLine] = None
    events, is_started = 0, False
    for line in lines:
        if line.kind is LineKind.EVENT:
            last, events = line, events + 1
        is_started = is_started or line.kind is LineKind.START
        word, rest = _mark_of(line)
        if word == EXPECT_BLOCKS and not is_started:
            raise ScriptError(line.number, f"{line.text!r} is before start")
        if word == EXPECT_BLOCKS:
            found.append(_blocks_expected(line, rest, events))
        elif word == EXPECT:
            found.append(_answer_expected(line, rest, events, last))
    if not found:
        raise ScriptError(0, "the script has no expectation: a comment '# expect ANSWER' after an event, or "
                             "'# expect-blocks N SLBA COUNT HEX'")
    return ScriptTest(name, text, lines, tuple(found))


def has_marks(text: str) -> bool:
    """Whether a script has an expectation, or a comment that nearly is one."""
    return any(_nearest(it) is not None for it in text.split("\n") if it.startswith("#"))


def _nearest(text: str) -> Optional[str]:
    """The word of expectations that a comment begins with, or nearly begins with; None for another comment."""
    found = _COMMENT.match(text)
    if found is None:
        return None
    word = found[2].lower().replace("_", "-").strip(":,;=-#")
    if word in _SLIPS:
        return EXPECT
    return next((it for it in (EXPECT_BLOCKS, EXPECT) if word == it or _is_near(word, it)), None)


def _mark_of(line: ScriptLine) -> Tuple[str, Tuple[str, ...]]:
    """The word of an expectation and the words after it; an empty word for another line."""
    near = _nearest(line.text) if line.kind is LineKind.COMMENT else None
    if near is None:
        return "", ()
    found = _COMMENT.match(line.text)
    assert found is not None
    if found[2] != near or not found[1]:
        raise ScriptError(line.number, f"{line.text!r} nearly is an expectation; did you mean '# {near} ..'?")
    return near, tuple(re.split(r"[ \t\r]+", found[3])) if found[3] else ()


def _answer_expected(line: ScriptLine, words: Sequence[str], events: int, last: Optional[ScriptLine]) -> AnswerExpected:
    if last is None:
        raise ScriptError(line.number, f"{line.text!r} follows no event")
    if not words:
        raise ScriptError(line.number, "'# expect' names no answer: '# expect ANSWER'")
    if words[0] == "blocks":
        raise ScriptError(line.number, f"{line.text!r}: did you mean '# expect-blocks ..'?")
    try:
        patterns.check_pattern(last, words)
    except patterns.NeverAnswered as fault:
        raise ScriptError(line.number, str(fault)) from None
    return AnswerExpected(line.number, line.text, events, tuple(words))


def _blocks_expected(line: ScriptLine, words: Sequence[str], events: int) -> BlocksExpected:
    """Blocks and their bytes, in the form of a Write."""
    if len(words) != 4:
        raise ScriptError(line.number, f"{line.text!r} is not '# expect-blocks N SLBA COUNT HEX'")
    spelled = {"-": "hex:00"}.get(words[3], words[3] if words[3].startswith("fill:") else f"hex:{words[3]}")
    try:
        (read,) = read_lines(" ".join(("write 1", *words[:3], spelled)), True)
    except ScriptError as fault:
        place, _, why = fault.why.partition(": ")
        if place == "word 6":
            why = ("HEX is an even number of hexadecimal digits that COUNT blocks have room for, '-' for zeros, or "
                   "fill:HH")
        raise ScriptError(line.number, f"{line.text!r} is not '# expect-blocks N SLBA COUNT HEX': {why}") from None
    _, nsid, slba, count = read.numbers()
    if not 1 <= count <= MOST_BLOCKS:
        raise ScriptError(line.number, f"{line.text!r}: COUNT is 1 to {MOST_BLOCKS}")
    data = read.data().ljust(count * BLOCK_BYTES, b"\0")
    return BlocksExpected(line.number, line.text, events, nsid, slba, count, data)


def _is_near(word: str, wanted: str) -> bool:
    """Whether one letter of a word is wrong, missing or surplus, or two neighbours are exchanged."""
    if abs(len(word) - len(wanted)) > 1 or word == wanted:
        return False
    same = next((n for n, (one, two) in enumerate(zip(word, wanted)) if one != two), min(len(word), len(wanted)))
    rest, wanted_rest = word[same:], wanted[same:]
    exchanged = len(rest) > 1 and rest[1::-1] + rest[2:] == wanted_rest
    return exchanged or rest[1:] == wanted_rest[1:] or rest[1:] == wanted_rest or rest == wanted_rest[1:]
