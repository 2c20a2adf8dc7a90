"""Expected answers: complete, or with `*` for words that do not matter."""
from __future__ import annotations

import difflib
import re
from typing import Dict, FrozenSet, Sequence, Tuple

from ..answers import parse_answer
from ..enums import PollOutcome, Refusal, Status, UpOutcome
from ..errors import ProtocolError
from ..history import check_fits
from ..script import ScriptLine

ANY = "*"
"""Matches any words of an answer."""

_MISSES = ("nocontroller", "nodriver", "notraw")
_PLACED = ("placed", "refused", *(it.value for it in Refusal))
# The words that answers of a line have besides numbers, statuses and data.
_WORDS: Dict[str, Tuple[str, ...]] = {
    "up": ("up", *(it.value for it in UpOutcome)), "ring": ("rung", "NotUp"), "fetch": ("fetch", "took", "idle"),
    "execute": ("execute", "posted", "none", "full"), "reset": ("reset",), "store": ("stored", "outside"),
    "write32": ("wrote32",), "powercycle": ("powercycle",),
    "poll": ("poll", *(it.value for it in PollOutcome if it is not PollOutcome.ANSWERED)),
}
_WITH_STATUS = ("execute", "poll", "up")
_STATUS = re.compile(r"[0-9]:[0-9a-f]{2}\Z")
_NUMBER = re.compile(r"(?:0|[1-9][0-9]*)\Z")
_DIGITS = re.compile(r"(?:(?:[0-9a-f]{2})+|-)\Z")


class NeverAnswered(ValueError):
    """No answer of the line can match, with the reason."""


def check_pattern(line: ScriptLine, words: Sequence[str]) -> None:
    """Refuses an expectation that no answer of the line matches, and one that every answer matches.

    Raises:
        NeverAnswered: with the reason.
    """
    if ANY in words:
        _check_parts(line, words)
        return
    text = " ".join(words)
    try:
        parse_answer(text)
        check_fits(line, text)
    except ProtocolError:
        known = _known(line)
        unknown = next((it for it in words if not _is_word(line, it, known)), None)
        why = _forms(line) if unknown is None else f"no answer of it has the word {unknown!r}{_hint(line, unknown)}"
        raise NeverAnswered(f"{line.text!r} is never answered {text!r}; {why}") from None


def holds(words: Sequence[str], answer: str) -> bool:
    """Whether an answer is as expected. A `*` in it matches any words or none, and then more words may follow."""
    if ANY not in words:
        return parse_answer(" ".join(words)) == parse_answer(answer)
    return _begins(tuple(words), tuple(answer.split(" ")))


def _begins(words: Tuple[str, ...], answer: Tuple[str, ...]) -> bool:
    """Whether an answer begins with these words."""
    while words and words[0] != ANY:
        if not answer or words[0] != answer[0]:
            return False
        words, answer = words[1:], answer[1:]
    return not words or any(_begins(words[1:], answer[n:]) for n in range(len(answer) + 1))


def _check_parts(line: ScriptLine, words: Sequence[str]) -> None:
    """Refuses words with a `*` that no answer of the line matches, or that every answer matches."""
    if set(_after_head(line, words)) <= {ANY}:
        raise NeverAnswered(f"{' '.join(words)!r} holds of every answer of {line.text!r}")
    known = _known(line)
    for before, word in zip(("", *words), words):
        if before == ANY and _NUMBER.match(word):
            raise NeverAnswered(f"the number {word} after a '*' can be any number of the answer: "
                                "give the word before it too")
        if word != ANY and not _is_word(line, word, known):
            raise NeverAnswered(f"no answer of {line.text!r} has the word {word!r}{_hint(line, word)}")
    head = words[0]
    if head != ANY and head not in (*_heads(line), *_MISSES):
        raise NeverAnswered(f"no answer of {line.text!r} begins with {head!r}; {_forms(line)}")


def _is_word(line: ScriptLine, word: str, known: FrozenSet[str]) -> bool:
    """Whether an answer of the line can have a word."""
    if _STATUS.match(word):
        return line.verb in _WITH_STATUS and Status.of(word) is not None
    if _NUMBER.match(word):
        return True
    return word in known or (line.verb == "poll" and bool(_DIGITS.match(word)))


def _known(line: ScriptLine) -> FrozenSet[str]:
    words = _PLACED if line.is_request else _WORDS[line.verb]
    return frozenset(words if line.is_power_cycle else (*words, *_MISSES))


def _heads(line: ScriptLine) -> Tuple[str, ...]:
    """The words that an answer of the line begins with, unless the line is one for no such controller."""
    if line.is_request:
        return ("placed", "refused")
    return _WORDS[line.verb][:2] if line.verb == "store" else _WORDS[line.verb][:1]


def _own_numbers(line: ScriptLine) -> Tuple[str, ...]:
    """The numbers of a line that are in each answer of it."""
    count = 0 if line.is_power_cycle else 2 if line.verb in ("fetch", "execute") else 1
    return tuple(map(str, line.numbers()[:count]))


def _after_head(line: ScriptLine, words: Sequence[str]) -> Sequence[str]:
    """The words of an expectation after those that each answer of the line begins with."""
    heads = _heads(line)
    for word in (heads if len(heads) == 1 else ()) + _own_numbers(line):
        words = words[1:] if words and words[0] == word else words
    return words


def _hint(line: ScriptLine, word: str) -> str:
    """A suggestion for a word that no answer of the line has, or how its answers begin."""
    near = difflib.get_close_matches(word, sorted(_known(line)), 1, 0.6)
    return f"; did you mean {near[0]!r}?" if near else f"; {_forms(line)}"


def _forms(line: ScriptLine) -> str:
    """The words that answers of a line begin with."""
    if line.is_power_cycle:
        return "its answer is 'powercycle'"
    heads = " or ".join(repr(" ".join((it, *_own_numbers(line)))) for it in _heads(line))
    return f"its answers begin with {heads}"
