"""Formats the results of tests: expected and actual answers, and a summary."""
from __future__ import annotations

from typing import Iterable, Iterator, List, Tuple

from ..answers import BLOCK_BYTES
from ..history import Command
from ..script import configuration_of
from ..words import command_words, meaning
from .marks import AnswerExpected, BlocksExpected
from .trials import Judged, Trial

_MOST_BYTES = 24

Row = Tuple[str, str]
"""A label and its text."""


def trial_lines(trial: Trial) -> Iterator[str]:
    """The result of one test, in lines that begin with `FILE:LINE:` if they are about a line of the script."""
    name, count = trial.test.name, len(trial.test.expectations)
    for it in trial.failed:
        yield f"{name}:{it.expectation.line}: FAILED"
        for word, text in failure_rows(trial, it):
            yield f"    {word:<9}{text}"
    if trial.fault:
        yield f"{name}: {trial.fault}"
    for command in trial.unanswered:
        yield f"{name}:{line_of(trial, command)}: left without an answer: {unanswered_words(command)}"
    held = len(trial.judged) - len(trial.failed)
    yield f"{name}: {'as expected' if trial.is_good else 'FAILED'}, {held} of {count} expectations hold"


def failure_rows(trial: Trial, judged: Judged) -> Iterator[Row]:
    """The labelled rows about an expectation that does not hold."""
    if judged.event is not None:
        yield "event", judged.event.line.text
    if isinstance(judged.expectation, AnswerExpected):
        yield "wanted", judged.expectation.wanted
        yield "came", str(judged.came)
        if judged.event is not None:
            cause = trial.causes.get(judged.event.number, "")
            words = meaning(judged.event, configuration_of(trial.test.lines))
            yield "that is", f"{words}: {cause}" if cause else words
    else:
        yield from _block_rows(judged.expectation, judged)


def _block_rows(wanted: BlocksExpected, judged: Judged) -> Iterator[Row]:
    yield "blocks", f"{wanted.count} of namespace {wanted.nsid} from {wanted.slba} on"
    if not isinstance(judged.came, bytes):
        yield "wanted", _piece(wanted.data, 0)
        yield "came", f"nothing: {judged.why}"
        return
    first = next(n for n, (one, two) in enumerate(zip(wanted.data, judged.came)) if one != two)
    begin = max(0, min(first - first % 8, first - _MOST_BYTES // 2))
    yield "wanted", _piece(wanted.data, begin)
    yield "came", _piece(judged.came, begin)
    block, byte = divmod(first, BLOCK_BYTES)
    yield "that is", f"byte {byte} of block {wanted.slba + block} is the first that differs"


def _piece(data: bytes, begin: int) -> str:
    """Some bytes from an offset on, in the form of `?blocks`."""
    piece = data[begin:begin + _MOST_BYTES]
    rest = data[begin + _MOST_BYTES:].rstrip(b"\0")
    shown = piece.hex() if rest else piece.rstrip(b"\0").hex() or "-"
    return f"{'.. ' if begin else ''}{shown}{' ..' if rest else ''}"


def line_of(trial: Trial, command: Command) -> int:
    """The line of a request."""
    return trial.events[(command.placed or 1) - 1].line.number


def unanswered_words(command: Command) -> str:
    """A request whose answer was not delivered, and the steps that it went through."""
    later = {"rung": command.rung, "fetched": command.fetched, "executed": command.executed, "aborted": command.reset}
    steps = ["placed", *(word for word, event in later.items() if event is not None)]
    return f"{command_words(command)}, ticket {command.ticket} of controller {command.controller}; {', '.join(steps)}"


def counted(number: int, what: str) -> str:
    """A number of things."""
    return f"{number} {what}{'' if number == 1 else 's'}"


def summary(trials: Iterable[Trial], refused: int) -> str:
    """The summary of the trials, and of `refused` files that aren't tests."""
    whole: List[Trial] = list(trials)
    wanted = sum(len(it.test.expectations) for it in whole)
    failed = sum(len(it.failed) for it in whole)
    judged = sum(len(it.judged) for it in whole)
    words = [f"{judged - failed} hold", f"{failed} failed"]
    words += [f"{wanted - judged} not reached"] if wanted != judged else []
    told = f"{counted(len(whole) + refused, 'script')}, {counted(wanted, 'expectation')}: {', '.join(words)}"
    if refused:
        told += f"; {counted(refused, 'script')} refused"
    unanswered = sum(len(it.unanswered) for it in whole)
    return told + (f"; {counted(unanswered, 'request')} left without an answer" if unanswered else "")
