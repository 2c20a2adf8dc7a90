"""Runs a script that is a test, and checks its expectations."""
from __future__ import annotations

import time
from dataclasses import dataclass, field
from typing import Dict, List, Optional, Union

from .. import looks
from ..causes import event_cause
from ..errors import LineError, NvmesimError
from ..history import Command, Event
from ..process import PathLike
from ..script import LineKind, configuration_of, is_any_size
from ..session import SECONDS, Session
from .marks import AnswerExpected, BlocksExpected, Expectation, ScriptTest


@dataclass(frozen=True)
class Judged:
    """An expectation and the actual answer.

    Attributes:
        expectation: what was expected.
        event: the event that it follows; None for blocks before all events.
        came: the answer, or the bytes of the blocks; None if the program could not read them.
        why: why it could not.
        holds: whether it matches the expectation.
    """

    expectation: Expectation
    event: Optional[Event]
    came: Union[str, bytes, None]
    holds: bool
    why: str = ""


@dataclass
class Trial:
    """A run of a test.

    Attributes:
        test: the script with its expectations.
        judged: the expectations that were reached, in their order.
        events: the events that happened.
        causes: why events denied commands by rules 6 and 11, by their numbers.
        unanswered: the requests whose answers were not delivered at the end.
        fault: why the run stopped early; an empty string if it completed.
        seconds: how long it took.
    """

    test: ScriptTest
    judged: List[Judged] = field(default_factory=list)
    events: List[Event] = field(default_factory=list)
    causes: Dict[int, str] = field(default_factory=dict)
    unanswered: List[Command] = field(default_factory=list)
    fault: str = ""
    seconds: float = 0.0

    @property
    def failed(self) -> List[Judged]:
        """The expectations that do not hold."""
        return [it for it in self.judged if not it.holds]

    @property
    def is_good(self) -> bool:
        """Whether the run completed and every expectation holds."""
        return not self.fault and not self.failed


def try_script(test: ScriptTest, image: PathLike = "-", program: Optional[PathLike] = None,
               seconds: float = SECONDS) -> Trial:
    """Runs a test to its end, even if expectations fail.

    Args:
        test: the script.
        image: the file with the blocks, which the run changes; `-` for 1,024 blocks of zeros in memory.
        program: the program `nvmelive`; None for the one that `find_program` finds.
        seconds: the time limit of each answer.

    Raises:
        ProgramNotFound: there is no such program.
    """
    trial, begun = Trial(test), time.monotonic()
    any_size = bool(test.lines) and is_any_size(test.lines[0].text)
    with Session(image, program, seconds, any_size) as session:
        try:
            _run(session, trial)
        except NvmesimError as fault:
            trial.fault = str(fault)
        if session.is_started:
            trial.unanswered = session.follower.unanswered()
    trial.seconds = time.monotonic() - begun
    return trial


def _run(session: Session, trial: Trial) -> None:
    """Every line in order, including comments and blank lines, so that the program's line numbers are the script's."""
    wanted = {it.line: it for it in trial.test.expectations}
    configuration = configuration_of(trial.test.lines)
    event: Optional[Event] = None
    for line in trial.test.lines:
        if line.kind is LineKind.EVENT:
            event = session.event(line.text)
            event.line = line
            trial.events.append(event)
            trial.causes[event.number] = event_cause(event, configuration, session.look)
        elif line.kind is LineKind.START:
            session.start()
        elif line.kind is LineKind.CONFIGURATION:
            session.configure(line.text)
        elif line.number in wanted:
            trial.judged.append(_judged(session, wanted[line.number], event))
        else:
            session.ask("")


def _judged(session: Session, expectation: Expectation, event: Optional[Event]) -> Judged:
    if isinstance(expectation, AnswerExpected):
        assert event is not None
        session.ask("")
        return Judged(expectation, event, event.text, expectation.holds(event.text))
    return _judged_blocks(session, expectation, event)


def _judged_blocks(session: Session, wanted: BlocksExpected, event: Optional[Event]) -> Judged:
    try:
        told = session.look(f"?blocks {wanted.nsid} {wanted.slba} {wanted.count}")
    except LineError as fault:
        return Judged(wanted, event, None, False, fault.why)
    came = looks.blocks(told, wanted.nsid, wanted.slba, wanted.count)
    return Judged(wanted, event, came, came == wanted.data)
