"""Results of tests as JSON lines: an object for each event, expectation and unanswered request."""
from __future__ import annotations

import json
from typing import Any, Dict, Iterator, List, Optional

from ..answers import Executed, Polled, Refused, Up
from ..history import Command, Event
from .marks import AnswerExpected
from .told import line_of, unanswered_words
from .trials import Judged, Trial

Record = Dict[str, Any]


def trial_records(trial: Trial) -> Iterator[str]:
    """The lines of one test: its events and expectations in the order of the script, unanswered requests, and the
    end."""
    judged = list(trial.judged)
    for record in _in_order(trial, judged):
        yield json.dumps({"script": trial.test.name, **record})


def refused_record(name: str, line: int, why: str) -> str:
    """The line of a file that is no test."""
    return json.dumps({"script": name, "kind": "refused", "line": line or None, "why": why})


def _in_order(trial: Trial, judged: List[Judged]) -> Iterator[Record]:
    for event in (None, *trial.events):
        if event is not None:
            yield _event_record(trial, event)
        while judged and judged[0].event is event:
            yield _judged_record(judged.pop(0))
    for command in trial.unanswered:
        yield {"kind": "unanswered", "line": line_of(trial, command), "ticket": command.ticket,
               "controller": command.controller, "words": unanswered_words(command)}
    yield {"kind": "end", "good": trial.is_good, "expectations": len(trial.test.expectations),
           "held": len(trial.judged) - len(trial.failed), "fault": trial.fault or None,
           "seconds": round(trial.seconds, 6)}


def _event_record(trial: Trial, event: Event) -> Record:
    record: Record = {"kind": "event", "line": event.line.number, "event": event.line.text, "answer": event.text}
    if not event.line.is_power_cycle:
        record["controller"] = event.line.controller
    answer = event.answer
    if isinstance(answer, (Executed, Polled, Up)) and answer.status is not None:
        record.update(status=answer.status.code, name=answer.status.text)
    if isinstance(answer, Executed) and answer.status is not None:
        record["rule"] = int(answer.rule)
    if isinstance(answer, Refused):
        record["refusal"] = answer.refusal.value
    if isinstance(answer, Polled) and answer.ticket is not None:
        record.update(value=answer.value, aborted=answer.status is None)
    if isinstance(answer, Polled) and answer.data is not None:
        record["data"] = answer.data.hex()
    if event.commands:
        record["requests"] = [it for it in (_request(trial, it) for it in event.commands) if it is not None]
    return record


def _request(trial: Trial, command: Command) -> Optional[Record]:
    """A command as a driver's request; None for a raw host's command."""
    if command.ticket is None:
        return None
    return {"ticket": command.ticket, "line": line_of(trial, command)}


def _judged_record(judged: Judged) -> Record:
    wanted = judged.expectation
    record: Record = {"kind": "expectation", "line": wanted.line, "holds": judged.holds}
    if isinstance(wanted, AnswerExpected):
        record.update(wanted=wanted.wanted, came=judged.came)
    else:
        came = judged.came.hex() if isinstance(judged.came, bytes) else None
        record.update(blocks=[wanted.nsid, wanted.slba, wanted.count], wanted=wanted.data.hex(), came=came)
        record.update({"why": judged.why} if judged.why else {})
    return record
