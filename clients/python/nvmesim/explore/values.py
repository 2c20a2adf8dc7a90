"""The named answers of an outcome: what `a.write1` is, and what `a.write1.rule` is."""
from __future__ import annotations

from dataclasses import dataclass
from typing import Dict, List, Optional, Tuple

from ..answers import data_in, status_in
from ..looks import ReservationState, blocks, reservation
from ..script import ScriptLine
from .outcomes import Outcome
from .plan import Plan
from .possible import ABORTED, NOT_EXECUTED, UNANSWERED


@dataclass(frozen=True)
class Value:
    """A named answer.

    Attributes:
        text: its result: of a request the name of its status, `aborted`, `unanswered` or `refused ..`; of
            another event its outcome.
        rule: the number of the rule that denied it, or 0.
        executed: of a request, the name of the status that its execution gave, or `not executed`.
        status: the code of its status, such as `0:83`, or an empty string.
        data: the bytes that came with it in hexadecimal digits, without the zeros at their end.
        value: double word 0 of its answer.
        request: of an execution or a poll, the request that it is about, or an empty string.
    """

    text: str
    rule: int = 0
    executed: str = ""
    status: str = ""
    data: str = ""
    value: int = 0
    request: str = ""

    def __str__(self) -> str:
        rule = f" (rule {self.rule})" if self.rule else ""
        number = f", double word 0 {self.value}" if self.value else ""
        data = f", data {self.data if len(self.data) <= 32 else self.data[:30] + '..'}" if self.data else ""
        request = f"{self.request}: " if self.request else ""
        return f"{request}{self.text}{rule}{number}{data}"


FIELDS = ("text", "rule", "executed", "status", "data", "value", "request")


class Values:
    """The named values of an outcome.

    Attributes:
        answers: each event's answer.
        reservations: each namespace's reservation.
        attached: the line that `?attached` was answered.
        blocks: the last bytes of each block that the script writes, by namespace and block.
    """

    def __init__(self, plan: Plan, outcome: Outcome, looks: List[str]) -> None:
        """Parses an outcome; `looks` are the lines that its last answers answer."""
        self.reservations: Dict[int, ReservationState] = {}
        self.blocks: Dict[Tuple[int, int], bytes] = {}
        self.attached = ""
        for line, told in zip(looks, outcome.last):
            self._take(line.split(" "), told)
        labels = dict(outcome.labels)
        executions, polls = _by_request(plan, labels)
        self.answers = {step.name: _value(step.line, labels[step.name], executions.get(step.name), polls.get(step.name))
                        for step in plan.steps if step.name in labels}

    def _take(self, words: List[str], told: str) -> None:
        if words[0] == "?reservation":
            self.reservations[int(words[1])] = reservation(told, int(words[1]))
        elif words[0] == "?blocks":
            nsid, slba, count = map(int, words[1:])
            data = blocks(told, nsid, slba, count)
            for n in range(count):
                self.blocks[nsid, slba + n] = data[512 * n:512 * (n + 1)]
        else:
            self.attached = told


def _by_request(plan: Plan, labels: Dict[str, str]) -> Tuple[Dict[str, List[str]], Dict[str, List[str]]]:
    """What executions and polls gave, by the requests that they were about."""
    executions: Dict[str, List[str]] = {}
    polls: Dict[str, List[str]] = {}
    for step in plan.steps:
        words = labels.get(step.name, "").split(" ")
        if step.line.verb == "execute" and len(words) > 1 and words[1] == "posted":
            executions[words[0]] = words[2:]
        elif step.line.verb == "poll" and len(words) > 1:
            polls[words[0]] = words[1:]
    return executions, polls


def _value(line: ScriptLine, label: str, executed: Optional[List[str]], polled: Optional[List[str]]) -> Value:
    """One named answer."""
    words = label.split(" ")
    if line.verb == "execute" and len(words) > 1:
        status = status_in(words[2])
        return Value(status.text, int(words[3]), status=status.code, request=words[0].replace("?", ""))
    if line.verb == "poll" and len(words) > 1:
        return _polled(words[1:], 0, "", words[0])
    if not line.is_request:
        text = label if line.verb not in ("ring", "up") else words[-1]
        if line.verb == "up" and ":" in text:
            return Value(status_in(text).text, status=text)
        return Value(text)
    if words[0] != "placed":
        return Value(label, executed=NOT_EXECUTED)
    rule = int(executed[1]) if executed else 0
    done = status_in(executed[0]).text if executed else NOT_EXECUTED
    if polled is None:
        return Value(UNANSWERED, rule, done)
    return _polled(polled, rule, done, "")


def _polled(words: List[str], rule: int, done: str, request: str) -> Value:
    """The request that a poll delivered, and its answer."""
    if words == [ABORTED]:
        return Value(ABORTED, rule, done, request=request)
    status = status_in(words[0])
    data = data_in(words[2], words[3]).rstrip(b"\0").hex() if len(words) == 4 else ""
    return Value(status.text, rule, done, status.code, data, int(words[1], 16), request)

