"""Follows a script and its answers, event by event: which command each event is about, and its state."""
from __future__ import annotations

from dataclasses import dataclass, field
from typing import Dict, Iterable, List, Optional, Sequence

from .answers import (Answer, Executed, Fetched, Placed, Polled, PowerCycled, Reset, Rung, Stored, Up, Wrote32,
                      parse_answer)
from .enums import AdminOpcode, ExecuteOutcome, PollOutcome, Rule, Status, UpOutcome
from .errors import ProtocolError, ScriptError
from .raw import Entry, RawQueues
from .script import Configuration, ScriptLine, configuration_of, events_of


@dataclass(eq=False)
class Command:
    """A command, with the numbers of its events from 1; None for a step that it did not reach.

    Attributes:
        controller: the controller that it is for.
        queue: the submission queue that it waits in.
        line: the request's line; None for a raw host's command.
        ticket: the driver's ticket; None for a raw host's command.
        entry: the entry as a raw host stored it; None for a request.
        reset: the reset or power cycle that aborted it before its answer was delivered.
        status, rule: the results of its execution.
        value, data: what the poll returned with it.
    """

    controller: int
    queue: int
    line: Optional[ScriptLine] = None
    ticket: Optional[int] = None
    entry: Optional[Entry] = None
    placed: Optional[int] = None
    rung: Optional[int] = None
    fetched: Optional[int] = None
    executed: Optional[int] = None
    polled: Optional[int] = None
    reset: Optional[int] = None
    is_aborted: bool = False
    status: Optional[Status] = None
    rule: Rule = Rule.NONE
    value: int = 0
    data: Optional[bytes] = None

    @property
    def is_denied(self) -> bool:
        """Whether a rule denied it."""
        return self.rule is not Rule.NONE


@dataclass(eq=False)
class Event:
    """One event: its number from 1, its line, what was printed, and the commands that it is about, oldest first."""

    number: int
    line: ScriptLine
    text: str
    answer: Answer
    commands: List[Command] = field(default_factory=list)

    @property
    def command(self) -> Optional[Command]:
        """The one command that it is about, if any."""
        return self.commands[0] if self.commands else None


@dataclass
class _Side:
    """What is known of a controller and its host."""

    waiting: Dict[int, List[Command]] = field(default_factory=lambda: {0: [], 1: []})
    fetched: List[Command] = field(default_factory=list)
    outstanding: Dict[int, Command] = field(default_factory=dict)
    raw: Optional[RawQueues] = None

    def forget(self) -> None:
        """Discards its queues and fetched commands."""
        self.waiting = {0: [], 1: []}
        self.fetched = []


class Follower:
    """Takes events in order, and finds the commands that each is about."""

    def __init__(self, raw: Iterable[int] = ()) -> None:
        """Follows a subsystem in which these controllers belong to raw hosts."""
        self._sides: Dict[int, _Side] = {it: _Side(raw=RawQueues()) for it in raw}
        self._count = 0

    def outstanding(self, controller: int, ticket: int) -> Optional[Command]:
        """The request with this ticket, if its answer was not delivered yet."""
        return self._side(controller).outstanding.get(ticket)

    def unanswered(self) -> List[Command]:
        """The undelivered requests, by controller, the oldest first."""
        return [it for controller in sorted(self._sides) for it in self._sides[controller].outstanding.values()]

    def place_of(self, command: Command) -> Optional[int]:
        """The place of a command among those that its controller has fetched, from 0."""
        fetched = self._side(command.controller).fetched
        return fetched.index(command) if command in fetched else None

    def take(self, line: ScriptLine, text: str) -> Event:
        """The next event, by its line and by what was printed for it.

        Raises:
            ProtocolError: that isn't an answer, or answers another line.
        """
        answer = parse_answer(text)
        check_fits(line, text)
        self._count += 1
        event = Event(self._count, line, text, answer)
        if isinstance(answer, (Placed, Rung, Fetched, Executed, Polled)):
            event.commands = self._moved(event, self._side(answer.controller))
        elif isinstance(answer, Stored) and answer.is_inside:
            self._raw(answer.controller).store(line.numbers()[1], line.data())
        elif isinstance(answer, Wrote32):
            if self._raw(answer.controller).write32(*line.numbers()[1:]):
                event.commands = self._reset(event, answer.controller)
        elif isinstance(answer, Reset):
            event.commands = self._reset(event, answer.controller)
        elif isinstance(answer, PowerCycled):
            event.commands = self._power_cycled(event)
        elif isinstance(answer, Up) and answer.outcome is UpOutcome.OK:
            self._side(answer.controller).forget()
        return event

    def _side(self, controller: int) -> _Side:
        return self._sides.setdefault(controller, _Side())

    def _raw(self, controller: int) -> RawQueues:
        side = self._side(controller)
        side.raw = side.raw or RawQueues()
        return side.raw

    def _moved(self, event: Event, side: _Side) -> List[Command]:
        """The commands that an event advances."""
        answer = event.answer
        if isinstance(answer, Placed):
            return [_place(event, answer, side)]
        if isinstance(answer, Rung) and answer.is_up:
            told = [it for lane in side.waiting.values() for it in lane if it.rung is None]
            for it in told:
                it.rung = event.number
            return sorted(told, key=lambda it: it.ticket or 0)
        if isinstance(answer, Fetched) and answer.took:
            return [_fetch(event, answer, side)]
        if isinstance(answer, Executed) and answer.outcome is ExecuteOutcome.POSTED:
            return [_execute(event, answer, side)]
        if isinstance(answer, Polled) and answer.ticket is not None:
            return [_poll(event, answer, side)]
        return []

    def _reset(self, event: Event, controller: int) -> List[Command]:
        """The commands that a reset aborts."""
        side = self._side(controller)
        met = [*side.outstanding.values()] if side.raw is None else side.fetched
        met = [it for it in met if it.reset is None]
        for it in met:
            it.reset = event.number
        side.forget()
        return met

    def _power_cycled(self, event: Event) -> List[Command]:
        """The commands that a power cycle aborts, controller by controller."""
        for side in self._sides.values():
            if side.raw is not None:
                side.raw.power_cycle()
        return [command for controller in sorted(self._sides) for command in self._reset(event, controller)]


def _place(event: Event, answer: Placed, side: _Side) -> Command:
    line = event.line
    command = Command(answer.controller, line.queue, line, answer.ticket, placed=event.number)
    side.waiting[line.queue].append(command)
    side.outstanding[answer.ticket] = command
    return command


def _fetch(event: Event, answer: Fetched, side: _Side) -> Command:
    if side.raw is not None:
        command = Command(answer.controller, answer.queue, entry=side.raw.fetch(answer.queue))
    else:
        lane = side.waiting.get(answer.queue, [])
        if not lane or lane[0].rung is None:
            raise ProtocolError(f"{event.text!r}, and nothing was rung that is not fetched")
        command = lane.pop(0)
    command.fetched = event.number
    side.fetched.append(command)
    return command


def _execute(event: Event, answer: Executed, side: _Side) -> Command:
    if answer.place >= len(side.fetched):
        raise ProtocolError(f"{event.text!r}, and only {len(side.fetched)} commands were fetched")
    command = side.fetched.pop(answer.place)
    command.executed, command.status, command.rule = event.number, answer.status, answer.rule
    if side.raw is not None and command.entry is not None and answer.status is Status.SUCCESSFUL_COMPLETION:
        side.raw.succeed(command.entry)
        if command.entry.opcode is AdminOpcode.DELETE_IO_SUBMISSION_QUEUE:
            deleted = command.entry.field(40, 2)  # commands that were fetched from that queue are discarded
            side.fetched = [it for it in side.fetched if it.queue != deleted]
    return command


def _poll(event: Event, answer: Polled, side: _Side) -> Command:
    command = side.outstanding.pop(answer.ticket, None) if answer.ticket is not None else None
    if command is None:
        raise ProtocolError(f"{event.text!r}, and no request waits under this ticket")
    command.polled = event.number
    command.is_aborted = answer.outcome is PollOutcome.ABORTED
    command.value, command.data = answer.value, answer.data
    return command


_HEADS = {"ring": ("rung",), "store": ("stored", "outside"), "write32": ("wrote32",)}
_MISSES = ("nocontroller", "nodriver", "notraw")


def check_fits(line: ScriptLine, text: str) -> None:
    """Refuses an answer that another line has: each begins with the line's own words, or names its controller.

    Raises:
        ProtocolError: the answer is another line's.
    """
    if text not in answer_heads(line) and not text.startswith(tuple(f"{it} " for it in answer_heads(line))):
        raise ProtocolError(f"{text!r} does not answer the line {line.text!r}")


def answer_heads(line: ScriptLine) -> List[str]:
    """The beginnings, in whole words, of all answers to an event."""
    if line.is_of_all:
        return [line.verb]
    heads = ("placed", "refused") if line.is_request else _HEADS.get(line.verb, (line.verb,))
    controller, *others = map(str, line.numbers())
    place = f" {others[0]}" if line.verb in ("fetch", "execute") else ""
    return [*(f"{it} {controller}{place}" for it in heads), *(f"{it} {controller}" for it in _MISSES)]


def follow(lines: Sequence[ScriptLine], transcript: str) -> List[Event]:
    """The events of a whole script and its transcript.

    Raises:
        ScriptError: the transcript has another count of lines than the script has events.
        ProtocolError: a line of the transcript isn't an answer, or answers another line.
    """
    events, answers = events_of(lines), transcript.split("\n")
    if answers and answers[-1] == "":
        answers.pop()
    if len(events) != len(answers):
        raise ScriptError(0, f"the script has {len(events)} events, and the transcript {len(answers)} lines")
    configuration: Configuration = configuration_of(lines)
    follower = Follower(configuration.raw)
    return [follower.take(line, text) for line, text in zip(events, answers)]
