"""Which events commute: from a state in which both may come next, both orders give equal answers and lead to one state.

An event touches parts of the subsystem: it reads some, and may change others. Two events commute if neither may change
what the other touches. Comments name the laws of docs/THEOREMS.md that justify each line; by `run_is_determined` the
result of an event is a function of what it touches. An event of which too little is known touches everything.
"""
from __future__ import annotations

from dataclasses import dataclass
from typing import Dict, FrozenSet, Iterable, Sequence, Tuple, Union

from .plan import Plan, Step
from .states import State

Part = Tuple[Union[str, int], ...]
"""A part: ('host', C) is a controller, its window and its host's driver, except for the commands that it has fetched,
which are ('fetched', C); ('access', N) is the reservation and the write protection of namespace N, ('attached',) all
attachments, ('block', N, LBA) a block, ('write cache',) what a Flush covers, and ('calls',) the number of calls of the
image."""

ATTACHED: Part = ("attached",)
_READING = ("read", "compare")
_WRITING = ("write", "zeroes")
_RESERVING = ("register", "acquire", "release")
_PREEMPT_AND_ABORT = 2


@dataclass(frozen=True)
class Touched:
    """The parts that an event may change, and those that it only reads; `is_all` if it may be any."""

    changed: FrozenSet[Part]
    looked_at: FrozenSet[Part] = frozenset()
    is_all: bool = False

    def commutes_with(self, other: Touched) -> bool:
        """Whether neither may change what the other touches."""
        if self.is_all or other.is_all:
            return False
        return (self.changed.isdisjoint(other.changed) and self.changed.isdisjoint(other.looked_at)
                and other.changed.isdisjoint(self.looked_at))


EVERYTHING = Touched(frozenset(), is_all=True)


class Independence:
    """Decides whether events of a plan commute."""

    def __init__(self, plan: Plan) -> None:
        """Takes the plan."""
        self.plan = plan
        self._fetched: FrozenSet[Part] = frozenset(("fetched", it) for it in plan.configuration.hosts)
        self._access: FrozenSet[Part] = frozenset(("access", it) for it in plan.configuration.namespaces)
        self._known: Dict[Tuple[str, str], Touched] = {}

    def commute(self, state: State, one: int, other: int) -> bool:
        """Whether the next events of two parts commute in a state."""
        first, second = (self.plan.step(state.position, it) for it in (one, other))
        return self.touches(state, first).commutes_with(self.touches(state, second))

    def touches(self, state: State, step: Step) -> Touched:
        """What the next event of a part touches."""
        command = _command_of(state, step)
        key = step.name, command
        found = self._known.get(key)
        if found is None:
            found = self._known[key] = self._touched(step, command)
        return found

    def _touched(self, step: Step, command: str) -> Touched:
        """The parts that an event touches; `command` is the request that is executed. By `others_are_untouched` and
        `hosts_are_apart` an event changes its own host and controller only, by `calls_are_of_executions` only
        executions reach the medium, and by `only_allowed_commands_change` only they change reservations."""
        verb, number = step.line.verb, step.line.controller
        if step.line.is_of_all or command == _UNKNOWN:
            return EVERYTHING
        own: FrozenSet[Part] = frozenset((("host", number),))
        fetching = own | {("fetched", number)}
        if verb in ("fetch", "reset", "write32", "store"):
            return Touched(fetching)
        if verb == "up":  # executes admin commands
            return Touched(fetching, self._access | {ATTACHED})
        if verb != "execute":
            return Touched(own)
        if command == _NONE:
            return Touched(fetching)
        return self._executed(self.plan.by_name[command], fetching)

    def _executed(self, request: Step, own: FrozenSet[Part]) -> Touched:
        """What the execution of a request's command touches, besides its own controller: by
        `executed_as_the_policy_allows`, `calls_of` and `only_allowed_commands_change`, and for a Preempt and Abort by
        `others_are_untouched` and `marks_for`. If a call of the image fails, each command that makes calls also changes
        which of them it is."""
        if self.plan.fails and request.line.verb in (*_READING, *_WRITING, "flush"):
            own = own | {("calls",)}
        verb, numbers = request.line.verb, request.line.numbers()
        shared: FrozenSet[Part] = frozenset((("access", numbers[1]), ATTACHED))
        if verb in _READING:
            return Touched(own, shared | _blocks(numbers))
        if verb in _WRITING:
            return Touched(own | _blocks(numbers) | {("write cache",)}, shared)
        if verb == "flush":
            return Touched(own | {("write cache",)}, shared)
        if verb == "report":
            return Touched(own, shared)
        if verb in _RESERVING:
            is_aborting = verb == "acquire" and numbers[2] == _PREEMPT_AND_ABORT
            return Touched(own | {("access", numbers[1])} | (self._fetched if is_aborting else frozenset()), shared)
        if verb in ("identify", "protection"):
            return Touched(own, self._access | {ATTACHED})
        return EVERYTHING


_NONE = ""
_UNKNOWN = "?"


def _command_of(state: State, step: Step) -> str:
    """The request that an execution executes: none, or unknown if no line of a request placed the command."""
    if step.line.verb != "execute":
        return _NONE
    place = step.line.numbers()[1]
    fetched: Sequence[str] = next((track.fetched for number, track in state.tracks
                                   if number == step.line.controller), ())
    return fetched[place] if place < len(fetched) else _NONE


def _blocks(numbers: Sequence[int]) -> FrozenSet[Part]:
    """The blocks that a request names."""
    _, nsid, slba, count = numbers[:4]
    blocks: Iterable[int] = range(slba, slba + count)
    return frozenset(("block", nsid, it) for it in blocks)
