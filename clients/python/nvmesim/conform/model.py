"""The proved subsystem, set up as the devices are."""
from __future__ import annotations

from typing import Dict, List, Optional, Sequence

from ..answers import Polled, parse_answer
from ..errors import ProtocolError
from ..process import PathLike
from ..session import Session
from .device import Abilities, Answer
from .steps import Places, Step

MOST_BLOCKS = 1024
"""The most blocks of the model, all in memory."""


class Model:
    """A run of the model. Use it in a `with`.

    Attributes:
        places: maps the blocks of the devices to its own.
    """

    def __init__(self, hosts: Sequence[Abilities], program: Optional[PathLike], seconds: float) -> None:
        """Starts a subsystem with a driver for each host, and a namespace that is attached to all."""
        self.places = Places(hosts[0].blocks, min(hosts[0].blocks, MOST_BLOCKS))
        self._session = Session(program=program, seconds=seconds)
        for line in setup_lines(hosts, self.places):
            self._session.configure(line)
        self._session.start()
        self._session.ask_all([f"up {number}" for number in range(1, len(hosts) + 1)])

    def __enter__(self) -> Model:
        return self

    def __exit__(self, *_: object) -> None:
        self._session.close()

    def submit(self, step: Step) -> Answer:
        """Runs a step."""
        lines = step_lines(step, self.places)
        placed, *_, polled = self._session.ask_all(lines)
        answer = parse_answer(polled)
        if not isinstance(answer, Polled) or answer.status is None:
            raise ProtocolError(f"the model answers {lines[0]!r} with {placed!r} and {polled!r}")
        return Answer(answer.status.code, answer.value, answer.data or b"")


def host_identifiers(hosts: Sequence[Abilities]) -> List[int]:
    """A host of the model for each device. Devices with the same identifier share a host, unless it is 0."""
    known: Dict[int, int] = {}
    found: List[int] = []
    for number, it in enumerate(hosts, 1):
        found.append(known.setdefault(it.host, number) if it.host else number)
    return found


def setup_lines(hosts: Sequence[Abilities], places: Places) -> List[str]:
    """The lines before `start`."""
    lines = [f"controller {number} host {host}" for number, host in enumerate(host_identifiers(hosts), 1)]
    lines.append(f"namespace 1 blocks {places.model_blocks} {'shared' if hosts[0].is_shared else 'private'}")
    return [*lines, *(f"attached {number} 1" for number in range(1, len(hosts) + 1))]


def step_lines(step: Step, places: Places) -> List[str]:
    """The events of a step."""
    c = step.host + 1
    return [step.line(places), f"ring {c}", f"fetch {c} {0 if step.is_admin else 1}", f"execute {c} 0", f"poll {c}"]
