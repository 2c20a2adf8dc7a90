"""A plan as the job of the library that walks it: numbers and lines, in the order of `walker/job.c`."""
from __future__ import annotations

from typing import Dict, Iterator, List

from ..history import answer_heads
from .plan import Plan, Step
from .states import Looks

MOST_PARTS = 64
MOST_CONTROLLERS = 64
MOST_LOOKS = 256
MOST_LENGTH = 4096
MOST_JOBS = 64


def is_suited(plan: Plan) -> bool:
    """Whether a plan is not too large for the tables of the library."""
    looks = Looks(plan)
    return not (plan.length > MOST_LENGTH or len(looks.all()) > MOST_LOOKS
                or len(looks.controllers) > MOST_CONTROLLERS or any(len(it.parts) > MOST_PARTS for it in plan.phases))


def job_of(plan: Plan, jobs: int, most_bytes: int, seconds: float) -> str:
    """The job, as text."""
    return "".join(f"{it}\n" for it in _lines(plan, jobs, most_bytes, seconds))


def _lines(plan: Plan, jobs: int, most_bytes: int, seconds: float) -> Iterator[str]:
    looks = Looks(plan)
    limbs = plan.orders.bit_length() // 64 + 1
    yield _row(min(jobs, MOST_JOBS), limbs, most_bytes, int(1000 * seconds), plan.fails, int(looks.are_blocks_seen), len(plan.setup),
               len(looks.all()), len(looks.last()), len(looks.controllers), len(plan.phases), plan.length)
    yield _row(*(int(it in looks.shared) for it in looks.all()))
    yield _row(*(int(it in plan.configuration.raw) for it in looks.controllers))
    yield from plan.setup
    yield from looks.all()
    yield from looks.last()
    places = {line: n for n, line in enumerate(looks.all())}
    for phase in plan.phases:
        yield _row(len(phase.parts))
        for part in phase.parts:
            yield _row(len(part))
            for step in part:
                yield from _step(step, looks, places)


def _step(step: Step, looks: Looks, places: Dict[str, int]) -> Iterator[str]:
    """An event: its numbers, its name, how its answers begin, and the lines that are sent for it."""
    line, asked = step.line, looks.after_event(step)
    controller = looks.controllers.index(line.controller) if line.controller in looks.controllers else -1
    place = line.numbers()[1] if line.verb == "execute" and controller >= 0 else -1
    heads: List[str] = answer_heads(line)
    yield _row(controller, line.queue, place, int(line.is_power_cycle), int(line.is_crash), len(heads), len(asked),
               *(places[it] for it in asked))
    yield step.name
    yield from heads
    if place >= 0:
        yield f"?fetched {line.controller}"
    if not line.is_crash:
        yield line.sent
    yield from asked


def _row(*numbers: int) -> str:
    return " ".join(map(str, numbers))
