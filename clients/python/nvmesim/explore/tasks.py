"""Explorations as tasks, each a whole one: of one script, over one image, with one failing call of it."""
from __future__ import annotations

import re
from dataclasses import dataclass
from typing import List, Optional, Sequence

from ..errors import NvmesimError
from ..process import PathLike
from ..reading import read_with
from . import Explored, Limits, Tell, explored
from .medium import Medium, MediumError
from .plan import Plan
from .walk import Report

_FAILS = re.compile(r"([1-9][0-9]{0,17})(?:-([1-9][0-9]{0,17}))?\Z", re.ASCII)
_MOST_FAILS = 10_000


@dataclass(frozen=True)
class Task:
    """One exploration.

    Attributes:
        name: what it is called in reports.
        script: the name of the script, and `text` what it has.
        image: what each run begins with; None for zeros. `digest` is that of its bytes.
        fails: the call of the image that fails, 0 for none.
    """

    name: str
    script: str
    text: str
    image: Optional[str]
    digest: str
    fails: int

    @property
    def plan(self) -> Plan:
        """The plan of its script."""
        return Plan(self.text, self.fails)

    def explored(self, program: Optional[PathLike], limits: Limits, report: Report = lambda statistics: None,
                 tell: Tell = lambda why: None) -> Explored:
        """Explores it here, or where it was brought to."""
        read_with(program)
        plan = self.plan
        with Medium(self.image, plan.blocks) as medium:
            if medium.digest != self.digest:
                raise MediumError(f"{self.image} has other bytes than when the exploration began")
            return explored(plan, program, limits, medium, report, tell)


def tasks_of(scripts: Sequence[str], texts: Sequence[str], images: Sequence[str], fails: Sequence[int]) -> List[Task]:
    """A task for each script, image and failing call, in this order."""
    found: List[Task] = []
    for image in images or (None,):
        with Medium(image) as medium:
            digest = medium.digest
        found += [Task(_name(script, image, images, call, fails), script, text, image, digest, call)
                  for script, text in zip(scripts, texts) for call in fails]
    return sorted(found, key=lambda it: scripts.index(it.script))


def _name(script: str, image: Optional[str], images: Sequence[str], call: int, fails: Sequence[int]) -> str:
    """What distinguishes a task from the others."""
    over = f" over {image}" if len(images) > 1 else ""
    return f"{script}{over} with --fail {call}" if len(fails) > 1 else f"{script}{over}"


def fails_of(text: Optional[str]) -> List[int]:
    """The failing calls that `--fail` names: K, or all from K to L; 0, which is none, without it.

    Raises:
        NvmesimError: it is anything else.
    """
    if text is None:
        return [0]
    found = _FAILS.match(text)
    if found is None:
        raise NvmesimError(f"--fail {text}: use K, or K-L such as 1-20, with K from 1 on")
    calls = range(int(found[1]), int(found[2] or found[1]) + 1)
    if not 1 <= len(calls) <= _MOST_FAILS:
        raise NvmesimError(f"--fail {text}: K-L must be from 1 to {_MOST_FAILS:,} calls")
    return list(calls)
