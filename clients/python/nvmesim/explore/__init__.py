"""Runs a script's marked events in every order. Reports the outcomes, and whether a condition always or never holds."""
from __future__ import annotations

from dataclasses import dataclass, field
from pathlib import Path
from typing import Callable, Optional

from ..process import PathLike, find_program
from ..session import SECONDS
from .branches import Programs
from .job import is_suited
from .library import NoLibrary, forking_library, walking_library
from .medium import Medium
from .native import MOST_BYTES, MemoryExhausted, NativeWalk, Unsuited
from .outcomes import Findings
from .plan import Plan
from .walk import Report, Statistics, Walk

__all__ = ["Explored", "Limits", "Medium", "MemoryExhausted", "Plan", "Programs", "Statistics", "Walk", "explore",
           "explored", "programs_of"]

Tell = Callable[[str], None]
_ELF = b"\x7fELF"


@dataclass(frozen=True)
class Limits:
    """What an exploration may take.

    Attributes:
        jobs: the number of events that run at once.
        seconds: the time limit of each answer.
        most_bytes: the memory of its states, copies and counts, in bytes.
        until: the time, as `time.monotonic` has it, at which it is stopped; None for no such time.
        is_reduced: whether only one order of two events that commute is run, if the program is forked.
    """

    jobs: int = 1
    seconds: float = SECONDS
    most_bytes: int = MOST_BYTES
    until: Optional[float] = None
    is_reduced: bool = True


@dataclass
class Explored:
    """What an exploration found.

    Attributes:
        found: the outcomes of the orders that were judged.
        is_whole: whether these are all orders.
        why: why they are not, if the reason is not the caller.
        statistics: what it took.
    """

    found: Findings
    is_whole: bool = True
    why: str = ""
    statistics: Statistics = field(default_factory=Statistics)


def explore(plan: Plan, program: Optional[PathLike] = None, jobs: int = 1, seconds: float = SECONDS,
            report: Report = lambda statistics: None, medium: Optional[Medium] = None) -> Findings:
    """The outcomes of the orders of a plan.

    Args:
        plan: the script with its parts.
        program: the program `nvmelive`; None for the one that `find_program` finds.
        jobs: the number of events that run at once.
        seconds: the time limit of each answer.
        report: receives what was done, while it continues.
        medium: what each run begins with; None for zeros, as many blocks as its namespaces take.

    Raises:
        MemoryExhausted: it takes more memory than the default limit.
        KeyboardInterrupt: it was interrupted.
    """
    whole = explored(plan, program, Limits(jobs, seconds), medium, report)
    if whole.why:
        raise MemoryExhausted(whole.why)
    if not whole.is_whole:
        raise KeyboardInterrupt
    return whole.found


def explored(plan: Plan, program: Optional[PathLike], limits: Limits, medium: Optional[Medium] = None,
             report: Report = lambda statistics: None, tell: Tell = lambda why: None) -> Explored:
    """The outcomes of the orders of a plan, as far as the limits allow: walked inside the program, or else by forks of
    it; `tell` receives the reason."""
    found = find_program(program)
    medium = _medium_of(plan, medium)
    why = ""
    try:
        if is_suited(plan) and _is_compiled(found):
            return _walked_inside(plan, found, limits, medium, report)
    except NoLibrary as fault:
        why = str(fault)
    except Unsuited as fault:
        why = str(fault)
    with programs_of(plan, found, limits.seconds, medium, tell) as programs:
        if why and programs.can_fork:
            tell(f"{why}: the program is forked for each event, which is slower")
        walk = Walk(plan, programs, limits.jobs, report, limits.is_reduced)
        return Explored(walk.explore(limits.until), walk.is_whole, "", walk.statistics)


def _walked_inside(plan: Plan, program: Path, limits: Limits, medium: Medium, report: Report) -> Explored:
    """What the library for walking finds."""
    walk = NativeWalk(plan, program, walking_library(), medium, limits.seconds, limits.jobs, limits.most_bytes, report)
    return Explored(walk.explore(limits.until), walk.is_whole, walk.why, walk.statistics)


def _is_compiled(program: Path) -> bool:
    """Whether a program is no script: another program would have to be run for that, which allocates as it likes."""
    try:
        with program.open("rb") as file:
            return file.read(len(_ELF)) == _ELF
    except OSError:
        return False


def _medium_of(plan: Plan, medium: Optional[Medium]) -> Medium:
    """The medium of a plan: a file if the program crashes or a call of the image fails."""
    medium = medium or Medium(blocks=plan.blocks)
    if plan.has_crash or plan.fails:
        medium.make_file()
    return medium


def programs_of(plan: Plan, program: Optional[PathLike] = None, seconds: float = SECONDS,
                medium: Optional[Medium] = None, tell: Tell = lambda why: None) -> Programs:
    """The programs that explore a plan: forked while they wait, or else started anew; `tell` receives the reason."""
    found = find_program(program)
    try:
        loaded = forking_library()
    except NoLibrary as fault:
        if plan.fails:
            raise NoLibrary(f"{fault}, so no call of the image can fail") from None
        loaded = None
        tell(f"{fault}: orders are run again from the start, which is slower")
    return Programs(found, plan.setup, seconds, _medium_of(plan, medium), loaded, tell, plan.fails)
