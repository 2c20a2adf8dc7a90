"""The command `python3 -m nvmesim explore`: what it runs, and what it prints."""
from __future__ import annotations

import argparse
import json
import sys
import time
from pathlib import Path
from typing import Callable, Dict, Iterator, List, Optional, Sequence, Tuple, Union

from ..errors import NvmesimError
from ..files import Output
from ..session import Session
from ..timeline import watched
from ..timeline.bands import Told
from . import Explored, Limits, Medium, Plan, programs_of
from .dask import explore_on_dask
from .expressions import Expression, parts_of
from .jsonreport import json_report
from .options import add_options, check_options, outputs_of
from .picture import page
from .progress import Progress
from .report import FEWEST_ORDERS, Check, Report, script_of
from .shrink import shrunk
from .states import Looks
from .tasks import Task, fails_of, tasks_of

__all__ = ["add_options", "run"]

TextOf = Callable[[str], str]
Found = Union[Explored, NvmesimError]


class _Asked:
    """A task, with what is asked of its outcomes."""

    def __init__(self, words: argparse.Namespace, task: Task) -> None:
        self.task, self.plan = task, task.plan
        blocks = Looks(self.plan).blocks
        self.checks = [Check(Expression(text, self.plan, blocks), is_wanted)
                       for texts, is_wanted in ((words.always, True), (words.never, False)) for text in texts]
        self.by = [Expression(it, self.plan, blocks) for it in (parts_of(words.by) if words.by is not None else ())]


def run(words: argparse.Namespace, text_of: TextOf) -> int:
    """Explores; the exit status."""
    check_options(words)
    outputs = outputs_of(words)  # refused before anything is run
    tasks = tasks_of(words.script, [text_of(it) for it in words.script], words.image, fails_of(words.fail))
    if len(tasks) > 1 and words.page:
        raise NvmesimError("--page shows one exploration, not several")
    asked = [_Asked(words, it) for it in tasks]  # refused too
    found = _each_found(words, asked)
    if len(asked) == 1:
        return _report(words, outputs, asked[0], next(found))
    return _report_each(words, outputs, asked, found)


def _each_found(words: argparse.Namespace, asked: Sequence[_Asked]) -> Iterator[Found]:
    """What each task found, or its fault, in order."""
    if words.dask is not None:
        yield from explore_on_dask([it.task for it in asked], words.dask, words.program, _limits(words, 1),
                                   within=words.within)
        return
    until: Optional[float] = None if words.within is None else time.monotonic() + words.within
    for it in asked:
        try:
            yield _found_here(words, it, _limits(words, words.jobs, until))
        except NvmesimError as fault:
            yield fault


def _limits(words: argparse.Namespace, jobs: int, until: Optional[float] = None) -> Limits:
    return Limits(jobs, words.seconds, words.memory << 20, until, not words.all_orders)


def _tell(what: str) -> None:
    print(f"nvmesim: {what}", file=sys.stderr, flush=True)


def _found_here(words: argparse.Namespace, asked: _Asked, limits: Limits) -> Explored:
    """Explores here, and shows how far it is."""
    progress = Progress(asked.plan, sys.stderr)
    found = asked.task.explored(words.program, limits, progress.report, _tell)
    progress.end()
    if words.statistics:
        print(progress.told(found.statistics), file=sys.stderr)
    return found


def _report_each(words: argparse.Namespace, outputs: Dict[str, Output], asked: Sequence[_Asked],
                 found: Iterator[Found]) -> int:
    """Reports several tasks. Returns 1 if a check of one fails, else 2 if one was not judged."""
    statuses: List[int] = []
    reports: List[Dict[str, object]] = []
    for it in asked:
        if not words.json:
            print(f"== {it.task.name}" if it is asked[0] else f"\n== {it.task.name}", flush=True)
        try:
            statuses.append(_report(words, outputs, it, next(found), reports))
        except NvmesimError as fault:
            _tell(f"{it.task.name}: {fault}")
            statuses.append(2)
    if words.json:
        print(json.dumps(reports, indent=1))
    return 1 if 1 in statuses else max(statuses)


def _report(words: argparse.Namespace, outputs: Dict[str, Output], asked: _Asked, found: Found,
            reports: Optional[List[Dict[str, object]]] = None) -> int:
    """Prints a report, or adds it to others as JSON. Returns 1 if a check fails, and raises if too few orders were
    judged."""
    if isinstance(found, NvmesimError):
        raise found
    report = Report(asked.plan, found.found, asked.checks, found.is_whole, asked.by, words.trifles)
    if words.shrink and not report.is_good:
        _shrink(words, asked, report)
    if words.page:
        outputs["--page"].write(_page(words, asked, report))
    _print(words, asked, report, reports)
    if report.is_good:
        _check_judged(asked, report, found)
        return 0
    if words.counterexample and "--counterexample" in outputs:
        outputs.pop("--counterexample").write(report.counterexample())
    return 1


def _print(words: argparse.Namespace, asked: _Asked, report: Report,
           reports: Optional[List[Dict[str, object]]]) -> None:
    """Prints a report, or adds it to others."""
    if not words.json:
        print("\n".join(report.lines()))
    elif reports is None:
        print(json.dumps(json_report(report), indent=1))
    else:
        reports.append({"exploration": asked.task.name, **json_report(report)})


def _check_judged(asked: _Asked, report: Report, found: Explored) -> None:
    """Refuses to call a partial report good, or a check that one order judged."""
    if not found.is_whole:
        why = f": {found.why}" if found.why else ""
        raise NvmesimError(f"the exploration was stopped early{why}; the report covers the orders that were judged")
    if asked.checks and report.orders < FEWEST_ORDERS:
        raise NvmesimError(f"{report.why_one_order()}: --always and --never are judged by {FEWEST_ORDERS} orders at "
                           "least")


def _page(words: argparse.Namespace, asked: _Asked, report: Report) -> str:
    """The outcomes as a page; the orders that it shows are run."""
    with Medium(asked.task.image, report.plan.blocks) as medium:
        def run_script(script: str) -> Tuple[str, List[Told]]:
            with medium.of_a_run() as image:
                with Session(None if image == "-" else image, words.program, words.seconds) as session:
                    return watched(session, script)

        return page(report, Path(asked.task.script).name, run_script)


def _shrink(words: argparse.Namespace, asked: _Asked, report: Report) -> None:
    """Cuts the counterexamples down."""
    plan: Plan = asked.plan
    with Medium(asked.task.image, plan.blocks) as medium:
        with programs_of(plan, words.program, words.seconds, medium) as programs:
            for check in report.checks:
                for _, ways in report.broken(check)[:1]:
                    report.shorter[check.name] = list(script_of(*shrunk(plan, programs, check, ways.order)))
