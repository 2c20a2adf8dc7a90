"""The options of the command `explore`, and which of them do not go together."""
from __future__ import annotations

import argparse
import os
from typing import Dict

from ..errors import NvmesimError
from ..files import Output, add_force
from ..timeline import form_of
from .native import MOST_BYTES

_GONE = {"--shard": "--jobs N runs on several processors", "--merge": "--jobs N runs on several processors",
         "--shards": "--dask runs several SCRIPT, --image or K of --fail at once"}


def add_options(parser: argparse.ArgumentParser) -> None:
    """The options of the command besides those of the program."""
    parser.description = ("Runs the marked parts of a script in every order that keeps each part's own, and prints the "
                          "outcomes. Exit status 1: a check of --always or --never fails. 2: the exploration could not "
                          "be run, or was stopped early.")
    parser.add_argument("script", metavar="SCRIPT", nargs="*", help="a script whose parts begin with comments "
                        "'# host NAME' and end with '# then'; of several, each is explored")
    parser.add_argument("--always", action="append", default=[], metavar="EXPR", help="must hold in every order")
    parser.add_argument("--never", action="append", default=[], metavar="EXPR", help="must hold in no order")
    parser.add_argument("--by", metavar="EXPR,..", help="group outcomes by these: a.write1,block(1,0)")
    parser.add_argument("--trifles", action="store_true", help="distinguish outcomes by each event's answer, also by a "
                        "poll that finds nothing")
    parser.add_argument("--json", action="store_true", help="print the whole report as JSON; of several, a list")
    parser.add_argument("--page", metavar="FILE", help="write the outcomes as a page, with a timeline of each")
    parser.add_argument("--counterexample", metavar="FILE", help="write the first counterexample there, as a script")
    add_force(parser)
    parser.add_argument("--shrink", action="store_true", help="cut counterexamples down to the fewest events that "
                        "still show it")
    _add_limits(parser)


def _add_limits(parser: argparse.ArgumentParser) -> None:
    """The options on what is run, and how."""
    parser.add_argument("--image", action="append", default=[], metavar="IMAGE", help="start each run with a copy of "
                        "this image, which is never written; by default with zeros; may be repeated")
    parser.add_argument("--fail", metavar="K", help="the K-th read, write or sync of the image fails; with K-L, each "
                        "from K to L in turn")
    parser.add_argument("--jobs", type=int, default=os.cpu_count() or 1, metavar="N",
                        help="run N events at once; by default one for each processor")
    parser.add_argument("--memory", type=int, default=MOST_BYTES >> 20, metavar="MB", help="stop at this much memory "
                        "for states, copies and counts, with a partial report; by default %(default)s")
    parser.add_argument("--all-orders", action="store_true", help="if the program is forked, run both orders of two "
                        "events even if they commute; the report is the same")
    parser.add_argument("--within", type=float, metavar="S", help="stop after S seconds, with a partial report; "
                        "with --dask, each exploration")
    parser.add_argument("--dask", metavar="ADDRESS", help="run each SCRIPT, --image and K on a worker of this Dask "
                        "cluster")
    parser.add_argument("--statistics", action="store_true", help="report states, events and memory on standard error")
    for gone in _GONE:
        parser.add_argument(gone, nargs="*", help=argparse.SUPPRESS)


def check_options(words: argparse.Namespace) -> None:
    """Refuses options that do not go together, and those that are gone."""
    for gone, instead in _GONE.items():
        if getattr(words, gone[2:]) is not None:
            raise NvmesimError(f"{gone} is gone: parts of one exploration met nearly all states each; {instead}")
    if not words.script:
        raise NvmesimError("explore needs a SCRIPT")
    if words.jobs < 1 or words.memory < 1:
        raise NvmesimError("--jobs and --memory must be at least 1")


def outputs_of(words: argparse.Namespace) -> Dict[str, Output]:
    """The files that are written, by their options."""
    names = {"--page": words.page, "--counterexample": words.counterexample}
    inputs = [*words.script, *words.image, words.program]
    outputs = {option: Output(name, [*inputs, *(it for other, it in names.items() if other != option)], words.force)
               for option, name in names.items() if name is not None}
    form_of(words.page, ("html",))
    return outputs
