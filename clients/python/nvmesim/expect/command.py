"""The command `python3 -m nvmesim test`."""
from __future__ import annotations

import argparse
from typing import Iterable, List, Tuple, Union

from ..errors import FileFault, NvmesimError, ProgramNotFound, ScriptError
from ..explore.medium import Medium
from ..files import Output, add_force
from ..script import configuration_of
from ..texts import text_of
from . import junit, records, told
from .marks import read_test
from .trials import Trial, try_script

_FAILED, _FAULT = 1, 2
_Refused = Tuple[str, int, str]


def add_arguments(parser: argparse.ArgumentParser) -> None:
    """The options of the command besides those of the program."""
    parser.description = ("Runs scripts, and checks the expectations in their comments: '# expect ANSWER' after an "
                          "event, '# expect-blocks N SLBA COUNT HEX'. Exit status: 0 all hold, 1 one does not, 2 a "
                          "script is refused or could not be run to its end.")
    parser.add_argument("scripts", metavar="SCRIPT", nargs="+", help="a script with expectations; - is standard input")
    parser.add_argument("--image", metavar="IMAGE", help="run each script over a copy of this image, which is never "
                        "written; by default over zeros")
    parser.add_argument("--junit", metavar="FILE", help="write a JUnit report there")
    add_force(parser)
    parser.add_argument("--json", action="store_true", help="print the transcript and the result of each expectation "
                        "as JSON lines, and nothing else")
    parser.set_defaults(command=run)


def run(words: argparse.Namespace) -> int:
    """Executes the command. Returns its exit status."""
    output = Output(words.junit, [*words.scripts, words.image, words.program], words.force) if words.junit else None
    trials: List[Trial] = []
    refused: List[_Refused] = []
    with Medium(words.image) as medium:
        for name in words.scripts:
            tried = _tried(words, name, medium)
            if isinstance(tried, Trial):
                trials.append(tried)
                _print(records.trial_records(tried) if words.json else told.trial_lines(tried))
            else:
                refused.append(tried)
                _print([records.refused_record(*tried) if words.json else _refused_words(tried)])
    if not words.json:
        print(f"nvmesim: {told.summary(trials, len(refused))}")
    if output is not None:
        page = junit.report(trials, [(name, _refused_words((name, line, why))) for name, line, why in refused])
        output.write(page)
    if refused or any(it.fault for it in trials):
        return _FAULT
    return 0 if all(it.is_good for it in trials) else _FAILED


def _tried(words: argparse.Namespace, name: str, medium: Medium) -> Union[Trial, _Refused]:
    """The result of a script, or why it isn't a test. Raises if the program is not found."""
    try:
        test = read_test(name, text_of(name))
        with medium.of_a_run(configuration_of(test.lines).blocks) as image:
            return try_script(test, image, words.program, words.seconds)
    except ProgramNotFound:
        raise
    except ScriptError as fault:
        return name, fault.number, fault.why
    except FileFault as fault:
        return name, 0, fault.why
    except NvmesimError as fault:
        return name, 0, str(fault)


def _refused_words(refused: _Refused) -> str:
    name, line, why = refused
    return f"{name}:{line}: REFUSED: {why}" if line else f"{name}: REFUSED: {why}"


def _print(lines: Iterable[str]) -> None:
    for line in lines:
        print(line)
