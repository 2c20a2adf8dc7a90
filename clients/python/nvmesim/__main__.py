"""The command line: `python3 -m nvmesim` with a command such as `explain`; each has `--help`."""
from __future__ import annotations

import argparse
import errno
import os
import sys
from contextlib import suppress
from pathlib import Path
from typing import Callable, List, NoReturn, Optional, Sequence, Union

from . import __version__
from .conform import command as conforming
from .errors import NvmesimError
from .expect import command as testing
from .explain import causes_of, explain, run_script
from .explore import Medium, command
from .files import Output, add_force
from .process import VARIABLE
from .reading import read_with
from .scene import MOST, scene
from .script import configuration_of, is_any_size, read_lines
from .session import SECONDS, Session
from .shell import command as terminal
from .texts import text_of
from .timeline import FORMS, form_of, png, svg, timeline, watched
from .timeline.bands import Told

_FAULT, _INTERRUPTED = 2, 130
_OF_WRITES = (errno.ENOSPC, errno.EDQUOT, errno.EFBIG, errno.EIO, errno.EBADF)


def main(given: Optional[Sequence[str]] = None) -> int:
    """Executes a command. Returns its exit status: 0, 1 if a check fails, 2 if it can't be executed, 130 after
    Ctrl-C."""
    words = _parser().parse_args(given)
    read_with(words.program)
    carry_out: Callable[[argparse.Namespace], int] = words.command
    try:
        status = carry_out(words)
        sys.stdout.flush()
        return status
    except BrokenPipeError:
        _leave_output()
        return _FAULT
    except KeyboardInterrupt:
        print("nvmesim: interrupted", file=sys.stderr)
        return _INTERRUPTED
    except OSError as fault:
        if fault.filename is None:
            _leave_output()
        print(f"nvmesim: {_sentence(fault)}", file=sys.stderr)
        return _FAULT
    except NvmesimError as fault:
        print(f"nvmesim: {fault}", file=sys.stderr)
        return _FAULT


def _leave_output() -> None:
    """Stops writing to standard output, which Python would otherwise flush again when it ends."""
    with suppress(OSError, ValueError):
        os.dup2(os.open(os.devnull, os.O_WRONLY), sys.stdout.fileno())


def _sentence(fault: OSError) -> str:
    """Reports a system call that failed. Files other than the standard ones are named where they are used."""
    why = fault.strerror or str(fault)
    if fault.filename is not None:
        return f"can't use {os.fsdecode(fault.filename)}: {why}"
    return f"can't write standard output: {why}" if fault.errno in _OF_WRITES else f"a system call failed: {why}"


class _Parser(argparse.ArgumentParser):
    """A parser that reports an error in one line."""

    def error(self, message: str) -> NoReturn:
        self.exit(_FAULT, f"nvmesim: {message}; see --help\n")


def _parser() -> argparse.ArgumentParser:
    """The parser of the command line."""
    parser = _Parser(prog="python3 -m nvmesim", description="Scripts of the proved NVMe subsystem: "
                                     "what their lines mean, pictures of them, every order of their events, and "
                                     "scripts as tests.")
    parser.add_argument("--version", action="version", version=f"nvmesim {__version__}")
    commands = parser.add_subparsers(required=True, metavar="COMMAND")
    told = commands.add_parser("explain", help="a script and its transcript side by side, with what each line means")
    _add_texts(told)
    told.add_argument("--width", type=int, default=0, metavar="N",
                      help="columns of a line; by default those of the terminal")
    told.add_argument("--no-comments", action="store_true", help="leave the script's comments out")
    told.set_defaults(command=_explain)
    drawn = commands.add_parser("timeline", help="a picture of what happened: a page, SVG or PNG")
    _add_texts(drawn)
    drawn.add_argument("-o", "--output", metavar="FILE", help="the output file; by default standard output")
    drawn.add_argument("--format", choices=FORMS, help="of the file; else as the name of -o ends, .html, .svg or "
                       ".png, and a page for a name without an ending")
    add_force(drawn)
    drawn.add_argument("--title", help="the heading; by default the name of the script")
    drawn.set_defaults(command=_timeline)
    _add_scene(commands.add_parser("scene", help="a script for explore, from the lines of a session"))
    explored = commands.add_parser("explore", help="every order of the marked events of a script")
    command.add_options(explored)
    _add_program(explored)
    explored.set_defaults(command=_explore)
    tested = commands.add_parser("test", help="scripts as tests: the expectations in their comments")
    testing.add_arguments(tested)
    _add_program(tested)
    typed = commands.add_parser("shell", help="a session at a terminal: a prompt, and queries that decode")
    terminal.add_arguments(typed)
    _add_program(typed)
    compared = commands.add_parser("conform", help="a device compared with the model: the first answer that differs")
    conforming.add_arguments(compared)
    _add_program(compared)
    return parser


def _add_scene(made: argparse.ArgumentParser) -> None:
    made.add_argument("script", metavar="KEPT", help="the lines of a session, or a script; - is standard input")
    made.add_argument("--from", dest="begin", type=int, default=0, metavar="LINE", help="the line from which "
                      "events come in any order; by default it is chosen")
    made.add_argument("--apart", type=int, action="append", default=[], metavar="C",
                      help="make what controller C fetches and executes a part of its own")
    made.add_argument("--most", type=int, default=MOST, metavar="N", help="the most states that the scene may have")
    made.add_argument("-o", "--output", metavar="FILE", help="the output file; by default standard output")
    add_force(made)
    _add_program(made)
    made.set_defaults(command=_scene)


def _add_program(parser: argparse.ArgumentParser) -> None:
    parser.add_argument("--program", metavar="FILE", help=f"the program nvmelive; by default the one that the variable "
                        f"{VARIABLE} names, that was built in this repository, or that is on the path")
    parser.add_argument("--seconds", type=float, default=SECONDS, metavar="S", help="time limit of each answer")


def _add_texts(parser: argparse.ArgumentParser) -> None:
    parser.add_argument("script", metavar="SCRIPT", help="a script; - is standard input")
    parser.add_argument("transcript", metavar="TRANSCRIPT", nargs="?", help="what nvmesim printed for it; by default "
                        "the script is run")
    parser.add_argument("--image", metavar="IMAGE", help="run the script over a copy of this image, which is never "
                        "written; by default over zeros")
    _add_program(parser)


def _explain(words: argparse.Namespace) -> int:
    script = text_of(words.script)
    if words.transcript is None:
        transcript, causes = run_script(script, words.program, words.seconds, words.image)
    else:
        transcript = text_of(words.transcript)
        causes = causes_of(script, transcript, words.program, words.seconds, words.image)
    for line in explain(script, transcript, words.width or _columns(), not words.no_comments, causes):
        print(line)
    return 0


def _columns() -> int:
    """The number of columns of the terminal, or 120."""
    try:
        return os.get_terminal_size(sys.stdout.fileno()).columns
    except (OSError, ValueError):
        return 120


def _timeline(words: argparse.Namespace) -> int:
    output = _output(words, words.script, words.transcript, words.image, words.program)
    form = words.format or form_of(words.output)
    if form == "png" and output is None:
        raise NvmesimError("a PNG file needs a name: -o FILE")
    script = text_of(words.script)
    title = words.title or Path(words.script).name
    told: List[Told] = []
    if words.transcript is not None:
        transcript = text_of(words.transcript)
    else:
        blocks = configuration_of(read_lines(script)).blocks
        with Medium(words.image, blocks) as medium, medium.of_a_run() as image:
            with Session(image, words.program, words.seconds, is_any_size(script)) as session:
                transcript, told = watched(session, script)
    if form == "png":
        _write(output, png(script, transcript, title, told))
    else:
        _write(output, (svg if form == "svg" else timeline)(script, transcript, title, told))
    return 0


def _scene(words: argparse.Namespace) -> int:
    output = _output(words, words.script, words.program)
    _write(output, scene(text_of(words.script), words.begin, words.most, words.apart))
    return 0


def _output(words: argparse.Namespace, *inputs: Optional[str]) -> Optional[Output]:
    """The output file that `-o` names; None for standard output."""
    return None if words.output is None else Output(words.output, inputs, words.force)


def _write(output: Optional[Output], content: Union[str, bytes]) -> None:
    """Writes a text to a file, or to standard output."""
    if output is not None:
        output.write(content)
    else:
        print(content, end="")


def _explore(words: argparse.Namespace) -> int:
    return command.run(words, text_of)


if __name__ == "__main__":
    sys.exit(main())
