"""The command `python3 -m nvmesim shell`, which `./nvmelive` is at a terminal."""
from __future__ import annotations

import argparse
import signal
import sys
from pathlib import Path
from typing import List, Optional

from .. import __version__
from ..errors import ProgramDied, SessionError
from ..process import find_program
from .prompt import PROMPT, Shell
from .talk import Talk

_FAULT = 2


def add_arguments(parser: argparse.ArgumentParser) -> None:
    """The options of the command besides those of the program."""
    parser.description = ("A session at a terminal: a prompt with the history of its lines, help, and queries that "
                          "decode their answers. Ctrl-D ends it.")
    parser.add_argument("image", metavar="IMAGE", nargs="?", default="-", help="a file whose blocks are the medium; "
                        "without it, and for -, 1,024 blocks of zeros in memory")
    parser.add_argument("--image", dest="is_meant", action="store_true",
                        help="IMAGE is meant as one, even if it begins like a script")
    parser.add_argument("--any-size", action="store_true", help="namespaces may have more than 65,536 blocks")
    parser.add_argument("script", metavar="SCRIPT", nargs="?", help="a script that is run first")
    parser.set_defaults(command=run)


def run(words: argparse.Namespace) -> int:
    """Executes the command. Returns the exit status of the program."""
    # Ctrl-C only drops the line that is being typed; the program, which inherits this, continues too.
    signal.signal(signal.SIGINT, signal.SIG_IGN)
    talk = Talk(find_program(words.program), words.image, words.seconds, words.is_meant, words.any_size)
    try:
        if words.script is not None:
            text = Path(words.script).read_text(encoding="utf-8", errors="replace")  # comments may have any bytes
            for line in talk.run_first(words.script, text):
                print(line)
        shell = Shell(talk)
        if sys.stdin.isatty():
            _greet(words.image)
            _edit_lines(shell.words)
        while not shell.is_done and (line := _typed()) is not None:
            for told in shell.answer(line):
                print(told, flush=True)
        status = talk.close()
        if status:
            print(talk.told.strip(), file=sys.stderr)
        return status
    except ProgramDied as fault:
        print(fault.told.strip() or f"nvmesim: {fault}", file=sys.stderr)
        return fault.status if fault.status is not None and fault.status > 0 else _FAULT
    except SessionError as fault:
        print(f"nvmesim: {fault}", file=sys.stderr)
        return _FAULT


def _greet(image: str) -> None:
    """Prints the first lines at a terminal: what this is, and what to type."""
    medium = "1,024 blocks of zeros in memory" if image == "-" else f"the image {image}"
    print(f"nvmelive {__version__}: an NVMe subsystem that hosts share, over {medium}.")
    print("Describe it, enter start, then events. help lists all lines; quit or Ctrl-D ends.", flush=True)


def _edit_lines(words: List[str]) -> None:
    """Turns on line editing, history and completion, if this Python has them."""
    try:
        import readline
    except ImportError:
        return

    def completed(text: str, state: int) -> Optional[str]:
        found = [it for it in words if it.startswith(text)] if readline.get_begidx() == 0 else []
        return f"{found[state]} " if state < len(found) else None

    readline.set_completer_delims(" \t")
    readline.set_completer(completed)
    readline.parse_and_bind("tab: complete")


def _typed() -> Optional[str]:
    """The next line; None at the end. Ctrl-C discards the current line."""
    while True:
        signal.signal(signal.SIGINT, signal.default_int_handler)
        try:
            return input(PROMPT) if sys.stdin.isatty() else _next_line()
        except EOFError:
            print(flush=True)
            return None
        except KeyboardInterrupt:
            print("  Ctrl-D ends the session", flush=True)
        except UnicodeDecodeError:
            print("! the line is no text", flush=True)
        finally:
            signal.signal(signal.SIGINT, signal.SIG_IGN)


def _next_line() -> Optional[str]:
    line = sys.stdin.readline()
    return line.rstrip("\n") if line else None
