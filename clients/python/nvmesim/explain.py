"""Prints a script and its transcript side by side, with what each line means."""
from __future__ import annotations

import textwrap
from typing import Dict, Iterable, Iterator, List, Mapping, Optional, Sequence, Tuple

from .causes import event_cause
from .errors import NvmesimError
from .explore.medium import Medium
from .history import Event, follow
from .process import PathLike
from .script import LineKind, ScriptLine, configuration_of, is_any_size, read_lines
from .session import SECONDS, Session
from .words import configuration_words, meaning, shortened

_LEAST_WORDS = 30


def run_script(script: str, program: Optional[PathLike] = None, seconds: float = SECONDS,
               image: Optional[PathLike] = None) -> Tuple[str, Dict[int, str]]:
    """Runs a script over a copy of an image, or over zeros. Returns its transcript, and by event number why a command
    was denied."""
    lines = list(read_lines(script))
    configuration = configuration_of(lines)
    causes: Dict[int, str] = {}
    with Medium(image, configuration.blocks) as medium, medium.of_a_run() as copied:
        with Session(copied, program, seconds, is_any_size(script)) as session:
            for line in lines:
                if line.kind is LineKind.CONFIGURATION:
                    session.configure(line.text)
                elif line.kind is LineKind.START:
                    session.start()
                elif line.kind is LineKind.EVENT:
                    event = session.event(line.text)
                    causes[event.number] = event_cause(event, configuration, session.look)
            return session.transcript, {number: words for number, words in causes.items() if words}


def causes_of(script: str, transcript: str, program: Optional[PathLike] = None, seconds: float = SECONDS,
              image: Optional[PathLike] = None) -> Dict[int, str]:
    """Why the events of a transcript denied commands. Runs the script for that, if possible, and uses it up to the
    first answer that differs."""
    try:
        came, causes = run_script(script, program, seconds, image)
    except NvmesimError:
        return {}
    pairs = enumerate(zip(came.split("\n"), transcript.split("\n")), 1)
    same = {number for number, (one, two) in pairs if one == two}
    return {number: words for number, words in causes.items() if number in same}


def explain(script: str, transcript: str, width: int = 120, comments: bool = True,
            causes: Mapping[int, str] = {}) -> Iterator[str]:
    """The lines of the explanation: a script's line, what was printed for it, and the meaning.

    Args:
        script: the script's text.
        transcript: what `nvmesim` printed for it.
        width: the columns of a line; meanings are wrapped, other columns are cut.
        comments: whether the script's comments and blank lines are shown.
        causes: why events denied commands, by their numbers.

    Raises:
        ScriptError: the script can't be read, or the two have different counts of events.
        ProtocolError: a line of the transcript isn't the answer of its event.
    """
    lines = list(read_lines(script))
    events = {it.line.number: it for it in follow(lines, transcript)}
    widths = _widths(lines, events.values(), width)
    configuration = configuration_of(lines)
    for line in lines:
        event = events.get(line.number)
        if event is not None:
            words = meaning(event, configuration)
            words += f": {causes[event.number]}" if event.number in causes else ""
            yield from _row(line, event.text, words, widths)
        elif line.kind in (LineKind.CONFIGURATION, LineKind.START):
            yield from _row(line, "", configuration_words(line), widths)
        elif comments:
            yield line.text


def _widths(lines: Sequence[ScriptLine], events: Iterable[Event], width: int) -> List[int]:
    """The columns of a number, of a script's line, of its answer and of the meaning."""
    number = len(str(len(lines)))
    shown = [len(it.text) for it in lines if it.kind not in (LineKind.COMMENT, LineKind.BLANK)]
    script = min(max(shown, default=1), max(16, width // 4))
    answer = min(max((len(it.text) for it in events), default=1), max(16, width // 4))
    return [number, script, answer, max(_LEAST_WORDS, width - number - script - answer - 6)]


def _row(line: ScriptLine, answer: str, words: str, widths: Sequence[int]) -> Iterator[str]:
    number, script, told, rest = widths
    head = f"{line.number:>{number}}  {shortened(line.text, script):<{script}}  {shortened(answer, told):<{told}}"
    folded = textwrap.wrap(words, rest) or [""]
    yield f"{head}  {folded[0]}".rstrip()
    for more in folded[1:]:
        yield " " * (len(head) + 2) + more
