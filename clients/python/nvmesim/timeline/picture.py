"""A script and its transcript as pictures, one below the other."""
from __future__ import annotations

from typing import List, Sequence

from ..answers import Executed
from ..history import Event, follow
from ..script import configuration_of, read_lines
from ..words import shortened
from .bands import Told, bands_of
from .captions import captions_of
from .drawing import MOST_WORDS, Part, event_texts, is_denied
from .layout import ROWS_OF_A_PART, commands_of, is_wide, lay_out


_BOLDER = 5
"""Bold words are longer by one letter in this many."""


class Picture:
    """What happened, in parts.

    Attributes:
        head: the comments before `start`, in one text.
        events: the events.
        commands: all commands.
        texts: the words next to each event: its line, and its result.
        parts: the parts, from above to below.
    """

    def __init__(self, script: str, transcript: str, told: Sequence[Told] = (), begin: int = 1,
                 is_short: bool = False) -> None:
        """Lays it out; events before `begin` are not drawn, and the words next to events are short if `is_short`.

        Raises:
            ScriptError: the script can't be read, or the two have different counts of events.
            ProtocolError: a line of the transcript isn't the answer of its event.
        """
        lines = list(read_lines(script))
        self.configuration = configuration_of(lines)
        self.events = follow(lines, transcript)
        self.commands = commands_of(self.events)
        self.texts = [event_texts(it, is_short or is_wide(self.configuration)) for it in self.events]
        self.head, captions = captions_of(lines)
        bands = bands_of(told, len(self.events))
        beside = [f"{line}  {words}" + " " * (len(words) // _BOLDER if is_denied(it) else 0)
                  for it, (line, words) in zip(self.events, self.texts)]
        beside += [shortened(text, MOST_WORDS) for number, text in captions.items() if number >= begin]
        self.layout = lay_out(self.events, self.configuration, beside, bands)
        self.parts: List[Part] = [
            Part(self.layout, self.events[n:n + ROWS_OF_A_PART], self.texts[n:n + ROWS_OF_A_PART], self.commands,
                 captions, bands) for n in range(begin - 1, len(self.events), ROWS_OF_A_PART)]


def is_denial(event: Event) -> bool:
    """Whether an event is the execution of a command that a rule denies."""
    return isinstance(event.answer, Executed) and event.command is not None and event.command.is_denied
