"""Draws one part of a picture as SVG: the lanes, the spans of commands, and an event in each row."""
from __future__ import annotations

from html import escape
from typing import Dict, Iterator, List, Optional, Sequence, Tuple

from ..answers import Executed, Fetched, Polled, PowerCycled, Reset, Rung, Up
from ..enums import ExecuteOutcome, IoOpcode, UpOutcome
from ..history import Command, Event
from ..words import (command_label, command_words, rule_words, short_meaning, shortened, status_words, tickets_words,
                     verdict_words)
from .bands import Band
from .layout import HEAD, ROW, Layout, begin_of

_TOUCHING = {IoOpcode.WRITE: "changes", IoOpcode.WRITE_ZEROES: "changes", IoOpcode.READ: "looks",
             IoOpcode.COMPARE: "looks", IoOpcode.FLUSH: "flushes"}
_VERBS = {"write": IoOpcode.WRITE, "zeroes": IoOpcode.WRITE_ZEROES, "read": IoOpcode.READ,
          "compare": IoOpcode.COMPARE, "flush": IoOpcode.FLUSH}
MOST_WORDS = 112
"""The most letters of a text next to an event, and of a caption."""
_FEW_WORDS = 44


def state_of(command: Command) -> str:
    """The class of a command: how it looks."""
    if command.is_denied:
        return "denied"
    if command.is_aborted or command.reset is not None and command.polled is None:
        return "aborted"
    if command.status is not None:
        return "done" if command.status.is_success else "failed"
    return "waiting"


def touch_of(command: Command) -> str:
    """What a command does with blocks: `changes`, `looks` or `flushes`, by the opcode that the controller fetched; an
    empty string if it touches none."""
    if command.line is not None:
        opcode = _VERBS.get(command.line.verb)
    else:
        opcode = command.entry.io_opcode if command.entry is not None else None
    return _TOUCHING[opcode] if opcode in _TOUCHING else ""


def command_story(command: Command) -> str:
    """The whole history of a command, in one text."""
    steps = (("placed", command.placed), ("rung", command.rung), ("fetched", command.fetched),
             ("executed", command.executed), ("reset", command.reset), ("delivered", command.polled))
    told = ", ".join(f"{name} at {number}" for name, number in steps if number is not None)
    label = f"ticket {command.ticket}: {command_words(command)}" if command.ticket else command_words(command)
    aborted = "; delivered as aborted" if command.is_aborted else ""
    return f"Controller {command.controller}, {label}. Events: {told}. It was {verdict_words(command)}{aborted}."


class Part:
    """Some events that follow one another, as one SVG picture."""

    def __init__(self, layout: Layout, events: Sequence[Event], texts: Sequence[Tuple[str, str]],
                 commands: Sequence[Command], captions: Optional[Dict[int, str]] = None,
                 bands: Sequence[Band] = ()) -> None:
        """Draws `events`, each with its line and its meaning, of a picture with these commands; `captions` are above
        events, by their numbers."""
        self.layout, self.events, self.texts = layout, events, texts
        self.first, self.last = events[0].number, events[-1].number
        self.commands = [it for it in commands if begin_of(it) <= self.last and layout.end_of(it) >= self.first]
        self.bands = [it for it in bands if it.begin <= self.last and it.end >= self.first]
        self.captions = {it.number: (captions or {})[it.number] for it in events if it.number in (captions or {})}
        self._places: Dict[int, int] = {}
        for event in events:
            self._places[event.number] = len(self._places) + sum(it <= event.number for it in self.captions)
        self.height = HEAD + ROW * (len(events) + len(self.captions)) + 8

    def svg(self) -> str:
        """The picture."""
        width = self.layout.width
        label = f"Events {self.first} to {self.last}"
        head = (f'<svg class="part" role="group" aria-label="{label}" viewBox="0 0 {width} {self.height}" '
                f'width="{width}" height="{self.height}" xmlns="http://www.w3.org/2000/svg">')
        body = [*self._lanes(), *self._bands(), *self._captions(), '<g role="list" aria-label="Events">', *self._rows(),
                "</g>", *self._spans(), *self._marks()]
        return "\n".join([head, *body, "</svg>"])

    def y(self, number: int) -> float:
        """The middle of an event's row."""
        return HEAD + ROW * self._places[number] + ROW / 2

    def _lanes(self) -> Iterator[str]:
        for lane in self.layout.lanes:
            yield (f'<rect class="lane {lane.kind}" x="{lane.left}" y="2" width="{lane.width}" '
                   f'height="{self.height - 4}" rx="6"/>')
            yield (f'<text class="title" x="{lane.middle}" y="20"><title>{escape(lane.name)}</title>'
                   f'{escape(lane.title)}</text>')
            yield f'<text class="subtitle" x="{lane.middle}" y="35">{escape(lane.subtitle)}</text>'

    def _bands(self) -> Iterator[str]:
        """Who is registered and who holds a reservation; each band begins and ends at the middle of its event."""
        for band in self.bands:
            top = self.y(band.begin) if band.begin >= self.first else float(HEAD)
            bottom = self.y(band.end) if band.end <= self.last else self.height - 4.0
            left, width, look = self.layout.band_left(band), (9, 7)[not band.held], "holds" if band.held else "key"
            yield (f'<g class="access {look}"><title>{escape(band.words)}</title><rect x="{left - (width - 7) / 2}" '
                   f'y="{top}" width="{width}" height="{max(2.0, bottom - top)}"/></g>')

    def _captions(self) -> Iterator[str]:
        """Comments of the script above their events."""
        for number, text in self.captions.items():
            y = self.y(number) - ROW
            yield (f'<g class="caption"><title>{escape(text)}</title><rect x="0" y="{y - ROW / 2 + 2}" '
                   f'width="{self.layout.width}" height="{ROW - 4}"/>'
                   f'<text x="{self.layout.text_left}" y="{y + 4}">{escape(shortened(text, MOST_WORDS))}</text></g>')

    def _rows(self) -> Iterator[str]:
        """The rows: what takes the focus, and the words next to the lanes."""
        left = self.layout.text_left
        for event, (line, words) in zip(self.events, self.texts):
            y, top = self.y(event.number), self.y(event.number) - ROW / 2
            where = f"Event {event.number}, line {event.line.number}"
            told = escape(f"{where}: {event.line.text} — {event.text} — {words}", quote=True)
            is_red = is_denied(event)
            place = self.layout.hosts.get(event.line.controller)
            lane = place.left if place is not None else 0
            look = "plain" if not is_red else "denied stopped" if isinstance(event.answer, Executed) else "denied"
            yield (f'<g class="event {look}" data-event="{event.number}" data-x="{lane}" tabindex="0" role="listitem" '
                   f'aria-label="{told}">'
                   f'<title>{told}</title>'
                   f'<rect class="row" x="0" y="{top}" width="{self.layout.width}" height="{ROW}"/>'
                   f'<text class="number" x="34" y="{y + 4}">{event.number}</text>'
                   f'<text x="{left}" y="{y + 4}"><tspan class="line">{escape(line)}</tspan>'
                   f'<tspan class="words" dx="10">{escape(words)}</tspan></text></g>')

    def _spans(self) -> Iterator[str]:
        for command in self.commands:
            story = escape(command_story(command), quote=True)
            shapes = [*self._host_span(command), *self._controller_span(command)]
            yield (f'<g class="command {state_of(command)}" tabindex="0" role="img" aria-label="{story}">'
                   f'<title>{story}</title>{"".join(shapes)}</g>')

    def _within(self, begin: int, end: int) -> Tuple[float, float]:
        """The extent of a span from one event to another in this part."""
        top = self.y(begin) - 7 if begin >= self.first else float(HEAD)
        return top, (self.y(end) + 7 if end <= self.last else self.height - 4.0)

    def _host_span(self, command: Command) -> Iterator[str]:
        """A request from its place to its poll; one that was denied has no round corners, and a bar across its end."""
        if command.ticket is None:
            return
        end = self.layout.end_of(command)
        top, bottom = self._within(begin_of(command), end)
        left, radius = self.layout.slot_left(command), 0 if command.is_denied else 4
        yield f'<rect class="span" x="{left}" y="{top}" width="9" height="{bottom - top}" rx="{radius}"/>'
        if end <= self.last and command.is_denied:
            yield f'<path class="stop" d="M{left - 3} {bottom}h15"/>'
        if command.polled is None and end <= self.last:
            yield f'<path class="open" d="M{left} {bottom}l4.5 5l4.5 -5"/>'

    def _controller_span(self, command: Command) -> Iterator[str]:
        """A command from its fetch to its execution."""
        end = self.layout.leaves_controller(command)
        if command.fetched is None or command.fetched > self.last or end < self.first:
            return
        top, bottom = self._within(command.fetched, end)
        x = self.layout.held_left(command)
        yield f'<rect class="held" x="{x}" y="{top + 3}" width="9" height="{max(4.0, bottom - top - 6)}" rx="2"/>'

    def _marks(self) -> Iterator[str]:
        for event in self.events:
            marks = self._mark(event)
            if marks:
                yield f'<g class="mark" aria-hidden="true">{"".join(marks)}</g>'

    def _mark(self, event: Event) -> List[str]:
        """What an event adds to the picture: arrows, crosses, bands."""
        number, answer, y = event.line.controller, event.answer, self.y(event.number)
        if isinstance(answer, PowerCycled):
            return [shape for it in self.layout.hosts for shape in self._band(it, "power", y)]
        host, controller = self.layout.hosts.get(number), self.layout.controllers.get(number)
        if host is None or controller is None:
            return []
        if isinstance(answer, Reset) or isinstance(answer, Up) and answer.outcome is UpOutcome.OK:
            return self._band(number, "reset" if isinstance(answer, Reset) else "up", y)
        if isinstance(answer, Rung) and answer.is_up:
            return [_arrow(host.left + 8, controller.left + 6, y, "ring")]
        if isinstance(answer, Executed) and answer.outcome is ExecuteOutcome.POSTED and event.command is not None:
            return self._executed(event.command, y)
        if isinstance(answer, Polled) and answer.status is not None and event.command is not None:
            return [_arrow(controller.left + 6, self.layout.slot_left(event.command) + 12, y, "poll")]
        return []

    def _executed(self, command: Command, y: float) -> List[str]:
        """An execution reaches the media if it touches blocks; a denied one is stopped at its controller by a rule."""
        x, media = self.layout.held_left(command) + 4.5, self.layout.media
        if command.is_denied:
            number, lane = command.rule.value, self.layout.controllers[command.controller]
            return [f'<path class="cross" d="M{x - 7} {y - 7}l14 14M{x - 7} {y + 7}l14 -14"/>',
                    f'<text class="rule" x="{lane.left + lane.width - 6}" y="{y + 4}">rule {number}</text>']
        touch, end = touch_of(command), media.middle
        if not touch:
            return [f'<path class="other" d="M{x} {y - 6}l6 6l-6 6l-6 -6z"/>']
        shapes = {
            "changes": f'<rect class="changes" x="{end - 6}" y="{y - 6}" width="12" height="12"/>',
            "looks": f'<circle class="looks" cx="{end}" cy="{y}" r="6"/>',
            "flushes": f'<path class="flushes" d="M{end - 7} {y - 5}h14l-7 11z"/>',
        }
        return [f'<path class="reach" d="M{x + 7} {y}H{end - 9}"/>', shapes[touch]]

    def _band(self, number: int, kind: str, y: float) -> List[str]:
        """A host and its controller go down, or come up."""
        host, controller = self.layout.hosts[number], self.layout.controllers[number]
        left, width = host.left + 2, controller.left + controller.width - host.left - 4
        return [f'<rect class="band {kind}" x="{left}" y="{y - 8}" width="{width}" height="16" rx="3"/>',
                f'<text class="band-text {kind}" x="{left + width / 2}" y="{y + 4}">{kind}</text>']


def _arrow(begin: float, end: float, y: float, kind: str) -> str:
    """A line with a head at its end."""
    back = -6 if end > begin else 6
    return f'<path class="arrow {kind}" d="M{begin} {y}H{end}m{back} -4l{-back} 4l{back} 4"/>'


def is_denied(event: Event) -> bool:
    """Whether an event is about a denied command: its words are red and bold."""
    return isinstance(event.answer, (Executed, Polled)) and any(it.is_denied for it in event.commands)


def event_texts(event: Event, is_short: bool = False) -> Tuple[str, str]:
    """The words next to an event: its line, and its result in few words. `is_short` shortens both, except for the
    reason of a denial."""
    if is_short:
        line, words = event_texts(event)
        return shortened(line, 22), words if is_denied(event) else shortened(words, _FEW_WORDS)
    line = shortened(event.line.text, 34)
    answer, command = event.answer, event.command
    if isinstance(answer, Executed) and command is not None:
        return line, f"{command_label(command)}: {_short_verdict(command)}"
    if isinstance(answer, Polled) and command is not None:
        told = "aborted" if answer.status is None else status_words(answer.status)
        rule = f", rule {command.rule.value}" if command.is_denied else ""
        return line, f"{command_label(command)}: {told}{rule}"
    if isinstance(answer, Rung) and event.commands:
        return line, f"notifies of {tickets_words(event.commands)}"
    if isinstance(answer, Fetched) and command is not None:
        return line, f"takes {command_label(command)}"
    if event.line.is_request and command is not None:
        return line, shortened(f"ticket {command.ticket}: {command_words(command)}", MOST_WORDS)
    return line, shortened(short_meaning(event), MOST_WORDS)


def _short_verdict(command: Command) -> str:
    """The result of an execution; the status of a denied request is next to its poll."""
    if command.is_denied and command.ticket is not None:
        return f"denied by {rule_words(command)}"
    return verdict_words(command)
