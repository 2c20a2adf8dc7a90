"""Makes the page of a picture: one self-contained HTML file."""
from __future__ import annotations

import base64
import gzip
import json
from html import escape
from typing import Dict, List, Sequence

from ..history import Command, Event
from ..words import command_words, meaning, rule_words, status_words
from .bands import Told
from .drawing import state_of
from .picture import Picture, is_denial
from .style import SCRIPT, STYLE

MOST_INLINE = 1500
"""The most events of a page that has all its parts uncompressed."""
_FIRST_PARTS = 4
_MOST_DENIED = 200
_STATES = {
    "done": "done", "denied": "denied by a rule", "failed": "failed", "aborted": "aborted",
    "waiting": "without an answer",
}


def timeline(script: str, transcript: str, title: str = "Timeline", told: Sequence[Told] = ()) -> str:
    """The page for a script and its transcript.

    Args:
        script: the script's text.
        transcript: what `nvmesim` printed for it.
        title: the heading of the page.
        told: the answers of queries about reservations, for the bands of who holds them and who is registered.

    Raises:
        ScriptError: the script can't be read, or the two have different counts of events.
        ProtocolError: a line of the transcript isn't the answer of its event.
    """
    picture = Picture(script, transcript, told)
    is_long = len(picture.events) > MOST_INLINE
    body = [f"<h1>{escape(title)}</h1>", _paragraph(picture.head), _summary(picture.events, picture.commands),
            _first_denied(picture), _LEGEND, _TOOLS, f'<div class="pictures">{_rooms(picture, is_long)}</div>',
            _denied(picture.commands), "" if is_long else _list_of(picture)]
    return PAGE.format(title=escape(title), style=STYLE, script=SCRIPT, body="\n".join(filter(None, body)),
                       packed=_packed(picture) if is_long else "")


def _paragraph(text: str) -> str:
    return f'<p class="head">{escape(text)}</p>' if text else ""


def _rooms(picture: Picture, is_long: bool) -> str:
    """The parts, each in its own element. The later ones of a long picture are filled when the reader scrolls to
    them."""
    rooms: List[str] = []
    for number, part in enumerate(picture.parts):
        is_later = is_long and number >= _FIRST_PARTS
        size = f' style="height:{part.height + 12}px;width:{picture.layout.width}px"' if is_later else ""
        rooms.append(f'<div class="room" data-first="{part.first}" data-last="{part.last}"{size}>'
                     f'{"" if is_later else part.svg()}</div>')
    return "\n".join(rooms)


def _packed(picture: Picture) -> str:
    """The later parts of a long picture, and all texts that are searched, in few bytes."""
    data = {"parts": ["" if number < _FIRST_PARTS else part.svg() for number, part in enumerate(picture.parts)],
            "texts": [f"{it.line.text} — {it.text} — {words}"
                      for it, (_, words) in zip(picture.events, picture.texts)],
            "denied": [it.number for it in picture.events if is_denial(it)]}
    packed = gzip.compress(json.dumps(data).encode("utf-8"), 9, mtime=0)
    return f'<script type="text/plain" id="packed">{base64.b64encode(packed).decode("ascii")}</script>'


def _first_denied(picture: Picture) -> str:
    """A line about the first command that a rule denied."""
    for event in picture.events:
        if is_denial(event) and event.command is not None:
            return (f'<p class="first"><a href="#" data-go="{event.number}">Event {event.number}</a>: '
                    f"{escape(command_words(event.command))} is the first command that is denied, by "
                    f"{escape(rule_words(event.command))}.</p>")
    return ""


def _summary(events: Sequence[Event], commands: Sequence[Command]) -> str:
    """The numbers of events and of commands, by their results."""
    counts: Dict[str, int] = {}
    for command in commands:
        counts[state_of(command)] = counts.get(state_of(command), 0) + 1
    told = ", ".join(f"{counts[it]} {words}" for it, words in _STATES.items() if it in counts)
    return f"<p>{_count(len(events), 'event')}, {_count(len(commands), 'command')}{': ' + told if told else ''}.</p>"


def _count(number: int, what: str) -> str:
    return f"{number} {what}" + ("" if number == 1 else "s")


def _denied(commands: Sequence[Command]) -> str:
    """The commands that a rule denied, as a table."""
    rows: List[str] = []
    denied = [it for it in commands if it.is_denied and it.status is not None]
    for command in denied[:_MOST_DENIED]:
        if command.status is not None:
            cells = (str(command.executed), str(command.controller), str(command.ticket or ""),
                     command_words(command), status_words(command.status), rule_words(command))
            rows.append("<tr>" + "".join(f"<td>{escape(it)}</td>" for it in cells) + "</tr>")
    if not rows:
        return ""
    heads = "".join(f'<th scope="col">{it}</th>' for it in
                    ("Event", "Controller", "Ticket", "Command", "Status", "Rule"))
    more = f"<p>And {len(denied) - _MOST_DENIED} more.</p>" if len(denied) > _MOST_DENIED else ""
    body = "\n".join(rows)
    return f"<h2>Denied</h2>\n{more}<table><thead><tr>{heads}</tr></thead><tbody>\n{body}\n</tbody></table>"


def _list_of(picture: Picture) -> str:
    """All events in words, for readers without pictures."""
    items = "\n".join(f"<li><code>{escape(it.line.text)}</code> {escape(meaning(it, picture.configuration))}.</li>"
                      for it in picture.events)
    return f"<details><summary>All events in words</summary>\n<ol>\n{items}\n</ol>\n</details>"


_LEGEND = """<ul class="legend" aria-label="Legend">
<li><svg width="14" height="20"><g class="command done"><rect class="span" x="2" y="1" width="9" height="18" rx="4"/>
</g></svg> done</li>
<li><svg width="18" height="20"><g class="command denied"><rect class="span" x="4" y="1" width="9" height="16"/>
<path class="stop" d="M1 17h15"/></g></svg> denied: square, striped, with a bar</li>
<li><svg width="18" height="20"><path class="cross" d="M2 3l14 14M2 17l14 -14"/></svg> stopped by a rule</li>
<li><svg width="14" height="20"><g class="command failed"><rect class="span" x="2" y="1" width="9" height="18" rx="4"/>
</g></svg> failed</li>
<li><svg width="14" height="20"><g class="command aborted"><rect class="span" x="2" y="1" width="9" height="18" rx="4"/>
</g></svg> aborted by a reset or a loss of power</li>
<li><svg width="14" height="20"><g class="command waiting"><rect class="span" x="2" y="1" width="9" height="18" rx="4"/>
</g></svg> without an answer</li>
<li><svg width="16" height="20"><rect class="changes" x="2" y="4" width="12" height="12"/></svg> changes blocks</li>
<li><svg width="16" height="20"><circle class="looks" cx="8" cy="10" r="6"/></svg> reads blocks</li>
<li><svg width="16" height="20"><path class="flushes" d="M1 5h14l-7 11z"/></svg> flushes blocks</li>
<li><svg width="16" height="20"><path class="other" d="M8 4l6 6l-6 6l-6 -6z"/></svg> touches no blocks</li>
<li><svg width="14" height="20"><g class="access key"><rect x="3" y="1" width="7" height="18"/></g></svg>
registered</li>
<li><svg width="14" height="20"><g class="access holds"><rect x="2" y="1" width="9" height="18"/></g></svg> holds the
reservation</li>
</ul>"""

_TOOLS = """<form class="tools" role="search"><input id="search" type="search" placeholder="search events"
aria-label="Search events"><button type="submit">Find</button>
<button type="button" data-do="denied">Next denied</button><button type="button" data-do="smaller">−</button>
<button type="button" data-do="larger">+</button><button type="button" data-do="fit">Fit</button>
<span class="keys">arrows: event to event; n, N: next and previous denied; /: search; +, −, 0: zoom</span></form>
<noscript><p>Without JavaScript there is no search, and a long picture has its first part only.</p></noscript>"""

PAGE = """<!DOCTYPE html>
<html lang="en">
<head>
<meta charset="utf-8">
<meta name="viewport" content="width=device-width, initial-scale=1">
<meta name="color-scheme" content="light dark">
<title>{title}</title>
<style>{style}</style>
</head>
<body>
<svg width="0" height="0" aria-hidden="true"><defs>
<pattern id="stripes" width="6" height="6" patternUnits="userSpaceOnUse" patternTransform="rotate(45)">
<rect class="stripe-ground" width="6" height="6"/><rect class="stripe" width="3" height="6"/></pattern>
</defs></svg>
<main>
{body}
</main>
<aside id="details" role="status" aria-live="polite" hidden></aside>
{packed}
<script>{script}</script>
</body>
</html>
"""
