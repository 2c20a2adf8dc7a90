"""Makes a scene of what happened: the lines of a session or a script, each host's a part, for `explore`."""
from __future__ import annotations

from typing import Collection, Dict, List, Sequence, Tuple

from .errors import ScriptError
from .script import LineKind, ScriptLine, configuration_of, read_lines

MOST = 20_000
"""The least number of states of a scene that is cut since it is too large."""


def scene(kept: str, begin: int = 0, most: int = MOST, apart: Collection[int] = ()) -> str:
    """A script with marks, whose last events come in any order with those of other hosts.

    Args:
        kept: the lines that a session was sent, or a script. Queries and comments are left out.
        begin: the line of them from which on events come in any order; 0 to choose it, so that no command is in progress
            there and the scene is not too large.
        most: the limit of states of such a scene.
        apart: controllers whose fetches and executions are a part of their own, apart from their drivers' events: then
            a driver may continue before its controller has acted.

    Raises:
        ScriptError: it is no script, or has no events after the line.
    """
    text = "".join("\n" if line.startswith("?") else f"{line}\n" for line in kept.splitlines())
    lines = [it for it in read_lines(text) if it.kind not in (LineKind.COMMENT, LineKind.BLANK)]
    events = [it for it in lines if it.kind is LineKind.EVENT]
    names = _names(lines, apart)
    cut = next((n for n, it in enumerate(events) if it.number >= begin), len(events)) if begin else _cut(
        events, names, most)
    if cut == len(events):
        raise ScriptError(begin, "there are no events from here on")
    parts: Dict[str, List[str]] = {}
    for line in events[cut:]:
        parts.setdefault(names[line], []).append(line.text)
    setup = [it.text for it in lines if it.kind is not LineKind.EVENT]
    marked = [line for name, texts in parts.items() for line in (f"# host {name}", *texts)]
    return "".join(f"{it}\n" for it in (*setup, *(it.text for it in events[:cut]), *marked))


def _names(lines: Sequence[ScriptLine], apart: Collection[int]) -> Dict[ScriptLine, str]:
    """The part of each event: its host's, or its controller's. A power cycle is a part of its own."""
    hosts = configuration_of(lines).hosts
    names: Dict[ScriptLine, str] = {}
    for line in lines:
        if line.kind is LineKind.EVENT:
            number = line.controller
            is_apart = number in apart and line.verb in ("fetch", "execute")
            name = f"c{number}" if is_apart or number not in hosts else f"h{hosts[number]:x}"
            names[line] = "power" if line.is_of_all else name
    return names


def _cut(events: Sequence[ScriptLine], names: Dict[ScriptLine, str], most: int) -> int:
    """The first event from which on the scene is not too large and before which all commands were polled; if there
    is no such one, the first of the former."""
    counts: Dict[str, int] = {}
    cuts: List[Tuple[bool, int]] = []
    under_way = _under_way(events)
    for place in range(len(events) - 1, -1, -1):
        name = names[events[place]]
        counts[name] = counts.get(name, 0) + 1
        states = 1
        for count in counts.values():
            states *= count + 1
        if states > most:
            break
        cuts.append((under_way[place] > 0 or events[place].verb == "up", place))
    return min(cuts)[1] if cuts else len(events)


def _under_way(events: Sequence[ScriptLine]) -> List[int]:
    """How many requests more than polls there were before each event."""
    found, count = [0], 0
    for line in events:
        count += line.is_request
        count -= line.verb == "poll"
        found.append(max(0, count))
    return found
