"""Runs a script and looks at the reservations after each event that may change them."""
from __future__ import annotations

from typing import Dict, List, Tuple

from ..looks import ReservationState, reservation
from ..script import LineKind, configuration_of, read_lines
from ..session import Session
from .bands import Told

_CHANGING = ("execute", "up", "powercycle")


def watched(session: Session, script: str) -> Tuple[str, List[Told]]:
    """The transcript of a script, and the changes of each reservation.

    Raises:
        ScriptError: the text is no script; nothing was sent.
    """
    lines = list(read_lines(script))
    namespaces = list(configuration_of(lines).namespaces)
    told: List[Told] = []
    before: Dict[int, ReservationState] = {}
    number = 0
    for line in lines:
        if line.kind is LineKind.CONFIGURATION:
            session.configure(line.text)
        elif line.kind is LineKind.START:
            session.start()
        elif line.kind is LineKind.EVENT:
            number += 1
            session.event(line.text)
            for nsid in namespaces if line.verb in _CHANGING else ():
                state = reservation(session.look(f"?reservation {nsid}"), nsid)
                if before.get(nsid) != state:
                    before[nsid] = state
                    told.append((number, nsid, state))
    return session.transcript, told
