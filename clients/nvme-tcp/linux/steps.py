"""The steps of an outage, as Pacemaker has logged them on a machine, with their seconds."""
import re
import time
from datetime import datetime, timedelta
from pathlib import Path
from typing import Dict, List, Tuple

from linux.cluster import LOG, SETTLED
from linux.machines import Guest

# Puts the log, and the machine's time as the log has it, into the folder that the machine and the scene share.
COPY = f"cp {LOG} /share/log; date '+%b %d %H:%M:%S.%N' | cut -c1-19 >/share/now"
LINE = re.compile(r"(\w{3} \d\d \d\d:\d\d:\d\d\.\d{3}) \S+ (.*)")
LOST = re.compile(r"Cluster node (\w+) is now lost")
BEGINS = re.compile(r"Requesting (?:local execution of )?(\w+)(?: operation for| \(\w+\) of node) (\w+) ")
ENDS = re.compile(r"Result of (\w+) operation for (\w+) on ")
FENCED = re.compile(r"Peer (\w+) was terminated ")
# Steps of one name are one step if there are at most these seconds between them.
GAP = 0.5


def clock(text: str) -> datetime:
    """A time of the log, which has no year: a leap year."""
    return datetime.strptime(f"2000 {text}", "%Y %b %d %H:%M:%S.%f")


def steps(log: str, begun: datetime) -> List[str]:
    """The steps of a log from a moment on, with their seconds from then. Checks that Pacemaker repeats are left out."""
    spans: List[Tuple[str, float, float]] = []
    running: Dict[str, float] = {}

    def ends(name: str, at: float) -> None:
        since = running.pop(name, at)
        joined = next((it for it in reversed(spans) if it[0] == name and since - it[2] <= GAP), None)
        if joined:
            spans.remove(joined)
        spans.append((name, joined[1] if joined else since, at))

    for line in LINE.finditer(log):
        at = (clock(line[1]) - begun) / timedelta(seconds=1)
        lost, begins, ended, fenced = (it.search(line[2]) for it in (LOST, BEGINS, ENDS, FENCED))
        if at < 0:
            continue
        if lost:
            ends(f"{lost[1]} is lost", at)
        elif begins:
            running.setdefault(f"{begins[1]} {begins[2]}", at)
        elif ended:
            ends(f"{ended[1]} {ended[2]}", at)
        elif fenced:
            ends(f"fencing {fenced[1]}", at)
    return [f"{name} {first:.1f}" + (f" to {last:.1f}" if last > first else "")
            for name, first, last in sorted(spans, key=lambda it: it[1]) if not name.startswith("monitor")]


def steps_of(guest: Guest, share: Path, begun: float) -> List[str]:
    """The steps on a machine since a moment of time.monotonic()."""
    guest.run(COPY, SETTLED)
    ago = timedelta(seconds=time.monotonic() - begun)
    now = clock((share / "now").read_text().strip())
    return steps((share / "log").read_text(errors="replace"), now - ago)
