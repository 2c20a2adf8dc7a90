"""Each program's verdict on a configuration: the reason of a refusal, as `LINE:COLUMN: REASON`, or acceptance."""
import os
import re
import sys
from dataclasses import dataclass
from pathlib import Path
from typing import Dict, Optional, Tuple

LAB = Path(__file__).resolve().parents[3] / "clients" / "nvme-cli"
sys.path.insert(0, str(LAB))

from nvmelab.configuration import LARGEST_MEDIUM, Configuration, read_configuration
from nvmelab.faults import LabFault
from nvmelab.subsystem import Subsystem

TAKEN = "taken"
EVENT = "this line is an event; a configuration has none"
EMPTY = "1:1: there is no controller; add a line 'controller 1 host 1'"
START = re.compile(rb"^[ \t\r]*start[ \t\r]*$", re.M)
# The end of the reason that a namespace is too large for a script.
TOO_LARGE = " blocks; at most 65536 are allowed"
# The beginning of a reason that a line is not allowed at its place.
PLACE = re.compile(r"\w+ needs a 'start'|\w+ must come before 'start'|a script has only one start$")
# What nvmetcp adds if a host is written as a UUID, which scripts don't know.
UUID_HINT = re.compile(r"; the host with this HOSTID is 0x[0-9a-f]{32}$")
# An event that every script may end with: its answer says whether there is a controller.
PROBE = b"poll 1\n"
OUTPUT = os.O_WRONLY | os.O_CREAT | os.O_TRUNC


class Broken(Exception):
    """A program failed, so that nothing can be compared."""


@dataclass
class Ended:
    """The result of a program."""
    status: int
    output: bytes
    errors: bytes


@dataclass
class Judged:
    """nvmesim's verdict on a configuration, and whether it refuses a line outside the grammar."""
    reason: str
    is_of_line: bool


class Programs:
    """The programs, and a folder for their files, the working directory of this process: file names are short then,
    which nvmesim writes byte by byte."""

    def __init__(self, live: str, sim: str, target: Optional[str], room: Path):
        os.chdir(room)
        self.sim, self.target, self.script, self.medium = sim, target, Path("script"), Path("medium")
        with open(self.medium, "wb") as file:
            file.truncate(LARGEST_MEDIUM)
        self.live, self.session = live, Subsystem([live], "-")

    def run(self, program: str, *words: str) -> Ended:
        """Runs a program without input."""
        shown = [Path("output"), Path("errors")]
        files = [(os.POSIX_SPAWN_OPEN, 0, os.devnull, os.O_RDONLY, 0)]
        files += [(os.POSIX_SPAWN_OPEN, number, str(it), OUTPUT, 0o600) for number, it in enumerate(shown, 1)]
        process = os.posix_spawn(program, [program, *words], os.environ, file_actions=files)
        status = os.waitstatus_to_exitcode(os.waitpid(process, 0)[1])
        return Ended(status, *(it.read_bytes() for it in shown))

    def placed(self, ended: Ended, program: str) -> str:
        """The reason of a refusal, after the name of the script."""
        told = ended.errors.decode("utf-8", "replace").splitlines()
        front = f"{self.script}:"
        last = (told or [""])[-1].removeprefix(f"{program}: ")
        if ended.status != 1 or not last.startswith(front):
            raise Broken(f"{program} ended with status {ended.status} and printed {told}")
        return last.removeprefix(front).lstrip()

    def by_nvmesim(self, text: bytes, *options: str) -> Judged:
        """The reason of nvmesim. A configuration is a script without events that has a controller: if the script is
        run, its transcript reports both."""
        started = text if START.search(text) else text + b"\nstart"
        self.script.write_bytes(started + b"\n" + PROBE)
        ended = self.run(self.sim, *options, str(self.medium), str(self.script))
        if ended.status != 0:
            return Judged(self.placed(ended, "nvmesim"), b": not understood\n" in ended.errors)
        *events, probe = ended.output.splitlines()
        reason = EVENT if events else EMPTY if probe.startswith(b"nocontroller") else TAKEN
        return Judged(reason, False)

    def by_target(self, text: bytes, sim: str) -> str:
        """The reason of nvmetcp. Its namespaces have any size, so if nvmesim refuses a size, nvmetcp must agree with
        `nvmesim --any-size`."""
        self.script.write_bytes(text)
        ended = self.run(self.target or "", "--check", "--image", str(self.medium), str(self.script))
        reason = TAKEN if ended.status == 0 else UUID_HINT.sub("", self.placed(ended, "nvmetcp"))
        if sim.endswith(TOO_LARGE) and is_same(self.by_nvmesim(text, "--any-size").reason, reason):
            return sim
        return reason

    def by_lab(self, text: bytes, reason: str) -> Tuple[str, Optional[Configuration]]:
        """The reason of the lab, and what it reads. Reuses nvmesim's verdict on the same text."""
        mine = text if START.search(text) else text + b"\nstart\n"

        def judge(asked: str) -> Optional[str]:
            if asked.encode("ascii", "surrogateescape") != mine:
                raise Broken(f"the lab has nvmesim judge {asked!r}")
            return None if reason in (TAKEN, EVENT, EMPTY) else f"script:{reason}"

        try:
            read = read_configuration(text.decode("ascii", "surrogateescape"), "script", True, self.session.ask, judge)
            return TAKEN, read
        except LabFault as fault:
            return str(fault).removeprefix("script:"), None

    def end(self) -> None:
        """Ends the session."""
        self.session.end()


def is_same(one: str, other: str) -> bool:
    """Whether two reasons are the same. nvmesim runs an event instead of refusing it."""
    return one == other or one == EVENT and other.endswith(f": {EVENT}")


def faults(programs: Programs, text: bytes, is_thorough: bool) -> Dict[str, str]:
    """Each program's verdict on a configuration, if they differ; else nothing."""
    try:
        return differences(programs, text, is_thorough)
    except Broken as fault:
        return {"a program is broken": str(fault)}


def differences(programs: Programs, text: bytes, is_thorough: bool) -> Dict[str, str]:
    """The verdicts if they differ; raises if a program fails."""
    sim = programs.by_nvmesim(text)
    found = {"nvmesim": sim.reason}
    found["lab"], read = programs.by_lab(text, sim.reason)
    if programs.target:
        found["nvmetcp"] = programs.by_target(text, sim.reason)
    found["nvmelive"] = by_session(programs, text, sim)
    if read is not None and is_thorough:
        found["the lab's lines"] = by_lines(programs, read)
    places = {it for it in found.values() if it.endswith(EVENT) and it != EVENT}
    is_good = len(places) < 2 and all(is_same(sim.reason, it) for it in found.values())
    return {} if is_good else found


def by_session(programs: Programs, text: bytes, sim: Judged) -> str:
    """The reason of nvmesim, if the answers of nvmelive to single lines agree with it: the first line that is not
    understood is the same, for the same reason. They do not check whether a line is allowed there, or its effect."""
    answers = programs.session.ask([f"?line {it.decode('ascii', 'surrogateescape')}" for it in text.split(b"\n")])
    first = next((n for n, it in enumerate(answers, 1) if it.startswith("! ")), None)
    if not sim.is_of_line:
        return sim.reason if first is None else answers[first - 1]
    place, _, why = sim.reason.partition(": ")
    line = int(place.partition(":")[0])
    if PLACE.match(why):
        return sim.reason if first is None or line < first else answers[first - 1]
    if first is None:
        return "each line is understood"
    front, _, said = answers[first - 1].partition(": ")
    is_same_word = why in (said, f"word {front.split()[-1]}: {said}")
    return sim.reason if line == first and is_same_word else answers[first - 1]


def by_lines(programs: Programs, read: Configuration) -> str:
    """Whether the lab's lines are accepted, and set up what it has read."""
    told = Subsystem([programs.live], str(programs.medium))
    try:
        answers = told.ask([*read.handed, "start", "?namespaces", *(f"?driver {it}" for it in read.hosts)])
    finally:
        told.end()
    count = len(read.handed)
    words = answers[count + 1].split()[1:]
    blocks = {int(words[at + 1]): int(words[at + 5]) for at in range(0, len(words), 10)}
    drivers = {it for it, answer in zip(read.hosts, answers[count + 2:]) if answer.startswith("driver ")}
    if answers[:count + 1] != ["ok"] * count + ["started"] or (blocks, drivers) != (read.blocks, read.drivers):
        return f"the lab passes {read.handed} on, has read {read} and gets {answers}"
    return TAKEN
