"""CONFIG: the lines of a script before its `start`, which describe the subsystem. The programs read them: nvmesim
reports errors, and nvmelive answers `?line` with the normal form of a line."""
import subprocess
from dataclasses import dataclass, field
from pathlib import Path
from typing import Any, Callable, Dict, List, Optional, Set

from nvmelab.faults import LabFault

BLOCK_BYTES = 512
# A medium that has room for each configuration: 8 namespaces of 65,536 blocks.
LARGEST_MEDIUM = 8 * 65_536 * BLOCK_BYTES
SETTING_UP = ("controller", "namespace", "attached")

# Answers lines, each by one.
Ask = Callable[[List[str]], List[str]]
# Returns why a script is refused, given its text, or None.
Judge = Callable[[str], Optional[str]]


@dataclass
class Configuration:
    """The lines for the subsystem, one for each line of CONFIG, and what the lab needs from them."""
    handed: List[str] = field(default_factory=list)
    # The host of each controller, those controllers whose host has a driver, and the size of each namespace in blocks.
    hosts: Dict[int, int] = field(default_factory=dict)
    drivers: Set[int] = field(default_factory=set)
    blocks: Dict[int, int] = field(default_factory=dict)

    @property
    def image_bytes(self) -> int:
        """The size in bytes of an image that holds all namespaces."""
        return sum(self.blocks.values()) * BLOCK_BYTES

    def controllers_of(self, host: int) -> List[int]:
        return [cntlid for cntlid, its_host in sorted(self.hosts.items()) if its_host == host]

    def take(self, words: List[str], has_drivers: bool) -> None:
        """Adds a line, in the words of nvmelive's answer. A host has a driver if `--drivers` is given and its line does
        not end in `raw`; else the lab drives it as a raw host."""
        if words[0] == "controller":
            cntlid = int(words[1])
            self.hosts[cntlid] = int(words[3], 16)
            if len(words) == 4 and has_drivers:
                self.drivers.add(cntlid)
            elif len(words) == 4:
                words = [*words, "raw"]
        elif words[0] == "namespace":
            self.blocks[int(words[1])] = int(words[3])
        self.handed.append(" ".join(words))

    def packed(self) -> Dict[str, Any]:
        """Reads CONFIG as a file of options."""
        return {"handed": self.handed, "hosts": [*self.hosts.items()], "drivers": sorted(self.drivers),
                "blocks": [*self.blocks.items()]}

    @classmethod
    def unpacked(cls, packed: Dict[str, Any]) -> "Configuration":
        return cls(packed["handed"], dict(packed["hosts"]), set(packed["drivers"]), dict(packed["blocks"]))


def judge_by(program: str, room: Path, medium_bytes: int, name: str) -> Judge:
    """Checks scripts by nvmesim, over `medium_bytes` zero bytes, with files in a folder. Reasons call the script
    `name`."""
    medium, script = room / "medium", room / "script"

    def judge(text: str) -> Optional[str]:
        script.write_bytes(text.encode("ascii", "surrogateescape"))
        with open(medium, "wb") as file:
            file.truncate(medium_bytes)
        try:
            done = subprocess.run([program, str(medium), str(script)], stdin=subprocess.DEVNULL,
                                  stdout=subprocess.DEVNULL, stderr=subprocess.PIPE)
        except OSError as fault:
            raise LabFault(f"{program} can't be run: {fault.strerror}") from fault
        finally:
            medium.unlink()
            script.unlink()
        told = done.stderr.decode("utf-8", "replace").splitlines() or [f"{program} has ended with {done.returncode}"]
        return told[-1].replace(str(script), name) if done.returncode != 0 else None

    return judge


def answered(name: str, lines: List[str], ask: Ask) -> List[List[str]]:
    """The words of each line in normal form; none for a line that is not understood."""
    answers = ask([f"?line {line}" for line in lines])
    for number, answer in enumerate(answers, 1):
        if not answer.startswith(("line ", "! ")):
            raise LabFault(f"{name} line {number}: the program answers `{answer[:100]}`")
    return [answer.split()[1:] if answer.startswith("line ") else [] for answer in answers]


def column_of(line: str) -> int:
    """The column of a line's first word, from 1."""
    return len(line) - len(line.lstrip(" \t\r")) + 1


def read_configuration(text: str, name: str, has_drivers: bool, ask: Ask, judge: Judge) -> Configuration:
    """Reads CONFIG, or raises its error as `FILE:LINE:COLUMN: REASON`. `start` may be missing; only comments may follow
    it."""
    lines = text.split("\n")
    said = answered(name, lines, ask)
    reason = judge(text if ["start"] in said else f"{text}\nstart\n")
    if reason is not None:
        raise LabFault(reason)
    configuration = Configuration()
    is_started = False
    for number, (line, words) in enumerate(zip(lines, said), 1):
        if not words:
            raise LabFault(f"{name}:{number}:1: the line is too long for a lab")
        if words != ["blank"] and words[0] not in (*SETTING_UP, "start"):
            place = f"{name}:{number}:{column_of(line)}"
            raise LabFault(f"{place}: this line is an event; a configuration has none")
        is_started = is_started or words == ["start"]
        if not is_started and words == ["blank"]:
            configuration.handed.append(line)
        elif not is_started:
            configuration.take(words, has_drivers)
    if not configuration.hosts:
        raise LabFault(f"{name}:1:1: there is no controller; add a line 'controller 1 host 1'")
    return configuration
