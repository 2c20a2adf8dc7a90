"""Two machines of a cluster for a target that moves: guests or namespaces, their power switch, and checks."""
import re
import shutil
import time
from concurrent.futures import ThreadPoolExecutor
from pathlib import Path
from typing import Dict, List

from linux.cluster import SETTLED, STATE
from linux.fencer import Fencer
from linux.machines import NAMESPACES, SLOW, Guest, say
from tests.targets import PROGRAM

HERE = Path(__file__).resolve().parent
MACHINES = ("t1", "t2")
# Milliseconds until Corosync gives a silent machine up, and then until the other forms a membership without it. A guest
# without KVM may need longer to answer.
TOKEN, CONSENSUS = int(1000 * SLOW), int((200 if NAMESPACES else 400) * SLOW)
# What the target keeps of its run, in the folder that it shares with the scene.
KEEP = "--script /share/run.nvme --force"
# The resources: DRBD mirrors the disks of guests; the disk of namespaces is one that both have.
RESOURCES = "targets.crm" if NAMESPACES else "drbd.crm"
# Settings of the target can be added before this.
TARGET = "params volume="
# The target and its address run on a machine.
SERVES = r"(?s)disk[^\n]*Started {0}.*address[^\n]*Started {0}"


def adapted(text: str) -> str:
    """A configuration with times multiplied by SLOW, and a target that keeps its run.

    That of guests starts later, since the folder for it can't be in a saved state.
    """
    text = re.sub(r"(timeout=|interval=|t2:)(\d+)s", lambda it: f"{it[1]}{int(int(it[2]) * SLOW)}s", text)
    text = re.sub(r"(ping-timeout) (\d+)", lambda it: f"{it[1]} {min(int(int(it[2]) * SLOW), 300)}", text)
    for word, number in (("token: TOKEN", TOKEN), ("consensus: CONSENSUS", CONSENSUS),
                         ("knet_ping_interval: INTERVAL", TOKEN // 4), ("knet_ping_timeout: TIMEOUT", 2 * TOKEN)):
        text = text.replace(word, f"{word.split()[0]} {number}")
    text = text.replace("--trust-network", f"--trust-network {KEEP}")
    return text if NAMESPACES else text.replace(TARGET, f"meta target-role=Stopped {TARGET}")


def fill(share: Path) -> None:
    """Puts what a machine needs into the folder that it shares with the scene."""
    share.mkdir(exist_ok=True)
    for it in ("fence_guest", "init", "target-node"):
        shutil.copy(HERE / it, share)
    for it, name in ((RESOURCES, RESOURCES), ("drbd.res", "drbd.res"), ("targets.corosync.conf", "corosync.conf")):
        (share / name).write_text(adapted((HERE / it).read_text()))
    shutil.copy(PROGRAM, share / "nvmetcp")
    shutil.copy(HERE.parent / "ocf/nvmetcp", share / "agent")


class Pair:
    """Both machines, and the power switch that Pacemaker fences them by."""

    def __init__(self, folder: Path) -> None:
        self.folder = folder
        self.guests: Dict[str, Guest] = {}
        self.faults: List[str] = []
        self.fencer = Fencer(self.kill)
        self.fencer.start()

    def share(self, name: str) -> Path:
        """The folder that a machine and the scene share."""
        return self.folder / f"share-{name}"

    def join(self, name: str) -> None:
        """A machine that has booted joins the cluster."""
        guest = self.guests[name]
        text = guest.run("sh /share/target-node; echo status $?", SETTLED)
        self.wants(f"{name} is set up", "status 0" in text)
        # Pacemaker gives up ten seconds later if Corosync does not answer, and starts again as Debian's unit lets it.
        guest.run("corosync; until corosync-cmapctl totem.token >/dev/null 2>&1; do sleep 1; done; "
                  "until pacemakerd >/dev/null 2>&1; do sleep 1; done &", SETTLED)

    def form(self) -> None:
        """Both machines join, and t1 loads the resources."""
        with ThreadPoolExecutor() as pool:
            list(pool.map(self.join, MACHINES))
        self.until("both machines are online", "t1", STATE, r"Online: \[ t1 t2 \]")
        self.guests["t1"].run(f"cd /share; crm configure load update {RESOURCES} </dev/null; cd /", SETTLED)

    def kill(self, name: str) -> bool:
        """Ends a machine. Returns after its process has ended, or that there is none of this name."""
        if name in self.guests:
            self.guests[name].end()
            say(f"{name} is dead")
        return name in self.guests

    def until(self, what: str, name: str, line: str, pattern: str) -> None:
        """Executes a line until its output has a pattern. The machine has most of its time for itself."""
        guest, last, text, taken = self.guests[name], time.monotonic() + SETTLED, "", 0.0
        while not re.search(pattern, text) and time.monotonic() < last:
            guest.rest(max(2.0, 3 * taken))
            begun = time.monotonic()
            text = guest.run(line, SETTLED)
            taken = time.monotonic() - begun
        self.wants(what, re.search(pattern, text) is not None)

    def wants(self, what: str, holds: bool) -> None:
        """Checks a condition."""
        say(f"{what}: {'passed' if holds else 'FAILED'}")
        if not holds:
            self.faults.append(what)

    def serves(self, name: str) -> None:
        self.until(f"the target and its address are on {name}", name, STATE, SERVES.format(name))

    def close(self) -> None:
        for it in self.guests.values():
            it.close()
        self.fencer.close()
