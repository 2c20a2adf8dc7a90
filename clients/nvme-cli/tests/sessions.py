"""Sessions of nvme-cli, as the documents have them: typed in the shells of two hosts, and answered as written."""
import os
import re
import shutil
import subprocess
from typing import Dict, Iterator, List, Optional, Tuple

from support import CONFIG, HERE, LAB, Bench, Fault, check_is

# The first version that is tried, whose words the sessions have. Of a later one the statuses alone are compared: its
# tables may look otherwise.
LEAST_VERSION = (2, 3)
STATUS = re.compile(r"NVMe status: ([^:(]*)")
PROMPT = re.compile(r"^(a1|b2)\$ (.*)$")
HOSTS = {"a1": "0xa1", "b2": "0xb2"}
END = "end of what was typed"
# Commands that no request of a driver says, by their lines, and what nvme-cli then says of them.
UNSAID = (
    (re.compile(r"--feature-id=(?:7|0x81)\b|--save|resv-report \S+$"), "NVMe status: Invalid Field in Command: A "
     "reserved coded value or an unsupported value in a defined field(0x2)"),
    (re.compile("admin-passthru"), "NVMe status: Invalid Command Opcode: A reserved coded value or an unsupported value "
     "in the command opcode field(0x1)"),
)


def version_of_tool() -> Optional[Tuple[int, int]]:
    """The version of nvme-cli, if it is installed."""
    tool = shutil.which("nvme")
    if not tool:
        return None
    said = subprocess.run([tool, "version"], stdout=subprocess.PIPE, text=True).stdout
    found = re.search(r"(\d+)\.(\d+)", said)
    return (int(found[1]), int(found[2])) if found else None


def read_session(text: str) -> Iterator[Tuple[str, str, List[str]]]:
    """Each line that is typed: in whose shell, what, and the lines that come back; blank lines in between are none."""
    typed: Optional[Tuple[str, str]] = None
    lines: List[str] = []
    for line in [*text.split("\n"), "a1$ "]:
        found = PROMPT.match(line)
        if not found:
            lines.append(line)
            continue
        if typed:
            yield (*typed, [it for it in lines if it.strip()])
        typed, lines = (found[1], found[2]), []


class Shells:
    """A shell for each host, all in one lab."""

    def __init__(self, bench: Bench, options: List[str]) -> None:
        bin_folder = bench.place / "bin"
        bin_folder.mkdir(exist_ok=True)
        if not (bin_folder / "nvmelab").exists():
            (bin_folder / "nvmelab").symlink_to(LAB)
        path = f"{bench.others.get('PATH', os.environ['PATH'])}{os.pathsep}{bin_folder}"
        start = f"exec env CONFIG='{CONFIG}' PATH='{path}' sh 2>&1"
        self.shells: Dict[str, "subprocess.Popen[str]"] = {
            name: bench.begin(["sh", "-c", start], [*options, "--host", host])
            for name, host in HOSTS.items()}

    def type(self, name: str, line: str) -> List[str]:
        """Types a line, and gives what comes back."""
        shell = self.shells[name]
        shell.stdin.write(f"{line}\necho; echo {END}\n")
        shell.stdin.flush()
        found: List[str] = []
        for came in shell.stdout:
            if came.strip() == END:
                return [it for it in found if it]
            found.append(came.rstrip())
        raise Fault(f"the shell has ended at `{line}`")

    def end(self) -> None:
        for shell in self.shells.values():
            shell.communicate(timeout=30)


def statuses(lines: List[str]) -> List[str]:
    """The statuses that lines tell of."""
    return [found[1].strip() for line in lines for found in STATUS.finditer(line)]


def of_drivers(line: str, wanted: List[str]) -> List[str]:
    """What comes back of a line if hosts have drivers."""
    for form, said in UNSAID:
        if form.search(line):
            return [said]
    return wanted


def run_session(bench: Bench, name: str, has_drivers: bool = False, is_whole: Optional[bool] = None) -> None:
    """Types a session, and compares what comes back: word for word, or its statuses alone."""
    is_whole = version_of_tool() == LEAST_VERSION if is_whole is None else is_whole
    shells = Shells(bench, ["--drivers"] if has_drivers else [])
    try:
        for who, line, wanted in read_session((HERE / name).read_text()):
            found = shells.type(who, line)
            wanted = of_drivers(line, wanted) if has_drivers else wanted
            if not is_whole:
                found, wanted = statuses(found), statuses(wanted)
            check_is(f"{name}: `{line}` in the shell of {who}", found, wanted)
    finally:
        shells.end()
    bench.wait_over()


def fencing(bench: Bench) -> None:
    """A preempted host's write is refused, by nvme-cli alone: of raw hosts, and of hosts with drivers."""
    run_session(bench, "fencing.session")
    run_session(bench, "fencing.session", has_drivers=True)


def fencing_by_stand_in(bench: Bench) -> None:
    """Compares a stand-in for nvme-cli, which makes the same ioctls, word for word."""
    bench.others["PATH"] = f"{HERE / 'standin'}{os.pathsep}{os.environ['PATH']}"
    try:
        for name in ("fencing.session", "power-cycle.session"):
            run_session(bench, name, is_whole=True)
            run_session(bench, name, has_drivers=True, is_whole=True)
    finally:
        del bench.others["PATH"]


def power_cycle(bench: Bench) -> None:
    """What persists through a power cycle, and what does not, by nvme-cli."""
    run_session(bench, "power-cycle.session")
    run_session(bench, "power-cycle.session", has_drivers=True)


def tour(bench: Bench) -> None:
    """Each command of nvme-cli that the lab answers, and some that the subsystem or its drivers do not have."""
    run_session(bench, "tour.session")
    run_session(bench, "tour.session", has_drivers=True)


def refused(bench: Bench) -> None:
    """Each command of nvme-cli that this subsystem does not have, with its status."""
    run_session(bench, "refused.session")
    run_session(bench, "refused.session", has_drivers=True)


TRIALS = (fencing, power_cycle, tour, refused)
