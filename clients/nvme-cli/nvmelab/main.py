"""The command line of the lab."""
import os
import signal
import sys
from dataclasses import dataclass, field
from pathlib import Path
from typing import List, NoReturn, Optional

from nvmelab import server
from nvmelab.configuration import Configuration
from nvmelab.faults import LabFault
from nvmelab.joining import Lab
from nvmelab.keeping import Keeping
from nvmelab.library import library

PACKAGE = Path(__file__).resolve().parent.parent
TOP = PACKAGE.parent.parent
# What the lab itself ends with, so that a status of COMMAND's is hardly taken for it.
FAILED, NOT_RUN, NOT_FOUND = 125, 126, 127

USAGE = """\
lab [--host H] [--drivers] [--image IMAGE] [--script FILE [--force]] [--program PROGRAM] CONFIG [-- COMMAND ..]
lab --power-cycle CONFIG

Runs COMMAND, or a shell, with the controllers and namespaces of CONFIG as /dev/nvme0, /dev/nvme0n1 and so on. CONFIG
has the lines of a script before its `start`. Labs of one CONFIG that run at the same time are one lab, which ends with
the last of their COMMANDs.

--host H            see only the controllers of host H, as its own machine does; without it those of all hosts
--drivers           make commands by the proved drivers of the hosts, except if the line of CONFIG ends in `raw`;
                    without it all hosts are raw, and commands are as COMMAND makes them
--image IMAGE       keep the blocks in this file, which must be long enough; without it they are lost with the lab
--script FILE       write everything that happens as a script, which nvmesim can run again; an existing FILE is refused,
                    or replaced with --force, unless it is IMAGE or CONFIG
--program PROGRAM   run this nvmelive, with the nvmesim next to it; without it ./nvmelive of this repository, which is
                    built on first use

--power-cycle       power-cycle the subsystem of the running lab of CONFIG; the hosts then bring their controllers up
                    again

The status is COMMAND's; 125 if the lab fails, 126 if COMMAND can't be run, 127 if it is not found.
"""


@dataclass
class Words:
    """The command line, parsed."""
    config: str = ""
    command: List[str] = field(default_factory=list)
    host: str = server.ALL_HOSTS
    image: Optional[str] = None
    script: Optional[str] = None
    program: str = ""
    has_drivers: bool = False
    is_forced: bool = False
    is_power_cycle: bool = False


def take_apart(given: List[str]) -> Words:
    found = Words(program=os.environ.get("NVMELIVE", "") or str(TOP / "nvmelive"))
    words = iter(given)
    for word in words:
        if word == "--":
            found.command = list(words)
            if not found.command:
                raise LabFault("there is no COMMAND after --")
        elif word in ("--host", "--image", "--script", "--program"):
            value = next(words, None)
            if value is None:
                raise LabFault(f"{word} has no value after it")
            setattr(found, word[2:], value)
        elif word == "--drivers":
            found.has_drivers = True
        elif word == "--force":
            found.is_forced = True
        elif word == "--power-cycle":
            found.is_power_cycle = True
        elif word.startswith("-"):
            raise LabFault(f"there is no option {word}; --help lists them")
        elif found.config:
            raise LabFault(f"{word} comes after CONFIG without -- before it")
        else:
            found.config = word
    if not found.config:
        raise LabFault("CONFIG is missing; see --help")
    if found.is_power_cycle and (found.command or len(given) > 2):
        raise LabFault("--power-cycle takes CONFIG and nothing else")
    if found.host != server.ALL_HOSTS:
        found.host = host_name(found.host)
    return found


def host_name(word: str) -> str:
    try:
        return f"{int(word, 16 if word.startswith('0x') else 10):#x}"
    except ValueError as fault:
        raise LabFault(f"--host {word} is no number") from fault


def program_words(program: str) -> List[str]:
    place = Path(program).resolve()
    if not os.access(place, os.X_OK) or place.is_dir():
        raise LabFault(f"{program} is no program; --program names an nvmelive")
    return [str(place)]


def library_folder() -> Path:
    """The folder of the library: next to its sources, if that is writable and its path can be given to the loader."""
    place = PACKAGE / "out"
    try:
        place.mkdir(exist_ok=True)
    except OSError:
        pass
    is_nameable = not any(sign in str(place) for sign in " :\t\n")
    if is_nameable and os.access(place, os.W_OK):
        return place
    from nvmelab.joining import base_folder
    return base_folder()


def run_command(command: List[str], view: Path, preloaded: Path) -> NoReturn:
    """Executes COMMAND in this process, whose status becomes COMMAND's."""
    others = [it for it in os.environ.get("LD_PRELOAD", "").replace(":", " ").split()
              if not Path(it).name.startswith("libnvmelab-")]
    os.environ["LD_PRELOAD"] = ":".join([str(preloaded), *others])
    os.environ["NVME_LAB"] = str(view)
    # Python has set these aside for itself.
    for number in (signal.SIGPIPE, signal.SIGXFSZ):
        signal.signal(number, signal.SIG_DFL)
    try:
        os.execvp(command[0], command)
    except FileNotFoundError:
        fail(f"{command[0]} is not found", NOT_FOUND)
    except OSError as fault:
        fail(f"{command[0]} can't be run: {fault.strerror}", NOT_RUN)


def fail(text: str, status: int = FAILED) -> NoReturn:
    print(f"lab: {text}", file=sys.stderr)
    sys.exit(status)


def tell_shell(words: Words, view: Path) -> None:
    """Prints whose shell this is, and its devices."""
    devices = " ".join(f"/dev/{it.name}" for it in sorted((view / "dev").glob("nvme*")))
    whose = "all hosts" if words.host == server.ALL_HOSTS else f"host {words.host}"
    print(f"lab: a shell of {whose}, with {devices}; exit leaves it", file=sys.stderr)


def main(given: List[str]) -> NoReturn:
    if given[:1] in (["--help"], ["-h"]):
        print(USAGE, end="")
        sys.exit(0)
    try:
        words = take_apart(given)
        if words.is_power_cycle:
            Lab.of(words.config, [], None, None, False).power_cycle()
            sys.exit(0)
        keeping = Keeping(str(Path(words.script).resolve()), words.is_forced) if words.script else None
        lab = Lab.of(words.config, program_words(words.program), words.image, keeping, words.has_drivers)
        preloaded = library(library_folder())
        view = lab.join(words.host)
    except LabFault as fault:
        fail(str(fault))
    except KeyboardInterrupt:
        fail("stopped")
    if not words.command:
        tell_shell(words, view)
    run_command(words.command or [os.environ.get("SHELL") or "sh"], view, preloaded)


def serve_here() -> NoReturn:
    """The server's own process: what `Lab.start` names."""
    import json
    folder, lock, name, image, *program = sys.argv[1:]
    options = json.loads((Path(folder) / "options").read_text())
    read = Configuration.unpacked(options["configuration"])
    place = server.Place(Path(folder), Path(lock), options["token"])
    keeping = Keeping(options["script"], options["force"]) if options["script"] else None
    sys.exit(server.serve(place, read, name, program, image, keeping))
