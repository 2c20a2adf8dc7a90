"""The command `python3 -m nvmesim conform`."""
from __future__ import annotations

import argparse
import sys
from dataclasses import replace
from typing import Any, Dict, Iterator, List, Optional, Sequence, Set, Tuple, Union

from ..files import Output, add_force
from ..reports import parse_report
from .device import Abilities, Device, DeviceFault
from .judge import Difference, Judge
from .nvmehost import Nvmehost
from .scenes import scene
from .steps import REGION, Step

_DIFFERS = 1
_FIELDS: Dict[str, Dict[str, Any]] = {
    "compare": {"has_compare": False}, "write-zeroes": {"has_zeroes": False},
    "write-protection": {"has_protection": False}, "attachment": {"has_attachment": False},
    "reservations": {"rtypes": ()}}
"""What a device may lack, and how it reports that."""

MOST_HOSTS = 2
"""The most controllers that are compared, each of a host."""

_Opened = Union[Device, Nvmehost]


def add_arguments(parser: argparse.ArgumentParser) -> None:
    """The options of the command besides those of the program."""
    parser.description = ("Plays commands at random on a device and on the model, and prints the first difference as a "
                          "script. It writes to the device, so it needs --destroy-data. Exit status: 0 no difference, "
                          "1 one, 2 it can't be compared.")
    which = parser.add_mutually_exclusive_group(required=True)
    which.add_argument("--device", metavar="DEVICE", help="a namespace, such as /dev/nvme0n1, that nothing else uses")
    which.add_argument("--nvmehost", metavar="ADDRESS", action="append", default=[], help="the PCI address of a "
                       "controller that is bound to vfio-pci, such as 0000:00:04.0: the program nvmehost drives it. "
                       "Twice, with two controllers of one subsystem, for scenes of two hosts")
    parser.add_argument("--second", metavar="DEVICE", help="the same namespace by another controller, for scenes of "
                        "two hosts, if --device is given")
    parser.add_argument("--nsid", type=int, metavar="N", help="the namespace, if --nvmehost is given; 1 by default")
    parser.add_argument("--destroy-data", action="store_true", help="write to the device")
    parser.add_argument("--dry-run", action="store_true", help="print the plan, and write nothing")
    parser.add_argument("--seed", type=int, default=1, metavar="N", help="the number of the first scene")
    parser.add_argument("--scenes", type=int, default=50, metavar="N", help="the number of scenes")
    parser.add_argument("--length", type=int, default=40, metavar="N", help="the number of commands in a scene")
    parser.add_argument("--without", metavar="NAME", action="append", default=[], choices=list(_FIELDS),
                        help=f"treat as missing on the device: {', '.join(_FIELDS)}")
    parser.add_argument("--all", action="store_true", help="continue after a difference, and report each kind once")
    parser.add_argument("--output", metavar="FILE", help="write the script there too; with --all the last one")
    add_force(parser)
    parser.set_defaults(command=run)


def run(words: argparse.Namespace) -> int:
    """Executes the command. Returns its exit status."""
    if words.scenes < 1 or words.length < 1:
        raise DeviceFault("--scenes and --length must be at least 1")
    _check_named(words)
    inputs = [words.device, words.second, words.program]
    output = Output(words.output, inputs, words.force) if words.output else None
    devices: List[_Opened] = []
    try:
        for it in _named(words):
            devices.append(Nvmehost(it, words.nsid or 1) if words.nvmehost else Device(it))
        lacking = {key: value for name in words.without for key, value in _FIELDS[name].items()}
        hosts = [replace(it.abilities(), **lacking) for it in devices]
        order = sorted(range(len(devices)), key=lambda n: hosts[n].cntlid)
        judge = Judge([devices[n] for n in order], [hosts[n] for n in order], words.program, words.seconds)
        for line in _plan([devices[n] for n in order], judge.hosts):
            print(line)
        if words.dry_run:
            return 0
        if not words.destroy_data:
            raise DeviceFault("nothing was written: give --destroy-data to write, or --dry-run to print the plan")
        _check_free(devices[0], judge)
        return compare(words, judge, output)
    finally:
        for device in devices:
            device.close()


def _named(words: argparse.Namespace) -> List[str]:
    """The devices, or the addresses, in the order of the command line."""
    return list(words.nvmehost) or [it for it in (words.device, words.second) if it]


def _check_named(words: argparse.Namespace) -> None:
    """Refuses options that do not belong together, before a controller is touched."""
    if words.nvmehost and words.second:
        raise DeviceFault("--second is a device of Linux; give --nvmehost a second time instead")
    if words.device and words.nsid is not None:
        raise DeviceFault("--nsid belongs to --nvmehost; a device such as /dev/nvme0n1 is one namespace")
    if words.nsid is not None and words.nsid < 1:
        raise DeviceFault(f"--nsid {words.nsid} is no namespace: they begin with 1")
    if len(words.nvmehost) > MOST_HOSTS:
        raise DeviceFault(f"--nvmehost is given {len(words.nvmehost)} times; at most {MOST_HOSTS} controllers are "
                          "compared")
    if len({it.lower() for it in words.nvmehost}) < len(words.nvmehost):
        raise DeviceFault(f"--nvmehost {words.nvmehost[0]} is given twice; two hosts need two controllers")


def _plan(devices: Sequence[_Opened], hosts: List[Abilities]) -> Iterator[str]:
    """Which blocks would be written, and what is left out."""
    for device, it in zip(devices, hosts):
        yield f"{device.path}: {it.model}, controller {it.cntlid}, namespace {device.nsid} of {it.blocks} blocks"
    known = [(it.blocks, it.model, it.nqn, device.nsid) for it, device in zip(hosts, devices)]
    if any(it != known[0] for it in known):
        raise DeviceFault("the two devices are not the same namespace")
    if len({it.cntlid for it in hosts}) < len(hosts):
        raise DeviceFault(f"both devices are controller {hosts[0].cntlid}; two hosts need two controllers")
    last = hosts[0].blocks - 1
    yield f"written: blocks 0 to {REGION - 1} and {last - REGION + 1} to {last}, with data and with zeros"
    left_out = _left_out(hosts)
    if "reservations" not in left_out:
        yield "set and cleared: registrations, reservations and what persists of the namespace"
    if "write protection" not in left_out:
        yield "set and ended: write protection of the namespace, but not the one until a power cycle"
    if "attachment" not in left_out:
        yield "tried: attachments that are refused; nothing is attached or detached"
    for why in dict.fromkeys(left_out.values()):
        yield f"left out, since {why}: {', '.join(name for name, reason in left_out.items() if reason == why)}"


def _left_out(hosts: Sequence[Abilities]) -> Dict[str, str]:
    """What scenes of these hosts do not have, each with the reason."""
    has = {"Compare": all(it.has_compare for it in hosts), "Write Zeroes": all(it.has_zeroes for it in hosts),
           "write protection": all(it.has_protection for it in hosts),
           "attachment": all(it.has_attachment for it in hosts), "reservations": all(it.rtypes for it in hosts),
           "blocks after the last one": all(it.has_past_end for it in hosts), "a second host": len(hosts) > 1}
    reasons = {"a second host": "one controller is given"}
    for it in reversed(hosts):
        reasons.update(it.missing)
    default = "a device lacks it or --without names it"
    return {name: reasons.get(name, default) for name, is_there in has.items() if not is_there}


def _check_free(device: _Opened, judge: Judge) -> None:
    """Refuses a namespace that has registrants."""
    if judge.hosts[0].rtypes:
        answer = device.submit(Step(0, "report").command([]))
        if answer.status == "0:00" and parse_report(answer.data).count:
            raise DeviceFault(f"{device.path} has registrants, so it is in use; nothing was written")


def compare(words: argparse.Namespace, judge: Judge, output: Optional[Output] = None) -> int:
    """Plays the scenes, and prints the first difference, or one of each kind. Returns the exit status."""
    told: Set[Tuple[str, str, str]] = set()
    for number in range(words.seed, words.seed + words.scenes):
        _show(f"scene {number - words.seed + 1} of {words.scenes}")
        found = judge.play(scene(number, judge.hosts, words.length))
        _show("")
        if found is None:
            continue
        if _kind(found) in told:
            continue
        print(f"scene {number} differs after {len(found.steps)} commands; reducing it", file=sys.stderr)
        shortest, is_there = _shortened(judge, found)
        told |= {_kind(found), _kind(shortest)}
        text = "".join(f"{it}\n" for it in judge.script(shortest))
        print(text, end="")
        if output is not None:
            output.write(text)
        if not words.all or not is_there:
            break
    if told:
        return _DIFFERS
    print(f"no difference in {words.scenes} scenes of {words.length} commands, from seed {words.seed} on")
    skipped = _left_out(judge.hosts)
    if skipped:
        print(f"skipped, {len(skipped)} kinds: {', '.join(skipped)}" if len(skipped) > 1 else f"skipped: {[*skipped][0]}")
    return 0


def _show(text: str) -> None:
    """Clears the progress line on a terminal."""
    if sys.stderr.isatty():
        print(f"\r{text}\033[K", end="", file=sys.stderr, flush=True)


def _shortened(judge: Judge, found: Difference) -> Tuple[Difference, bool]:
    """The shortest difference, and whether the device still answers: the command that differs may have disabled it."""
    try:
        return judge.shortened(found), True
    except DeviceFault as fault:
        print(f"it can't be reduced: {fault}", file=sys.stderr)
        return found, False


def _kind(found: Difference) -> Tuple[str, str, str]:
    """The command whose answers differ, and the two statuses."""
    return found.step.verb, found.device[0], found.model[0]
