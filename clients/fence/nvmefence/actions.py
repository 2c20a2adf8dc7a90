"""What the actions do with the disks."""
from __future__ import annotations

from typing import Callable, Dict, Iterable, List, Sequence, Tuple

from .device import Device
from .disk import Disk, Progress
from .failures import IS_OFF, SUCCEEDED, Failure
from .options import Asked
from .reports import RESERVATIONS, Report


def check_single(disk: Disk, report: Report, key: int) -> None:
    """Refuses a key that two hosts use, since fencing one would fence the other."""
    if len({it.host or f"controller {it.cntlid}" for it in report.registrants if it.key == key}) > 1:
        raise Failure(f"{disk.path}: key {key:#x} is registered by several hosts; each node needs a key of its own")


def check_on(disk: Disk, key: int, rtype: int) -> Report:
    """Whether this node may register the key, and share the reservation."""
    disk.check_type(rtype)
    report = disk.report()
    if any(it.key == key and not disk.is_own(it, report) for it in report.registrants):
        raise Failure(f"{disk.path}: key {key:#x} is registered by another host; each node needs a key of its own")
    if report.rtype not in (0, rtype):
        held = RESERVATIONS.get(report.rtype, "unknown")
        raise Failure(f"{disk.path} has a reservation of type {report.rtype}, {held}, not of type {rtype}")
    return report


def switch_on(disk: Disk, key: int, rtype: int) -> None:
    """Registers this node's key on a disk, and acquires the reservation if it is free."""
    report = check_on(disk, key, rtype)
    disk.register(key, disk.own_key(report))
    if report.rtype == 0:
        disk.acquire(key, rtype)
    report = check_on(disk, key, rtype)
    if disk.own_key(report) != key or report.rtype != rtype:
        raise Failure(f"{disk.path} does not report key {key:#x} and its reservation of type {rtype}")


def check_off(disk: Disk, victim: int, rtype: int) -> Tuple[Report, int]:
    """Whether this node may fence another one; the report, and its own key."""
    disk.check_type(rtype)
    report = disk.report()
    own = disk.own_key(report)
    if own is None:
        raise Failure(f"{disk.path}: this host has no registration there, so it can't fence: it has been fenced "
                      "itself, or 'on' has not been run here")
    if own == victim:
        raise Failure(f"{disk.path}: key {victim:#x} is this host's own, and a node does not fence itself")
    check_single(disk, report, victim)
    return report, own


def switch_off(disk: Disk, victim: int, rtype: int) -> None:
    """Removes the victim's key on a disk, and checks that it is removed and the victim is excluded."""
    report, own = check_off(disk, victim, rtype)
    if report.rtype == 0:
        disk.acquire(own, rtype)
    if victim in report.keys:
        disk.preempt(own, victim, rtype)
    report = disk.report()
    if victim in report.keys:
        raise Failure(f"{disk.path}: key {victim:#x} is still registered")
    if report.rtype == 0:
        raise Failure(f"{disk.path} has no reservation, so that any host may write")


def in_turn(disks: Sequence[Disk], step: Callable[[Disk], None], done: str, progress: Progress) -> None:
    """A step on each disk, in an order that is the same on all nodes. It ends at the first failure: of two nodes that
    fence each other at most one gets beyond the first disk."""
    names = [it.path for it in disks]
    for n, disk in enumerate(disks):
        progress.state = f"; {done}: {', '.join(names[:n]) or 'none'}; not {done}: {', '.join(names[n:])}"
        step(disk)


def change(asked: Asked, disks: Sequence[Disk], progress: Progress) -> int:
    """Executes 'on' or 'off'. If one disk is unfit, none is changed."""
    is_on, key = asked.action == "on", asked.key or 0
    check = check_on if is_on else check_off
    step = switch_on if is_on else switch_off
    for disk in disks:
        check(disk, key, asked.rtype)
    in_turn(disks, lambda it: step(it, key, asked.rtype), "unfenced" if is_on else "fenced", progress)
    print(f"Success: Powered {asked.action.upper()}")
    return SUCCEEDED


def tell_status(disks: Iterable[Disk], key: int) -> int:
    """Whether a node is registered on all disks, or on none; on some it is neither on nor off."""
    has: Dict[bool, List[str]] = {True: [], False: []}
    for disk in disks:
        has[key in disk.report().keys].append(disk.path)
    if has[True] and has[False]:
        raise Failure(f"key {key:#x} is registered on {', '.join(has[True])}, not on {', '.join(has[False])}")
    print(f"Status: {'ON' if has[True] else 'OFF'}")
    return SUCCEEDED if has[True] else IS_OFF


def tell_keys(disks: Iterable[Disk]) -> int:
    """Each key, and the disks on which it is registered."""
    found: Dict[int, List[str]] = {}
    for disk in disks:
        for key in disk.report().keys:
            found.setdefault(key, []).append(disk.path)
    for key, paths in sorted(found.items()):
        print(f"{key:#x},{' '.join(paths)}")
    return SUCCEEDED


def monitor(disks: Iterable[Disk], rtype: int) -> int:
    """Whether all disks answer, and have reservations of the type."""
    for disk in disks:
        disk.check_type(rtype)
        disk.report()
    return SUCCEEDED


def carry_out(asked: Asked, open_device: Callable[[str], Device], progress: Progress) -> int:
    """Executes the requested action on the devices. Returns its exit status. A failure reports what was changed."""
    progress.state = "; nothing was changed" if asked.action in ("on", "off") else ""
    try:
        disks = []
        for path in asked.devices:
            progress.asks(path, "open")
            disks.append(Disk(open_device(path), progress))
        disks.sort(key=lambda it: it.place)
        if asked.action in ("on", "off"):
            return change(asked, disks, progress)
        if asked.action == "status":
            return tell_status(disks, asked.key or 0)
        return tell_keys(disks) if asked.action == "list" else monitor(disks, asked.rtype)
    except Failure as fault:
        raise Failure(f"{fault}{progress.state}", fault.status) from None
