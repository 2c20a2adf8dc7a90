"""A host that is Linux: it has mounted the volume of a target that moves, and writes files meanwhile."""
import functools
import re
import time
from pathlib import Path
from typing import Callable, Dict

from linux.cluster import SETTLED
from linux.machines import Guest, say
from linux.moves import ADDRESS, INITIATOR, LATE_PLACES, OUTSIDER, Moves, machines
from linux.network import tap
from linux.writers import Writer

CONNECT = f"nvme connect -t tcp -a {ADDRESS[0]} -s {ADDRESS[1]} -n $nqn $me --reconnect-delay=1 --ctrl-loss-tmo=1800"
# The files that Linux writes in turn: as many that some of before a failure are left at the end.
FILES = 600
# A number and the time are kept after fsync has returned.
WRITE = "echo 0 0 >/room/synced; { n=0; while [ ! -e /room/end ]; do n=$((n + 1)); echo file $n | " \
    f"dd of=/disk/$((n % {FILES})) conv=fsync 2>/dev/null && " \
    "echo $n $(cut -d' ' -f1 /proc/uptime) >>/room/synced; done; } &"
PAUSE = "awk 'NR > 2 && $2 - last > most { most = $2 - last } { last = $2 } END { print most, \"s\" }' /room/synced"
ENDED = "touch /room/end; wait; n=$(tail -n 1 /room/synced | cut -d' ' -f1); umount /disk; " \
    "mount -t ext4 /dev/nvme0n1 /disk"
READ = f"lost=0; m=$((n > {FILES} ? n - {FILES} : 0)); echo from $((m + 1)); while [ $m -lt $n ]; do m=$((m + 1)); " \
    f"read -r text </disk/$((m % {FILES})) && [ \"$text\" = \"file $m\" ] || lost=$((lost + 1)); done; echo lost $lost"
CHECK = "umount /disk && e2fsck -fn /dev/nvme0n1; echo status $?"


def synced(guest: Guest) -> int:
    """The number of files that the host has written."""
    return int(re.findall(r"synced (\d+)", guest.run("echo synced $(tail -n 1 /room/synced)", SETTLED))[-1])


def open_linux(it: Moves, built: Path) -> None:
    """Linux writes files, and another host is fenced."""
    it.reserve()
    guest = Guest(built, it.folder, INITIATOR, devices=[
        "-netdev", f"tap,id=hosts,ifname={tap(INITIATOR)},script=no,downscript=no",
        "-device", "e1000,netdev=hosts,mac=52:54:00:00:02:0a"])
    it.guests[INITIATOR] = guest
    guest.run("ip addr add 10.88.0.20/24 dev eth1; ip link set eth1 up")
    guest.run(CONNECT, SETTLED)
    text = guest.run("mkfs.ext4 -q -b 1024 /dev/nvme0n1 && mount -t ext4 /dev/nvme0n1 /disk; echo status $?", SETTLED)
    it.wants("Linux has mounted the volume", "status 0" in text)
    guest.run(WRITE)
    it.writers = [Writer(ADDRESS, OUTSIDER, LATE_PLACES, is_fenced=True)]
    it.write_from_now()


def mounted(built: Path, folder: Path) -> None:
    """Linux writes files on the volume while the machine with the target is killed."""
    with machines(built, folder, functools.partial(open_linux, built=built)) as it:
        guest = it.guests[INITIATOR]
        guest.rest(5)
        before = synced(guest)
        say("t1 is killed")
        begun = time.monotonic()
        it.kill("t1")
        it.moved(begun)
        it.wait_until("Linux writes again", lambda: synced(guest) > before + 8, INITIATOR)
        it.wants(f"files were written before, {before}", before > 0)
        pause = guest.run(PAUSE, SETTLED).splitlines()[-1]
        say(f"the longest pause of Linux between two files: {pause}")
        text = guest.run(f"{ENDED}; {READ}", SETTLED)
        it.wants("each file that was synced is there", "\nlost 0" in text)
        first = int(re.findall(r"\nfrom (\d+)", text)[-1])
        it.wants(f"files from {first} on were read, and {before} were synced before t1 was killed", first <= before)
        it.wants("e2fsck finds nothing wrong", "status 0" in guest.run(CHECK, SETTLED))


MOUNTED: Dict[str, Callable[[Path, Path], None]] = {"moves-mounted": mounted}
