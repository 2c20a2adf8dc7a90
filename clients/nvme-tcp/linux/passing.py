"""Linux's pr_ops, called by the kernel: since 6.5 its SCSI target passes persistent reservations on to an NVMe disk."""
import re
from pathlib import Path
from typing import Callable, Dict

from linux.machines import Guest, say
from linux.scenes import Stage, stage

CONFIGFS = "/sys/kernel/config/target"
# Lines that make /dev/sda of the NVMe disk; its reservations are those of the disk.
EXPORT = (
    "load scsi; mount -t configfs none /sys/kernel/config",
    f"d={CONFIGFS}/core/iblock_0/disk; mkdir -p $d; echo 0 >$d/attrib/pgr_support",
    "echo udev_path=/dev/nvme0n1 >$d/control; echo 1 >$d/enable",
    f"t={CONFIGFS}/loopback/naa.5001405000000001/tpgt_1; mkdir -p $t; echo naa.5001405000000002 >$t/nexus",
    "mkdir -p $t/lun/lun_0; ln -s $d $t/lun/lun_0/port; sleep 3; ls /dev/sda",
)
# The exit status of sg_persist for Reservation Conflict.
CONFLICT = "status 24"


def ask(a: Guest, words: str) -> str:
    """A command of sg_persist. Its type 5 is Write Exclusive, Registrants Only, which is 3 of NVMe."""
    return a.run(f"sg_persist -n {words} /dev/sda 2>&1; echo status $?")


def keys(a: Guest) -> list:
    return re.findall(r"^ +(0x\w+)", ask(a, "--in --read-keys"), re.M)


def holder(a: Guest) -> str:
    """The key of the reservation, or nothing."""
    found = re.search(r"Key=(0x\w+)", ask(a, "--in --read-reservation"))
    return found[1] if found else ""


def reserve(it: Stage, a: Guest, b: Guest) -> None:
    """Register, reserve, preempt, release and clear, and what read_keys and read_reservation return after each."""
    it.wants("nobody is registered", keys(a) == [] and holder(a) == "")
    ask(a, "--out --register --param-sark=0xa")
    b.run("pr register /dev/nvme0n1 0 0xb")
    ask(a, "--out --reserve --param-rk=0xa --prout-type=5")
    it.wants("both keys are read, and the holder's", keys(a) == ["0xa", "0xb"] and holder(a) == "0xa")
    b.run("pr preempt /dev/nvme0n1 0xb 0xa 3")
    it.wants("the other's key is left, and holds", keys(a) == ["0xb"] and holder(a) == "0xb")
    it.wants("a preempted host can't reserve", CONFLICT in ask(a, "--out --reserve --param-rk=0xa --prout-type=5"))
    ask(a, "--out --register-ignore --param-sark=0xa2")
    ask(a, "--out --preempt-abort --param-rk=0xa2 --param-sark=0xb --prout-type=5")
    it.wants("it preempts the other", keys(a) == ["0xa2"] and holder(a) == "0xa2")
    it.wants("a release with key 0 is refused", "status 0" not in ask(a, "--out --release --param-rk=0 --prout-type=5"))
    it.wants("and changes nothing", holder(a) == "0xa2")
    ask(a, "--out --release --param-rk=0xa2 --prout-type=5")
    it.wants("a release with its key frees it", keys(a) == ["0xa2"] and holder(a) == "")
    ask(a, "--out --clear --param-rk=0xa2")
    it.wants("after a clear nobody is registered", keys(a) == [])


def pr_ops(built: Path, folder: Path) -> None:
    """Linux's pr_ops, read_keys and read_reservation among them, by its SCSI target over the disk."""
    with stage(built, folder, 2048, "a1", "b2") as it:
        a, b = it.connected("a1"), it.connected("b2")
        for line in EXPORT:
            text = a.run(line)
        it.wants("the disk is a SCSI disk too", "No such" not in text)
        reserve(it, a, b)
        say("the target's own view")
        it.ask("?reservation 1")


PASSING: Dict[str, Callable[[Path, Path], None]] = {"pr-ops": pr_ops}
