"""The scenes of a large disk, a sparse image of 64 GiB: file systems over all of it, and fio."""
import contextlib
import os
from pathlib import Path
from typing import Iterator

from linux.machines import say
from linux.scenes import AGAIN, LIVELY, Stage, config
from tests.targets import Target

SIZE = "64G"
# How many MiB fio writes.
VERIFIED = int(os.environ.get("VERIFIED", "8192"))
BLOCKS = (64 << 30) // 512
# A guest with fio may take a while for a Keep Alive.
OPTIONS = f"{AGAIN} --keep-alive-tmo=60"
# Time limit for a line that writes or reads what is verified.
LONG = 3600
FIO = f"fio --name=v --filename=/dev/nvme0n1 --direct=1 --ioengine=libaio --iodepth=16 --bs=128k --rw=randwrite " \
    f"--filesize={SIZE} --io_size={VERIFIED}m --verify=crc32c --randseed=9 --verify_state_save=0"


class Large(Stage):
    """A target that creates its image, and caches a part of it. No script is kept, and nothing is replayed."""

    def __init__(self, built: Path, folder: Path, *hosts: str) -> None:
        self.built, self.folder, self.guests, self.faults, self.port = built, folder, [], [], 0
        self.image = folder / "large.img"
        options = ["--image", str(self.image), "--size", SIZE, "--cache", "64M"]
        self.target = Target(folder, config(BLOCKS, *hosts), None, options)
        # Guests reach this port again after a kill.
        self.port = self.target.port

    def kill(self) -> None:
        self.target.kill()
        self.target.start(self.port)

    def allocated(self) -> int:
        """How many bytes of the disk the image has."""
        return 512 * self.image.stat().st_blocks


@contextlib.contextmanager
def stage(built: Path, folder: Path) -> Iterator[Large]:
    """Runs the machines of a scene, and stops them at its end."""
    it = Large(built, folder, "a1")
    try:
        yield it
        it.wants("the target's memory is bounded", it.target.memory() < 192 << 20)
    finally:
        for guest in it.guests:
            guest.close()
        it.target.close()
    if it.faults:
        raise AssertionError("; ".join(it.faults))


def large(built: Path, folder: Path) -> None:
    """ext4 and xfs over a sparse disk of 64 GiB, each checked after the target was killed."""
    with stage(built, folder) as it:
        a = it.connected("a1", OPTIONS, archive="large.gz")
        it.wants("Linux has 64 GiB", str(BLOCKS) in a.run("cat /sys/block/nvme0n1/size"))
        a.run("load xfs")
        for name, check in (("ext4", "e2fsck -f -n"), ("xfs", "xfs_repair -n")):
            force = "-f" if name == "xfs" else ""
            text = a.run(f"mkfs.{name} -q {force} /dev/nvme0n1 && mount -t {name} /dev/nvme0n1 /disk && "
                         "cp /bin/busybox /disk/busybox && sync && echo made", LONG)
            it.wants(f"{name} is made over {SIZE}", "made" in text.split("\n"))
            say("the target is killed")
            it.kill()
            a.run(LIVELY)
            text = a.run(f"cp /init /disk/after && sync && umount /disk && mount -t {name} /dev/nvme0n1 /disk && "
                         "cmp /disk/busybox /bin/busybox && cmp /disk/after /init && echo the same; umount /disk", LONG)
            it.wants("its files are there", "the same" in text.split("\n"))
            it.wants(f"{check.split()[0]} finds no fault",
                     "rc 0" in a.run(f"{check} /dev/nvme0n1 2>&1; echo rc $?", LONG))
        a.run("blkdiscard -f /dev/nvme0n1; sync", LONG)
        it.wants("a discard gives the space back", it.allocated() < 16 << 20)


def large_verify(built: Path, folder: Path) -> None:
    """fio writes at random places of 64 GiB, and verifies after the target was killed."""
    with stage(built, folder) as it:
        a = it.connected("a1", OPTIONS, archive="large.gz")
        it.wants("fio writes", "rc 0" in a.run(f"{FIO} --do_verify=0 --end_fsync=1 >/room/out 2>&1; echo rc $?", LONG))
        say("the target is killed")
        it.kill()
        a.run(LIVELY)
        it.wants("fio verifies", "rc 0" in a.run(f"{FIO} --verify_only >/room/out 2>&1; echo rc $?", LONG))
        a.run("grep -E 'err=|verify|(READ|WRITE):' /room/out | head -n 5")
        it.wants("the image has what was written", 0.9 < it.allocated() / (VERIFIED << 20) < 1.2)


LARGE = {"large": large, "large-verify": large_verify}
