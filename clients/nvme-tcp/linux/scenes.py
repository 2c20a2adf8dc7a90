"""The scenes. Each runs some guests over a target, and checks the result at its end."""
import contextlib
import socket
import subprocess
import time
from pathlib import Path
from typing import Callable, Dict, Iterator

from linux.machines import ADDRESS, Guest, say
from linux.record import IDENTITY, Recorder
from tests.targets import BLOCKS, LIVE, Target

BLOCK = 512
READ = "dd if=/dev/nvme0n1 bs=512 skip=7 count=1 iflag=direct 2>/dev/null | head -n 1"
LIVELY = "for n in $(seq 60); do grep -q live /sys/class/nvme/nvme0/state && break; sleep 1; done; " \
    "cat /sys/class/nvme/nvme0/state"
AGAIN = "--reconnect-delay=2 --ctrl-loss-tmo=120"
FENCED = "Invalid exchange"


def write(text: str, device: str = "nvme0n1") -> str:
    """A line that writes a text to block 7."""
    return f"echo {text} | dd of=/dev/{device} bs=512 seek=7 conv=sync,notrunc oflag=direct 2>&1 | grep -v records"


def config(blocks: int, *hosts: str) -> str:
    """A disk of `blocks` blocks, which these hosts share."""
    lines = [f"controller {n} host 0x{host}" for n, host in enumerate(hosts, 1)]
    return "\n".join([*lines, f"namespace 1 blocks {blocks} shared",
                      *[f"attached {n} 1" for n in range(1, len(hosts) + 1)]]) + "\n"


def free_port() -> int:
    """A port that nobody listens at."""
    with socket.create_server(("127.0.0.1", 0)) as server:
        return server.getsockname()[1]


class Stage:
    """A target over an image, with the checks at the end."""

    def __init__(self, built: Path, folder: Path, blocks: int, *hosts: str, state: bool = False,
                 keys: str = "") -> None:
        self.built, self.folder, self.blocks, self.kept = built, folder, blocks, []
        self.guests: list = []
        self.faults: list = []
        self.port = free_port()
        self.options = ["--advertise", f"{ADDRESS}:{self.port}"]
        self.options += ["--state", str(folder / "state")] if state else []
        if keys:
            self.write_keys(keys)
            self.options += ["--keys", str(folder / "keys")]
        self.image_before = folder / "before.img"
        self.image_before.write_bytes(bytes(BLOCK * blocks))
        self.target = Target(folder, config(blocks, *hosts), blocks, self.script(), self.port)

    def write_keys(self, text: str) -> None:
        """Writes the file of keys, which the target reads at its start and at SIGHUP."""
        file = self.folder / "keys"
        file.touch(0o600)
        file.write_text(text)

    def script(self) -> list:
        """The options of the next target, which keeps a script of its own."""
        self.kept.append(self.folder / f"kept-{len(self.kept)}.nvme")
        return [*self.options, "--script", str(self.kept[-1])]

    def guest(self, host: str, **how) -> Guest:
        guest = Guest(self.built, self.folder, host, **how)
        self.guests.append(guest)
        return guest

    def connected(self, host: str, options: str = AGAIN, **how) -> Guest:
        guest = self.guest(host, **how)
        self.connect(guest, options)
        return guest

    def connect(self, guest: Guest, options: str = "") -> None:
        guest.run(f"nvme connect -t tcp -a {ADDRESS} -s {self.port} -n $nqn $me {options}")
        guest.run("sleep 2; ls /dev/nvme*")

    def ask(self, line: str) -> str:
        answer = self.target.ask(line)
        print(f"{line}: {answer}", flush=True)
        return answer

    def wants(self, what: str, holds: bool) -> None:
        """Checks a condition."""
        say(f"{what}: {'passed' if holds else 'FAILED'}")
        if not holds:
            self.faults.append(what)

    def hold(self, guest: Guest, line: str) -> None:
        """Starts a line of the first host, whose command is fetched but not executed."""
        self.ask("hold 1")
        guest.type(line)
        self.wait_until_held()

    def wait_until_held(self) -> None:
        last = time.monotonic() + 30
        while self.target.ask("held 1") == "held 1 0" and time.monotonic() < last:
            time.sleep(0.1)

    def restart(self) -> None:
        """The target is killed, and started again with its state."""
        self.target.kill()
        self.target.options = [*self.script(), "--image", str(self.target.image)]
        self.target.start(self.port)

    def replay(self) -> None:
        """Runs the kept lines again by nvmelive, over a copy of the first image, and compares the images."""
        again = self.folder / "again.img"
        again.write_bytes(self.image_before.read_bytes())
        for kept in self.kept:
            with open(kept, "rb") as lines:
                ran = subprocess.run([LIVE, str(again)], stdin=lines, stdout=subprocess.PIPE, text=True)
            answers, told = ran.stdout.split("started\n", 1)[-1], Path(f"{kept}.out").read_text()
            # A target that is killed may have kept lines, and not yet what they gave.
            self.wants(f"the {told.count(chr(10))} events of {kept.name} give the same again",
                       answers.startswith(told) and answers.count("\n") - told.count("\n") < 100)
        self.wants("the image of the run again is that of the run",
                   again.read_bytes() == self.target.image.read_bytes())


@contextlib.contextmanager
def stage(built: Path, folder: Path, blocks: int, *hosts: str, **how: bool) -> Iterator[Stage]:
    """Runs a scene's machines. At the end they are stopped, and the run is compared with its replay."""
    set_up = Stage(built, folder, blocks, *hosts, **how)
    try:
        yield set_up
    finally:
        for guest in set_up.guests:
            guest.close()
        set_up.target.close()
    set_up.replay()
    if set_up.faults:
        raise AssertionError("; ".join(set_up.faults))


def disk(built: Path, folder: Path) -> None:
    """One host, its disk, and a file system on it; then what else Linux may ask: digests, discovery, a reset."""
    with stage(built, folder, 65536, "a1") as it:
        a = it.connected("a1", "", cpus=2)
        a.run("nvme list")
        a.run("nvme id-ctrl /dev/nvme0 | grep -E '^(sn|mdts|cntlid|ver|oaes|kas|oncs|vwc|maxcmd|sgls|subnqn|ioccsz) '")
        a.run("cat /sys/block/nvme0n1/queue/write_cache /sys/block/nvme0n1/queue/fua")
        a.run("dd if=/dev/urandom of=/room/there bs=64k count=64 2>/dev/null")
        a.run("dd if=/room/there of=/dev/nvme0n1 bs=64k oflag=direct")
        a.run("dd if=/dev/nvme0n1 of=/room/back bs=128k count=32 iflag=direct")
        it.wants("the same bytes come back", "the same" in a.run("cmp /room/there /room/back && echo the same"))
        a.run("mkfs.ext4 -q -b 1024 /dev/nvme0n1 && mount -t ext4 /dev/nvme0n1 /disk && df /disk")
        a.run("cp /bin/busybox /room/there /disk/ && sync && umount /disk && e2fsck -f -n /dev/nvme0n1")
        a.run("nvme disconnect -n $nqn; ls /dev/nvme*")
        for options in ("--disable-sqflow", "--hdr-digest", "--data-digest", "--hdr-digest --data-digest"):
            it.connect(a, options)
            text = a.run("mount -t ext4 -o ro /dev/nvme0n1 /disk && cmp /disk/there /room/there && echo the same")
            a.run("umount /disk")
            it.wants(f"the file is there with {options}", "the same" in text)
            a.run("nvme disconnect -n $nqn")
        it.connect(a)
        text = a.run("nvme reset /dev/nvme0; sleep 3; cat /sys/class/nvme/nvme0/state")
        it.wants("it is live after a reset", "live" in text.split("state")[-1])
        a.run("nvme disconnect -n $nqn")
        say("discovery, and a host that no controller is of")
        found = a.run(f"nvme discover -t tcp -a {ADDRESS} -s {it.port} $me")
        it.wants("discovery finds the subsystem", "nqn.2024-01.example:suvmileh" in found)
        text = a.run(f"nvme connect-all -t tcp -a {ADDRESS} -s {it.port} $me; sleep 2; ls /dev/nvme*")
        it.wants("connect-all connects to it", "n1" in text.splitlines()[-1])
        a.run("nvme disconnect -n $nqn")
        other = "--hostnqn=nqn.2024-01.example:c3 --hostid=c3000000-0000-0000-0000-000000000000"
        text = a.run(f"nvme connect -t tcp -a {ADDRESS} -s {it.port} -n $nqn {other}; ls /dev/nvme*")
        it.wants("an unknown host is refused", "nvme0" not in text.splitlines()[-1])


def by_nvme_cli(it: Stage, a: Guest, b: Guest) -> None:
    say("with nvme-cli")
    a.run("nvme resv-register /dev/nvme0n1 --rrega=0 --nrkey=0xa")
    a.run("nvme resv-acquire /dev/nvme0n1 --racqa=0 --crkey=0xa --rtype=1")
    a.run(write("written by a1"))
    b.run(READ)
    it.wants("b2 is fenced", FENCED in b.run(write("written by b2")))
    b.run("nvme resv-register /dev/nvme0n1 --rrega=0 --nrkey=0xb")
    b.run("nvme resv-acquire /dev/nvme0n1 --racqa=1 --crkey=0xb --prkey=0xa --rtype=1")
    it.wants("a1 is fenced once it is preempted", FENCED in a.run(write("written by a1 again")))
    a.run("nvme flush /dev/nvme0n1")
    b.run(write("written by b2"))
    it.wants("a1 reads what b2 wrote", "written by b2" in a.run(READ))
    b.run("nvme resv-report /dev/nvme0n1 --eds")
    b.run("nvme resv-release /dev/nvme0n1 --rrela=1 --crkey=0xb")


def by_calls(it: Stage, a: Guest, b: Guest) -> None:
    say("with the calls of Linux that cluster software makes: type 3, Write Exclusive, Registrants Only")
    a.run("pr register /dev/nvme0n1 0 0xa")
    b.run("pr register /dev/nvme0n1 0 0xb")
    a.run("pr reserve /dev/nvme0n1 0xa 3")
    a.run(write("written by a1, a registrant"))
    b.run(write("written by b2, a registrant"))
    b.run("pr reserve /dev/nvme0n1 0xb 3")
    b.run("pr preempt /dev/nvme0n1 0xb 0xa 3")
    it.wants("a1 is fenced", FENCED in a.run(write("written by a1, fenced")))
    a.run("echo buffered >/room/y")
    text = a.run("dd if=/room/y of=/dev/nvme0n1 bs=512 seek=9 count=1 conv=fsync,notrunc 2>&1 | grep -v records")
    it.wants("through the page cache, fsync fails", "fsync failed" in text)


def over_a_power_cycle(it: Stage, a: Guest, b: Guest) -> None:
    say("power is lost in the subsystem")
    it.ask("powercycle")
    a.rest(1)
    b.rest(1)
    it.wants("both come back", all("live" in guest.run(LIVELY).split("state")[-1] for guest in (a, b)))
    it.wants("a1 is still fenced", FENCED in a.run(write("written by a1, fenced, after the power cycle")))
    b.run(write("written by b2, after the power cycle"))
    it.wants("b2 writes", "after the power cycle" in a.run(READ))
    say("a1 comes back: it registers, preempts and aborts")
    a.run("pr register /dev/nvme0n1 0 0xa2")
    a.run("pr preempt-abort /dev/nvme0n1 0xa2 0xb 3")
    a.run(write("written by a1, the holder"))
    it.wants("b2 is fenced now", FENCED in b.run(write("written by b2, fenced")))
    a.run("pr release /dev/nvme0n1 0xa2 3")
    a.run("pr clear /dev/nvme0n1 0xa2")
    b.run(write("written by b2, free"))


def fencing(built: Path, folder: Path) -> None:
    """Two guests, nvme-cli, and Linux's own calls; then a power cycle."""
    with stage(built, folder, 2048, "a1", "b2") as it:
        a, b = it.connected("a1"), it.connected("b2")
        by_nvme_cli(it, a, b)
        by_calls(it, a, b)
        over_a_power_cycle(it, a, b)


def failover(built: Path, folder: Path) -> None:
    """A file system that one host has mounted, and another takes over: as in a cluster."""
    with stage(built, folder, 16384, "a1", "b2") as it:
        a, b = it.connected("a1"), it.connected("b2")
        a.run("pr register /dev/nvme0n1 0 0xa; pr reserve /dev/nvme0n1 0xa 1")
        a.run("mkfs.ext4 -q -b 1024 /dev/nvme0n1 && mount -t ext4 -o errors=remount-ro /dev/nvme0n1 /disk")
        a.run("echo written by a1 >/disk/file; cp /init /disk; sync; ls /disk")
        say("b2 takes over")
        b.run("pr register /dev/nvme0n1 0 0xb; pr preempt-abort /dev/nvme0n1 0xb 0xa 1")
        a.run("echo written by a1, fenced >/disk/file; cp /bin/busybox /disk; sync; touch /disk/other", 200)
        a.run("umount /disk", 200)
        text = b.run("blockdev --flushbufs /dev/nvme0n1; e2fsck -y /dev/nvme0n1; mount -t ext4 /dev/nvme0n1 /disk && "
                     "cat /disk/file && ls /disk && cmp /disk/init /init && echo the same", 200)
        it.wants("b2 finds what a1 wrote before it was fenced", "written by a1\n" in text and "the same" in text)
        b.run("echo written by b2 >/disk/file; sync; umount /disk; e2fsck -f -n /dev/nvme0n1", 200)


def in_flight(built: Path, folder: Path) -> None:
    """A write in progress, fetched and not executed, when its host is preempted; and one when power is lost."""
    with stage(built, folder, 2048, "a1", "b2") as it:
        a, b = it.connected("a1"), it.connected("b2")
        a.run("pr register /dev/nvme0n1 0 0xa; pr reserve /dev/nvme0n1 0xa 3")
        b.run("pr register /dev/nvme0n1 0 0xb")
        b.run(write("written by b2, a registrant"))
        say("a1 writes; its command is fetched but not executed yet")
        it.hold(a, write("written by a1, in progress"))
        b.run("pr preempt-abort /dev/nvme0n1 0xb 0xa 3")
        say("now it is executed")
        it.ask("go 1")
        it.wants("it is answered 0:1b", "sc 0x1b" in a.ended())
        it.wants("it has not landed", "b2, a registrant" in b.run(READ))
        say("a1 registers again and writes; power is lost while its command is in progress")
        a.run("pr register /dev/nvme0n1 0 0xa")
        it.hold(a, write("written by a1, when power was lost"))
        it.ask("powercycle")
        a.ended()
        b.run(LIVELY)
        it.wants("Linux has sent it again, since it was not answered", "when power was lost" in b.run(READ))


def retried(built: Path, folder: Path) -> None:
    """A write that Preempt and Abort has aborted is not tried again: its status has Do Not Retry."""
    with stage(built, folder, 2048, "a1", "b2") as it:
        a, b = it.connected("a1"), it.connected("b2")
        a.run("pr register /dev/nvme0n1 0 0xa; pr reserve /dev/nvme0n1 0xa 3")
        b.run("pr register /dev/nvme0n1 0 0xb")
        it.ask("hold 1")
        a.run(f"( {write('a1, before it was preempted')} ) &")
        it.wait_until_held()
        b.run("pr preempt-abort /dev/nvme0n1 0xb 0xa 3")
        b.run(write("written by b2, the holder"))
        it.ask("go 1")
        it.ask("hold 1")
        a.rest(2)
        it.wants("nothing is sent again", it.ask("held 1") == "held 1 0")
        it.ask("go 1")
        a.run("pr register /dev/nvme0n1 0 0xa2")
        it.wants("the block is b2's", "b2, the holder" in b.run(READ))


def one_guest(built: Path, folder: Path) -> None:
    """Two hosts in one Linux, without native multipath: they are two disks, and fence each other."""
    with stage(built, folder, 2048, "a1", "b2") as it:
        a = it.connected("a1", "", more="multipath=N")
        a.run(f"echo nqn=$nqn,transport=tcp,traddr={ADDRESS},trsvcid={it.port},hostnqn=nqn.2024-01.example:b2,"
              "hostid=b2000000-0000-0000-0000-000000000000 >/dev/nvme-fabrics; sleep 2; ls /dev/nvme*")
        a.run("pr register /dev/nvme0n1 0 0xa; pr reserve /dev/nvme0n1 0xa 1")
        it.wants("the other is fenced", FENCED in a.run(write("written by b2", "nvme1n1")))
        a.run("pr register /dev/nvme1n1 0 0xb; pr preempt /dev/nvme1n1 0xb 0xa 1")
        it.wants("and then the first", FENCED in a.run(write("written by a1", "nvme0n1")))


def quorum(built: Path, folder: Path) -> None:
    """Three hosts, of which two are a quorum. Write Exclusive, Registrants Only: a host that loses contact is
    preempted."""
    with stage(built, folder, 2048, "a1", "b2", "c3") as it:
        a, b, c = it.connected("a1"), it.connected("b2"), it.connected("c3")
        for guest, key in ((a, "0xa"), (b, "0xb"), (c, "0xc")):
            guest.run(f"pr register /dev/nvme0n1 0 {key}")
        a.run("pr reserve /dev/nvme0n1 0xa 3")
        for guest in (a, b, c):
            guest.run(write(f"written by {guest.host}"))
        it.wants("all three write", "written by c3" in a.run(READ))
        say("a1, the holder, is alone; b2 and c3 are a quorum, and b2 preempts it")
        b.run("pr preempt-abort /dev/nvme0n1 0xb 0xa 3")
        it.wants("a1 is fenced", FENCED in a.run(write("written by a1, alone")))
        c.run(write("written by c3, of the quorum"))
        it.wants("c3 writes as before", "of the quorum" in b.run(READ))
        say("a1 tries the same; it is no registrant any more")
        it.wants("a1 can't preempt", "result 0x" in a.run("pr preempt-abort /dev/nvme0n1 0xa 0xb 3"))
        say("a1 is let in again, by a key of its own")
        a.run("pr register /dev/nvme0n1 0 0xa2")
        a.run(write("written by a1, back"))
        it.wants("it writes", "written by a1, back" in c.run(READ))


def restart(built: Path, folder: Path) -> None:
    """The target is killed and started again under a mounted file system, and a fenced host stays fenced."""
    with stage(built, folder, 16384, "a1", "b2", state=True) as it:
        a, b = it.connected("a1"), it.connected("b2")
        a.run("pr register /dev/nvme0n1 0 0xa; pr reserve /dev/nvme0n1 0xa 1")
        a.run("mkfs.ext4 -q -b 1024 /dev/nvme0n1 && mount -t ext4 /dev/nvme0n1 /disk && cp /init /disk/before && sync")
        it.wants("b2 is fenced", FENCED in b.run(write("written by b2")))
        say("the target is killed, and started again")
        it.restart()
        a.run("cp /bin/busybox /disk/after; sync; echo sync ended")
        text = a.run("umount /disk; e2fsck -f -n /dev/nvme0n1; mount -t ext4 /dev/nvme0n1 /disk && "
                     "cmp /disk/before /init && cmp /disk/after /bin/busybox && echo the same; umount /disk")
        it.wants("all files are there", "the same" in text and "clean" not in text.lower().split("e2fsck")[0])
        b.run(LIVELY)
        it.wants("b2 is still fenced", FENCED in b.run(write("written by b2, after the restart")))


def verify(built: Path, folder: Path) -> None:
    """fio writes and verifies on one host, until another preempts it: each block is from one of them."""
    with stage(built, folder, 16384, "a1", "b2") as it:
        a, b = it.connected("a1", archive="fio.gz"), it.connected("b2", archive="fio.gz")
        a.run("pr register /dev/nvme0n1 0 0xa; pr reserve /dev/nvme0n1 0xa 1")
        fio = "fio --name=v --filename=/dev/nvme0n1 --direct=1 --ioengine=psync --bs=4k --verify=crc32c " \
            "--output-format=terse --terse-version=3"
        text = a.run(f"{fio} --rw=randwrite --size=4m --do_verify=1 >/dev/null; echo rc $?")
        it.wants("fio verifies", "rc 0" in text)
        say("fio writes at a1, and b2 preempts it meanwhile")
        long = f"{fio} --rw=randwrite --size=8m --time_based --runtime=20 --do_verify=0"
        a.run(f"( {long} >/room/out 2>&1; echo $? >/room/rc ) &")
        b.run("sleep 3; pr register /dev/nvme0n1 0 0xb; pr preempt-abort /dev/nvme0n1 0xb 0xa 1")
        a.run("while [ ! -e /room/rc ]; do sleep 1; done; tail -n 2 /room/out; cat /room/rc")
        text = b.run(f"{fio} --rw=randwrite --size=8m --do_verify=1 >/dev/null; echo rc $?")
        it.wants("fio verifies at b2: nothing of a1 lands any more", "rc 0" in text)


def discard(built: Path, folder: Path) -> None:
    """blkdiscard and fstrim; and a discard of a fenced host."""
    with stage(built, folder, 65536, "a1", "b2") as it:
        a, b = it.connected("a1"), it.connected("b2")
        text = a.run("cd /sys/block/nvme0n1/queue; cat discard_max_bytes write_zeroes_max_bytes; cd /")
        it.wants("Linux may discard and zero 32 MiB at a time", text.split().count("33554432") == 2)
        a.run("dd if=/dev/urandom of=/dev/nvme0n1 bs=64k count=64 oflag=direct 2>/dev/null")
        text = a.run("blkdiscard -o 1048576 -l 2097152 /dev/nvme0n1 && "
                     "dd if=/dev/nvme0n1 bs=64k skip=16 count=32 iflag=direct 2>/dev/null | tr -d '\\0' | wc -c")
        it.wants("what was discarded reads as zeros", text.split("\n")[1:2] == ["0"])
        a.run("mkfs.ext4 -q -b 1024 /dev/nvme0n1 && mount -t ext4 /dev/nvme0n1 /disk && cp /bin/busybox /disk && sync")
        text = a.run("rm /disk/busybox; sync; fstrim -v /disk; umount /disk; e2fsck -f -n /dev/nvme0n1; echo rc $?")
        it.wants("fstrim trims the file system", "bytes) trimmed" in text and "rc 0" in text)
        a.run(write("written by a1"))
        a.run("pr register /dev/nvme0n1 0 0xa; pr reserve /dev/nvme0n1 0xa 1")
        text = b.run("blkdiscard -f /dev/nvme0n1; echo rc $?")
        it.wants("a fenced host's discard is refused", "rc 1" in text)
        it.wants("and changes nothing", "written by a1" in a.run(READ))


# What nvme-cli asks a controller and a namespace.
ASKED = ("smart-log /dev/nvme0", "error-log /dev/nvme0 -e 4", "fw-log /dev/nvme0", "changed-ns-list-log /dev/nvme0",
         "effects-log /dev/nvme0 -c 0", "ana-log /dev/nvme0", "supported-log-pages /dev/nvme0",
         "fid-support-effects-log /dev/nvme0", "id-ctrl /dev/nvme0", "nvm-id-ctrl /dev/nvme0", "list-ns /dev/nvme0",
         "list-ns /dev/nvme0 --all", "list-ctrl /dev/nvme0", "list-ctrl /dev/nvme0 -n 1",
         "id-ns /dev/nvme0 -n 1 --force", "id-ns /dev/nvme0n1", "ns-descs /dev/nvme0n1",
         "cmdset-ind-id-ns /dev/nvme0n1 -n 1", "nvm-id-ns /dev/nvme0n1",
         "get-feature /dev/nvme0 -f 1", "get-feature /dev/nvme0 -f 2", "get-feature /dev/nvme0 -f 4",
         "get-feature /dev/nvme0n1 -f 5", "get-feature /dev/nvme0 -f 6", "get-feature /dev/nvme0 -f 7",
         "get-feature /dev/nvme0 -f 10", "get-feature /dev/nvme0 -f 11", "get-feature /dev/nvme0 -f 15",
         "get-feature /dev/nvme0 -f 15 -s 3 -H", "set-feature /dev/nvme0 -f 15 -v 7000",
         "set-feature /dev/nvme0 -f 6 -v 0", "dsm /dev/nvme0n1 -n 1 --ad -s 0 -b 8",
         "write-zeroes /dev/nvme0n1 -s 0 -c 7", "admin-passthru /dev/nvme0 -o 8", "resv-report /dev/nvme0n1 --eds",
         "list-subsys")
REFUSED = (("get-log /dev/nvme0 -i 0x0d -l 512", "INVALID_LOG_PAGE"),
           ("get-feature /dev/nvme0 -f 0xc", "INVALID_FIELD"))


def nvme_cli(built: Path, folder: Path) -> None:
    """What nvme-cli asks for: each of these commands succeeds."""
    with stage(built, folder, 2048, "a1") as it:
        a = it.connected("a1")
        for words in ASKED:
            it.wants(f"nvme {words}", "rc 0" in a.run(f"nvme {words}; echo rc $?"))
        for words, reason in REFUSED:
            it.wants(f"nvme {words} is refused", reason in a.run(f"nvme {words} 2>&1").replace(" ", "_").upper())


def paths(built: Path, folder: Path) -> None:
    """Two paths of one host, of which ctl takes one away: Linux continues by the other."""
    with stage(built, folder, 2048, "a1", "a1") as it:
        a = it.connected("a1")
        a.run(f"echo transport=tcp,traddr={ADDRESS},trsvcid={it.port},nqn=$nqn,hostnqn=nqn.2024-01.example:a1,"
              "hostid=a1000000-0000-0000-0000-000000000000,duplicate_connect >/dev/nvme-fabrics; sleep 2")
        states = "grep . /sys/block/nvme0c*n1/ana_state"
        it.wants("both are optimized", a.run(states).count(":optimized") == 2)
        for cntlid in (1, 2):
            it.ask(f"ana {cntlid} inaccessible")
            text = a.run(f"sleep 1; {states}")
            it.wants("Linux knows of it", text.count(":inaccessible") == 1 and text.count(":optimized") == 1)
            it.wants("it writes", "512 bytes" in a.run(write(f"written without {cntlid}")))
            it.wants("and reads", f"written without {cntlid}" in a.run(READ))
            it.ask(f"ana {cntlid} non-optimized")
            it.wants("it is a path again", a.run(f"sleep 1; {states}").count(":non-optimized") >= 1)
            it.ask(f"ana {cntlid} optimized")


def recorded(built: Path, folder: Path, path: Path) -> None:
    """Two hosts connect, read, write, are fenced and leave. The bytes of both sides are recorded."""
    with stage(built, folder, BLOCKS, "a1", "b2", state=True) as it:
        (folder / "state/identity").write_text(IDENTITY)
        it.restart()
        recorder = Recorder(it.target.port)
        it.port = recorder.port
        a, b = it.connected("a1", "--hdr-digest --data-digest"), it.connected("b2", "")
        a.run("nvme resv-register /dev/nvme0n1 --rrega=0 --nrkey=0xa")
        a.run("nvme resv-acquire /dev/nvme0n1 --racqa=0 --crkey=0xa --rtype=1")
        a.run(write("written by a1"))
        it.wants("b2 is fenced", FENCED in b.run(write("written by b2")))
        b.run(READ)
        b.run("pr register /dev/nvme0n1 0 0xb; pr preempt-abort /dev/nvme0n1 0xb 0xa 1")
        it.wants("a1 is fenced", FENCED in a.run(write("written by a1, fenced")))
        b.run("dd if=/init of=/dev/nvme0n1 bs=64k count=1 seek=1 conv=sync,fsync 2>/dev/null")
        b.run("nvme resv-report /dev/nvme0n1 --eds")
        for guest in (a, b):
            guest.run("nvme disconnect -n $nqn")
        time.sleep(1)
        recorder.save(path)


SCENES: Dict[str, Callable[[Path, Path], None]] = {
    "disk": disk, "fencing": fencing, "failover": failover, "in-flight": in_flight, "retried": retried,
    "one-guest": one_guest, "quorum": quorum, "restart": restart, "verify": verify,
    "discard": discard, "nvme-cli": nvme_cli, "paths": paths}
