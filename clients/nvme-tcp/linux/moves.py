"""A target that moves: two machines with Pacemaker, one of which serves a volume that DRBD mirrors, or a shared disk."""
import contextlib
import os
import subprocess
import time
from concurrent.futures import ThreadPoolExecutor
from pathlib import Path
from typing import Callable, Dict, Iterator, List

from linux.cluster import SETTLED, nodes_image
from linux.machines import NAMESPACES, SLOW, SLOWER, say
from linux.namespaces import Namespace, make_cables
from linux.network import network_namespace
from linux.pairs import MACHINES, TOKEN, Pair, fill
from linux.scenes import config
from linux.steps import steps_of
from linux.twins import restore, saved
from linux.writers import TRY, Watch, Writer, is_served, turns
from tests.host import BLOCK, Host
from tests.targets import LIVE, PROGRAM
from tests.volumes import BLOCKS_AT

# Enough for ext4 with a journal.
BLOCKS, PORT = 8192, 4420
ADDRESS = ("10.88.0.9", PORT)
# Seconds of the volume's lease. A guest may be without a processor for seconds.
LEASE = min(60, max(1, int(SLOWER if NAMESPACES else 2 * SLOW)))
# Hosts, their keys, and the blocks that they write.
WRITERS = {0xa1: (0xa, range(0, 40)), 0xb2: (0xb, range(100, 140))}
OUTSIDER, LATE_KEY, LATE_PLACES = 0xc3, 0xc, range(0, 140)

# A guest that may be a host.
INITIATOR = "a1"
# Seconds in which a broken power switch sees whether a machine is off.
UNSWITCHED = 50
# How many answers each host has before a failure and after it, so that the checks are about something; and how many
# blocks it reads, when it connects again, that it had written.
ANSWERS, READ_BACK = 10, 5


def formatted(folder: Path) -> Path:
    """A volume that nobody has written."""
    volume, settings = folder / "volume", folder / "config.nvme"
    settings.write_text(config(BLOCKS, "a1", "b2", "c3", "a1", "b2", "c3"))
    words = [PROGRAM, "format", volume, "--config", settings, "--lease", str(LEASE)]
    subprocess.run(words, stdout=subprocess.DEVNULL, check=True)
    return volume


class Moves(Pair):
    """The machines, and the hosts that write."""

    def __init__(self, built: Path, folder: Path) -> None:
        self.built, self.volume = built, formatted(folder)
        # Before this pair, since it takes another one, and a power switch.
        self.settled = None if NAMESPACES else saved(built, self.volume)
        super().__init__(folder)
        self.writers: List[Writer] = []
        self.watch = Watch({it: (f"10.88.0.{it[1:]}", PORT) for it in MACHINES})

    def start(self) -> None:
        """Both machines are in the cluster, and the target starts on t1."""
        if self.settled:
            restore(self, self.built, self.settled, self.volume)
        else:
            make_cables(*MACHINES)
            image = nodes_image(self.built)
            for it in MACHINES:
                fill(self.share(it))
            with ThreadPoolExecutor() as pool:
                booted = pool.map(lambda it: Namespace(image, self.folder, it), MACHINES)
                self.guests.update(zip(MACHINES, booted))
            self.form()
        self.wait_until("a target answers at the address", lambda: is_served(ADDRESS), "t1")
        self.serves("t1")

    def wait_until(self, what: str, holds: Callable[[], bool], name: str) -> None:
        """Waits for a condition, and shows a machine's console: crm_mon would take the guest's time from the rest."""
        last = time.monotonic() + SETTLED
        while not holds() and time.monotonic() < last:
            self.guests[name].rest(0.5)
        self.wants(what, holds())

    def copies(self) -> List[Path]:
        """The volume, or the copies of guests. The last is that of t2."""
        return [self.volume] if NAMESPACES else [self.folder / f"volume-{it}" for it in MACHINES]

    def reserve(self) -> None:
        """Two hosts share a reservation, and a third is fenced."""
        first, second, third = (Host(ADDRESS, it) for it in (*WRITERS, OUTSIDER))
        statuses = [first.register(0, 0xa), first.acquire(0xa, kind=3), second.register(0, 0xb),
                    third.register(0, LATE_KEY), first.acquire(0xa, LATE_KEY, action=1, kind=3)]
        self.wants("two hosts have a reservation, a third is fenced", statuses == [0] * 5)
        for it in (first, second, third):
            it.close()

    def open_hosts(self) -> None:
        """All three write from now on."""
        self.reserve()
        self.writers = [Writer(ADDRESS, it, places) for it, (_, places) in WRITERS.items()]
        self.writers.append(Writer(ADDRESS, OUTSIDER, LATE_PLACES, is_fenced=True))
        self.write_from_now()

    def write_from_now(self) -> None:
        for it in (*self.writers, self.watch):
            it.start()
        self.wait_for_answers("t1", time.monotonic())

    def wait_for_answers(self, name: str, begun: float) -> None:
        """Waits until each host has answers of a machine to what it asked for after a moment."""
        def are_answered() -> bool:
            hosts = all(it.is_answered(begun, ANSWERS) for it in self.writers)
            return hosts and len(self.watch.seen[name]) >= ANSWERS
        self.wait_until(f"each host has {ANSWERS} answers", are_answered, name)

    def moved(self, begun: float, is_fenced: bool = True) -> None:
        """The target moves from t1 to t2."""
        self.wait_until("a target answers on t2", lambda: self.watch.has_seen("t2"), "t2")
        self.wait_for_answers("t2", time.monotonic())
        self.serves("t2")
        self.wants("t1 was fenced" if is_fenced else "no machine was fenced",
                   set(self.fencer.fenced) == ({"t1"} if is_fenced else set()))
        if is_fenced and self.fencer.fenced:
            self.wants("t2 answered nobody until then", self.watch.first_answer("t2") > self.fencer.times[0])
            self.guests["t2"].run("stonith_admin --history t1 --verbose | grep successful", SETTLED)
        self.say_outages(begun)

    def say_outages(self, begun: float) -> None:
        """Prints how long each host had no answer, what that depends on, and the steps of Pacemaker meanwhile."""
        ends, lengths = (", ".join(f"{it.outage(begun)[which]:.1f} for {it.number:x}" for it in self.writers)
                         for which in (0, 1))
        say(f"seconds from then to the first answer of t2: {ends}; the token is {TOKEN} ms, the lease {LEASE} s")
        load = f"load {os.getloadavg()[0]:.0f}"
        say(f"seconds without an answer: {lengths}; a host tries again after {TRY:.2g} s; {load}")
        for it in MACHINES:
            if it not in self.fencer.fenced:
                taken = steps_of(self.guests[it], self.share(it), begun)
                say(f"seconds from then to the steps on {it}: {'; '.join(taken)}")

    def end(self) -> None:
        """The hosts end, and read what they wrote."""
        for it in (*self.writers, self.watch):
            it.close()
        for it in self.writers:
            kind = "conflicts" if it.is_fenced else "0:00"
            self.wants(f"all {len(it.answers)} answers to host {it.number:x} are {kind} {it.faults}", not it.faults)
        self.guests["t2"].run("cat /run/nvmetcp-disk/log")
        if self.settled:
            self.until("t2 is DRBD's primary", "t2", "cat /proc/drbd", "ro:Primary/")
        host = Host(ADDRESS, 0xa1)
        blocks = b"".join(host.read(it, 64).data for it in range(0, 256, 64))
        host.close()
        for it in self.permitted():
            faults, count = it.expected.faults(blocks), max(it.read_back, default=0)
            self.wants(f"host {it.number:x} has connected again, and read {count} blocks that it had written",
                       count >= READ_BACK)
            self.wants(f"host {it.number:x} reads what was answered, or what it asked for later {faults}", not faults)

    def permitted(self) -> List[Writer]:
        """The hosts that the reservation lets write."""
        return [it for it in self.writers if not it.is_fenced]

    def judge(self) -> None:
        """What holds after the machines are gone: the blocks of the volume, and those of the kept scripts."""
        order, counts = turns(self.watch.seen), [len(it) for it in self.watch.seen.values()]
        self.wants(f"one target at a time has answered: {order}", order == ["t1", "t2"])
        silent = sum(it > self.watch.first_answer("t2") for it in self.watch.silent["t1"])
        self.wants(f"t1 and t2 gave {counts} answers, and t1 none {silent} times after the first of t2",
                   min(counts) >= ANSWERS and silent > 0)
        blocks, unsure = self.copies()[-1].read_bytes()[BLOCKS_AT:], set()
        for it in self.permitted():
            self.wants(f"the volume has the blocks of host {it.number:x}", not it.expected.faults(blocks))
            unsure.update(it.expected.unsure())
        if self.settled and not self.fencer.fenced:
            first, second = (it.read_bytes() for it in self.copies())
            self.wants("both copies of the volume are the same", first == second)
        again = self.replay()
        other = [at // BLOCK for at in range(0, BLOCK * BLOCKS, BLOCK) if again[at:at + BLOCK] != blocks[at:at + BLOCK]]
        self.wants(f"the scripts of t1 and t2 in a row leave the volume's blocks, except for {len(unsure)} whose last "
                   f"write has no answer {other}", set(other) <= unsure)

    def replay(self) -> bytes:
        """The blocks after the kept scripts of both machines."""
        image = self.folder / "again.img"
        image.write_bytes(bytes(BLOCK * BLOCKS))
        for name in MACHINES:
            kept = self.folder / f"share-{name}/run.nvme"
            with open(kept, "rb") as lines:
                ran = subprocess.run([LIVE, str(image)], stdin=lines, stdout=subprocess.PIPE, text=True)
            answers, told = ran.stdout.split("started\n", 1)[-1], Path(f"{kept}.out").read_text().rstrip("\0")
            count = told.count("\n")
            self.wants(f"the {count} events of {name} give the same again",
                       answers.startswith(told) and count >= ANSWERS * len(self.writers))
        return image.read_bytes()


@contextlib.contextmanager
def machines(built: Path, folder: Path, opens: Callable[[Moves], None] = Moves.open_hosts) -> Iterator[Moves]:
    """Both machines with the target on t1, and what opens it: hosts that write."""
    # In the scene's network nothing can be fetched.
    nodes_image(built)
    with network_namespace(*MACHINES, INITIATOR):
        it = Moves(built, folder)
        try:
            it.start()
            opens(it)
            yield it
            it.end()
        finally:
            it.close()
        it.judge()
    if it.faults:
        raise AssertionError("; ".join(it.faults))


def needs_guests(what: str) -> None:
    """Ends a scene at once if its machines are namespaces."""
    if NAMESPACES:
        raise AssertionError(f"a machine in namespaces has no {what}: play this scene with guests")


def killed(built: Path, folder: Path) -> None:
    """The machine with the target is killed without a word, and the other takes the volume over."""
    with machines(built, folder) as it:
        # The machine on which Pacemaker decides, which may be the one that dies.
        it.guests["t2"].run("crmadmin -D", SETTLED)
        say("t1 is killed")
        begun = time.monotonic()
        it.kill("t1")
        it.moved(begun)


def frozen(built: Path, folder: Path) -> None:
    """The machine with the target stops for half a token and continues; later it stops, and is fenced."""
    with machines(built, folder) as it:
        say("t1 stops for half a token")
        it.guests["t1"].freeze()
        time.sleep(TOKEN / 2000)
        begun = time.monotonic()
        it.guests["t1"].thaw()
        it.wait_for_answers("t1", begun)
        it.wants("no machine was fenced", it.fencer.fenced == [])
        say("t1 stops")
        begun = time.monotonic()
        it.guests["t1"].freeze()
        it.moved(begun)


def stopped(built: Path, folder: Path) -> None:
    """The target is stopped by SIGSTOP, and continued after its lease, while its machine runs: it answers nobody."""
    with machines(built, folder) as it:
        seconds, kill, continued = LEASE + 5, it.fencer.kill, []

        def kills_later(name: str) -> bool:
            """The power switch waits until the target has been continued."""
            if not continued:
                continued.append(it.guests[name].ended(SETTLED))
                say("the target is continued")
                time.sleep(TOKEN / 500)
            return kill(name)
        it.fencer.kill = kills_later
        say(f"the target on t1 is stopped, and continued after {seconds} seconds")
        begun = time.monotonic()
        it.guests["t1"].type(f"pkill -STOP nvmetcp; sleep {seconds}; pkill -CONT nvmetcp; echo status $?")
        it.moved(begun)
        late = [answered - begun for _, answered in it.watch.seen["t1"] if answered > begun + LEASE]
        it.wants(f"t1 answered nobody when it was continued {late}", not late and "\nstatus 0" in "".join(continued))


def hung(built: Path, folder: Path) -> None:
    """The disk of the machine with the target hangs: no read or write ends."""
    needs_guests("disk that can hang")
    with machines(built, folder) as it:
        say("the disk of t1 hangs")
        begun = time.monotonic()
        it.guests["t1"].hang()
        it.moved(begun)


def cut(built: Path, folder: Path) -> None:
    """The machines lose the network between them. Both still have the hosts and the disk."""
    with machines(built, folder) as it:
        say("t1 and t2 lose each other")
        begun = time.monotonic()
        it.guests["t1"].cut()
        it.moved(begun)


def watched(built: Path, folder: Path) -> None:
    """Corosync on the machine with the target hangs, and the power switch fails: the watchdog ends the machine."""
    needs_guests("watchdog")
    with machines(built, folder) as it:
        it.fencer.kill = lambda name: it.guests[name].is_off(UNSWITCHED)
        say("Corosync on t1 is stopped, and no power switch works")
        begun = time.monotonic()
        it.guests["t1"].type("pkill -STOP corosync")
        it.moved(begun)


def refused(built: Path, folder: Path) -> None:
    """The machine with the target is killed, and the power switch fails at first: nobody serves until it works."""
    with machines(built, folder) as it:
        kill, asked = it.fencer.kill, []

        def fails(name: str) -> bool:
            asked.append(name)
            # Pacemaker asks again at once, but only ten times.
            time.sleep(TOKEN / 500)
            return False
        it.fencer.kill = fails
        say("t1 is killed, and the power switch does not work")
        begun = time.monotonic()
        it.kill("t1")
        it.wait_until("the switch was asked three times", lambda: len(asked) > 2, "t2")
        it.guests["t2"].rest(2 * LEASE)
        it.wants("nobody serves", not it.watch.has_seen("t2"))
        say("the power switch works")
        it.fencer.kill = kill
        it.moved(begun)


def planned(built: Path, folder: Path) -> None:
    """An operator moves the target."""
    with machines(built, folder) as it:
        begun = time.monotonic()
        it.guests["t1"].run("crm_resource --resource disk --move --node t2", SETTLED)
        it.moved(begun, is_fenced=False)


MOVES: Dict[str, Callable[[Path, Path], None]] = {
    "moves-killed": killed, "moves-frozen": frozen, "moves-stopped": stopped, "moves-hung": hung, "moves-cut": cut,
    "moves-watched": watched, "moves-refused": refused, "moves-planned": planned}
