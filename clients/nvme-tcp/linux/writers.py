"""Hosts that write while the target moves, and what they may read afterwards."""
import random
import struct
import threading
import time
from typing import Dict, List, Optional, Sequence, Set, Tuple

from linux.machines import SLOW
from tests.host import BLOCK, Ended, Host, Place, Queue

# Reservation Conflict, and Command Aborted due to Preempt and Abort, both with Do Not Retry.
CONFLICTS = (0x4083, 0x401b)
# Seconds until a host gives a command up, and those between its commands.
GIVE_UP, PAUSE = 1.0 * SLOW, 0.05
# Seconds until a host that connects tries again: a machine without the address does not answer.
TRY = 0.1 * SLOW


class Expected:
    """What each block may have: the last answered content, and what was asked for later."""

    def __init__(self) -> None:
        self.may: Dict[int, List[bytes]] = {}
        # Blocks whose last write has no answer, but that were read since.
        self.settled: Set[int] = set()

    def asks(self, place: int, content: bytes) -> None:
        self.may.setdefault(place, [bytes(BLOCK)]).append(content)

    def answered(self, place: int, content: bytes) -> None:
        self.may[place] = [content]
        self.settled.discard(place)

    def found(self, blocks: bytes) -> int:
        """A host reads all blocks after it has connected again. They must stay as they are. Returns how many of them
        have what was answered before."""
        answered = [it for it, contents in self.may.items() if len(contents) == 1]
        for it, contents in self.may.items():
            block = blocks[BLOCK * it:BLOCK * (it + 1)]
            if len(contents) > 1 and block in contents:
                self.may[it] = [block]
                self.settled.add(it)
        return len(answered)

    def faults(self, blocks: bytes) -> List[str]:
        """A line for each block that is none of what it may be."""
        wrong = [it for it, contents in self.may.items() if blocks[BLOCK * it:BLOCK * (it + 1)] not in contents]
        return [f"block {it} has lost what was answered" for it in sorted(wrong)]

    def unsure(self) -> List[int]:
        """The blocks whose last write has no answer."""
        return [it for it, contents in self.may.items() if len(contents) > 1 or it in self.settled]


class Writer(threading.Thread):
    """A host that writes to its places until it is closed, and connects again by itself.

    It then reads its places before it writes: answered writes must be there. One that is fenced must be answered a
    conflict each time. `faults` has what must not be.
    """

    def __init__(self, place: Place, host: int, places: Sequence[int], is_fenced: bool = False) -> None:
        super().__init__(daemon=True)
        self.place, self.number, self.places, self.is_fenced = place, host, places, is_fenced
        self.expected, self.random = Expected(), random.Random(host)
        self.host: Optional[Host] = None
        self.count, self.is_closed = 0, False
        # When each answered command was sent, and when it was answered; and the faults.
        self.answers: List[Tuple[float, float]] = []
        self.faults: List[str] = []
        # How many blocks with answered writes it has read after it connected again, each time.
        self.read_back: List[int] = []

    def connected(self) -> Host:
        if self.host is None:
            self.host = Host(self.place, self.number, timeout=GIVE_UP, reach=TRY)
            if self.expected.may:
                self.read()
        return self.host

    def read(self) -> None:
        """Checks that what was answered before is there."""
        first = min(self.places)
        completion = self.host.read(first, len(self.places))
        if completion.status:
            self.faults.append(f"a read of {self.number:x} is answered {completion.status:#x}")
            return
        blocks = bytes(BLOCK * first) + completion.data
        self.faults += [f"{it}, when host {self.number:x} connects again" for it in self.expected.faults(blocks)]
        self.read_back.append(self.expected.found(blocks))

    def run(self) -> None:
        while not self.is_closed:
            try:
                self.write()
            except (Ended, OSError, AssertionError):
                # The connection, or a Connect, has failed.
                self.drop()
            time.sleep(PAUSE)

    def write(self) -> None:
        host, place = self.connected(), self.random.choice(self.places)
        self.count += 1
        content = struct.pack("<QQ", self.number, self.count) * (BLOCK // 16)
        if not self.is_fenced:
            self.expected.asks(place, content)
        sent = time.monotonic()
        status = host.write(place, content)
        self.answers.append((sent, time.monotonic()))
        if self.is_fenced != (status in CONFLICTS) or status not in (0, *CONFLICTS):
            self.faults.append(f"write {self.count} of {self.number:x} is answered {status:#x}")
        elif status == 0:
            self.expected.answered(place, content)

    def drop(self) -> None:
        if self.host is not None:
            self.host.close()
            self.host = None

    def is_answered(self, begun: float, count: int = 1) -> bool:
        """Whether this many commands that were sent after a moment have an answer."""
        return sum(sent > begun for sent, _ in self.answers[-count:]) >= count

    def outage(self, begun: float) -> Tuple[float, float]:
        """The longest time without an answer after a moment: seconds from the moment to its end, and its seconds."""
        times = [begun, *(answered for _, answered in list(self.answers) if answered > begun)]
        last, first = max(zip(times, times[1:]), key=lambda it: it[1] - it[0], default=(begun, begun))
        return first - begun, first - last

    def close(self) -> None:
        self.is_closed = True
        self.join()
        self.drop()


def is_served(place: Place) -> bool:
    """Whether a target answers there."""
    try:
        Queue(place, timeout=GIVE_UP).close()
        return True
    except (Ended, OSError, AssertionError):
        return False


# When a machine was asked for each of its answers, and when it had answered.
Answers = List[Tuple[float, float]]


class Watch:
    """Asks each machine all the time, at its own address, whether a target answers."""

    def __init__(self, places: Dict[str, Place]) -> None:
        self.is_closed = False
        self.seen: Dict[str, Answers] = {it: [] for it in places}
        # When a machine was asked that did not answer.
        self.silent: Dict[str, List[float]] = {it: [] for it in places}
        self.threads = [threading.Thread(target=self.ask, args=it, daemon=True) for it in places.items()]

    def start(self) -> None:
        for it in self.threads:
            it.start()

    def ask(self, name: str, place: Place) -> None:
        while not self.is_closed:
            begun = time.monotonic()
            if is_served(place):
                self.seen[name].append((begun, time.monotonic()))
            else:
                self.silent[name].append(begun)
            time.sleep(PAUSE)

    def has_seen(self, name: str) -> bool:
        return bool(self.seen[name])

    def first_answer(self, name: str) -> float:
        """When a machine answered first."""
        return self.seen[name][0][1] if self.seen[name] else float("inf")

    def close(self) -> None:
        self.is_closed = True
        for it in self.threads:
            it.join()


def turns(seen: Dict[str, Answers]) -> List[str]:
    """Which machines have answered, in the order of their first answers. Those that have answered again, to what they
    were asked after the next one's first answer, follow.
    """
    first = {name: min(answered for _, answered in answers) for name, answers in seen.items() if answers}
    order = sorted(first, key=lambda it: first[it])
    return order + [name for name, other in zip(order, order[1:]) if any(it > first[other] for it, _ in seen[name])]
