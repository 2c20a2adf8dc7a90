#!/usr/bin/env python3
"""A stand-in for nvmelive, in Python: hosts with drivers, one medium, the lines that the client's tests send.

It lets the client be tested if the program is not built. The examples' transcripts judge it (test_standin.py), and
nothing is claimed of it beyond them: raw hosts, identify and lists of controllers are answered `!`.
"""
from __future__ import annotations

import re
import sys
from dataclasses import dataclass, field
from typing import BinaryIO, Dict, List, Optional, Tuple

BLOCK = 512
RING, SLOTS = 7, 24
NAMES = {"read": (2, "read"), "write": (1, "write"), "compare": (5, "compare"), "zeroes": (8, "write_zeroes"),
         "flush": (0, "flush"), "register": (13, "reservation_register"), "acquire": (17, "reservation_acquire"),
         "release": (21, "reservation_release"), "report": (14, "reservation_report"),
         "protect": (9, "set_features"), "protection": (10, "get_features")}
ADMIN = ("protect", "protection")
READERS, WRITERS = ("read", "compare"), ("write", "zeroes", "flush")


# The words of each line after its verb, with the bits of their numbers.
FORMS = {
    "controller": "N16 =host H128", "namespace": "N32 =blocks N64 =shared|private", "attached": "N16 N32", "start": "",
    "up": "N16", "ring": "N16", "poll": "N16", "reset": "N16", "fetch": "N16 N16", "execute": "N16 N16",
    "powercycle": "", "read": "N16 N32 N64 N32", "write": "N16 N32 N64 N32 D", "compare": "N16 N32 N64 N32 D",
    "zeroes": "N16 N32 N64 N32", "flush": "N16 N32", "register": "N16 N32 N8 N8 N8 N64 N64",
    "acquire": "N16 N32 N8 N8 N64 N64", "release": "N16 N32 N8 N8 N64", "report": "N16 N32 N32",
    "identify": "N16 N8 N32", "protect": "N16 N32 N8", "protection": "N16 N32", "attach": "N16 N32 L",
    "detach": "N16 N32 L", "store": "N16 N64 B", "write32": "N16 N64 N32",
}


class Unread(ValueError):  # the place of a word that no line has, and why
    pass


def number(word: str) -> int:
    return int(word, 16) if word.startswith("0x") else int(word)


def read(text: str) -> str:
    words = [it for it in re.split(r"[ \t\r]", text) if it]
    if text.startswith("#") or not words:
        return ""
    if words[0] not in FORMS:
        raise Unread(1, f"there is no line {words[0]!r}")
    forms = FORMS[words[0]].split()
    is_list = bool(forms) and forms[-1] == "L"
    forms = forms[:-1] + ["N16"] * (len(words) - len(forms)) if is_list else forms
    forms += ["=raw"] if words[0] == "controller" and len(words) == 5 else []
    if len(words) != len(forms) + 1 or is_list and len(words) < 3:
        raise Unread(1, f"{words[0]} takes {len(forms) + 1} words")
    made = [one(form, word, place, words) for place, (form, word) in enumerate(zip(forms, words[1:]), 2)]
    return " ".join((words[0], *made))


def one(form: str, word: str, place: int, words: List[str]) -> str:
    if form in ("D", "B"):
        return data(form, word, place, words)
    if form[0] == "=" and word in form[1:].split("|"):
        return word
    if form[0] == "=" or not re.fullmatch(r"[0-9]+|0x[0-9a-fA-F]+", word) or number(word) >= 2**int(form[1:]):
        raise Unread(place, f"a number below 2^{form[1:]}, not {word!r}")
    return f"{number(word):#x}" if form[0] == "H" else str(number(word))


def data(form: str, word: str, place: int, words: List[str]) -> str:
    kind, _, digits = word.partition(":")
    is_fill = form == "D" and kind == "fill" and len(digits) == 2
    size = 512 * number(words[4]) if form == "D" else len(digits)
    if not re.fullmatch(r"(?:[0-9a-fA-F]{2})+", digits) or not is_fill and kind != "hex" or len(digits) > 2 * size > 0:
        wanted = "DATA, fill: and two hexadecimal digits, or hex: and pairs of them that BLOCKS have room for"
        raise Unread(place, f"{wanted if form == 'D' else 'hex: and pairs of hexadecimal digits'}, not {word!r}")
    if form == "D" and size not in range(512, 512 * 257):
        return "hex:00"
    made = bytes.fromhex(digits) * (size if is_fill else 1)
    return f"hex:{(made.rstrip(bytes(1)) or bytes(1)).hex() if form == 'D' else made.hex()}"


@dataclass
class Namespace:
    blocks: int
    first: int = 0
    data: Dict[int, bytes] = field(default_factory=dict)
    keys: Dict[int, int] = field(default_factory=dict)
    rtype: int = 0
    holder: Optional[int] = None
    generation: int = 0
    persists: bool = False
    protection: int = 0

    def holds(self, host: int) -> bool:
        return bool(self.rtype) and (host in self.keys if self.rtype > 4 else self.holder == host)

    def permits(self, host: int, verb: str) -> bool:
        if not self.rtype or self.holds(host) or self.rtype in (3, 4, 5, 6) and host in self.keys:
            return True
        return self.rtype in (1, 3, 5) and verb in READERS

    def power_cycle(self) -> None:
        if not self.persists:
            self.keys, self.rtype, self.holder, self.generation = {}, 0, None, 0
        if self.protection == 2:
            self.protection = 0

    def leave(self, host: int) -> None:
        self.keys.pop(host, None)
        if self.rtype and (not self.keys if self.rtype > 4 else self.holder == host):
            self.rtype, self.holder = 0, None


@dataclass
class Command:
    words: List[str]
    ticket: int
    cid: int
    rung: bool = False
    head: int = 0
    marked: bool = False

    @property
    def verb(self) -> str:
        return self.words[0]

    @property
    def nsid(self) -> int:
        return number(self.words[2])


@dataclass
class Side:
    host: int
    up: bool = False
    next: int = 1
    lanes: Tuple[List[Command], List[Command]] = field(default_factory=lambda: ([], []))
    room: List[int] = field(default_factory=lambda: [RING, RING])
    fetched: List[Command] = field(default_factory=list)
    posted: Tuple[List[Tuple[Command, str, int]], List[Tuple[Command, str, int]]] = field(
        default_factory=lambda: ([], []))
    live: Dict[int, Command] = field(default_factory=dict)
    aborted: List[int] = field(default_factory=list)
    counts: Dict[str, int] = field(default_factory=dict)

    def add(self, what: str, count: int = 1) -> None:
        self.counts[what] = self.counts.get(what, 0) + count


class World:
    def __init__(self, image: Optional[BinaryIO] = None) -> None:
        self.image = image
        self.sides: Dict[int, Side] = {}
        self.spaces: Dict[int, Namespace] = {}
        self.attached: List[Tuple[int, int]] = []
        self.attaching: List[int] = []
        self.started = False
        self.count = 0

    def answer(self, line: str) -> str:
        if line.startswith("?line"):
            try:
                return f"line {read(line[len('?line '):]) or 'blank'}"
            except Unread as fault:
                return f"! line {self.count} word {fault.args[0]}: {fault.args[1]}"
        words = line.split()
        if not words or line.startswith("#"):
            return "ok"
        try:
            if words[0].startswith("?"):
                return self.look(words[0][1:], [number(it) for it in words[1:]])
            return self.event(words) if self.started else self.configure(words)
        except (KeyError, ValueError, IndexError) as fault:
            return f"! line {self.count} word 1: the stand-in does not know {line!r} ({fault})"

    def configure(self, words: List[str]) -> str:
        if words == ["start"]:
            for (c, n), line in zip(self.attached, self.attaching):
                for kind, name, known in (("controller", c, self.sides), ("namespace", n, self.spaces)):
                    if name not in known:
                        return f"refused line {self.count}: BadId; line {line}: {kind} {name} is not configured"
            self.started = True
            return "started"
        if words[0] == "controller" and len(words) == 4:
            self.sides[number(words[1])] = Side(number(words[3]))
        elif words[0] == "namespace":
            first = sum(it.blocks for it in self.spaces.values())
            self.spaces[number(words[1])] = Namespace(number(words[3]), first)
        elif words[0] == "attached":
            self.attached.append((number(words[1]), number(words[2])))
            self.attaching.append(self.count)
        else:
            raise ValueError(words[0])
        return "ok"

    def event(self, words: List[str]) -> str:
        if words == ["powercycle"]:
            return self.power_cycle()
        verb, c = words[0], number(words[1])
        call = getattr(self, f"do_{verb}", None) or (self.place if verb in NAMES else None)
        if call is None:
            raise ValueError(verb)
        side = self.sides.get(c)
        return call(c, side, words) if side else f"nocontroller {c}"

    def do_up(self, c: int, side: Side, words: List[str]) -> str:
        if side.up:
            return f"up {c} AlreadyUp"
        side.up, side.lanes, side.posted, side.room, side.fetched = True, ([], []), ([], []), [RING, RING], []
        side.counts = {}
        return f"up {c} ok"

    def place(self, c: int, side: Side, words: List[str]) -> str:
        refusal = self.refusal(side, words)
        if refusal:
            return f"refused {c} {refusal}"
        command = Command(words, side.next, side.next % 65536)
        lane = 0 if words[0] in ADMIN else 1
        side.lanes[lane].append(command)
        side.room[lane] -= 1
        side.live[side.next] = command
        side.next += 1
        return f"placed {c} {command.ticket}"

    def refusal(self, side: Side, words: List[str]) -> str:
        if not side.up:
            return "NotReady"
        most = {"read": 256, "write": 256, "compare": 256, "zeroes": 65536, "report": 32768}.get(words[0])
        if most is not None and not 1 <= number(words[3 if words[0] == "report" else 4]) <= most:
            return "BadRequest"
        if words[0] in ("register", "acquire", "release", "protect") and number(words[3]) > 7:
            return "BadRequest"
        if len(side.live) + len(side.aborted) >= SLOTS:
            return "NoSlot"
        return "" if side.room[0 if words[0] in ADMIN else 1] else "RingFull"

    def do_ring(self, c: int, side: Side, words: List[str]) -> str:
        if not side.up:
            return f"rung {c} NotUp"
        for lane in (0, 1):
            side.add(f"tail{lane}", sum(not it.rung for it in side.lanes[lane]))
            for it in side.lanes[lane]:
                it.rung = True
            side.counts[f"heard{lane}"] = side.counts.get(f"taken{lane}", 0)
        return f"rung {c}"

    def do_fetch(self, c: int, side: Side, words: List[str]) -> str:
        q = number(words[2])
        lane = side.lanes[q] if q < 2 and side.up else []
        if not lane or not lane[0].rung:
            return f"fetch {c} {q} idle"
        side.fetched.append(lane.pop(0))
        side.add(f"head{q}")
        return f"fetch {c} {q} took"

    def do_execute(self, c: int, side: Side, words: List[str]) -> str:
        place = number(words[2])
        if place >= len(side.fetched):
            return f"execute {c} {place} none"
        command = side.fetched.pop(place)
        status, rule, tail = self.judge(c, side.host, command)
        lane = 0 if command.verb in ADMIN else 1
        side.add(f"posted{lane}")
        side.posted[lane].append((command, f"{status} {tail}", RING - len(side.lanes[lane])))
        return f"execute {c} {place} posted {status} {rule}"

    def do_poll(self, c: int, side: Side, words: List[str]) -> str:
        if side.aborted:
            return f"poll {c} {side.aborted.pop(0)} aborted"
        if not side.up:
            return f"poll {c} NotUp"
        for lane in (0, 1):
            if side.posted[lane]:
                command, text, _ = side.posted[lane].pop(0)
                side.add(f"taken{lane}")
                del side.live[command.ticket]
                known = [it for it in side.live.values() if (it.verb in ADMIN) == (lane == 0)]
                unheard = [it for it in known if it in side.lanes[lane] or it.ticket > command.head]
                side.room[lane] = RING - len(unheard)
                return f"poll {c} {command.ticket} {text}"
        return f"poll {c} nothing"

    def do_reset(self, c: int, side: Side, words: List[str]) -> str:
        side.aborted += sorted(side.live)
        side.live, side.up, side.fetched = {}, False, []
        side.lanes, side.posted = ([], []), ([], [])
        return f"reset {c}"

    def power_cycle(self) -> str:
        for c, side in self.sides.items():
            self.do_reset(c, side, [])
        for space in self.spaces.values():
            space.power_cycle()
        return "powercycle"

    def judge(self, c: int, host: int, command: Command) -> Tuple[str, int, str]:
        side = self.sides[c]
        lane = 0 if command.verb in ADMIN else 1
        heads = [it.ticket for it in side.lanes[lane]]
        command.head = min(heads) - 1 if heads else side.next - 1
        denied = self.denied(c, host, command)
        if denied:
            return (*denied, "00000000")
        status, tail = self.carry_out(host, command)
        return status, (11 if status in ("0:83", "0:02") else 0), tail

    def denied(self, c: int, host: int, command: Command) -> Optional[Tuple[str, int]]:
        verb, words, nsid = command.verb, command.words, command.nsid
        if command.marked:
            return "0:1b", 1
        if not 1 <= nsid <= 8:
            return "0:0b", 4
        if nsid not in self.spaces or (c, nsid) not in self.attached:
            return "0:02", 5
        space = self.spaces[nsid]
        numbers = [number(it) for n, it in enumerate(words[1:]) if not (verb in ("write", "compare") and n == 4)]
        if verb in ("register", "acquire") and numbers[2] > 2 or verb == "release" and numbers[2] > 1 or (
                verb == "acquire" and not 1 <= numbers[3] <= 6) or verb == "protect" and numbers[2] > 2 or (
                verb == "register" and numbers[4] == 1):
            return "0:02", 6
        if verb == "protect" and space.protection == 2:
            return "1:0e", 6
        if verb in (*READERS, *WRITERS) and not space.permits(host, verb):
            return "0:83", 7
        if verb in ("write", "zeroes") and space.protection:
            return "0:20", 8
        if verb in ("read", "write", "compare", "zeroes") and numbers[2] + numbers[3] > space.blocks:
            return "0:80", 9
        return None

    def carry_out(self, host: int, command: Command) -> Tuple[str, str]:
        verb, words, space = command.verb, command.words, self.spaces[command.nsid]
        if verb in ("read", "write", "compare", "zeroes"):
            return self.on_blocks(verb, words, space)
        numbers = [number(it) for it in words[3:]]
        if verb in ("register", "acquire", "release"):
            return getattr(self, verb)(host, space, numbers), "00000000"
        if verb == "report":
            return "0:00", "00000000 " + spelled(self.report(space)[:4 * numbers[0]].ljust(4 * numbers[0], b"\0"))
        if verb == "protect":
            space.protection = numbers[0]
        return "0:00", f"{space.protection:08x}" if verb == "protection" else "00000000"

    def on_blocks(self, verb: str, words: List[str], space: Namespace) -> Tuple[str, str]:
        slba, count = number(words[3]), number(words[4])
        old = b"".join(self.block(space, slba + n) for n in range(count))
        if verb == "read":
            return "0:00", "00000000 " + spelled(old)
        new = bytes(BLOCK * count) if verb == "zeroes" else self.bytes_of(words[5], BLOCK * count)
        if verb == "compare":
            return ("0:00" if old == new else "2:85"), "00000000"
        for n in range(count):
            space.data[slba + n] = new[BLOCK * n:BLOCK * (n + 1)]
        if self.image is not None:
            self.image.seek(BLOCK * (space.first + slba))
            self.image.write(new)
        return "0:00", "00000000"

    def block(self, space: Namespace, place: int) -> bytes:
        if place not in space.data and self.image is not None:
            self.image.seek(BLOCK * (space.first + place))
            space.data[place] = self.image.read(BLOCK)
        return space.data.get(place, bytes(BLOCK))

    @staticmethod
    def bytes_of(word: str, size: int) -> bytes:
        raw = bytes.fromhex(word.partition(":")[2])
        return raw * size if word.startswith("fill:") else raw.ljust(size, b"\0")

    def register(self, host: int, space: Namespace, numbers: List[int]) -> str:
        action, ignore, cptpl, current, new = numbers
        mine = space.keys.get(host)
        if action == 0 and mine not in (None, new) or action == 1 and (
                mine is None or not ignore and mine != current) or action == 2 and not ignore and mine != current:
            return "0:83"
        if action == 1:
            space.leave(host)
        else:
            space.keys[host] = new
        space.persists = {2: False, 3: True}.get(cptpl, space.persists)
        space.generation += 1
        return "0:00"

    def acquire(self, host: int, space: Namespace, numbers: List[int]) -> str:
        action, rtype, current, victim = numbers
        if space.keys.get(host) != current:
            return "0:83"
        if action == 0:
            if space.rtype and not (space.holds(host) and space.rtype == rtype):
                return "0:83"
            space.rtype, space.holder = rtype, host
            return "0:00"
        if not victim and space.rtype < 5:
            return "0:02"
        if victim and victim not in space.keys.values():
            return "0:83"
        is_all = not victim
        removed = [it for it, key in space.keys.items() if it != host and (is_all or key == victim)]
        takes = is_all or space.rtype in (1, 2, 3, 4) and space.holder is not None and (
            space.keys.get(space.holder) == victim)
        for it in removed:
            del space.keys[it]
        if takes:
            space.rtype, space.holder = rtype, host
        space.generation += 1
        if action == 2:
            self.mark(space, removed)
        return "0:00"

    def mark(self, space: Namespace, hosts: List[int]) -> None:
        for side in self.sides.values():
            for it in side.fetched:
                if side.host in hosts and self.spaces.get(it.nsid) is space and it.verb not in ADMIN:
                    it.marked = True

    def release(self, host: int, space: Namespace, numbers: List[int]) -> str:
        action, rtype, current = numbers
        if space.keys.get(host) != current:
            return "0:83"
        if action == 1:
            space.keys, space.rtype, space.holder = {}, 0, None
            space.generation += 1
        elif space.holds(host):
            if space.rtype != rtype:
                return "0:02"
            space.rtype, space.holder = 0, None
        return "0:00"

    def report(self, space: Namespace) -> bytes:
        found = space.generation.to_bytes(4, "little") + bytes((space.rtype,))
        controllers = [(c, it.host) for c, it in self.sides.items() if it.host in space.keys]
        found += len(controllers).to_bytes(2, "little") + bytes((0, 0, space.persists)) + bytes(54)
        for c, host in controllers:
            found += c.to_bytes(2, "little") + bytes((space.holds(host),)) + bytes(5)
            found += space.keys[host].to_bytes(8, "little") + host.to_bytes(16, "little") + bytes(32)
        return found

    def look(self, word: str, numbers: List[int]) -> str:
        head = " ".join(map(str, (word, *numbers)))
        if word == "fetched":
            parts = [f"command {n} queue {0 if it.verb in ADMIN else 1} cid {it.cid} opcode {NAMES[it.verb][0]} "
                     f"name {NAMES[it.verb][1]} nsid {it.nsid} marked {int(it.marked)}"
                     for n, it in enumerate(self.sides[numbers[0]].fetched)]
            return " ".join((head, *parts))
        if word == "attached":
            return " ".join((head, *(f"controller {c} namespace {n}" for c, n in self.attached)))
        if word == "driver":
            side = self.sides[numbers[0]]
            tickets = [(it, "aborted") for it in side.aborted] + [(it, "live") for it in sorted(side.live)]
            parts = [f"ticket {t} lane io is {how}" for t, how in tickets]
            return " ".join((head, "state", "up" if side.up else "down", "next", str(side.next), *parts))
        if word in ("queues", "registers"):
            side = self.sides[numbers[0]]
            state = f"cc {0x460001 if side.up else 0:#010x} csts {int(side.up):#010x}"
            return f"{head} {state if word == 'registers' else of_queues(side.counts) if side.up else ''}".strip()
        space = self.spaces[numbers[0]] if numbers else Namespace(0)
        if word == "reservation":
            who = "none" if not space.rtype else "all" if space.rtype > 4 else f"{space.holder or 0:#x}"
            parts = [f"registrant {host:#x} key {key:#x}" for host, key in space.keys.items()]
            return " ".join((head, f"type {space.rtype} holder {who} generation {space.generation} persists "
                             f"{int(space.persists)} protected {space.protection}", *parts))
        if word == "blocks":
            if not 1 <= numbers[2] <= 256 or numbers[1] + numbers[2] > space.blocks:
                raise ValueError("not all in the namespace")
            data = b"".join(self.block(space, numbers[1] + n) for n in range(numbers[2]))
            return f"{head} {spelled(data).split()[1]}"
        raise ValueError(word)


def of_queues(counts: Dict[str, int]) -> str:
    told: List[str] = []
    for lane in (0, 1):
        head, tail = (counts.get(f"{it}{lane}", 0) % 8 for it in ("head", "tail"))
        wraps, last = divmod(counts.get(f"posted{lane}", 0), 32)
        heard = counts.get(f"heard{lane}", 0) % 32
        told += [f"sq {lane} place {8192 * lane} size 8 head {head} tail {tail} to {lane}",
                 f"cq {lane} place {8192 * lane + 4096} size 32 head {heard} tail {last} phase {1 - wraps % 2}"]
    return " ".join(told)


def spelled(data: bytes) -> str:
    return f"{len(data)} {data.rstrip(bytes(1)).hex() or '-'}"


def main() -> int:
    world = World(open(sys.argv[1], "r+b", buffering=0) if sys.argv[1:] not in ([], ["-"]) else None)
    for line in sys.stdin:
        world.count += 1
        answer = world.answer(line.rstrip("\n"))
        sys.stdout.write(answer + "\n")
        sys.stdout.flush()
        if answer.startswith("refused line"):
            return 1
    return 0


if __name__ == "__main__":
    sys.exit(main())
