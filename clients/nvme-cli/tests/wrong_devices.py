"""Wrong devices: the lab's own, with one fault each put before them. Run in a lab, as `wrong_devices.py [NAME ..]`.

Each is compared with the model until a difference is found, which must be soon; of some the difference is made as short
as it can be, and printed as the script that it is. The status is 1 if a fault is not found.
"""
import struct
import sys
import time
from dataclasses import replace
from pathlib import Path
from typing import Callable, Dict, List, Optional

sys.path.insert(0, str(Path(__file__).resolve().parents[2] / "python"))

from nvmesim.conform import Abilities, Answer, Device, Judge, scene
from nvmesim.conform.device import Command
from nvmesim.expect import read_test, try_script

FLUSH, WRITE, READ, COMPARE, ZEROES, REGISTER, REPORT, ACQUIRE, RELEASE = 0, 1, 2, 5, 8, 0x0D, 0x0E, 0x11, 0x15
SET_FEATURES, GET_FEATURES, ATTACHMENT = 0x09, 0x0A, 0x15
GOOD = Answer("0:00")
MOST_SCENES, LENGTH = 60, 40
SHORTENED = {"a Write loses its last block", "a fenced Write reaches the disk", "Clear leaves the registrants"}

Fault = Callable[["Wrong", Command], Optional[Answer]]


class Wrong:
    """A device with a fault before it: the fault answers a command, or leaves it to the device."""

    def __init__(self, device: Device, other: Device, fault: Fault) -> None:
        self.device, self.other, self.fault = device, other, fault
        self.count = 0

    def submit(self, command: Command) -> Answer:
        answer = self.fault(self, command)
        return self.device.submit(command) if answer is None else answer

    def report(self) -> bytes:
        return self.device.submit(Command(False, REPORT, 255, 1, wanted=1024)).data

    @property
    def rtype(self) -> int:
        return self.report()[4]


def is_io(command: Command, opcode: int) -> bool:
    return not command.is_admin and command.opcode == opcode


def is_admin(command: Command, opcode: int) -> bool:
    return command.is_admin and command.opcode == opcode


def status(opcode: int, found: str, told: str, admin: bool = False) -> Fault:
    """Returns another status instead of one."""
    def fault(wrong: Wrong, command: Command) -> Optional[Answer]:
        if command.is_admin is not admin or command.opcode != opcode:
            return None
        answer = wrong.device.submit(command)
        data = bytes(command.wanted) if told == "0:00" else b""
        return replace(answer, status=told, data=data) if answer.status == found else answer
    return fault


def altered(opcode: int, change: Callable[[Command], Command]) -> Fault:
    """Executes another command instead of one."""
    return lambda wrong, command: wrong.device.submit(change(command)) if is_io(command, opcode) else None


def of_report(change: Callable[[bytearray], None]) -> Fault:
    """Returns another report."""
    def fault(wrong: Wrong, command: Command) -> Optional[Answer]:
        if not is_io(command, REPORT):
            return None
        answer = wrong.device.submit(command)
        data = bytearray(answer.data)
        if data:
            change(data)
        return replace(answer, data=bytes(data))
    return fault


def loses_every_third(wrong: Wrong, command: Command) -> Optional[Answer]:
    wrong.count += is_io(command, WRITE)
    if is_io(command, WRITE) and wrong.count % 3 == 0:
        answer = wrong.device.submit(replace(command, opcode=FLUSH, cdw10=0, cdw11=0, cdw12=0, sent=b""))
        return answer
    return None


def first_twice(wrong: Wrong, command: Command) -> Optional[Answer]:
    if not is_io(command, READ) or command.cdw12 != 1:
        return None
    answer = wrong.device.submit(command)
    return replace(answer, data=answer.data[:512] * 2)


def fenced_write(wrong: Wrong, command: Command) -> Optional[Answer]:
    if not is_io(command, WRITE):
        return None
    answer = wrong.device.submit(command)
    return wrong.other.submit(command) if answer.status == "0:83" else answer


def second_registration(wrong: Wrong, command: Command) -> Optional[Answer]:
    if not is_io(command, REGISTER) or command.cdw10 & 7:
        return None
    answer = wrong.device.submit(command)
    return wrong.device.submit(replace(command, cdw10=2 | 1 << 3)) if answer.status == "0:83" else answer


def preempted_stay(wrong: Wrong, command: Command) -> Optional[Answer]:
    if not is_io(command, ACQUIRE) or command.cdw10 & 7 not in (1, 2):
        return None
    answer = wrong.device.submit(command)
    if answer.status == "0:00":
        wrong.other.submit(Command(False, REGISTER, 0, sent=bytes(8) + command.sent[8:]))
    return answer


def clear_leaves(wrong: Wrong, command: Command) -> Optional[Answer]:
    if not is_io(command, RELEASE) or command.cdw10 & 7 != 1:
        return None
    return wrong.device.submit(replace(command, cdw10=wrong.rtype << 8))


def any_type(wrong: Wrong, command: Command) -> Optional[Answer]:
    if not is_io(command, RELEASE) or command.cdw10 & 7:
        return None
    return wrong.device.submit(replace(command, cdw10=(wrong.rtype or 1) << 8))


def dropped_protection(wrong: Wrong, command: Command) -> Optional[Answer]:
    return GOOD if is_admin(command, SET_FEATURES) and command.cdw11 == 1 else None


def end_is_further(wrong: Wrong, command: Command) -> Optional[Answer]:
    if not is_io(command, READ):
        return None
    answer = wrong.device.submit(command)
    if answer.status == "0:80" and command.cdw12 and wrong.device.submit(
            replace(command, cdw12=command.cdw12 - 1, wanted=command.wanted - 512)).status == "0:00":
        return Answer("0:00", data=bytes(command.wanted))
    return answer


def protection_is_off(wrong: Wrong, command: Command) -> Optional[Answer]:
    return replace(wrong.device.submit(command), value=0) if is_admin(command, GET_FEATURES) else None


def cut(data: bytearray) -> None:
    count, = struct.unpack_from("<H", data, 5)
    struct.pack_into("<H", data, 5, max(0, count - 1))


def no_holder(data: bytearray) -> None:
    for at in range(64, len(data), 64):
        data[at + 2] = 0


def still_generation(data: bytearray) -> None:
    struct.pack_into("<I", data, 0, 7)


def not_persistent(data: bytearray) -> None:
    data[9] = 0


FAULTS: Dict[str, Fault] = {
    "a Write loses its last block": altered(WRITE, lambda it: replace(it, cdw12=it.cdw12 - 1, sent=it.sent[:-512])
                                            if it.cdw12 else it),
    "a Write goes one block further": altered(WRITE, lambda it: replace(it, cdw10=it.cdw10 + 1)
                                              if it.cdw12 == 0 else it),
    "each third Write is lost": loses_every_third,
    "a Read begins one block earlier": altered(READ, lambda it: replace(it, cdw10=max(0, it.cdw10 - 1))),
    "a Read of two blocks gives the first twice": first_twice,
    "Write Zeroes leaves its last block": altered(ZEROES, lambda it: replace(it, cdw12=max(0, it.cdw12 - 1))),
    "Write Zeroes zeroes one block more": altered(ZEROES, lambda it: replace(it, cdw12=it.cdw12 + 1)),
    "each Compare succeeds": status(COMPARE, "2:85", "0:00"),
    "a Compare that fails is a fault of the medium": status(COMPARE, "2:85", "2:81"),
    "one block after the end can be read": end_is_further,
    "a range after the end is an invalid field": status(WRITE, "0:80", "0:02"),
    "a fenced Write is reported as done": status(WRITE, "0:83", "0:00"),
    "a fenced Write reaches the disk": fenced_write,
    "a fenced Read is let through": status(READ, "0:83", "0:00"),
    "a Flush is never fenced": status(FLUSH, "0:83", "0:00"),
    "Register does not look at the key": altered(REGISTER, lambda it: replace(it, cdw10=it.cdw10 | 1 << 3)),
    "a second registration replaces the key": second_registration,
    "RREGA 3 is taken": status(REGISTER, "0:02", "0:00"),
    "Acquire takes each type as Write Exclusive": altered(
        ACQUIRE, lambda it: replace(it, cdw10=it.cdw10 & 0xFF | 1 << 8) if it.cdw10 >> 8 in range(2, 7) else it),
    "a reserved type is taken": status(ACQUIRE, "0:02", "0:00"),
    "the preempted stay registered": preempted_stay,
    "Release takes any type": any_type,
    "Clear leaves the registrants": clear_leaves,
    "a report lacks its last registrant": of_report(cut),
    "a report has no holder": of_report(no_holder),
    "the generation does not change": of_report(still_generation),
    "a report does not tell what persists": of_report(not_persistent),
    "write protection is not set": dropped_protection,
    "write protection is not reported": protection_is_off,
    "a protected namespace is written": status(WRITE, "0:20", "0:00"),
    "what is attached is attached again": status(ATTACHMENT, "1:18", "0:00", admin=True),
    "an empty list of controllers is taken": status(ATTACHMENT, "1:1c", "0:00", admin=True),
}


def find(name: str, devices: List[Device], hosts: List[Abilities]) -> bool:
    """Whether the difference that a fault makes is found; and says how soon, and which it is."""
    begun = time.monotonic()
    wrong = [Wrong(device, devices[1 - n], FAULTS[name]) for n, device in enumerate(devices)]
    judge = Judge(wrong, hosts)
    for seed in range(1, MOST_SCENES + 1):
        found = judge.play(scene(seed, hosts, LENGTH))
        if found is None:
            continue
        if name in SHORTENED or name in sys.argv[1:]:
            found = judge.shortened(found)
            script = "".join(f"{it}\n" for it in judge.script(found))
            print(script, end="")
            if not try_script(read_test(name, script)).is_good:
                print(f"{name}: the model does not answer its script as it was said", file=sys.stderr)
                return False
        print(f"# {name}: {found.step.verb} differs, {found.device[0]} and {found.model[0]}, after {len(found.steps)} "
              f"commands of scene {seed}, {judge.runs} runs, {time.monotonic() - begun:.1f} seconds", flush=True)
        return True
    print(f"{name}: not found in {MOST_SCENES} scenes", file=sys.stderr)
    return False


def main() -> int:
    devices = [Device("/dev/nvme0n1"), Device("/dev/nvme1n1")]
    hosts = [Abilities.of(it) for it in devices]
    found = [find(name, devices, hosts) for name in sys.argv[1:] or FAULTS]
    return 0 if all(found) else 1


if __name__ == "__main__":
    sys.exit(main())
