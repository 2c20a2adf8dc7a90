"""Describes in words a line of a script, its answer, and the command that it is about."""
from __future__ import annotations

from typing import Dict, List, Optional, Sequence, Tuple

from .answers import (Answer, Executed, Fetched, NotThere, Polled, PowerCycled, Refused, Reset, Rung, Stored, Up,
                      Wrote32)
from .enums import (AcquireAction, AdminOpcode, ExecuteOutcome, IoOpcode, Persistence, PollOutcome, Protection,
                    Refusal, RegisterAction, ReleaseAction, ReservationType, Rule, Status, UpOutcome)
from .history import Command, Event
from .raw import Entry
from .reports import HEADER_BYTES, ReservationReport, parse_report
from .script import Configuration, LineKind, ScriptLine

_NAMES = {
    "read": "Read", "write": "Write", "compare": "Compare", "zeroes": "Write Zeroes", "flush": "Flush",
    "register": "Reservation Register", "acquire": "Reservation Acquire", "release": "Reservation Release",
    "report": "Reservation Report", "identify": "Identify", "protect": "Set Features, write protection",
    "protection": "Get Features, write protection", "attach": "Namespace Attachment, attach",
    "detach": "Namespace Attachment, detach",
}
_REGISTERS = {
    0x14: "Controller Configuration", 0x24: "the sizes of the admin queues",
    0x28: "the address of the admin submission queue, low half", 0x2C: "the same, high half",
    0x30: "the address of the admin completion queue, low half", 0x34: "the same, high half",
}
_PROTECTIONS = {
    Protection.NONE: "ended", Protection.PROTECTED: "set", Protection.UNTIL_POWER_CYCLE: "set until a power cycle",
}
_PERSISTENCES = {
    Persistence.KEEP: "", Persistence.CLEAR: "; nothing persists through a loss of power from now on",
    Persistence.SET: "; all persists through a loss of power from now on",
}
# What a driver takes of a request: a field, its place among the numbers of the line, and its least and greatest value.
_TAKEN: Dict[str, Tuple[Tuple[str, int, int, int], ...]] = {
    **dict.fromkeys(("read", "write", "compare"), (("BLOCKS", 3, 1, 256),)), "zeroes": (("BLOCKS", 3, 1, 65536),),
    "register": (("ACTION", 2, 0, 7), ("CPTPL", 4, 0, 3)), "acquire": (("ACTION", 2, 0, 7),),
    "release": (("ACTION", 2, 0, 7),), "report": (("DWORDS", 2, 1, 32768),), "protect": (("STATE", 2, 0, 7),),
}
_MOST_LISTED = 2047
_RANGED = (IoOpcode.READ, IoOpcode.WRITE, IoOpcode.COMPARE, IoOpcode.WRITE_ZEROES)


def shortened(text: str, width: int) -> str:
    """A text cut to at most `width` columns; a cut one ends with two dots."""
    return text if len(text) <= width else text[:max(0, width - 2)] + ".."


def hexadecimal(number: int) -> str:
    """A number as the standards write it, such as 1fh."""
    return f"{number:x}h"


def blocks_words(slba: int, count: int) -> str:
    """A range of blocks."""
    return f"block {slba}" if count == 1 else f"blocks {slba} to {slba + count - 1}" if count else "no blocks"


def command_name(command: Command) -> str:
    """The command's standard name."""
    if command.line is not None:
        return _NAMES[command.line.verb]
    if command.entry is None:
        return "a command"
    opcode = command.entry.opcode
    return opcode.text if isinstance(opcode, (AdminOpcode, IoOpcode)) else f"opcode {hexadecimal(opcode)}"


def command_words(command: Command) -> str:
    """The command with its namespace and fields."""
    if command.line is not None:
        return request_words(command.line)
    return _entry_words(command_name(command), command.entry) if command.entry is not None else command_name(command)


def _entry_words(name: str, entry: Entry) -> str:
    words = [name, f"CID {entry.cid}"]
    if entry.queue or entry.nsid:
        words.append(f"namespace {entry.nsid}")
    if entry.opcode in _RANGED and entry.queue:
        words.append(blocks_words(entry.field(40, 8), entry.field(48, 2) + 1))
    elif not entry.queue and isinstance(entry.opcode, AdminOpcode) and "QUEUE" in entry.opcode.name:
        words.append(f"queue {entry.field(40, 2)}")
    return ", ".join(words)


def command_label(command: Command) -> str:
    """The command by its ticket and its name, or as its host stored it."""
    if command.ticket is not None:
        return f"ticket {command.ticket} ({command_name(command)})"
    return command_words(command)


def rule_words(command: Command) -> str:
    """The rule that denied a command, by its number and in words; an empty string if none did."""
    if not command.is_denied:
        return ""
    words = command.rule.words
    if command.rule is Rule.ACTION and command.line is not None:
        is_list = command.line.verb in ("attach", "detach")
        words = "the list of controllers is refused" if is_list else "the reservation refuses the action"
    return f"rule {command.rule.value}: {words}"


def tickets_words(commands: Sequence[Command]) -> str:
    """Several requests by their tickets."""
    tickets = [str(it.ticket) for it in commands]
    return f"ticket {tickets[0]}" if len(tickets) == 1 else f"tickets {', '.join(tickets[:-1])} and {tickets[-1]}"


def request_words(line: ScriptLine) -> str:
    """The command that a request's line asks for."""
    name, numbers = _NAMES[line.verb], line.numbers()[1:]
    if line.verb in ("read", "write", "compare", "zeroes"):
        return f"{name}, namespace {numbers[0]}, {blocks_words(numbers[1], numbers[2])}"
    if line.verb in ("register", "acquire", "release"):
        return f"{name}, namespace {numbers[0]}, {_reservation_words(line.verb, numbers[1:])}"
    if line.verb == "identify":
        return f"{name}, {_identify_words(*numbers)}"
    words = f"{name}, namespace {numbers[0]}"
    if line.verb == "report":
        return f"{words}, {4 * numbers[1]} bytes"
    if line.verb == "protect":
        return f"{words}, {_PROTECTIONS.get(numbers[1], f'state {numbers[1]}')}"
    if line.verb in ("attach", "detach"):
        return f"{words}, {_controllers(numbers[1:])}"
    return words


def _controllers(numbers: Sequence[int]) -> str:
    if not numbers:
        return "no controllers"
    return ("controller " if len(numbers) == 1 else "controllers ") + ", ".join(map(str, numbers))


def _identify_words(cns: int, nsid: int) -> str:
    known = {0: f"namespace {nsid}", 1: "the controller", 2: f"the namespaces above {nsid}"}
    return known.get(cns, f"CNS {cns}, namespace {nsid}")


def _type_words(number: int) -> str:
    return ReservationType(number).text if 1 <= number <= 6 else f"type {number}"


def _reservation_words(verb: str, numbers: List[int]) -> str:
    action = numbers[0]
    if verb == "register":
        _, ignore, cptpl, current, new = numbers
        lasting = _PERSISTENCES.get(cptpl, f"; CPTPL {cptpl}")
        known = "any key" if ignore else f"key {hexadecimal(current)}"
        texts: Dict[int, str] = {
            RegisterAction.REGISTER: f"registers key {hexadecimal(new)}{lasting}",
            RegisterAction.UNREGISTER: f"unregisters {known}{lasting}",
            RegisterAction.REPLACE: f"replaces {known} by {hexadecimal(new)}{lasting}",
        }
    elif verb == "acquire":
        _, rtype, current, preempted = numbers
        kind, mine = _type_words(rtype), f"with key {hexadecimal(current)}"
        texts = {
            AcquireAction.ACQUIRE: f"acquires {kind} {mine}",
            AcquireAction.PREEMPT: f"preempts key {hexadecimal(preempted)} {mine}, {kind}",
            AcquireAction.PREEMPT_AND_ABORT: f"preempts key {hexadecimal(preempted)} and aborts, {mine}, {kind}",
        }
    else:
        _, rtype, current = numbers
        mine = f"with key {hexadecimal(current)}"
        texts = {
            ReleaseAction.RELEASE: f"releases {_type_words(rtype)} {mine}",
            ReleaseAction.CLEAR: f"clears all registrations {mine}",
        }
    return texts.get(action, f"action {action}")


def register_words(offset: int) -> str:
    """The register at an offset."""
    if offset in _REGISTERS:
        return _REGISTERS[offset]
    if offset >= 0x1000 and offset % 4 == 0:
        number, is_head = divmod(offset - 0x1000, 8)
        return f"the head doorbell of completion queue {number}" if is_head else (
            f"the tail doorbell of submission queue {number}")
    return f"offset {hexadecimal(offset)}"


def configuration_words(line: ScriptLine) -> str:
    """The meaning of a line before the events; an empty string for a comment or a blank line."""
    if line.kind is LineKind.START:
        return "the subsystem is checked and started; the events follow"
    if line.kind is not LineKind.CONFIGURATION:
        return ""
    words = line.words
    if line.verb == "controller":
        how = "a raw host's, without a driver" if words[-1] == "raw" else "with a driver"
        return f"controller {words[1]} belongs to {host_words(int(words[3], 16))}, {how}"
    if line.verb == "namespace":
        return f"namespace {words[1]} has {words[3]} blocks, {words[4]}"
    return f"controller {words[1]} may use namespace {words[2]}"


def host_words(host: int) -> str:
    """A host by its identifier."""
    return f"host {hexadecimal(host)}"


def status_words(status: Status) -> str:
    """A status by its name and its code."""
    return f"{status.text} ({status.code})"


def verdict_words(command: Command) -> str:
    """The result of its execution, with the rule in words if one denied it."""
    if command.status is None:
        return "not executed"
    if command.is_denied:
        return f"denied with {status_words(command.status)} by {rule_words(command)}"
    if command.status.is_success:
        return "done"
    return f"failed with {status_words(command.status)}"


_MISSES = {
    "nocontroller": "no such controller is configured: nothing happens",
    "nodriver": "it has no driver, and the line is a driver's: nothing happens",
    "notraw": "it has a driver, and the line is a raw host's: nothing happens",
}


def meaning(event: Event, configuration: Configuration) -> str:
    """What an event means, in words."""
    answer, number = event.answer, event.line.controller
    if isinstance(answer, NotThere):
        return f"controller {number}: {_MISSES[answer.why]}"
    if isinstance(answer, PowerCycled):
        return _power_words(event)
    host = configuration.hosts.get(number)
    who = f"{host_words(host)}'s driver" if host is not None else "the driver"
    if isinstance(answer, Refused):
        return f"{who} refuses {request_words(event.line)}: {refused_words(event.line, answer)}"
    if isinstance(answer, (Fetched, Executed)):
        return f"controller {number} {_controller_words(event, answer)}"
    if isinstance(answer, (Stored, Wrote32)):
        return f"{host_words(host) if host is not None else 'the host'} {_raw_words(event, answer)}"
    if event.line.is_request and event.command is not None:
        return f"{who} places ticket {event.command.ticket}: {command_words(event.command)}"
    return f"{who} {_driver_words(event, answer)}"


def short_meaning(event: Event) -> str:
    """What an event means, without who does it: for a text next to its line."""
    answer = event.answer
    if isinstance(answer, NotThere):
        return _MISSES[answer.why]
    if isinstance(answer, PowerCycled):
        return "all drivers and controllers are down"
    if isinstance(answer, Refused):
        return f"refused: {refused_words(event.line, answer)}"
    if isinstance(answer, (Fetched, Executed)):
        return _controller_words(event, answer)
    if isinstance(answer, (Stored, Wrote32)):
        return _raw_words(event, answer)
    return _driver_words(event, answer)


def refused_words(line: ScriptLine, answer: Refused) -> str:
    """Why a driver refuses a request, with the field that no command can express if there is one."""
    field = _bad_field(line) if answer.refusal is Refusal.BAD_REQUEST else ""
    return f"{answer.refusal.words}: {field}" if field else answer.refusal.words


def _bad_field(line: ScriptLine) -> str:
    """The first field of a request that no command can express; an empty string if there is none."""
    numbers = line.numbers()
    for name, place, least, most in _TAKEN.get(line.verb, ()):
        if not least <= numbers[place] <= most:
            return f"{name} is {numbers[place]:,}, and {least:,} to {most:,} are taken"
    if line.verb in ("attach", "detach") and len(numbers) - 2 > _MOST_LISTED:
        return f"the list has {len(numbers) - 2:,} controllers; at most {_MOST_LISTED:,} are allowed"
    return ""


def _driver_words(event: Event, answer: Answer) -> str:
    number = event.line.controller
    if isinstance(answer, Up):
        texts = {
            UpOutcome.OK: f"comes up, and controller {number} with it",
            UpOutcome.ALREADY_UP: "is up already: nothing happens",
            UpOutcome.NOT_READY: f"can't come up: controller {number} does not get ready",
            UpOutcome.NO_ANSWER: f"can't come up: controller {number} does not answer",
        }
        refused = "" if answer.status is None else status_words(answer.status)
        return texts.get(answer.outcome, f"can't come up: a command of it was answered {refused}")
    if isinstance(answer, Rung):
        if not answer.is_up:
            return "is not up: nothing happens"
        told = tickets_words(event.commands) if event.commands else "nothing new"
        return f"notifies controller {number} of {told}"
    if isinstance(answer, Reset):
        met = f", and {tickets_words(event.commands)} will be delivered as aborted" if event.commands else ""
        return f"resets controller {number}; both are down{met}"
    return _poll_words(event, answer) if isinstance(answer, Polled) else event.text


def _power_words(event: Event) -> str:
    """What a power cycle does, and which commands it aborts."""
    words = "the whole subsystem loses power and gets it back; all drivers and controllers are down"
    waiting: Dict[int, List[Command]] = {}
    for command in event.commands:
        if command.ticket is not None:
            waiting.setdefault(command.controller, []).append(command)
    for controller, commands in waiting.items():
        words += f"; controller {controller}'s {tickets_words(commands)} will be delivered as aborted"
    forgotten = sum(command.ticket is None for command in event.commands)
    if forgotten:
        words += f"; {_forgotten_words(forgotten)}"
    return words


def _forgotten_words(count: int) -> str:
    return f"{count} fetched command{' is' if count == 1 else 's are'} forgotten"


def _poll_words(event: Event, answer: Polled) -> str:
    command = event.command
    if command is None:
        texts = {
            PollOutcome.NOTHING: "has no answer to deliver",
            PollOutcome.NOT_UP: "is not up, and has nothing to deliver",
            PollOutcome.UNKNOWN_COMMAND: "meets a completion that answers no request",
        }
        return texts.get(answer.outcome, event.text)
    if answer.status is None:
        return f"delivers {command_label(command)} as aborted by event {command.reset}"
    words = f"delivers the answer of {command_label(command)}: {status_words(answer.status)}"
    if command.is_denied:
        words += f", by rule {command.rule.value}"
    if answer.value:
        words += f"; double word 0 is {answer.value}"
    if answer.data is not None:
        is_report = command.line is not None and command.line.verb == "report" and len(answer.data) >= HEADER_BYTES
        words += f"; {report_words(parse_report(answer.data)) if is_report else data_words(answer.data)}"
    return words


def report_words(report: ReservationReport) -> str:
    """The content of a Reservation Report."""
    held = "no reservation" if report.rtype is ReservationType.NONE else report.rtype.text
    words = f"generation {report.generation}, {held}{', persists' if report.persists else ''}, "
    words += f"{report.count} registered controller{'' if report.count == 1 else 's'}"
    for it in report.controllers:
        holds = ", a holder" if it.is_holder else ""
        words += f"; controller {it.number} of {host_words(it.host)} with key {hexadecimal(it.key)}{holds}"
    rest = report.count - len(report.controllers)
    return words + (f"; and {rest} that the report cuts off" if rest else "")


def data_words(data: bytes, most: int = 16) -> str:
    """Bytes in short: their number, and the first ones that matter, also as text if all are visible."""
    kept = data.rstrip(b"\0")
    if not kept:
        return f"{len(data)} bytes of zeros"
    if kept == data and len(set(data)) == 1:
        return f"{len(data)} bytes, each {data[0]:02x}h"
    shown = kept[:most]
    text = f" '{shown.decode('ascii')}'" if all(0x20 <= it < 0x7F for it in shown) else ""
    return f"{len(data)} bytes, {shown.hex()}{'..' if len(kept) > most else ''}{text}"


def _controller_words(event: Event, answer: Answer) -> str:
    command: Optional[Command] = event.command
    if isinstance(answer, Fetched):
        if command is None:
            return f"finds nothing to fetch in queue {answer.queue}: nothing is rung there that it has not fetched"
        return f"fetches {command_label(command)} from queue {answer.queue}"
    if isinstance(answer, Executed) and command is not None:
        return f"executes {command_label(command)}: {verdict_words(command)}"
    if isinstance(answer, Executed) and answer.outcome is ExecuteOutcome.FULL:
        return "has no room for a completion, and executes nothing"
    return f"has no command at place {answer.place}" if isinstance(answer, Executed) else event.text


def _raw_words(event: Event, answer: Answer) -> str:
    _, address, *rest = event.line.numbers()
    if isinstance(answer, Stored):
        size = len(event.line.data())
        bytes_words = f"{size} byte{'' if size == 1 else 's'}"
        if not answer.is_inside:
            return f"stores nothing: {bytes_words} from {hexadecimal(address)} on end outside of its window"
        return f"stores {bytes_words} from {hexadecimal(address)} on in its window"
    words = f"writes {hexadecimal(rest[0])} to {register_words(address)}"
    if address == 0x14 and event.commands:
        words += f"; {_forgotten_words(len(event.commands))}"
    return words
