"""Why a command was denied by rule 6 or 11: the field, its value, and the state that it conflicts with.

The program reports the rule and the status of a denied command. The rows below find the cause: the first row that holds
and has that status. A denied command changes nothing, so the state can be queried after it.
"""
from __future__ import annotations

import struct
from dataclasses import dataclass, field
from typing import Callable, Dict, Iterator, List, Optional, Tuple

from . import looks
from .answers import Executed
from .enums import AdminOpcode, IoOpcode, Protection, ReservationType, Rule, Status
from .errors import NvmesimError
from .history import Command, Event
from .raw import Entry
from .script import Configuration

Look = Callable[[str], str]
"""Returns the answer of a query; raises `NvmesimError` if there is none."""
Row = Tuple[Status, str]

_FIELD, _SEQUENCE = Status.INVALID_FIELD_IN_COMMAND, Status.COMMAND_SEQUENCE_ERROR
_CONFLICT = Status.RESERVATION_CONFLICT
_MOST_BYTES = 131072
_MOST_QUEUE, _MOST_ENTRIES = 4, 64
_WINDOW, _PAGE = 4194304, 4096
_FEATURES = {"set": "neither 07h nor 84h", "get": "none of 07h, 81h and 84h"}


@dataclass
class _Asked:
    """A denied command: its request in the words of a script, and its fields by the standard's names."""

    verb: str
    host: int
    controller: int
    nsid: int
    fields: Dict[str, int]
    look: Look
    listed: List[int] = field(default_factory=list)

    def __getitem__(self, name: str) -> int:
        return self.fields[name]


def cause_of(command: Command, configuration: Configuration, look: Look) -> str:
    """Why a command was denied by rule 6 or 11; an empty string if the cause is unknown.

    Args:
        command: the command that was executed last.
        configuration: the script's lines before `start`.
        look: queries the subsystem after the command.
    """
    if command.rule not in (Rule.FIELD, Rule.ACTION) or command.status is None:
        return ""
    try:
        asked = _asked(command, configuration, look)
        if asked is None:
            return ""
        rows = _field_rows(asked) if command.rule is Rule.FIELD else _action_rows(asked)
        return next((words for status, words in rows if status is command.status), "")
    except (NvmesimError, ValueError, KeyError, struct.error):
        return ""


def event_cause(event: Event, configuration: Configuration, look: Look) -> str:
    """Why the last event denied a command; an empty string if it denied none by these rules."""
    if isinstance(event.answer, Executed) and event.command is not None:
        return cause_of(event.command, configuration, look)
    return ""


def _asked(command: Command, configuration: Configuration, look: Look) -> Optional[_Asked]:
    host = configuration.hosts.get(command.controller, 0)
    if command.line is not None:
        verb, (_, nsid, *rest) = command.line.verb, command.line.numbers()
        names = _NAMES.get(verb, ())
        listed = rest if verb in ("attach", "detach") else []
        if verb == "identify":
            nsid, rest = rest[0], [nsid]
        return _Asked(verb, host, command.controller, nsid, dict(zip(names, rest)), look, listed)
    if command.entry is None:
        return None
    return _asked_raw(command, command.entry, host, look)


_NAMES: Dict[str, Tuple[str, ...]] = {
    "register": ("ACTION", "IEKEY", "CPTPL", "CRKEY", "NRKEY"), "acquire": ("ACTION", "RTYPE", "CRKEY", "PRKEY"),
    "release": ("ACTION", "RTYPE", "CRKEY"), "identify": ("CNS",), "protect": ("WPS",),
}
_RAW_VERBS = {
    "READ": "read", "WRITE": "write", "COMPARE": "compare", "RESERVATION_REGISTER": "register",
    "RESERVATION_ACQUIRE": "acquire", "RESERVATION_RELEASE": "release", "RESERVATION_REPORT": "report",
    "IDENTIFY": "identify", "SET_FEATURES": "set", "GET_FEATURES": "get", "NAMESPACE_ATTACHMENT": "attachment",
    "CREATE_IO_COMPLETION_QUEUE": "create cq", "CREATE_IO_SUBMISSION_QUEUE": "create sq",
    "DELETE_IO_COMPLETION_QUEUE": "delete cq", "DELETE_IO_SUBMISSION_QUEUE": "delete sq",
}


def _asked_raw(command: Command, entry: Entry, host: int, look: Look) -> Optional[_Asked]:
    """The fields of an entry, by their places in the double words 10 to 12."""
    opcode = entry.opcode
    # By its name, since an opcode of the one kind of queue is another command's on the other.
    verb = _RAW_VERBS.get(opcode.name) if isinstance(opcode, (IoOpcode, AdminOpcode)) else None
    if verb is None:
        return None
    cdw10, cdw11 = entry.field(40, 4), entry.field(44, 4)
    asked = _Asked(verb, host, command.controller, entry.nsid, {
        "ACTION": cdw10 & 7, "IEKEY": cdw10 >> 3 & 1, "RTYPE": cdw10 >> 8 & 0xFF, "CPTPL": cdw10 >> 30,
        "NLB": entry.field(48, 2), "NUMD": cdw10, "EDS": cdw11 & 1, "CNS": cdw10 & 0xFF, "FID": cdw10 & 0xFF,
        "SV": cdw10 >> 31, "WPS": cdw11 & 7, "NSQR": cdw11 & 0xFFFF, "NCQR": cdw11 >> 16, "EXHID": cdw11 & 1,
        "SEL": cdw10 & 0xF, "QID": cdw10 & 0xFFFF, "QSIZE": cdw10 >> 16, "PC": cdw11 & 1, "CQID": cdw11 >> 16,
        "PRP1": entry.field(24, 8)}, look)
    if command.rule is Rule.ACTION:
        _read_data(asked)
    return asked


def _read_data(asked: _Asked) -> None:
    """The keys, or the list of controllers, in the window of a raw host."""
    place = asked["PRP1"]
    if asked.verb == "attachment":
        asked.verb = "detach" if asked["SEL"] else "attach"
        data = _window(asked, place, _PAGE - place % _PAGE)
        count = min(struct.unpack_from("<H", data)[0], len(data) // 2 - 1)
        asked.listed = list(struct.unpack_from(f"<{count}H", data, 2))
    else:
        first, second = struct.unpack("<QQ", _window(asked, place, 16))
        asked.fields.update(CRKEY=first, NRKEY=second, PRKEY=second)


def _window(asked: _Asked, address: int, length: int) -> bytes:
    return looks.window(asked.look(f"?window {asked.controller} {address} {length}"), asked.controller, address, length)


def _h(number: int) -> str:
    return f"{number:x}h"


def _host(number: int) -> str:
    return f"host {_h(number)}"


# Rule 6: a row for each that holds, in the order of the rules.

def _field_rows(asked: _Asked) -> Iterator[Row]:
    rows = _FIELD_ROWS.get(asked.verb)
    return rows(asked) if rows is not None else iter(())


def _range_rows(asked: _Asked) -> Iterator[Row]:
    if asked["NLB"] > 255:
        yield _FIELD, f"NLB is {asked['NLB']}, {asked['NLB'] + 1} blocks; at most 256 are allowed"


def _above(asked: _Asked, name: str, called: str, most: int) -> Iterator[Row]:
    if asked[name] > most:
        yield _FIELD, f"{called} is {asked[name]}; at most {most} is allowed"


def _register_fields(asked: _Asked) -> Iterator[Row]:
    yield from _above(asked, "ACTION", "RREGA (ACTION)", 2)
    if asked["CPTPL"] == 1:
        yield _FIELD, "CPTPL is 01b, which is reserved"


def _iekey(asked: _Asked) -> Iterator[Row]:
    if asked.fields.get("IEKEY", 0):
        yield _FIELD, "IEKEY is 1, and only 0 is taken"


def _acquire_fields(asked: _Asked) -> Iterator[Row]:
    yield from _above(asked, "ACTION", "RACQA (ACTION)", 2)
    yield from _iekey(asked)
    if not 1 <= asked["RTYPE"] <= 6:
        yield _FIELD, f"RTYPE is {asked['RTYPE']}, and types are 1 to 6"


def _release_fields(asked: _Asked) -> Iterator[Row]:
    yield from _above(asked, "ACTION", "RRELA (ACTION)", 1)
    yield from _iekey(asked)


def _report_fields(asked: _Asked) -> Iterator[Row]:
    if not asked["EDS"]:
        yield Status.HOST_IDENTIFIER_INCONSISTENT_FORMAT, "EDS is 0, and hosts have identifiers of 128 bits"
    size = 4 * (asked["NUMD"] + 1)
    if size > _MOST_BYTES:
        yield _FIELD, f"NUMD is {_h(asked['NUMD'])}, {size:,} bytes; at most {_MOST_BYTES:,} are allowed"


def _identify_fields(asked: _Asked) -> Iterator[Row]:
    return _above(asked, "CNS", "CNS", 2)


def _protect_fields(asked: _Asked) -> Iterator[Row]:
    yield from _above(asked, "WPS", "WPS (STATE)", 2)
    space = next((it for it in looks.namespaces(asked.look("?namespaces")) if it.number == asked.nsid), None)
    if space is not None and space.protection is Protection.UNTIL_POWER_CYCLE:
        yield Status.FEATURE_NOT_CHANGEABLE, f"namespace {asked.nsid} is write protected until a power cycle (WPS 2)"


def _set_fields(asked: _Asked) -> Iterator[Row]:
    if asked["FID"] not in (0x07, 0x84):
        yield _FIELD, f"FID is {_h(asked['FID'])}, {_FEATURES['set']}"
    if asked["SV"]:
        yield Status.FEATURE_IDENTIFIER_NOT_SAVEABLE, "SV is 1, and no feature is saveable"
    if asked["FID"] == 0x07:
        for name in ("NSQR", "NCQR"):
            if asked[name] == 0xFFFF:
                yield _FIELD, f"{name} is FFFFh"
        if any(it.number for it in _queues(asked)):
            yield _SEQUENCE, f"an I/O queue exists: {_queue_names(asked)}"
    else:
        yield from _protect_fields(asked)


def _get_fields(asked: _Asked) -> Iterator[Row]:
    if asked["FID"] not in (0x07, 0x81, 0x84):
        yield _FIELD, f"FID is {_h(asked['FID'])}, {_FEATURES['get']}"
    if asked["FID"] == 0x81 and not asked["EXHID"]:
        yield _FIELD, "EXHID is 0, and hosts have identifiers of 128 bits"


def _attachment_fields(asked: _Asked) -> Iterator[Row]:
    if "SEL" in asked.fields:
        yield from _above(asked, "SEL", "SEL", 1)
    yield _FIELD, f"NSID is {asked.nsid}, and that namespace is not configured"


def _queues(asked: _Asked) -> List[looks.Queue]:
    return looks.queues(asked.look(f"?queues {asked.controller}"), asked.controller)


def _queue_names(asked: _Asked) -> str:
    return ", ".join(f"{'submission' if it.is_submission else 'completion'} queue {it.number}"
                     for it in _queues(asked) if it.number)


def _there(asked: _Asked, is_submission: bool) -> List[int]:
    return [it.number for it in _queues(asked) if it.is_submission is is_submission]


def _create_fields(asked: _Asked) -> Iterator[Row]:
    is_submission = asked.verb == "create sq"
    kind = "submission" if is_submission else "completion"
    qid, entries, prp1 = asked["QID"], asked["QSIZE"] + 1, asked["PRP1"]
    if not asked["PC"]:
        yield _FIELD, "PC is 0, but queues must be contiguous"
    if not 1 <= qid <= _MOST_QUEUE:
        yield Status.INVALID_QUEUE_IDENTIFIER, f"QID is {qid}, and I/O queues are 1 to {_MOST_QUEUE}"
    if qid in _there(asked, is_submission):
        yield Status.INVALID_QUEUE_IDENTIFIER, f"QID is {qid}, and {kind} queue {qid} exists"
    if not 2 <= entries <= _MOST_ENTRIES:
        words = f"QSIZE is {entries - 1}, {entries} entries, and 2 to {_MOST_ENTRIES} are taken"
        yield Status.INVALID_QUEUE_SIZE, words
    if is_submission and not 1 <= asked["CQID"] <= _MOST_QUEUE:
        yield Status.INVALID_QUEUE_IDENTIFIER, f"CQID is {asked['CQID']}, and I/O queues are 1 to {_MOST_QUEUE}"
    if is_submission and asked["CQID"] not in _there(asked, False):
        yield Status.COMPLETION_QUEUE_INVALID, f"CQID is {asked['CQID']}, and no such completion queue exists"
    if prp1 % _PAGE:
        yield Status.PRP_OFFSET_INVALID, f"PRP1 is {_h(prp1)}, no multiple of 4,096"
    if prp1 + entries * (64 if is_submission else 16) > _WINDOW:
        yield _FIELD, f"PRP1 is {_h(prp1)}, and the queue would end past the window"


def _delete_fields(asked: _Asked) -> Iterator[Row]:
    is_submission = asked.verb == "delete sq"
    kind, qid = "submission" if is_submission else "completion", asked["QID"]
    if qid == 0 or qid not in _there(asked, is_submission):
        yield Status.INVALID_QUEUE_IDENTIFIER, f"QID is {qid}, and no I/O {kind} queue {qid} exists"
    users = [it.number for it in _queues(asked) if it.is_submission and it.completion_queue == qid]
    if not is_submission and users:
        yield Status.INVALID_QUEUE_DELETION, f"QID is {qid}, and submission queue {users[0]} uses it"


_FIELD_ROWS: Dict[str, Callable[[_Asked], Iterator[Row]]] = {
    "read": _range_rows, "write": _range_rows, "compare": _range_rows, "register": _register_fields,
    "acquire": _acquire_fields, "release": _release_fields, "report": _report_fields, "identify": _identify_fields,
    "protect": _protect_fields, "set": _set_fields, "get": _get_fields, "attachment": _attachment_fields,
    "attach": _attachment_fields, "detach": _attachment_fields, "create cq": _create_fields,
    "create sq": _create_fields, "delete cq": _delete_fields, "delete sq": _delete_fields,
}


# Rule 11.

def _action_rows(asked: _Asked) -> Iterator[Row]:
    if asked.verb in ("attach", "detach"):
        return _list_rows(asked)
    state = looks.reservation(asked.look(f"?reservation {asked.nsid}"), asked.nsid)
    return _ACTION_ROWS[asked.verb](asked, state)


def _unregistered(asked: _Asked, state: looks.ReservationState) -> Iterator[Row]:
    """The host has not registered CRKEY."""
    key = state.registrants.get(asked.host)
    if key is None:
        yield _CONFLICT, f"{_host(asked.host)} has registered no key"
    elif key != asked["CRKEY"]:
        yield _CONFLICT, f"CRKEY is {_h(asked['CRKEY'])}, and {_host(asked.host)} has registered key {_h(key)}"


def _register_rows(asked: _Asked, state: looks.ReservationState) -> Iterator[Row]:
    key = state.registrants.get(asked.host)
    if asked["ACTION"] == 0:
        if key is not None and key != asked["NRKEY"]:
            yield _CONFLICT, f"NRKEY is {_h(asked['NRKEY'])}, and {_host(asked.host)} has registered key {_h(key)}"
    elif key is None or not asked["IEKEY"]:
        yield from _unregistered(asked, state)


def _held_words(state: looks.ReservationState) -> str:
    who = "all registrants" if state.holder is None else _host(state.holder)
    return f"{who} hold{'' if state.holder is None else 's'} it as {state.rtype.text} ({int(state.rtype)})"


def _acquire_rows(asked: _Asked, state: looks.ReservationState) -> Iterator[Row]:
    yield from _unregistered(asked, state)
    prkey = asked["PRKEY"]
    if asked["ACTION"] == 0:
        if state.rtype is not ReservationType.NONE:
            yield _CONFLICT, f"RTYPE is {asked['RTYPE']}, and {_held_words(state)}"
    elif prkey == 0:
        yield _FIELD, f"PRKEY is 0, and there is no reservation of all registrants: " + (
            "nobody holds it" if state.rtype is ReservationType.NONE else _held_words(state))
    elif prkey not in state.registrants.values():
        yield _CONFLICT, f"PRKEY is {_h(prkey)}, which no host has registered"


def _release_rows(asked: _Asked, state: looks.ReservationState) -> Iterator[Row]:
    yield from _unregistered(asked, state)
    if asked["ACTION"] == 0:
        yield _FIELD, f"RTYPE is {asked['RTYPE']}, and {_held_words(state)}"


_ACTION_ROWS = {"register": _register_rows, "acquire": _acquire_rows, "release": _release_rows}


def _list_rows(asked: _Asked) -> Iterator[Row]:
    """The list as a whole, then each of its controllers."""
    listed, there = asked.listed, looks.attached(asked.look("?attached"))
    if not listed:
        yield Status.CONTROLLER_LIST_INVALID, "the list of controllers is empty"
    for before, number in zip([0, *listed], listed):
        if number <= before and before:
            yield Status.CONTROLLER_LIST_INVALID, f"controller {number} comes after controller {before} in the list"
        if not _is_there(asked, number):
            yield Status.CONTROLLER_LIST_INVALID, f"controller {number} is not configured"
    shared = {it.number: it.is_shared for it in looks.namespaces(asked.look("?namespaces"))}
    holders = [controller for controller, nsid in there if nsid == asked.nsid]
    for number in listed:
        if asked.verb == "detach":
            if number not in holders:
                yield Status.NAMESPACE_NOT_ATTACHED, f"controller {number} is not attached to namespace {asked.nsid}"
            continue
        if number in holders:
            words = f"controller {number} is attached to namespace {asked.nsid} already"
            yield Status.NAMESPACE_ALREADY_ATTACHED, words
        elif not shared.get(asked.nsid, True) and holders:
            yield Status.NAMESPACE_IS_PRIVATE, f"namespace {asked.nsid} is private, but controller {holders[0]} has it"
        holders = [*holders, number]


def _is_there(asked: _Asked, controller: int) -> bool:
    try:
        asked.look(f"?registers {controller}")
    except NvmesimError:
        return False
    return True
