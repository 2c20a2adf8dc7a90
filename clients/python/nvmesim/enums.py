"""Names of the standard, and the subsystem's own: statuses, rules, reservation types, opcodes, refusals."""
from __future__ import annotations

import enum
from typing import Optional


class Status(enum.Enum):
    """A status of the NVM Express specifications: its value is `type:code`, as transcripts have it."""

    text: str
    """The standard's name."""

    def __new__(cls, code: str, text: str) -> Status:
        status = object.__new__(cls)
        status._value_ = code
        status.text = text
        return status

    SUCCESSFUL_COMPLETION = ("0:00", "Successful Completion")
    INVALID_COMMAND_OPCODE = ("0:01", "Invalid Command Opcode")
    INVALID_FIELD_IN_COMMAND = ("0:02", "Invalid Field in Command")
    DATA_TRANSFER_ERROR = ("0:04", "Data Transfer Error")
    INVALID_NAMESPACE_OR_FORMAT = ("0:0b", "Invalid Namespace or Format")
    COMMAND_SEQUENCE_ERROR = ("0:0c", "Command Sequence Error")
    PRP_OFFSET_INVALID = ("0:13", "PRP Offset Invalid")
    HOST_IDENTIFIER_INCONSISTENT_FORMAT = ("0:18", "Host Identifier Inconsistent Format")
    COMMAND_ABORTED_DUE_TO_PREEMPT_AND_ABORT = ("0:1b", "Command Aborted due to Preempt and Abort")
    NAMESPACE_IS_WRITE_PROTECTED = ("0:20", "Namespace is Write Protected")
    LBA_OUT_OF_RANGE = ("0:80", "LBA Out of Range")
    RESERVATION_CONFLICT = ("0:83", "Reservation Conflict")
    COMPLETION_QUEUE_INVALID = ("1:00", "Completion Queue Invalid")
    INVALID_QUEUE_IDENTIFIER = ("1:01", "Invalid Queue Identifier")
    INVALID_QUEUE_SIZE = ("1:02", "Invalid Queue Size")
    INVALID_QUEUE_DELETION = ("1:0c", "Invalid Queue Deletion")
    FEATURE_IDENTIFIER_NOT_SAVEABLE = ("1:0d", "Feature Identifier Not Saveable")
    FEATURE_NOT_CHANGEABLE = ("1:0e", "Feature Not Changeable")
    NAMESPACE_ALREADY_ATTACHED = ("1:18", "Namespace Already Attached")
    NAMESPACE_IS_PRIVATE = ("1:19", "Namespace Is Private")
    NAMESPACE_NOT_ATTACHED = ("1:1a", "Namespace Not Attached")
    CONTROLLER_LIST_INVALID = ("1:1c", "Controller List Invalid")
    WRITE_FAULT = ("2:80", "Write Fault")
    UNRECOVERED_READ_ERROR = ("2:81", "Unrecovered Read Error")
    COMPARE_FAILURE = ("2:85", "Compare Failure")

    @classmethod
    def of(cls, code: str) -> Optional[Status]:
        """The status with this code, such as `0:83`, if there is one."""
        return next((it for it in cls if it.value == code), None)

    @property
    def code(self) -> str:
        """The type in one hexadecimal digit and the code in two, as transcripts have it."""
        return str(self.value)

    @property
    def is_success(self) -> bool:
        """Whether the command was executed without a failure."""
        return self is Status.SUCCESSFUL_COMPLETION


class Rule(enum.IntEnum):
    """The rules that judge a command, in their order. The first that fails denies it and gives its status."""

    NONE = 0
    PREEMPTED = 1
    OPCODE = 2
    FORM = 3
    IDENTIFIER = 4
    ATTACHMENT = 5
    FIELD = 6
    RESERVATION = 7
    PROTECTION = 8
    RANGE = 9
    DATA_POINTER = 10
    ACTION = 11

    @property
    def words(self) -> str:
        """Why a command is denied by this rule."""
        return _RULE_WORDS[self]


_RULE_WORDS = {
    Rule.NONE: "no rule denied it",
    Rule.PREEMPTED: "a Preempt and Abort met it, and its host lost its registration",
    Rule.OPCODE: "its opcode is none of its queue's",
    Rule.FORM: "it is fused, or its data pointer is not of PRP entries",
    Rule.IDENTIFIER: "no namespace can have its identifier",
    Rule.ATTACHMENT: "its namespace is not configured, or not attached to the controller",
    Rule.FIELD: "a field has a value that the command does not take",
    Rule.RESERVATION: "the reservation of the namespace does not permit it to the host",
    Rule.PROTECTION: "the namespace is write protected",
    Rule.RANGE: "its range ends past the namespace",
    Rule.DATA_POINTER: "its data pointer has a fault",
    Rule.ACTION: "the reservation refuses the action, or the list of controllers can't be attached or detached",
}


class ReservationType(enum.IntEnum):
    """RTYPE: what a reservation leaves to hosts that do not hold it."""

    NONE = 0
    WRITE_EXCLUSIVE = 1
    EXCLUSIVE_ACCESS = 2
    WRITE_EXCLUSIVE_REGISTRANTS_ONLY = 3
    EXCLUSIVE_ACCESS_REGISTRANTS_ONLY = 4
    WRITE_EXCLUSIVE_ALL_REGISTRANTS = 5
    EXCLUSIVE_ACCESS_ALL_REGISTRANTS = 6

    @property
    def text(self) -> str:
        """The standard's name."""
        words = self.name.split("_")
        head, tail = words[:2], words[2:]
        name = " ".join(it.capitalize() for it in head)
        return name + (", " + " ".join(it.capitalize() for it in tail) if tail else "")


class RegisterAction(enum.IntEnum):
    """RREGA, the action of a Reservation Register."""

    REGISTER = 0
    UNREGISTER = 1
    REPLACE = 2


class AcquireAction(enum.IntEnum):
    """RACQA, the action of a Reservation Acquire."""

    ACQUIRE = 0
    PREEMPT = 1
    PREEMPT_AND_ABORT = 2


class ReleaseAction(enum.IntEnum):
    """RRELA, the action of a Reservation Release."""

    RELEASE = 0
    CLEAR = 1


class Persistence(enum.IntEnum):
    """CPTPL of a Reservation Register: whether registrants and reservation persist through a loss of power from now
    on."""

    KEEP = 0
    CLEAR = 2
    SET = 3


class Protection(enum.IntEnum):
    """Write protection of a namespace, by the states of Set Features: none, until it is ended, until a power cycle."""

    NONE = 0
    PROTECTED = 1
    UNTIL_POWER_CYCLE = 2


class IoOpcode(enum.IntEnum):
    """The opcodes of I/O queues."""

    FLUSH = 0x00
    WRITE = 0x01
    READ = 0x02
    COMPARE = 0x05
    WRITE_ZEROES = 0x08
    RESERVATION_REGISTER = 0x0D
    RESERVATION_REPORT = 0x0E
    RESERVATION_ACQUIRE = 0x11
    RESERVATION_RELEASE = 0x15

    @property
    def text(self) -> str:
        """The standard's name."""
        return _opcode_text(self.name)


class AdminOpcode(enum.IntEnum):
    """The opcodes of the admin queue."""

    DELETE_IO_SUBMISSION_QUEUE = 0x00
    CREATE_IO_SUBMISSION_QUEUE = 0x01
    DELETE_IO_COMPLETION_QUEUE = 0x04
    CREATE_IO_COMPLETION_QUEUE = 0x05
    IDENTIFY = 0x06
    SET_FEATURES = 0x09
    GET_FEATURES = 0x0A
    NAMESPACE_ATTACHMENT = 0x15

    @property
    def text(self) -> str:
        """The standard's name."""
        return _opcode_text(self.name)


def _opcode_text(name: str) -> str:
    return " ".join("I/O" if it == "IO" else it.capitalize() for it in name.split("_"))


class Refusal(enum.Enum):
    """Why a driver did not place a request: the first of these that holds. A refused request changes nothing."""

    NOT_READY = "NotReady"
    BAD_REQUEST = "BadRequest"
    NO_SLOT = "NoSlot"
    RING_FULL = "RingFull"
    TICKETS_EXHAUSTED = "TicketsExhausted"

    @property
    def words(self) -> str:
        """What the refusal means."""
        return _REFUSAL_WORDS[self]


_REFUSAL_WORDS = {
    Refusal.NOT_READY: "the driver is not up",
    Refusal.BAD_REQUEST: "no command can express this",
    Refusal.NO_SLOT: "24 requests wait for their answers",
    Refusal.RING_FULL: "the queue holds seven commands that may not be fetched yet",
    Refusal.TICKETS_EXHAUSTED: "all tickets were given",
}


class UpOutcome(enum.Enum):
    """The result of bringing a driver up."""

    OK = "ok"
    ALREADY_UP = "AlreadyUp"
    NOT_READY = "NotReady"
    NO_ANSWER = "NoAnswer"
    REFUSED = "Refused"


class ExecuteOutcome(enum.Enum):
    """The result of an execution: a completion, no command at that place, or no free slot for a completion."""

    POSTED = "posted"
    NONE = "none"
    FULL = "full"


class PollOutcome(enum.Enum):
    """What a poll delivered."""

    ANSWERED = "answered"
    ABORTED = "aborted"
    NOTHING = "nothing"
    NOT_UP = "NotUp"
    UNKNOWN_COMMAND = "UnknownCommand"
