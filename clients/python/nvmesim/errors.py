"""Errors between a client and the subsystem, a class for each cause."""
from __future__ import annotations

from typing import Any, Dict, Optional, Tuple, Type

from .enums import Refusal, Rule, Status


_REFUSED = 2
_IN_USE = "' is in use: "


class NvmesimError(Exception):
    """The base of every exception of this package. It can be pickled, so a worker of a cluster can raise it."""

    def __reduce__(self) -> Tuple[Any, ...]:
        return _as_it_was, (type(self), self.args, self.__dict__)


def _as_it_was(kind: Type[NvmesimError], words: Tuple[Any, ...], attributes: Dict[str, Any]) -> NvmesimError:
    """Makes an exception without its constructor, whose arguments differ from those that pickle stores."""
    made = kind.__new__(kind, *words)
    made.__dict__.update(attributes)
    return made


class ArgumentError(NvmesimError, ValueError):
    """A call has a bad argument: a number that is too large, empty data, a text for a number."""


class ProtocolError(NvmesimError):
    """An answer that can't be parsed, or that answers another line."""


class LineError(NvmesimError):
    """The program refused a line: it is outside the grammar, or names something that does not exist.

    Attributes:
        line: the line as it was sent.
        why: the program's message.
    """

    def __init__(self, line: str, why: str) -> None:
        super().__init__(f"{why} (the line was {line!r})")
        self.line = line
        self.why = why


class SessionError(NvmesimError):
    """The session with the program is broken.

    Attributes:
        line: the last line that was sent, or an empty string.
        told: the program's standard error.
    """

    def __init__(self, what: str, line: str = "", told: str = "") -> None:
        words = what
        if line:
            words += f"; the last line was {line!r}"
        words += f"; standard error: {told.strip()}" if told.strip() else "; standard error is empty"
        super().__init__(words)
        self.line = line
        self.told = told


class ProgramNotFound(NvmesimError):
    """The program was not found."""


class ProgramDied(SessionError):
    """The program ended before it answered.

    Attributes:
        status: its exit status, negative for a signal; None if it closed its output and still runs.
    """

    def __init__(self, status: Optional[int], line: str, told: str) -> None:
        how = "closed its output" if status is None else f"ended with status {status}"
        super().__init__(f"the program {how} before it answered", line, told)
        self.status = status


class ImageInUse(ProgramDied):
    """The program did not start, since another one uses its image. Two programs that write one image lose blocks.

    Attributes:
        why: the program's message, which names the process with the image.
    """

    def __init__(self, status: Optional[int], line: str, told: str) -> None:
        super().__init__(status, line, told)
        self.why = told.strip().splitlines()[-1].split(": ", 1)[-1]
        self.args = (self.why,)


def death_of(status: Optional[int], line: str, told: str) -> ProgramDied:
    """The error for a program that ended before it answered, by its exit status and its standard error."""
    is_in_use = status == _REFUSED and told.strip() and _IN_USE in told.strip().splitlines()[-1]
    return (ImageInUse if is_in_use else ProgramDied)(status, line, told)


class ProgramHangs(SessionError):
    """No answer came within the time limit; the program was killed.

    Attributes:
        seconds: the time limit.
    """

    def __init__(self, seconds: float, line: str, told: str) -> None:
        super().__init__(f"no answer within {seconds:g} seconds, so the program was killed", line, told)
        self.seconds = seconds


class SessionClosed(NvmesimError):
    """The session was closed."""


class ConfigurationRefused(NvmesimError):
    """`start` found a fault in the configuration.

    Attributes:
        why: the program's message.
    """

    def __init__(self, why: str) -> None:
        super().__init__(f"the configuration is refused: {why}")
        self.why = why


class RequestRefused(NvmesimError):
    """The driver did not place a request. It took no ticket, and nothing changed.

    Attributes:
        line: the request's line.
        refusal: why.
    """

    def __init__(self, line: str, refusal: Refusal, why: str) -> None:
        super().__init__(f"the driver refuses {line!r}: {refusal.value}, {why}")
        self.line = line
        self.refusal = refusal


class NvmeError(NvmesimError):
    """A request was answered with a status other than success.

    Attributes:
        line: the request's line.
        status: the status, with its code and its standard name.
        rule: the rule that denied the command; `Rule.NONE` if it was allowed and then failed.
        cause: the field, its value and the state that it conflicts with, if rule 6 or 11 denied the command and the
        call of this request executed it; else an empty string.
    """

    def __init__(self, line: str, status: Status, rule: Rule, cause: str = "") -> None:
        words = f"{status.text} ({status.code})"
        if rule is not Rule.NONE:
            words += f" by rule {rule.value}: {rule.words}"
        if cause:
            words += f": {cause}"
        super().__init__(f"{line!r} was answered {words}")
        self.line = line
        self.status = status
        self.rule = rule
        self.cause = cause


class RequestAborted(NvmesimError):
    """A reset or a power cycle aborted a request before its answer was delivered. It may have been executed or not.

    Attributes:
        line: the request's line.
    """

    def __init__(self, line: str) -> None:
        super().__init__(f"{line!r} was aborted by a reset or a power cycle; it may have been executed")
        self.line = line


class NotDone(NvmesimError):
    """An event that was required had no effect: a driver that isn't up, a full queue."""


class ScriptError(NvmesimError):
    """A script, or a transcript, that can't be read.

    Attributes:
        number: the line at fault, from 1, or 0.
        why: what is wrong, without the line's number.
    """

    def __init__(self, number: int, why: str) -> None:
        super().__init__(f"line {number}: {why}" if number else why)
        self.number = number
        self.why = why


class ExpressionError(NvmesimError):
    """An expression of `--always` or `--never` that is always true or false, or names an answer that does not exist."""


class OutputRefused(NvmesimError):
    """A file that a command must not write: it is an input, or it exists and --force is missing."""


class FileFault(NvmesimError):
    """A system call on a file failed.

    Attributes:
        action: what failed, such as `read`.
        name: the file.
        why: the system's reason.
    """

    def __init__(self, action: str, name: str, why: str) -> None:
        super().__init__(f"can't {action} {name}: {why}")
        self.action = action
        self.name = name
        self.why = why
