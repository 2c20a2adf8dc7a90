"""A host with a driver, as an object: one call for a whole request, or one for each event."""
from __future__ import annotations

from dataclasses import dataclass
from typing import Dict, Optional, Union

from . import lines, looks
from .answers import Polled, Refused, Reset, Rung, Up
from .arguments import whole
from .causes import cause_of
from .controllers import Controller, ControllersLike, answer_of, numbers_of
from .enums import (AcquireAction, ExecuteOutcome, Persistence, PollOutcome, Protection, RegisterAction, ReleaseAction,
                    ReservationType, Status)
from .errors import NotDone, NvmeError, RequestAborted, RequestRefused
from .history import Command
from .lines import Bytes
from .reports import HEADER_BYTES, ReservationReport, parse_report
from .script import Configuration
from .session import Session
from .words import refused_words


_HEADER_DWORDS = HEADER_BYTES // 4


@dataclass(frozen=True)
class Namespace:
    """A namespace: its identifier, its blocks of 512 bytes, and whether several controllers may have it."""

    number: int
    blocks: int
    is_shared: bool


NamespaceLike = Union[Namespace, int]


def nsid_of(namespace: NamespaceLike) -> int:
    """The identifier of a namespace."""
    if isinstance(namespace, Namespace):
        return namespace.number
    return whole("namespace", namespace, 32)


class Host:
    """A host with a driver, which places requests and delivers their answers by ticket.

    `place_..` place a request and return its ticket; with `ring`, `poll` and the controller's `fetch` and `execute` the
    caller chooses the order. The calls without `place_` do all of that for one request: they return its result, or
    raise `NvmeError`.

    Attributes:
        host: its identifier.
        controller: its controller.
        answers: answers that were delivered while waiting for another request, by their tickets.
    """

    def __init__(self, session: Session, number: int, host: int) -> None:
        self._session = session
        self.host = host
        self.controller = Controller(session, number)
        self.answers: Dict[int, Polled] = {}
        self._commands: Dict[int, Command] = {}

    @property
    def number(self) -> int:
        """The number of its controller."""
        return self.controller.number

    def up(self) -> Up:
        """Brings the driver and its controller up."""
        return answer_of(self._session.event(lines.up(self.number)), Up)

    def ring(self) -> Rung:
        """Writes the doorbells for everything that was placed."""
        return answer_of(self._session.event(lines.ring(self.number)), Rung)

    def poll(self) -> Polled:
        """Delivers one answer, if there is any."""
        return answer_of(self._session.event(lines.poll(self.number)), Polled)

    def reset(self) -> Reset:
        """Resets the driver and its controller: requests that were not delivered are delivered as aborted."""
        return answer_of(self._session.event(lines.reset(self.number)), Reset)

    def state(self) -> looks.DriverState:
        """The driver's state and the tickets that were not delivered. Changes nothing."""
        return looks.driver(self._session.look(f"?driver {self.number}"), self.number)

    def place(self, line: str) -> int:
        """Places the request of a line, and returns its ticket.

        Raises:
            RequestRefused: the driver refused it.
        """
        event = self._session.event(line)
        if isinstance(event.answer, Refused):
            raise RequestRefused(line, event.answer.refusal, refused_words(event.line, event.answer))
        if event.command is None or event.command.ticket is None:
            raise NotDone(f"{line!r} was answered {event.text!r}")
        self._commands[event.command.ticket] = event.command
        return event.command.ticket

    def place_read(self, namespace: NamespaceLike, slba: int, blocks: int = 1) -> int:
        """Places a Read of 1 to 256 blocks from block `slba`."""
        return self.place(lines.read(self.number, nsid_of(namespace), slba, blocks))

    def place_write(self, namespace: NamespaceLike, slba: int, data: Bytes, blocks: Optional[int] = None) -> int:
        """Places a Write of data, padded with zeros to `blocks` blocks, by default to whole blocks."""
        count = lines.blocks_of(data) if blocks is None else blocks
        return self.place(lines.write(self.number, nsid_of(namespace), slba, count, data))

    def place_compare(self, namespace: NamespaceLike, slba: int, data: Bytes, blocks: Optional[int] = None) -> int:
        """Places a Compare with data, padded as those of a Write."""
        count = lines.blocks_of(data) if blocks is None else blocks
        return self.place(lines.compare(self.number, nsid_of(namespace), slba, count, data))

    def place_zeroes(self, namespace: NamespaceLike, slba: int, blocks: int) -> int:
        """Places a Write Zeroes on 1 to 65,536 blocks."""
        return self.place(lines.zeroes(self.number, nsid_of(namespace), slba, blocks))

    def place_flush(self, namespace: NamespaceLike) -> int:
        """Places a Flush."""
        return self.place(lines.flush(self.number, nsid_of(namespace)))

    def place_register(self, namespace: NamespaceLike, new_key: int = 0, current_key: int = 0,
                       action: RegisterAction = RegisterAction.REGISTER, ignore_existing_key: bool = False,
                       persist: Persistence = Persistence.KEEP) -> int:
        """Places a Reservation Register; keys have 64 bits."""
        return self.place(lines.register(self.number, nsid_of(namespace), action, new_key, current_key,
                                         ignore_existing_key, persist))

    def place_acquire(self, namespace: NamespaceLike, rtype: ReservationType, key: int, preempted_key: int = 0,
                      action: AcquireAction = AcquireAction.ACQUIRE) -> int:
        """Places a Reservation Acquire; keys have 64 bits."""
        return self.place(lines.acquire(self.number, nsid_of(namespace), action, rtype, key, preempted_key))

    def place_release(self, namespace: NamespaceLike, rtype: ReservationType, key: int,
                      action: ReleaseAction = ReleaseAction.RELEASE) -> int:
        """Places a Reservation Release; the key has 64 bits."""
        return self.place(lines.release(self.number, nsid_of(namespace), action, rtype, key))

    def place_report(self, namespace: NamespaceLike, dwords: int = 1024) -> int:
        """Places a Reservation Report of 1 to 32,768 double words of 4 bytes: 16 for its header and for each entry."""
        return self.place(lines.report(self.number, nsid_of(namespace), dwords))

    def place_identify(self, cns: int, namespace: NamespaceLike = 0) -> int:
        """Places an Identify: CNS 0 the namespace, 1 the controller, 2 its namespaces above `namespace`."""
        return self.place(lines.identify(self.number, cns, nsid_of(namespace)))

    def place_protect(self, namespace: NamespaceLike, state: Union[Protection, bool] = Protection.PROTECTED) -> int:
        """Places a Set Features that sets or ends write protection of a namespace."""
        return self.place(lines.protect(self.number, nsid_of(namespace), state))

    def place_protection(self, namespace: NamespaceLike) -> int:
        """Places a Get Features: the state of a namespace's write protection, in double word 0 of the answer."""
        return self.place(lines.protection(self.number, nsid_of(namespace)))

    def place_attach(self, namespace: NamespaceLike, controllers: ControllersLike) -> int:
        """Places a Namespace Attachment that attaches controllers: hosts or numbers, in ascending order."""
        return self.place(lines.attach(self.number, nsid_of(namespace), numbers_of(controllers)))

    def place_detach(self, namespace: NamespaceLike, controllers: ControllersLike) -> int:
        """Places a Namespace Attachment that detaches controllers: hosts or numbers, in ascending order."""
        return self.place(lines.detach(self.number, nsid_of(namespace), numbers_of(controllers)))

    def read(self, namespace: NamespaceLike, slba: int, blocks: int = 1) -> bytes:
        """Reads blocks: 512 bytes each."""
        return self.finish(self.place_read(namespace, slba, blocks)).data or b""

    def write(self, namespace: NamespaceLike, slba: int, data: Bytes, blocks: Optional[int] = None) -> None:
        """Writes data to blocks from `slba`."""
        self.finish(self.place_write(namespace, slba, data, blocks))

    def compare(self, namespace: NamespaceLike, slba: int, data: Bytes, blocks: Optional[int] = None) -> None:
        """Compares blocks with data; raises `NvmeError` with Compare Failure if they differ."""
        self.finish(self.place_compare(namespace, slba, data, blocks))

    def zeroes(self, namespace: NamespaceLike, slba: int, blocks: int) -> None:
        """Writes zeros to blocks."""
        self.finish(self.place_zeroes(namespace, slba, blocks))

    def flush(self, namespace: NamespaceLike) -> None:
        """Flushes the medium."""
        self.finish(self.place_flush(namespace))

    def register(self, namespace: NamespaceLike, new_key: int = 0, current_key: int = 0,
                 action: RegisterAction = RegisterAction.REGISTER, ignore_existing_key: bool = False,
                 persist: Persistence = Persistence.KEEP) -> None:
        """Registers, unregisters or replaces this host's key; `persist` is whether it survives a power loss."""
        self.finish(self.place_register(namespace, new_key, current_key, action, ignore_existing_key, persist))

    def acquire(self, namespace: NamespaceLike, rtype: ReservationType, key: int, preempted_key: int = 0,
                action: AcquireAction = AcquireAction.ACQUIRE) -> None:
        """Acquires a reservation, or preempts the hosts with a key."""
        self.finish(self.place_acquire(namespace, rtype, key, preempted_key, action))

    def release(self, namespace: NamespaceLike, rtype: ReservationType, key: int,
                action: ReleaseAction = ReleaseAction.RELEASE) -> None:
        """Releases the reservation, or clears all registrations."""
        self.finish(self.place_release(namespace, rtype, key, action))

    def report(self, namespace: NamespaceLike, dwords: int = 1024) -> ReservationReport:
        """A decoded Reservation Report of at least 16 double words."""
        whole("dwords", dwords, 32, least=_HEADER_DWORDS)
        return parse_report(self.finish(self.place_report(namespace, dwords)).data or b"")

    def identify(self, cns: int, namespace: NamespaceLike = 0) -> bytes:
        """The 4,096 bytes of an Identify."""
        return self.finish(self.place_identify(cns, namespace)).data or b""

    def protect(self, namespace: NamespaceLike, state: Union[Protection, bool] = Protection.PROTECTED) -> None:
        """Sets or ends write protection. Only a power cycle ends protection until a power cycle."""
        self.finish(self.place_protect(namespace, state))

    def protection(self, namespace: NamespaceLike) -> Protection:
        """The write protection of a namespace; `Protection.NONE`, which is false, if there is none."""
        return Protection(self.finish(self.place_protection(namespace)).value)

    def attach(self, namespace: NamespaceLike, controllers: ControllersLike) -> None:
        """Attaches controllers to a namespace: hosts or numbers, in ascending order."""
        self.finish(self.place_attach(namespace, controllers))

    def detach(self, namespace: NamespaceLike, controllers: ControllersLike) -> None:
        """Detaches controllers from a namespace: hosts or numbers, in ascending order."""
        self.finish(self.place_detach(namespace, controllers))

    def finish(self, ticket: int) -> Polled:
        """Completes a request from any point: rings, fetches, executes and polls as needed.

        Other requests of the driver may be rung and fetched on the way, and answers of theirs that are delivered are
        kept in `answers`. They are not executed.

        Raises:
            NvmeError: the request was answered with another status than success.
            RequestAborted: a reset or a power cycle aborted it.
            NotDone: it can't be completed, because nothing is fetched or executed any more.
        """
        command = self._commands.get(whole("ticket", ticket, 64))
        if command is None:
            raise NotDone(f"controller {self.number} has placed no request under ticket {ticket} here")
        if command.polled is not None and ticket not in self.answers:
            raise NotDone(f"the answer of ticket {ticket} of controller {self.number} was delivered before")
        cause = ""
        if command.reset is None and command.polled is None:
            cause = self._execute(command)
        while ticket not in self.answers:
            polled = self.poll()
            if polled.ticket is None:
                raise NotDone(f"ticket {ticket} of controller {self.number} was not delivered: {polled.outcome.value}")
            self.answers[polled.ticket] = polled
        answer = self.answers.pop(ticket)
        line = command.line.text if command.line is not None else ""
        if answer.outcome is PollOutcome.ABORTED or answer.status is None:
            raise RequestAborted(line)
        if answer.status is not Status.SUCCESSFUL_COMPLETION:
            raise NvmeError(line, answer.status, command.rule, cause)
        return answer

    def _execute(self, command: Command) -> str:
        """Rings, fetches and executes a request as far as needed. Returns why it was denied, if that is known."""
        if command.rung is None:
            self.ring()
        while command.fetched is None:
            if not self.controller.fetch(command.queue).took:
                raise NotDone(f"controller {self.number} fetches nothing more from queue {command.queue}")
        place = self._session.follower.place_of(command)
        if place is None:
            return ""
        if self.controller.execute(place).outcome is not ExecuteOutcome.POSTED:
            raise NotDone(f"controller {self.number} has no room for a completion")
        return cause_of(command, Configuration({self.number: self.host}, (), {}), self._session.look)
