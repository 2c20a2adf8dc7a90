"""A host with a driver: each command is a request of its driver, which single events complete."""
from typing import List, Tuple

from nvmelab.entries import Command, Completion
from nvmelab.faults import Ended
from nvmelab.host import Data, Host
from nvmelab.looks import data_bytes
from nvmelab.requests import Unsaid, request_line

# The I/O submission queue that a driver makes.
QUEUE_ENTRIES = 8


class DriverHost(Host):
    """A host with a driver. It supports only the commands that a request can express."""

    @property
    def queue_entries(self) -> int:
        return QUEUE_ENTRIES

    def bring_up(self) -> None:
        """Resets the driver and its controller, and brings both up. No request waits, since each is completed at
        once."""
        c = self.cntlid
        up, = self.ask([f"reset {c}", f"up {c}"], [f"reset {c}"])
        if up != f"up {c} ok":
            raise Ended(f"controller {c} does not come up: `{up}`")

    def run(self, is_admin: bool, command: Command, data: Data) -> Tuple[Completion, bytes]:
        try:
            line = request_line(self.cntlid, is_admin, command, data)
        except Unsaid as unsaid:
            return Completion.of(unsaid.status), b""
        status, dw0, came = self.carry_out(line, 0 if is_admin else 1)
        completion = Completion.of(status, dw0)
        if command.sends_data or not completion.is_success:
            return completion, b""
        return completion, came[:len(data.content)] + data.content[len(came):]

    def carry_out(self, line: str, queue: int) -> Tuple[int, int, bytes]:
        """Places a request, rings, fetches, executes and polls. Returns the status, double word 0 and the data."""
        c = self.cntlid
        placed, *answers = self.ask([line, f"ring {c}", f"fetch {c} {queue}", f"execute {c} 0", f"poll {c}"], [])
        ticket = placed.rpartition(" ")[2]
        executed, polled = answers[2].split(), answers[3].split()
        wanted = [f"placed {c} {ticket}", f"rung {c}", f"fetch {c} {queue} took"]
        is_posted = executed[:4] == ["execute", str(c), "0", "posted"] and len(executed) == 6
        if [placed, *answers[:2]] != wanted or not is_posted or polled[:4] != ["poll", str(c), ticket, executed[4]]:
            raise Ended(f"`{line[:60]}` was answered `{'; '.join((placed, *answers))[:200]}`")
        return status_of(executed[4]), int(polled[4], 16), answer_data(polled[5:])


def status_of(word: str) -> int:
    """A status as transcripts have it: its type in a hexadecimal digit, a colon, and its code in two."""
    kind, _, code = word.partition(":")
    return int(kind, 16) << 8 | int(code, 16)


def answer_data(words: List[str]) -> bytes:
    """The data of a poll's answer, or no bytes."""
    return data_bytes(words[1], int(words[0])) if words else b""
