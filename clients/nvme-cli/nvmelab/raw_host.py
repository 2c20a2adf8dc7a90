"""A raw host, which the lab drives: it stores entries in the window and writes registers."""
from typing import List, Tuple

from nvmelab import entries, looks, queues
from nvmelab.entries import Command, Completion
from nvmelab.faults import Ended
from nvmelab.host import Data, Host, NoQueue
from nvmelab.queues import CompletionQueue, Queues, SubmissionQueue
from nvmelab.subsystem import Subsystem

# What bringing up writes: admin queues of 64 entries each, entries of 64 and 16 bytes, EN.
CONFIGURATION, STATUS, ADMIN_SIZES = 0x14, 0x1c, 0x24
ADMIN_SUBMISSION, ADMIN_COMPLETION = 0x28, 0x30
ENABLED = 0x460001
READY = 1
STORED, WRITTEN = "stored", "wrote32"


class RawHost(Host):
    """A host without a driver: any command is passed on unchanged."""

    def __init__(self, subsystem: Subsystem, cntlid: int) -> None:
        super().__init__(subsystem, cntlid)
        self.queues = Queues()
        self.next_cid = 0
        self.rung_later: List[str] = []

    @property
    def queue_entries(self) -> int:
        return queues.QUEUE_ENTRIES

    def store_line(self, place: int, content: bytes) -> str:
        return f"store {self.cntlid} {place} hex:{content.hex()}"

    def write_line(self, offset: int, value: int) -> str:
        return f"write32 {self.cntlid} {offset:#x} {value:#x}"

    def zero_line(self, place: int, entry_bytes: int) -> str:
        return self.store_line(place, bytes(entry_bytes * queues.QUEUE_ENTRIES))

    def bring_up(self) -> None:
        """Resets the controller, enables it, and makes the pair of I/O queues 1."""
        c = self.cntlid
        self.queues = Queues()
        self.rung_later = []
        last = queues.QUEUE_ENTRIES - 1
        lines = [
            self.write_line(CONFIGURATION, 0),
            self.write_line(ADMIN_SIZES, last << 16 | last),
            self.write_line(ADMIN_SUBMISSION, queues.submission_place(0)),
            self.write_line(ADMIN_SUBMISSION + 4, 0),
            self.write_line(ADMIN_COMPLETION, queues.completion_place(0)),
            self.write_line(ADMIN_COMPLETION + 4, 0),
            self.zero_line(queues.completion_place(0), queues.COMPLETION_BYTES),
            self.write_line(CONFIGURATION, ENABLED),
            looks.register_line(c, STATUS),
        ]
        answers = self.ask(lines, [f"{WRITTEN} {c}"] * 6 + [f"{STORED} {c}", f"{WRITTEN} {c}"])
        if looks.register_value(answers[0]) & READY == 0:
            raise Ended(f"controller {c} does not come up")
        size = last << 16
        for command in (Command.of(entries.CREATE_COMPLETION, cdw10=size | 1, cdw11=1),
                        Command.of(entries.CREATE_SUBMISSION, cdw10=size | 1, cdw11=1 << 16 | 1)):
            completion, _ = self.admin(command)
            if not completion.is_success:
                raise Ended(f"controller {c} makes no I/O queue: status {completion.status:#x}")

    def run(self, is_admin: bool, command: Command, data: Data) -> Tuple[Completion, bytes]:
        queue = self.queues.lane(is_admin)
        if queue is None:
            raise NoQueue(f"controller {self.cntlid} has no I/O queue")
        stores = self.place(queue, command, data)
        length = 0 if command.sends_data else len(data.content)
        seen = [looks.window_line(self.cntlid, queues.DATA_PLACE + data.offset, length)] if length else []
        completion, answers = self.carry_out(queue, stores, seen)
        if is_admin and completion.is_success:
            self.follow(command, data)
        if not answers or not completion.is_success:
            return completion, b""
        return completion, looks.window_bytes(answers[0], length)

    def place(self, queue: SubmissionQueue, command: Command, data: Data) -> List[str]:
        """The lines that store a command with its data, and the pages that a new queue needs."""
        lines = []
        command.identify_by(self.next_cid)
        if data.content:
            prp1, prp2, later = entries.pointer(data.offset, len(data.content))
            lines.append(self.store_line(queues.DATA_PLACE + data.offset, data.padded))
            if later:
                lines.append(self.store_line(queues.LIST_PLACE, entries.list_bytes(later)))
            command.point_to(prp1, prp2)
        elif queue.qid == 0 and data.is_mapped and command.opcode in entries.CREATE_QUEUE:
            place = self.new_place(command)
            lines.append(self.zero_line(place, queues.COMPLETION_BYTES))
            command.point_to(place, 0)
        else:
            command.point_to(queues.NOWHERE, queues.NOWHERE)
        lines.append(self.store_line(queue.slot, bytes(command.entry)))
        return lines

    def new_place(self, command: Command) -> int:
        """The address of a queue that a command creates: its own page if it does not exist yet, else a page that no
        other has, since the command is refused."""
        qid = command.double_word(10) & 0xffff
        is_submission = command.opcode == entries.CREATE_SUBMISSION
        there = self.queues.submission if is_submission else self.queues.completion
        if qid > queues.MOST_QUEUE or qid in there:
            return queues.SPARE_PLACE
        return queues.submission_place(qid) if is_submission else queues.completion_place(qid)

    def carry_out(self, queue: SubmissionQueue, stores: List[str], seen: List[str]) -> Tuple[Completion, List[str]]:
        """Stores, rings, fetches, executes, and takes the completion; and the answers of the queries after that.

        The doorbell of a completion that was taken is rung with the next command, which spares a turn of its own."""
        c, cid = self.cntlid, self.next_cid
        answered = self.queues.completion.get(queue.cqid)
        if answered is None:
            raise NoQueue(f"controller {c} has no completion queue {queue.cqid}")
        queue.advance()
        rung, self.rung_later = [*self.rung_later, *stores, self.write_line(queue.doorbell, queue.tail)], []
        wanted = [f"{STORED if line.startswith('store ') else WRITTEN} {c}" for line in rung]
        lines = [*rung, f"fetch {c} {queue.qid}", f"execute {c} 0",
                 looks.window_line(c, answered.slot, queues.COMPLETION_BYTES), *seen]
        fetched, executed, posted, *answers = self.ask(lines, wanted)
        completion = Completion(looks.window_bytes(posted, queues.COMPLETION_BYTES))
        is_carried_out = fetched.endswith(" took") and executed.startswith(f"execute {c} 0 posted ")
        is_ours = completion.phase == answered.phase and (completion.sq_id, completion.cid) == (queue.qid, cid)
        if not is_carried_out or not is_ours:
            raise NoQueue(f"controller {c} has lost its queue {queue.qid}")
        self.next_cid = (cid + 1) % 0x10000
        answered.advance()
        self.rung_later = [self.write_line(answered.doorbell, answered.head)]
        return completion, answers

    def follow(self, command: Command, data: Data) -> None:
        """Keeps the queues that an admin command has made or deleted. A queue whose address was given as data is not
        used, since the next command's data overwrite it."""
        qid = command.double_word(10) & 0xffff
        size = (command.double_word(10) >> 16) + 1
        if command.opcode == entries.DELETE_SUBMISSION:
            self.queues.submission.pop(qid, None)
        elif command.opcode == entries.DELETE_COMPLETION:
            self.queues.completion.pop(qid, None)
        elif command.opcode == entries.CREATE_COMPLETION and not data.content:
            self.queues.completion[qid] = CompletionQueue(qid, size)
        elif command.opcode == entries.CREATE_SUBMISSION and not data.content:
            cqid = command.double_word(11) >> 16
            if cqid in self.queues.completion:
                self.queues.submission[qid] = SubmissionQueue(qid, cqid, size)
