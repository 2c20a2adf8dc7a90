"""The queues of a controller as its host keeps them, and the layout of the window that both share.

The window has 4,194,304 bytes. Page 0 is unused. Submission queue q is at page 2q + 1, completion queue q at page
2q + 2, for q from 0 to 4; the list of PRP entries and the data of the one command in progress are after them.
"""
from dataclasses import dataclass
from typing import Dict, Optional

PAGE = 4096
WINDOW_BYTES = 4194304
ENTRY_BYTES = 64
COMPLETION_BYTES = 16
QUEUE_ENTRIES = 64
MOST_QUEUE = 4

SPARE_PLACE = 0xf000
LIST_PLACE = 0x10000
DATA_PLACE = 0x100000
MOST_DATA = 32 * PAGE
# An address outside the window: a transfer to or from it is answered Data Transfer Error.
NOWHERE = WINDOW_BYTES


def submission_place(qid: int) -> int:
    return (2 * qid + 1) * PAGE


def completion_place(qid: int) -> int:
    return (2 * qid + 2) * PAGE


@dataclass
class SubmissionQueue:
    """Entries of 64 bytes; the host knows the tail."""
    qid: int
    cqid: int
    size: int = QUEUE_ENTRIES
    tail: int = 0

    @property
    def slot(self) -> int:
        """The address of the next entry."""
        return submission_place(self.qid) + ENTRY_BYTES * self.tail

    @property
    def doorbell(self) -> int:
        return 0x1000 + 8 * self.qid

    def advance(self) -> None:
        self.tail = (self.tail + 1) % self.size


@dataclass
class CompletionQueue:
    """Completions of 16 bytes; the host knows the head, and the phase tag that a new one has there."""
    qid: int
    size: int = QUEUE_ENTRIES
    head: int = 0
    phase: int = 1

    @property
    def slot(self) -> int:
        return completion_place(self.qid) + COMPLETION_BYTES * self.head

    @property
    def doorbell(self) -> int:
        return 0x1004 + 8 * self.qid

    def advance(self) -> None:
        self.head = (self.head + 1) % self.size
        if self.head == 0:
            self.phase ^= 1


class Queues:
    """The queues that a host has made."""

    def __init__(self) -> None:
        self.submission: Dict[int, SubmissionQueue] = {0: SubmissionQueue(0, 0)}
        self.completion: Dict[int, CompletionQueue] = {0: CompletionQueue(0)}

    def lane(self, is_admin: bool) -> Optional[SubmissionQueue]:
        """The queue of a command: the admin queue, or the first I/O queue that exists."""
        if is_admin:
            return self.submission[0]
        there = [qid for qid in self.submission if qid > 0]
        return self.submission[min(there)] if there else None
