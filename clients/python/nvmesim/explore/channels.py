"""A program's standard input and output as one non-blocking socket."""
from __future__ import annotations

import select
import socket
import time
from typing import Collection, Dict, List, Optional, Sequence, Tuple

from ..errors import ProtocolError

_PIECE = 1 << 16
_NO_ANSWER = b"\0"
_LEFT = b"\0left "


class Ended(Exception):
    """The program has closed its socket."""


class Channel:
    """The explorer's end of a program's socket.

    Attributes:
        has_greeted: whether the program has sent its process number, which the forking library does.
        lines: the lines that were sent last.
        calls_left: the call of the image that fails, counted from now; 0 if none does.
    """

    def __init__(self, end: socket.socket) -> None:
        """Takes the end, which it closes."""
        end.setblocking(False)
        self._end = end
        self._unsent = memoryview(b"")
        self._pending = b""
        self.lines: Sequence[str] = ()
        self._answers: List[str] = []
        self.has_greeted = False
        self.calls_left = 0

    def fileno(self) -> int:
        """The number of the descriptor."""
        return self._end.fileno()

    @property
    def line(self) -> str:
        """The first line without an answer."""
        return self.lines[len(self._answers)] if len(self._answers) < len(self.lines) else ""

    @property
    def wanted(self) -> int:
        """What to wait for, as `poll` has it."""
        return select.POLLIN | (select.POLLOUT if self._unsent else 0)

    def ask(self, lines: Sequence[str]) -> None:
        """Sends lines, as far as the socket takes them; the rest goes while answers are awaited."""
        self.lines, self._answers = lines, []
        self._unsent = memoryview("".join(f"{it}\n" for it in lines).encode("utf-8"))
        self.send()

    def send(self) -> None:
        """Sends what the socket takes."""
        try:
            while self._unsent:
                self._unsent = self._unsent[self._end.send(self._unsent):]
        except BlockingIOError:
            pass
        except (BrokenPipeError, ConnectionResetError):
            self._unsent = memoryview(b"")

    def receive(self) -> Optional[List[str]]:
        """Receives data. Returns the answers when they are complete, else None.

        Raises:
            Ended: the program has closed its end.
            ProtocolError: it has sent more lines than answers.
        """
        try:
            piece = self._end.recv(_PIECE)
        except BlockingIOError:
            return None
        except ConnectionResetError:
            piece = b""
        if not piece:
            raise Ended
        *whole, self._pending = (self._pending + piece).split(b"\n")
        for line in whole:
            if line.startswith(_LEFT):
                self.calls_left = int(line[len(_LEFT):])
            elif line.startswith(_NO_ANSWER):
                self.has_greeted = True
            else:
                self._answers.append(line.decode("utf-8", "replace"))
        if len(self._answers) < len(self.lines):
            return None
        if len(self._answers) > len(self.lines) or self._pending:
            extra = [*self._answers[len(self.lines):], self._pending.decode("utf-8", "replace")][0]
            raise ProtocolError(f"{extra!r} answers no line")
        return self._answers

    def send_word(self, descriptors: Sequence[int]) -> None:
        """Sends descriptors with the request to fork."""
        socket.send_fds(self._end, [_NO_ANSWER], list(descriptors))

    def let_fail(self, call: int) -> None:
        """Lets a call of the image fail, counted from now; 0 for none."""
        self.calls_left = call
        socket.send_fds(self._end, [b"F%d" % call], [self._end.fileno()])

    def close(self) -> None:
        """Closes the end: a program that waits for a line ends."""
        self._end.close()


def wait_for(channels: Collection[Channel], seconds: float) -> Tuple[List[Channel], List[Channel]]:
    """Waits for input from any of them, and sends unsent lines meanwhile. Returns those with input, and those that
    timed out."""
    by_number: Dict[int, Channel] = {it.fileno(): it for it in channels}
    until = time.monotonic() + seconds
    while True:
        poll = select.poll()
        for number, it in by_number.items():
            poll.register(number, it.wanted)
        ready = poll.poll(max(0.0, until - time.monotonic()) * 1000)
        if not ready:
            return [], list(channels)
        for number, _ in ready:
            by_number[number].send()
        came = [by_number[number] for number, what in ready if what & ~select.POLLOUT]
        if came:
            return came, []
