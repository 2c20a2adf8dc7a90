"""Recorded bytes of Linux guests and a target, as a text that tests replay without guests.

`N > COUNT` means that the host of connection N sends COUNT bytes, `N < COUNT` that the target does, `N .` that the host
closes the connection. The bytes are in the lines after it, in hexadecimal, blanks between words; `0*COUNT` is COUNT
zeros.
"""
import contextlib
import re
import socket
import threading
from pathlib import Path
from typing import Iterator, List, Tuple

# What happens: the connection, the direction, and the bytes.
Event = Tuple[int, str, bytes]
WIDTH = 110
# What the recorded target has in the file `identity` of its state folder.
IDENTITY = "00112233445566778899aabbccddeeff\n"
ZEROS = re.compile(rb"\0{16,}")


def words_of(data: bytes) -> Iterator[str]:
    """The words for bytes: groups of at most 32, and runs of zeros."""
    at = 0
    for run in [*ZEROS.finditer(data), None]:
        end = run.start() if run else len(data)
        yield from (data[place:min(place + 32, end)].hex() for place in range(at, end, 32))
        if run:
            yield f"0*{run.end() - run.start()}"
            at = run.end()


def text_of(events: List[Event]) -> str:
    """The text of events. Consecutive ones of a connection and direction are merged."""
    lines = []
    for number, direction, data in events:
        lines.append(f"{number} {direction} {len(data)}" if data else f"{number} {direction}")
        line = " "
        for word in words_of(data):
            if len(line) + len(word) + 1 > WIDTH:
                lines.append(line)
                line = " "
            line += " " + word
        if line.strip():
            lines.append(line)
    return "\n".join(lines) + "\n"


def events_of(text: str) -> List[Event]:
    """The events of a text."""
    events: List[Event] = []
    for line in text.splitlines():
        words = line.split()
        if not line.startswith(" "):
            events.append((int(words[0]), words[1], b""))
            continue
        number, direction, data = events[-1]
        data += b"".join(bytes(int(it[2:])) if it.startswith("0*") else bytes.fromhex(it) for it in words)
        events[-1] = (number, direction, data)
    return events


class Recorder:
    """Relays between hosts and a target, and records the bytes."""

    def __init__(self, port: int) -> None:
        self.target, self.events, self.lock, self.count = port, [], threading.Lock(), 0
        self.listener = socket.create_server(("127.0.0.1", 0))
        self.port = self.listener.getsockname()[1]
        threading.Thread(target=self.accept, daemon=True).start()

    def accept(self) -> None:
        while True:
            host, _ = self.listener.accept()
            target = socket.create_connection(("127.0.0.1", self.target))
            number, self.count = self.count, self.count + 1
            for side in (host, target):
                side.setsockopt(socket.IPPROTO_TCP, socket.TCP_NODELAY, 1)
            for words in ((number, ">", host, target), (number, "<", target, host)):
                threading.Thread(target=self.pump, args=words, daemon=True).start()

    def pump(self, number: int, direction: str, source: socket.socket, sink: socket.socket) -> None:
        try:
            while True:
                data = source.recv(1 << 18)
                if not data:
                    break
                self.add(number, direction, data)
                sink.sendall(data)
        except OSError:
            pass
        if direction == ">":
            self.add(number, ".", b"")
        for side in (source, sink):
            # The other thread may wait for its bytes, and would keep it open.
            with contextlib.suppress(OSError):
                side.shutdown(socket.SHUT_RDWR)
            side.close()

    def add(self, number: int, direction: str, data: bytes) -> None:
        with self.lock:
            last = self.events[-1] if self.events else (None, "", b"")
            if last[:2] == (number, direction):
                self.events[-1] = (number, direction, last[2] + data)
            else:
                self.events.append((number, direction, data))

    def save(self, path: Path) -> None:
        with self.lock:
            path.write_text(text_of(self.events), encoding="ascii")
