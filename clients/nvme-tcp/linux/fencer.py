"""The power switch of guests: fence_guest in a guest asks it to end another guest's QEMU process."""
import socket
import threading
import time
from typing import Callable

# The port that it listens at, for guests at 10.0.2.2.
PORT = 7000
# How long a client may take to send its line.
PATIENCE = 10.0


class Fencer(threading.Thread):
    """Answers lines ACTION GUEST. `kill` returns after the guest has ended; only then `off` and `reboot` are answered.

    `fenced` has the guests that it has killed, in order, and `times` when they had ended.
    """

    def __init__(self, kill: Callable[[str], bool], port: int = PORT) -> None:
        super().__init__(daemon=True)
        self.kill, self.fenced, self.times = kill, [], []
        self.server = socket.create_server(("", port))
        self.port = self.server.getsockname()[1]

    def run(self) -> None:
        while True:
            try:
                connection, _ = self.server.accept()
            except OSError:
                return
            threading.Thread(target=self.serve, args=(connection,), daemon=True).start()

    def serve(self, connection: socket.socket) -> None:
        with connection:
            connection.settimeout(PATIENCE)
            try:
                words = connection.makefile("r", encoding="ascii").readline().split()
                connection.sendall(f"{self.answer(words)}\n".encode())
            except (OSError, ValueError):
                pass

    def answer(self, words: list) -> str:
        if words[:1] in (["monitor"], ["list"], ["status"], ["on"]):
            return "done"
        if len(words) != 2 or words[0] not in ("off", "reboot"):
            return "refused"
        if not self.kill(words[1]):
            return "refused"
        self.times.append(time.monotonic())
        self.fenced.append(words[1])
        return "done"

    def close(self) -> None:
        # A thread in accept(2) returns after a shutdown, not after a close.
        self.server.shutdown(socket.SHUT_RDWR)
        self.server.close()
