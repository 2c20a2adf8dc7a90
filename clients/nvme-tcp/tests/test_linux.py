"""Recorded bytes of Linux are replayed: the target answers the same bytes.

The recorded target did not report reservation notifications. So their events are skipped, and counted.
"""
import contextlib
import socket
import struct
import tempfile
import time
import unittest
from pathlib import Path
from typing import Dict

from linux.proofs import SECRETS, key_line
from linux.record import IDENTITY, events_of, text_of
from tests.targets import BLOCKS, PROGRAM, TWO_HOSTS, Target, fixed_random, has_keys

DATA = Path(__file__).resolve().parent / "data"
# A response capsule: its type, and double word 0 for Reservation Log Page Available.
RESPONSE = 5
NOTICE = struct.pack("<I", 0x80 << 16 | 6)


@unittest.skipUnless(PROGRAM, "NVMETCP names no program")
class Recorded(unittest.TestCase):
    def test_linux(self) -> None:
        for path in sorted(DATA.glob("*.txt")):
            with self.subTest(path.name), tempfile.TemporaryDirectory() as room, contextlib.ExitStack() as stack:
                target = Target(Path(room), TWO_HOSTS, BLOCKS, ["--state", f"{room}/state"])
                stack.callback(target.close)
                # The identity of the recorded target.
                target.kill()
                Path(room, "state/identity").write_text(IDENTITY)
                target.start()
                notices = self.play(target.port, path.read_text(encoding="ascii"), stack)
                self.assertEqual(notices, 1, "events of reservation notifications")

    @unittest.skipUnless(has_keys(), "the program was built without libcrypto")
    def test_linux_proves_who_it_is(self) -> None:
        """Authentication in one direction and in both, on each queue, and with a wrong secret. The target uses the
        recorded random numbers."""
        for path in sorted(DATA.glob("proofs/*.txt")):
            with self.subTest(path.name), tempfile.TemporaryDirectory() as room, contextlib.ExitStack() as stack:
                keys = Path(room, "keys")
                keys.touch(0o600)
                keys.write_text(key_line("a1", SECRETS["a1"], SECRETS["controller"]) + key_line("b2", SECRETS["b2"]))
                target = Target(Path(room), TWO_HOSTS, BLOCKS, ["--state", f"{room}/state", "--keys", str(keys)])
                stack.callback(target.close)
                target.kill()
                Path(room, "state/identity").write_text(IDENTITY)
                target.environment = fixed_random(Path(room))
                target.start()
                self.play(target.port, path.read_text(encoding="ascii"), stack)

    def play(self, port: int, text: str, stack: contextlib.ExitStack) -> int:
        """Plays a recording, and returns the number of events of reservation notifications."""
        notices = 0
        events = events_of(text)
        self.assertEqual(text_of(events), text)
        connections: Dict[int, socket.socket] = {}
        for at, (number, direction, data) in enumerate(events):
            if number not in connections:
                connections[number] = stack.enter_context(socket.create_connection(("127.0.0.1", port), timeout=10))
            if direction == ">":
                connections[number].sendall(data)
            elif direction == "<":
                came = self.receive(connections[number], len(data))
                while came[0] == RESPONSE and came[8:12] == NOTICE:
                    notices += 1
                    came = self.receive(connections[number], len(data))
                self.assertEqual(came, data, f"event {at}, connection {number}")
            else:
                connections[number].close()
                time.sleep(0.05)
        return notices

    def receive(self, connection: socket.socket, length: int) -> bytes:
        came = b""
        while len(came) < length:
            piece = connection.recv(length - len(came))
            self.assertTrue(piece, "the target has closed the connection")
            came += piece
        return came
