"""Standard streams that fail, at once or in the middle."""
import os
import socket
from pathlib import Path

from tests.program.case import HELLO, Case, answered, carried

UNWRITTEN = "nvmesim: file fault\nnvmesim: standard output can't be written\n"
UNREAD = "nvmesim: file fault\nnvmesim: standard input can't be read\n"
# A transcript that is longer than the buffer, of 8,192 bytes, which it goes through.
LONG = carried(*["flush 1 1"] * 120)
LONG_SHOWN = answered(*["0:00 00000000"] * 120).encode()
ZEROS = bytes(32768)


def full_device(_room: Path) -> int:
    """A stream that refuses every write."""
    return os.open("/dev/full", os.O_WRONLY)


def file_of_transcript(room: Path) -> int:
    """A file in the folder."""
    return os.open(room / "transcript", os.O_CREAT | os.O_WRONLY)


def folder_itself(room: Path) -> int:
    """What can be opened and not be read."""
    return os.open(room, os.O_RDONLY)


def lost_sender(_room: Path) -> int:
    """A script of which a part comes, and then an error: its sender closed its socket with a byte in it, unread."""
    sender, reader = socket.socketpair()
    reader.sendall(b"?")
    sender.sendall(HELLO[:-20].encode())
    sender.close()
    return reader.detach()


CASES = (
    Case("a transcript to a full device", given=HELLO, status=2, errors=UNWRITTEN, shown_on=full_device),
    Case("a long transcript to a full device", given=LONG, status=2, errors=UNWRITTEN, shown_on=full_device),
    Case("a long transcript to a file that may have 8,192 bytes", given=LONG, status=2, errors=UNWRITTEN,
         left={"transcript": LONG_SHOWN[:8192]}, shown_on=file_of_transcript, limit=8192),
    Case("a long transcript to a file", given=LONG, left={"transcript": LONG_SHOWN}, shown_on=file_of_transcript),
    Case("an image where the transcript goes to a full device", ("image",), HELLO, {"image": ZEROS}, 2,
         errors=UNWRITTEN, left={"image": b"Hello" + ZEROS[5:]}, shown_on=full_device),
    Case("a script that can't be read", given=folder_itself, status=2, errors=UNREAD),
    Case("a script whose sender goes away in the middle", given=lost_sender, status=2, errors=UNREAD),
    Case("an image where the script's sender goes away in the middle", ("image",), lost_sender, {"image": ZEROS}, 2,
         errors=UNREAD),
)
