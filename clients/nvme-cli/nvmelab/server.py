"""The server of a lab: it runs the subsystem, and executes the commands that the preloaded libraries send.

One command is in progress at a time. No client can block the others: messages are read as they arrive, and an
incomplete one is dropped when its connection ends.
"""
import errno
import fcntl
import json
import os
import selectors
import shutil
import signal
import socket
import struct
import sys
from dataclasses import dataclass
from pathlib import Path
from typing import Callable, Dict, List, Optional

from nvmelab import entries, protocol
from nvmelab.configuration import Configuration
from nvmelab.driver_host import DriverHost
from nvmelab.faults import Ended, LabFault
from nvmelab.host import Host, NoQueue
from nvmelab.keeping import Keeping
from nvmelab.protocol import Malformed, Request
from nvmelab.raw_host import RawHost
from nvmelab.subsystem import Subsystem
from nvmelab.tree import View

BACKLOG = 256
PIECE = 1 << 18
CREDENTIALS = struct.Struct("3i")
# How long a lab that nobody has joined yet waits, and how long one that is being joined is asked again, in seconds.
UNUSED_SECONDS = 30.0
ASK_AGAIN_SECONDS = 0.1
JOINING_SECONDS = 5.0
LONGEST_JOINING = 256
ALL_HOSTS = "all"
# Sent instead of a host to ask for a power cycle, and the answer to it.
POWER_CYCLE, POWER_IS_BACK = "power-cycle", "power is back"


def listen(place: Path) -> socket.socket:
    found = socket.socket(socket.AF_UNIX, socket.SOCK_STREAM)
    found.bind(str(place))
    found.listen(BACKLOG)
    found.setblocking(False)
    return found


class Connection:
    """One client: its received bytes, and the bytes that are still to be sent."""

    def __init__(self, stream: socket.socket, view: View) -> None:
        self.stream = stream
        self.view = view
        self.come = bytearray()
        self.to_go = b""

    def message(self) -> Optional[bytes]:
        """The message, when it is complete."""
        if len(self.come) < protocol.LENGTH.size:
            return None
        length, = protocol.LENGTH.unpack_from(self.come)
        if length > protocol.LONGEST:
            raise Malformed("too long")
        whole = protocol.LENGTH.size + length
        return bytes(self.come[protocol.LENGTH.size:whole]) if len(self.come) >= whole else None


@dataclass
class Place:
    """A lab's folder, and the lock that all its processes hold. A different token means that a later lab owns the
    folder."""
    folder: Path
    lock: Path
    token: str

    def is_mine(self) -> bool:
        try:
            return json.loads((self.folder / "options").read_text())["token"] == self.token
        except OSError:
            return False

    def remove(self) -> None:
        if self.is_mine():
            shutil.rmtree(self.folder, ignore_errors=True)


class Server:
    """The lab of one CONFIG, in its own folder, which is removed when it ends."""

    def __init__(self, place: Place, configuration: Configuration, subsystem: Subsystem) -> None:
        self.place = place
        self.configuration = configuration
        self.subsystem = subsystem
        self.hosts: Dict[int, Host] = {}
        self.views: Dict[str, View] = {}
        self.users: List[int] = []
        self.was_used = False
        self.waiting = selectors.DefaultSelector()

    def bring_up(self) -> None:
        for cntlid in sorted(self.configuration.hosts):
            kind = DriverHost if cntlid in self.configuration.drivers else RawHost
            self.hosts[cntlid] = kind(self.subsystem, cntlid)
            self.hosts[cntlid].bring_up()

    def watch(self, stream: object, call: Callable[[], None]) -> None:
        self.waiting.register(stream, selectors.EVENT_READ, call)

    def open(self) -> None:
        """From here on processes can join."""
        if not self.place.is_mine():
            raise LabFault("another lab has begun in this one's place")
        joining = listen(self.place.folder / "socket")
        self.watch(joining, lambda: self.take_user(joining))

    def run(self) -> None:
        """Serves until the last process that uses the lab has ended."""
        self.watch(self.subsystem.process.stdout, self.notice_end)
        while True:
            limit = None if self.users else ASK_AGAIN_SECONDS if self.was_used else UNUSED_SECONDS
            ready = self.waiting.select(limit)
            for key, _ in ready:
                key.data()
            if not self.users and (self.was_used or not ready) and self.may_end():
                return

    def may_end(self) -> bool:
        """Whether no process is joining, which would hold the lock. Takes the lock until the end."""
        held = os.open(self.place.lock, os.O_RDWR | os.O_CREAT | os.O_CLOEXEC, 0o600)
        try:
            fcntl.flock(held, fcntl.LOCK_EX | fcntl.LOCK_NB)
        except OSError:
            os.close(held)
            return False
        return True

    def notice_end(self) -> None:
        """Handles unexpected output, or the end, of the program."""
        raise Ended(self.subsystem.last_words())

    # Those who use the lab.

    def take_user(self, joining: socket.socket) -> None:
        """Lets a process join: it sends its host, and receives the path of its devices. The lab lasts as long as the
        last of these processes, even if they execute other programs."""
        self.was_used = True
        try:
            stream, _ = joining.accept()
        except OSError:
            return
        with stream:
            stream.settimeout(JOINING_SECONDS)
            try:
                wanted = stream.recv(LONGEST_JOINING).decode("ascii", "replace").strip()
                process, _, _ = CREDENTIALS.unpack(
                    stream.getsockopt(socket.SOL_SOCKET, socket.SO_PEERCRED, CREDENTIALS.size))
                user = os.pidfd_open(process)
            except OSError:
                return
            if wanted == POWER_CYCLE:
                view, said = None, self.power_cycle()
            else:
                view = self.view_of_word(wanted)
                said = f"joined {view.folder}" if view else f"no controller belongs to host {wanted}"
            try:
                stream.sendall(said.encode() + b"\n")
            except OSError:
                view = None
        if view is None:
            os.close(user)
            return
        self.users.append(user)
        self.watch(user, lambda: self.drop_user(user))

    def power_cycle(self) -> str:
        """Power-cycles the whole subsystem; then each host brings its controller up again."""
        answer, = self.subsystem.ask(["powercycle"])
        if answer != "powercycle":
            raise Ended(f"`powercycle` was answered `{answer[:60]}`")
        for host in self.hosts.values():
            host.bring_up()
        self.refresh()
        return POWER_IS_BACK

    def view_of_word(self, wanted: str) -> Optional[View]:
        """The view of the named host; None if there is no such host."""
        try:
            return self.view_of(wanted)
        except ValueError:
            return None

    def drop_user(self, user: int) -> None:
        self.waiting.unregister(user)
        self.users.remove(user)
        os.close(user)

    def view_of(self, wanted: str) -> Optional[View]:
        """The view of a host, created on first use."""
        if wanted in self.views:
            return self.views[wanted]
        if wanted == ALL_HOSTS:
            cntlids = sorted(self.hosts)
        else:
            cntlids = self.configuration.controllers_of(int(wanted, 16))
        if not cntlids:
            return None
        folder = self.place.folder / "hosts" / wanted
        view = View(folder, [self.hosts[cntlid] for cntlid in cntlids])
        view.make()
        view.refresh()
        asked = listen(folder / "socket")
        self.watch(asked, lambda: self.take_client(asked, view))
        self.views[wanted] = view
        return view

    # Their commands.

    def take_client(self, asked: socket.socket, view: View) -> None:
        try:
            stream, _ = asked.accept()
        except OSError:
            return
        stream.setblocking(False)
        client = Connection(stream, view)
        self.watch(stream, lambda: self.hear(client))

    def drop_client(self, client: Connection) -> None:
        self.waiting.unregister(client.stream)
        client.stream.close()

    def hear(self, client: Connection) -> None:
        """Reads from a client. Executes a complete request, and starts to answer."""
        try:
            piece = client.stream.recv(PIECE)
            client.come += piece
            message = client.message()
            request = Request.of(message) if message is not None else None
        except BlockingIOError:
            return
        except (OSError, Malformed):
            self.drop_client(client)
            return
        if request is not None:
            client.to_go = self.answer_to(client.view, request)
            self.waiting.modify(client.stream, selectors.EVENT_WRITE, lambda: self.say(client))
            self.say(client)
        elif not piece:
            self.drop_client(client)

    def say(self, client: Connection) -> None:
        """Sends pending bytes to a client."""
        try:
            sent = client.stream.send(client.to_go)
        except BlockingIOError:
            return
        except OSError:
            self.drop_client(client)
            return
        client.to_go = client.to_go[sent:]
        if not client.to_go:
            self.drop_client(client)

    def refresh(self) -> None:
        for view in self.views.values():
            view.refresh()

    def answer_to(self, view: View, request: Request) -> bytes:
        number, nsid = request.controller, request.nsid
        if number >= len(view.hosts) or nsid and nsid not in view.shown[number]:
            return protocol.answer(errno.ENODEV)
        host = view.hosts[number]
        if request.asked == protocol.LOOK:
            return protocol.answer(0)
        if request.asked == protocol.RESET:
            host.bring_up()
            self.refresh()
            return protocol.answer(0)
        try:
            completion, data = host.run(request.is_admin, request.command, request.data)
        except NoQueue:
            return protocol.answer(errno.EIO)
        if request.is_admin and completion.is_success and changes_devices(request.command):
            self.refresh()
        return protocol.answer(0, completion.entry, data)


def changes_devices(command: entries.Command) -> bool:
    """Whether an admin command may change files under /dev and /sys."""
    is_protection = command.double_word(10) & 0xff == entries.WRITE_PROTECTION
    return command.opcode == entries.ATTACHMENT or command.opcode == entries.SET_FEATURES and is_protection


def serve(place: Place, configuration: Configuration, name: str, program: List[str], image: str,
          keeping: Optional[Keeping]) -> int:
    """Runs a lab to its end. Prints `ready`, or the error, and then closes standard output."""
    def tell(text: str) -> None:
        os.write(1, text.encode() + b"\n")
        os.dup2(2, 1)

    signal.signal(signal.SIGTERM, lambda *_: sys.exit(0))
    subsystem = None
    try:
        subsystem = Subsystem(program, image)
        server = Server(place, configuration, subsystem)
        subsystem.start(configuration, name, keeping)
        server.bring_up()
        server.open()
        tell("ready")
        server.run()
    except (LabFault, OSError) as fault:
        tell(str(fault))
        return 1
    finally:
        if subsystem:
            subsystem.end()
        place.remove()
    return 0
