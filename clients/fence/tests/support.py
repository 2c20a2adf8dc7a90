"""What the tests share: the agent, and the proved subsystem as the disks of several hosts."""
from __future__ import annotations

import contextlib
import io
import os
import random
import struct
import sys
import threading
import unittest
from pathlib import Path
from typing import Callable, Dict, List, Optional, Tuple

HERE = Path(__file__).resolve().parent
PACKAGE = HERE.parent
AGENT = PACKAGE / "fence_nvme_pr"
CLIENTS = PACKAGE.parent
sys.path.insert(0, str(CLIENTS / "python"))

from nvmesim import AcquireAction, Host, Namespace, NvmeError, Persistence, RegisterAction, ReservationType, Subsystem

from nvmefence.actions import carry_out
from nvmefence.device import Command
from nvmefence.disk import IDENTIFY, REGISTER, REPORT, Progress
from nvmefence.failures import Failure
from nvmefence.options import Asked

LIVE = os.environ.get("NVMELIVE")
needs_subsystem = unittest.skipUnless(LIVE, "NVMELIVE names no built nvmelive")
INVALID_FIELD = 0x02
BLOCKS = 64
Before = Callable[[str, Command], None]


class SubsystemDevice:
    """A namespace of the subsystem, as one host's device. The host's driver makes the commands."""

    def __init__(self, path: str, host: Host, disk: Namespace, before: Optional[Before] = None) -> None:
        self.path, self.nsid, self.host, self.disk, self.before = path, disk.number, host, disk, before

    def submit(self, command: Command) -> Tuple[int, bytes]:
        """Executes a command, or answers it with its status."""
        if self.before is not None:
            self.before(self.path, command)
        try:
            return self._answer(command)
        except NvmeError as fault:
            kind, code = fault.status.code.split(":")
            return int(kind, 16) << 8 | int(code, 16), bytes(command.wanted)

    def _answer(self, command: Command) -> Tuple[int, bytes]:
        if command.is_admin and command.opcode != IDENTIFY:
            return INVALID_FIELD, bytes(command.wanted)
        if command.is_admin:
            return 0, self.host.identify(command.cdw10, self.nsid if command.has_nsid else 0)
        if command.opcode == REPORT:
            ticket = self.host.place_report(self.disk, command.cdw10 + 1)
            return 0, (self.host.finish(ticket).data or b"").ljust(command.wanted, b"\0")
        keys = struct.unpack("<QQ", command.sent)
        if command.opcode == REGISTER:
            self.host.register(self.disk, keys[1], keys[0], RegisterAction(command.cdw10 & 7), bool(command.cdw10 & 8),
                               Persistence(command.cdw10 >> 30))
        else:
            self.host.acquire(self.disk, ReservationType(command.cdw10 >> 8), keys[0], keys[1],
                              AcquireAction(command.cdw10 & 7))
        return 0, b""


class Turns:
    """Runs one of two threads at a time, and chooses the next one before each command."""

    def __init__(self, choices: random.Random) -> None:
        self._choices, self._changed, self._left = choices, threading.Condition(), [0, 1]
        self._turn = choices.choice(self._left)

    def pass_on(self, node: int) -> None:
        """Before a command of the node whose turn it is."""
        with self._changed:
            self._turn = self._choices.choice(self._left)
            self._changed.notify_all()
        self.await_turn(node)

    def await_turn(self, node: int) -> None:
        with self._changed:
            self._changed.wait_for(lambda: self._turn == node)

    def finish(self, node: int) -> None:
        """The node has no more commands."""
        with self._changed:
            self._left.remove(node)
            self._turn = self._left[0] if self._left else -1
            self._changed.notify_all()


class Cluster:
    """Hosts a1h, b2h, .. that share two disks, each with the agent.

    Attributes:
        hosts: their drivers.
        disks: the namespaces, as /dev/nvme0n1 and /dev/nvme0n2.
        before: what is called before each command of a host, by its number.
    """

    def __init__(self, subsystem: Subsystem, count: int = 2, paths: int = 1) -> None:
        self.subsystem = subsystem
        controllers = [subsystem.controller(0xA1 + 0x11 * (n // paths)) for n in range(count * paths)]
        # The agent takes the first path of its host, as native multipath takes any.
        self.hosts = controllers[::paths]
        self.disks = [subsystem.namespace(BLOCKS), subsystem.namespace(BLOCKS)]
        self.before: Dict[int, Before] = {}
        for host in controllers:
            for disk in self.disks:
                subsystem.attach(host, disk)
        subsystem.start()
        for host in self.hosts:
            host.up()

    def device(self, node: int, path: str) -> SubsystemDevice:
        """A device of a node, by its path."""
        paths = [f"/dev/nvme0n{it.number}" for it in self.disks]
        if path not in paths:
            raise Failure(f"{path} can't be opened: No such file or directory")
        return SubsystemDevice(path, self.hosts[node], self.disks[paths.index(path)],
                               lambda *it: self.before.get(node, lambda *_: None)(*it))

    def run(self, node: int, action: str, key: int, **more: str) -> Tuple[int, str]:
        """Runs an action of a node's agent: its status and output."""
        told = io.StringIO()
        with contextlib.redirect_stdout(told):
            status, why = self.carry_out(node, action, key, **more)
        return status, why or told.getvalue()

    def carry_out(self, node: int, action: str, key: int, **more: str) -> Tuple[int, str]:
        """The same, with the failure's words alone; threads may call it."""
        given = {"action": action, "key": f"{key:x}", "devices": "/dev/nvme0n2,/dev/nvme0n1", **more}
        try:
            return carry_out(Asked.of(given), lambda it: self.device(node, it), Progress()), ""
        except Failure as fault:
            return fault.status, str(fault)

    def keys(self) -> List[List[int]]:
        """The keys that are registered on each disk."""
        return [[it.key for it in self.hosts[0].report(disk).controllers] for disk in self.disks]
