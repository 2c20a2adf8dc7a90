"""A failover as a test: a node stops in the middle of a write, and another one takes its disk over.

Run it where the package is installed, or with `clients/python` on PYTHONPATH:

    python3 -m unittest failover_test          in this folder
    pytest failover_test.py                    the same

The cluster below is small, but uses the disk as real ones do: each node registers its own key, the
active one holds the namespace as Write Exclusive, Registrants Only, and a takeover preempts the other's key.
"""
from __future__ import annotations

import unittest

from nvmesim import (AcquireAction, Host, Namespace, NvmeError, Persistence, ReservationType, Status, Subsystem)

RTYPE = ReservationType.WRITE_EXCLUSIVE_REGISTRANTS_ONLY
JOURNAL = 0


class Node:
    """A node of the cluster, with its controller of the shared disk."""

    def __init__(self, host: Host, disk: Namespace) -> None:
        self.host, self.disk = host, disk
        self.key = host.host

    def join(self) -> None:
        """Registers its key, which persists through a loss of power."""
        self.host.up()
        self.host.register(self.disk, new_key=self.key, persist=Persistence.SET)

    def activate(self) -> None:
        """Becomes the active node of a cluster that has none."""
        self.host.acquire(self.disk, RTYPE, self.key)

    def take_over(self, other: Node) -> None:
        """Fences another node, aborts the commands that its controller has not executed, and becomes the active
        node."""
        self.host.acquire(self.disk, RTYPE, self.key, other.key, AcquireAction.PREEMPT_AND_ABORT)

    def log(self, entry: bytes) -> None:
        """Writes the journal, which is one block."""
        self.host.write(self.disk, JOURNAL, entry)

    def journal(self) -> bytes:
        """Reads the journal."""
        return self.host.read(self.disk, JOURNAL).rstrip(b"\0")


class FailoverTest(unittest.TestCase):
    def setUp(self) -> None:
        self.subsystem = Subsystem()
        self.addCleanup(self.subsystem.close)
        hosts = [self.subsystem.controller(host=0xA1), self.subsystem.controller(host=0xB2)]
        self.disk = self.subsystem.namespace(blocks=64)
        for host in hosts:
            self.subsystem.attach(host, self.disk)
        self.subsystem.start()
        self.one, self.two = (Node(host, self.disk) for host in hosts)
        self.one.join()
        self.two.join()
        self.one.activate()
        self.one.log(b"one: 1")

    def test_a_write_under_way_does_not_reach_the_disk(self) -> None:
        """The first node stops after its controller fetches a write and before it executes it."""
        late = self.one.host.place_write(self.disk, JOURNAL, b"one: 2, too late")
        self.one.host.ring()
        self.one.host.controller.fetch()
        self.two.take_over(self.one)
        self.two.log(self.two.journal() + b"; two: 1")
        with self.assertRaises(NvmeError) as caught:
            self.one.host.finish(late)
        self.assertIs(caught.exception.status, Status.COMMAND_ABORTED_DUE_TO_PREEMPT_AND_ABORT)
        self.assertEqual(self.two.journal(), b"one: 1; two: 1")

    def test_the_fenced_node_is_refused_until_it_joins_again(self) -> None:
        self.two.take_over(self.one)
        with self.assertRaises(NvmeError) as caught:
            self.one.log(b"one: still here")
        self.assertIs(caught.exception.status, Status.RESERVATION_CONFLICT)
        self.assertEqual(self.one.journal(), b"one: 1")
        self.one.host.register(self.disk, new_key=self.one.key)
        self.one.log(b"one: back")
        self.assertEqual(self.two.journal(), b"one: back")

    def test_a_fence_outlasts_a_power_cycle(self) -> None:
        self.two.take_over(self.one)
        self.subsystem.power_cycle()
        self.one.host.up()
        with self.assertRaises(NvmeError) as caught:
            self.one.log(b"one: power is back")
        self.assertIs(caught.exception.status, Status.RESERVATION_CONFLICT)
        self.assertEqual(self.subsystem.reservation(self.disk).registrants, {self.two.host.host: self.two.key})


if __name__ == "__main__":
    unittest.main()
