"""The actions over the proved subsystem: what they print, and the subsystem's state afterwards."""
from __future__ import annotations

import contextlib
import io
import random
import threading
import unittest
from typing import List, Tuple

from .support import Cluster, Command, Failure, Subsystem, SubsystemDevice, Turns, needs_subsystem

from nvmefence.disk import ACQUIRE, REGISTER
from nvmesim import NvmeError, Persistence, RegisterAction, ReservationType, Status

A, B = 0, 1
KEY_A, KEY_B = 0xA, 0xB
PATHS = ("/dev/nvme0n1", "/dev/nvme0n2")


class ClusterCase(unittest.TestCase):
    """Two hosts, whose agents have been run with 'on'."""

    def setUp(self) -> None:
        self.subsystem = Subsystem()
        self.addCleanup(self.subsystem.close)
        self.cluster = Cluster(self.subsystem)

    def unfence(self) -> None:
        for node, key in ((A, KEY_A), (B, KEY_B)):
            self.assertEqual(self.cluster.run(node, "on", key), (0, "Success: Powered ON\n"))

    def expect(self, node: int, action: str, key: int, status: int, *told: str, **more: str) -> None:
        """An action ends with this status, and prints all of this."""
        found = self.cluster.run(node, action, key, **more)
        self.assertEqual(found[0], status, found[1])
        for it in told:
            self.assertIn(it, found[1])

    def expect_conflict(self, node: int) -> None:
        for disk in self.cluster.disks:
            with self.assertRaises(NvmeError) as caught:
                self.cluster.hosts[node].write(disk, 0, b"late")
            self.assertIs(caught.exception.status, Status.RESERVATION_CONFLICT)


@needs_subsystem
class ActionsTest(ClusterCase):
    def test_a_fenced_host_is_refused_and_its_command_aborted(self) -> None:
        self.unfence()
        victim, disk = self.cluster.hosts[B], self.cluster.disks[0]
        victim.write(disk, 0, b"early")
        ticket = victim.place_write(disk, 0, b"in progress")
        victim.ring()
        victim.controller.fetch()
        self.expect(A, "status", KEY_B, 0, "Status: ON")
        self.expect(A, "off", KEY_B, 0, "Success: Powered OFF")
        self.expect(A, "status", KEY_B, 2, "Status: OFF")
        with self.assertRaises(NvmeError) as caught:
            victim.finish(ticket)
        self.assertIs(caught.exception.status, Status.COMMAND_ABORTED_DUE_TO_PREEMPT_AND_ABORT)
        self.expect_conflict(B)
        self.assertEqual(self.subsystem.blocks(disk, 0)[:9], b"early\0\0\0\0")
        self.cluster.hosts[A].write(disk, 0, b"mine")

    def test_on_reserves_for_all_registrants_and_lasts(self) -> None:
        self.unfence()
        self.subsystem.power_cycle()
        for host in self.cluster.hosts:
            host.up()
            for disk in self.cluster.disks:
                report = host.report(disk)
                self.assertEqual((report.rtype, report.persists),
                                 (ReservationType.WRITE_EXCLUSIVE_ALL_REGISTRANTS, True))
                host.write(disk, 1, b"shared")

    def test_on_again_and_with_another_key(self) -> None:
        self.unfence()
        self.expect(B, "on", KEY_B, 0)
        self.expect(B, "on", 0xBB, 0)
        self.assertEqual(self.cluster.keys(), [[KEY_A, 0xBB]] * 2)

    def test_off_of_a_key_that_nobody_has(self) -> None:
        self.unfence()
        self.expect(A, "off", 0xC, 0)
        self.assertEqual(self.cluster.keys(), [[KEY_A, KEY_B]] * 2)
        self.expect(A, "off", KEY_B, 0)
        self.expect(A, "off", KEY_B, 0)

    def test_off_has_the_disk_reserved_when_it_is_not(self) -> None:
        """Without a reservation a host without a key may write."""
        for disk in self.cluster.disks:
            self.cluster.hosts[A].register(disk, KEY_A)
        self.expect(A, "off", KEY_B, 0)
        self.expect_conflict(B)

    def test_status_of_a_part_is_neither(self) -> None:
        self.unfence()
        self.cluster.hosts[B].register(self.cluster.disks[1], 0, KEY_B, RegisterAction.UNREGISTER)
        self.expect(A, "status", KEY_B, 1, "registered on /dev/nvme0n1, not on /dev/nvme0n2")

    def test_list_and_monitor(self) -> None:
        self.unfence()
        self.expect(B, "list", KEY_B, 0, "0xa,/dev/nvme0n1 /dev/nvme0n2\n0xb,/dev/nvme0n1 /dev/nvme0n2\n")
        self.expect(B, "monitor", KEY_B, 0)
        self.expect(B, "monitor", KEY_B, 1, "/dev/nvme0n3 can't be opened", devices="/dev/nvme0n3")

    def test_a_host_with_two_controllers_is_one(self) -> None:
        """A path is not another host: neither to 'on', nor to what looks for a key of two hosts."""
        with Subsystem() as subsystem:
            self.cluster = Cluster(subsystem, 2, paths=2)
            for node, key in ((A, KEY_A), (B, KEY_B), (A, 0xAA)):
                self.expect(node, "on", key, 0)
            self.assertEqual(self.cluster.keys(), [[0xAA, 0xAA, KEY_B, KEY_B]] * 2)
            self.expect(A, "off", 0xAA, 1, "this host's own")
            self.expect(A, "off", KEY_B, 0)
            self.expect_conflict(B)

    def test_an_absent_device_fences_nothing(self) -> None:
        self.unfence()
        devices = "/dev/nvme0n1,/dev/nvme0n2,/dev/nvme0n3"
        for action, key in (("off", KEY_B), ("on", 0xAA)):
            self.expect(A, action, key, 1, "/dev/nvme0n3 can't be opened", "nothing was changed", devices=devices)
        self.assertEqual(self.cluster.keys(), [[KEY_A, KEY_B]] * 2)

    def test_other_types(self) -> None:
        for rtype in (3, 4, 6):
            with self.subTest(rtype=rtype):
                with Subsystem() as subsystem:
                    self.cluster = Cluster(subsystem)
                    for node, key in ((B, KEY_B), (A, KEY_A)):
                        self.expect(node, "on", key, 0, reservation_type=str(rtype))
                    self.expect(A, "on", KEY_A, 1, "Write Exclusive - All Registrants" if rtype == 5 else "of type 5")
                    self.expect(A, "off", KEY_B, 0, reservation_type=str(rtype))
                    self.expect_conflict(B)
                    self.cluster.hosts[A].write(self.cluster.disks[0], 0, b"mine")


@needs_subsystem
class SafetyTest(ClusterCase):
    """What the agent refuses: each time nothing changes."""

    def setUp(self) -> None:
        super().setUp()
        self.unfence()

    def test_a_node_does_not_fence_itself(self) -> None:
        self.expect(A, "off", KEY_A, 1, "key 0xa is this host's own", "nothing was changed")
        self.assertEqual(self.cluster.keys(), [[KEY_A, KEY_B]] * 2)

    def test_a_key_is_one_nodes(self) -> None:
        self.expect(B, "on", KEY_A, 1, "key 0xa is registered by another host", "nothing was changed")
        self.assertEqual(self.cluster.keys(), [[KEY_A, KEY_B]] * 2)

    def test_a_key_of_two_hosts_is_not_fenced(self) -> None:
        with Subsystem() as subsystem:
            self.cluster = Cluster(subsystem, 3)
            for node, key in ((0, KEY_A), (1, KEY_B), (2, 0xC)):
                self.expect(node, "on", key, 0)
            for disk in self.cluster.disks:
                self.cluster.hosts[2].register(disk, KEY_B, 0xC, RegisterAction.REPLACE)
            self.expect(0, "off", KEY_B, 1, "key 0xb is registered by several hosts", "nothing was changed")
            self.assertEqual(self.cluster.keys(), [[KEY_A, KEY_B, KEY_B]] * 2)

    def test_a_host_that_was_fenced_fences_nobody(self) -> None:
        self.expect(A, "off", KEY_B, 0)
        self.expect(B, "off", KEY_A, 1, "/dev/nvme0n1: this host has no registration there", "nothing was changed")
        self.assertEqual(self.cluster.keys(), [[KEY_A]] * 2)

    def test_another_type_of_reservation_is_not_shared(self) -> None:
        with Subsystem() as subsystem:
            self.cluster = Cluster(subsystem)
            host, disk = self.cluster.hosts[B], self.cluster.disks[1]
            host.register(disk, KEY_B)
            host.acquire(disk, ReservationType.WRITE_EXCLUSIVE, KEY_B)
            self.expect(A, "on", KEY_A, 1, "/dev/nvme0n2 has a reservation of type 1, Write Exclusive, not of "
                        "type 5; nothing was changed")
            self.assertEqual(self.cluster.keys(), [[], [KEY_B]])

    def test_a_failure_between_disks_names_both_kinds(self) -> None:
        def fail(path: str, command: Command) -> None:
            if path == PATHS[1] and command.opcode == ACQUIRE:
                raise Failure(f"{path}: the system refuses {command.name}: No such device")

        self.cluster.before[A] = fail
        self.expect(A, "off", KEY_B, 1, "/dev/nvme0n2: the system refuses", "fenced: /dev/nvme0n1; "
                    "not fenced: /dev/nvme0n2")
        self.assertEqual(self.cluster.keys(), [[KEY_A], [KEY_A, KEY_B]])

    def test_a_disk_that_forgets_the_preempt_is_not_believed(self) -> None:
        """A device answers success and does nothing: the agent reports that."""
        original = self.cluster.device

        def device(node: int, path: str) -> SubsystemDevice:
            found = original(node, path)
            submit = found.submit
            found.submit = lambda it: (0, b"") if it.opcode == ACQUIRE else submit(it)  # type: ignore[method-assign]
            return found

        self.cluster.device = device  # type: ignore[method-assign]
        self.expect(A, "off", KEY_B, 1, "key 0xb is still registered", "fenced: none")


@needs_subsystem
class RaceTest(unittest.TestCase):
    """Two nodes fence each other at once, and name the disks in another order."""

    def race(self, seed: int) -> Tuple[List[Tuple[int, str]], List[List[int]]]:
        """What both agents print, and the keys that are left, in one order of their commands."""
        with Subsystem() as subsystem, contextlib.redirect_stdout(io.StringIO()):
            cluster, turns = Cluster(subsystem), Turns(random.Random(seed))
            found = [(-1, ""), (-1, "")]
            for node, key in ((A, KEY_A), (B, KEY_B)):
                self.assertEqual(cluster.carry_out(node, "on", key)[0], 0)

            def fence(node: int, victim: int, devices: str) -> None:
                turns.await_turn(node)
                cluster.before[node] = lambda _, command: command.is_admin or turns.pass_on(node)
                found[node] = cluster.carry_out(node, "off", victim, devices=devices)
                turns.finish(node)

            threads = [threading.Thread(target=fence, args=(node, victim, ",".join(devices)))
                       for node, victim, devices in ((A, KEY_B, PATHS), (B, KEY_A, PATHS[::-1]))]
            for it in threads:
                it.start()
            for it in threads:
                it.join()
            cluster.before.clear()
            return found, cluster.keys()

    def test_one_of_two_is_left(self) -> None:
        winners, told = set(), ""
        for seed in range(24):
            with self.subTest(seed=seed):
                found, keys = self.race(seed)
                self.assertEqual(sorted(it[0] for it in found), [0, 1], found)
                winner = A if found[A][0] == 0 else B
                self.assertRegex(found[1 - winner][1], "this host has no registration there|Reservation Conflict")
                self.assertEqual(keys, [[(KEY_A, KEY_B)[winner]]] * 2)
                winners.add(winner)
                told += found[1 - winner][1]
        self.assertEqual(winners, {A, B})
        self.assertIn("/dev/nvme0n1: Preempt and Abort is answered Reservation Conflict (0:83); "
                      "fenced: none; not fenced: /dev/nvme0n1, /dev/nvme0n2", told)


if __name__ == "__main__":
    unittest.main()
