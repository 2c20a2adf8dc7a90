"""The subsystem over the library: the same answers and bytes as over the program, and what is refused."""
from __future__ import annotations

import ctypes
import os
import random
import subprocess
import sys
import unittest
from typing import Any, List

from nvmesim import (ConfigurationRefused, LibrarySubsystem, NotDone, ProgramNotFound, SessionClosed, Status, Subsystem,
                     library)

from .support import LIVE, PACKAGE

HERE = bool(os.environ.get(library.VARIABLE))
ENTRIES = 16


def entry(opcode: int, nsid: int = 0, prp1: int = 0, dw10: int = 0, dw11: int = 0, dw12: int = 0) -> bytes:
    """A submission queue entry of these fields."""
    fields = bytes([opcode, 0, 0, 0]) + nsid.to_bytes(4, "little") + bytes(16) + prp1.to_bytes(8, "little") + bytes(8)
    return (fields + b"".join(it.to_bytes(4, "little") for it in (dw10, dw11, dw12))).ljust(64, b"\0")


def described(subsystem: Any) -> List[Any]:
    """Describes two raw hosts that share a namespace, and starts."""
    hosts = [subsystem.raw_controller(it) for it in (0xA1, 2**127)]
    disk = subsystem.namespace(64)
    for host in hosts:
        subsystem.attach(host, disk)
    subsystem.start()
    return hosts


def up(host: Any) -> None:
    """Enables a controller, and creates a pair of I/O queues."""
    last = ENTRIES - 1
    for offset, value in ((0x24, last << 16 | last), (0x28, 0), (0x30, 0x1000), (0x14, 0x00460001)):
        host.write32(offset, value)
    for k, made in enumerate((entry(5, 0, 0x3000, last << 16 | 1, 1), entry(1, 0, 0x2000, last << 16 | 1, 1 << 16 | 1))):
        host.store(64 * k, made)
        host.write32(0x1000, k + 1)
        host.controller.fetch(0)
        assert host.controller.execute().status is Status.SUCCESSFUL_COMPLETION


def hostile(subsystem: Any, seed: int, count: int) -> List[Any]:
    """What random events give, of hosts that use their queues in any way, and all bytes at the end."""
    chance, hosts = random.Random(seed), described(subsystem)
    seen: List[Any] = []
    for host in hosts:
        up(host)
    for _ in range(count):
        host, kind = chance.choice(hosts), chance.randrange(8)
        if kind <= 1:
            made = entry(chance.choice((0, 1, 2, 5, 8, 9, 0x0D, 0x0E, 0x11, 0x15, 0x99)), chance.choice((1, 1, 1, 2)),
                         chance.choice((0x10000, 0x10008, 0x400000)), chance.randrange(66), 0, chance.choice((0, 0, 1)))
            seen.append(host.store(0x2000 + 64 * chance.randrange(ENTRIES), made))
        elif kind == 2:
            seen.append(host.store(chance.choice((0x10000, 0x3FFFFF, 0x400000)), chance.randbytes(16)))
        elif kind == 3:
            seen.append(host.write32(chance.choice((0x1008, 0x1008, 0x100C, 0x24)), chance.randrange(ENTRIES)))
        elif kind == 4:
            seen.append(host.register(chance.choice((0, 8, 0x14, 0x1C))))
        elif kind <= 6:
            seen += [host.controller.fetch(chance.randrange(3)), host.controller.execute(chance.randrange(2))]
        elif chance.randrange(40) == 0:
            seen.append(subsystem.power_cycle())
            for it in hosts:
                up(it)
        if chance.randrange(20) == 0:
            seen += [host.controller.queues(), host.controller.fetched(), subsystem.reservation(1)]
    return [*seen, *(host.window(at, 0x8000) for host in hosts for at in (0, 0x10000)), subsystem.blocks(1, 0, 64)]


def turn_by_calls(host: Any, number: int, made: bytes) -> Any:
    """What a host's turn gives that makes its calls one by one, at queues in which nothing waits; else None."""
    queues = {(it.is_submission, it.number): it for it in host.controller.queues()}
    sq = queues.get((True, number))
    cq = queues.get((False, sq.completion_queue)) if sq else None
    place = len(host.controller.fetched())
    if host.register(0x1C) != 1 or cq is None or sq.head != sq.tail or cq.head != cq.tail or place == 64:
        return None
    host.store(sq.place + 64 * sq.tail, made)
    host.write32(0x1000 + 8 * number, (sq.tail + 1) % sq.size)
    assert host.controller.fetch(number).took
    done = host.controller.execute(place)
    completion = host.window(cq.place + 16 * cq.tail, 16)
    host.write32(0x1004 + 8 * cq.number, (cq.tail + 1) % cq.size)
    return done.status, done.rule, completion


def turn_in_one(host: Any, number: int, made: bytes) -> Any:
    """The same in one call."""
    try:
        came = host.submit(number, made)
    except NotDone:
        return None
    return came.status, came.rule, came.entry


def turns(subsystem: Any, seed: int, count: int, turn: Any) -> List[Any]:
    """What turns give among random events of their hosts, and all bytes at the end."""
    chance, hosts = random.Random(seed), described(subsystem)
    seen: List[Any] = []
    for host in hosts:
        up(host)
    for _ in range(count):
        host, kind = chance.choice(hosts), chance.randrange(12)
        made = entry(chance.choice((0, 1, 2, 5, 8, 0x0D, 0x11, 0x15)), 1, chance.choice((0x10000, 0x10008)),
                     chance.randrange(66), 0, chance.choice((0, 0, 1)))
        if kind <= 6:
            seen.append(turn(host, chance.choice((0, 1, 1, 1, 1, 2)), made))
        elif kind == 7:
            host.write32(chance.choice((0x1000, 0x1008)), chance.randrange(ENTRIES))
        elif kind == 8:
            number = chance.randrange(2)
            for it in host.controller.queues():
                if not it.is_submission and it.number == number:
                    host.write32(0x1004 + 8 * number, it.tail)
        elif kind <= 10:
            seen += [host.controller.fetch(chance.randrange(2)), host.controller.execute()]
        elif chance.randrange(30) == 0:
            host.write32(0x14, chance.choice((0, 0x00464001, 0x00460001)))
            if host.register(0x1C) == 0:
                up(host)
    return [*seen, *(host.window(0, 0x12000) for host in hosts), subsystem.blocks(1, 0, 64), subsystem.reservation(1)]


@unittest.skipUnless(HERE, "no library was built for this test")
class LibraryTest(unittest.TestCase):
    """Each test uses the shared object that the environment names."""

    @unittest.skipUnless(LIVE, "nvmelive was not built for this test")
    def test_random_hosts_see_what_they_see_over_the_program(self) -> None:
        for seed in range(3):
            with Subsystem(backend="library") as one, Subsystem(program=LIVE) as other:
                seen, wanted = hostile(one, seed, 1500), hostile(other, seed, 1500)
            self.assertGreater(len({it.status for it in seen if hasattr(it, "status")}), 5)
            self.assertEqual(seen, wanted)

    def test_a_fenced_write(self) -> None:
        with Subsystem(backend="library") as subsystem:
            hosts = described(subsystem)
            answers = []
            for host in hosts:
                up(host)
            key, data = (0x11).to_bytes(8, "little"), b"\x5a" * 512
            steps = ((0, bytes(8) + key, 0x0D, 0), (0, key + bytes(8), 0x11, 1 << 8), (1, data, 1, 0), (0, data, 1, 0))
            for k, (which, stored, opcode, dw10) in enumerate(steps):
                host = hosts[which]
                host.store(0x10000, stored)
                place = sum(it == which for it, *_ in steps[:k])
                host.store(0x2000 + 64 * place, entry(opcode, 1, 0x10000, dw10))
                host.write32(0x1008, place + 1)
                self.assertTrue(host.controller.fetch().took)
                answers.append(host.controller.execute())
            self.assertEqual([it.status.code for it in answers], ["0:00", "0:00", "0:83", "0:00"])
            self.assertEqual([int(it.rule) for it in answers], [0, 0, 7, 0])
            self.assertEqual(subsystem.blocks(1, 0), data)

    def test_commands_in_one_call(self) -> None:
        with Subsystem(backend="library") as one, Subsystem(backend="library") as other:
            host, same = described(one)[0], described(other)[0]
            up(host)
            up(same)
            for k in range(3 * ENTRIES):
                made = entry(1 + k % 2, 1, 0x10000, k % 66)
                host.store(0x10000, bytes([k]) * 512)
                same.store(0x10000, bytes([k]) * 512)
                came = host.submit(1, made)
                same.store(0x2000 + 64 * (k % ENTRIES), made)
                same.write32(0x1008, (k + 1) % ENTRIES)
                same.controller.fetch()
                done = same.controller.execute()
                self.assertEqual((came.status, came.rule), (done.status, done.rule))
                self.assertEqual(came.entry, same.window(0x3000 + 16 * (k % ENTRIES), 16))
                same.write32(0x100C, (k + 1) % ENTRIES)
            self.assertEqual(one.blocks(1, 0, 64), other.blocks(1, 0, 64))
            self.assertEqual(host.controller.queues(), same.controller.queues())
            self.assertTrue(one.is_attached(1, 1) and not one.is_attached(1, 2))
            host.write32(0x1008, 1)
            self.assertRaises(NotDone, lambda: host.submit(1, entry(2, 1, 0x10000)))
            self.assertRaises(ValueError, lambda: host.submit(1, b"short"))

    def test_turns_among_random_events(self) -> None:
        for seed in range(3):
            with Subsystem(backend="library") as one, Subsystem(backend="library") as other:
                seen, wanted = turns(one, seed, 1500, turn_in_one), turns(other, seed, 1500, turn_by_calls)
            self.assertEqual(seen, wanted)
            self.assertGreater(sum(isinstance(it, tuple) for it in seen), 50)
            self.assertGreater(sum(it is None for it in seen), 50)

    def test_the_example(self) -> None:
        environment = {**os.environ, "PYTHONPATH": str(PACKAGE)}
        done = subprocess.run([sys.executable, str(PACKAGE / "examples/two_hosts.py")], capture_output=True, text=True,
                              env=environment, timeout=60)
        wanted = (PACKAGE.parent / "c/examples/two_hosts.out").read_text(encoding="utf-8")
        self.assertEqual((done.returncode, done.stderr, done.stdout), (0, "", wanted))

    def test_names_of_statuses(self) -> None:
        loaded, room = library.load(library.find_library()), ctypes.create_string_buffer(48)
        for it in Status:
            length = loaded.nvmesim_status_name(int(it.code[0], 16), int(it.code[2:], 16), room, 48)
            self.assertEqual((room.value.decode(), length), (it.text, len(it.text)))

    def test_what_is_refused(self) -> None:
        subsystem = Subsystem(backend="library")
        self.assertIsInstance(subsystem, LibrarySubsystem)
        host, disk = subsystem.raw_controller(1), subsystem.namespace(64)
        with self.assertRaises(NotDone):
            host.register(0)
        subsystem.start()
        with self.assertRaises(NotDone):
            subsystem.attach(host, disk)
        self.assertFalse(host.store(0x3FFFFF, b"two").is_inside)
        for wrong in (lambda: host.window(0x3FFFFF, 2), lambda: subsystem.blocks(disk, 64)):
            self.assertRaises(NotDone, wrong)
        for large in (lambda: host.write32(0, 2**32), lambda: host.store(2**64, b""), lambda: host.controller.fetch(-1)):
            self.assertRaises(ValueError, large)
        subsystem.close()
        subsystem.close()
        with self.assertRaises(SessionClosed):
            host.register(0)

    def test_faulty_configurations(self) -> None:
        for hosts, blocks, fault in (([0], 64, "BadId"), ([1], 0, "BadSize"), ([1], 1025, "DoesNotFit"),
                                     ([1] * 17, 64, "TooMany")):
            with Subsystem(backend="library") as subsystem, self.subTest(fault):
                for it in hosts:
                    subsystem.raw_controller(it)
                subsystem.namespace(blocks)
                with self.assertRaises(ConfigurationRefused) as caught:
                    subsystem.start()
                self.assertEqual(caught.exception.why, fault)


class BackendTest(unittest.TestCase):
    """What needs no library."""

    def test_backends_that_are_not_there(self) -> None:
        self.assertRaises(ValueError, lambda: Subsystem(backend="libraries"))
        self.assertRaises(ValueError, lambda: Subsystem("disk.img", backend="library"))
        with self.assertRaises(ProgramNotFound):
            library.load("/nowhere/libnvmesim.so.2")
