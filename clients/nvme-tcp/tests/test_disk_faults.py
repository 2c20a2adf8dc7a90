"""Faults of the image's disk: no wrong answer, good reads again after failed ones, no success after a failed write."""
import errno
import os
import random
import shutil
import subprocess
import time
import unittest
from typing import List

from tests.faulty_disk import (CACHE, FORCE_UNIT_ACCESS, READ, SYNC, UNRECOVERED_READ, WRITE, WRITE_FAULT, ZERO,
                               DiskTest, judge, play, read_all, read_file)
from tests.history import History, data_of, number_of, numbers_of
from tests.host import BLOCK, Ended, Host

# A page of the system, in blocks: a disk that can't read one sector fails the whole page.
PAGE = 8
# Blocks that are far apart, so that reading ahead for one doesn't read the other.
FIRST, FAR = 1024, 24000
# What four hosts read and write: more than the cache has.
PLACES = range(10000)


@unittest.skipUnless(shutil.which("cc"), "there is no cc")
class FaultTest(DiskTest):
    options = CACHE

    def numbers(self, host: Host, slba: int, blocks: int) -> List[int]:
        answer = host.read(slba, blocks)
        self.assertEqual(answer.status, 0)
        return numbers_of(slba, answer.data)


class Reads(FaultTest):
    def setUp(self) -> None:
        super().setUp()
        self.target.kill()
        self.at_first = self.fill()
        self.target.start()

    def test_a_bad_page(self) -> None:
        """2:81 with the blocks before it, if any; other blocks are read meanwhile, and these after it is healed."""
        bad = FIRST + 2 * PAGE
        self.faults.fail(READ, fault=errno.EIO, first=BLOCK * bad, end=BLOCK * (bad + PAGE))
        host = self.host()
        for slba, blocks in ((bad, 1), (FIRST, 4 * PAGE), (bad + PAGE - 1, 2), (bad - 1, 2)):
            answer = host.read(slba, blocks)
            self.assertEqual(answer.code, UNRECOVERED_READ, (slba, blocks))
            front = max(bad - slba, 0)
            self.assertEqual(answer.data, data_of(slba, front, 1)[:len(answer.data)], "it is no front of the blocks")
            self.assertLessEqual(len(answer.data), front * BLOCK)
        self.assertGreater(self.faults.get(READ, "faults"), 0)
        self.assertEqual(self.numbers(host, FAR, PAGE), [1] * PAGE)
        self.assertEqual(host.queues[0].call(0x05, 1, (bad).to_bytes(8, "little") + bytes(4),
                                             data_of(bad, 1, 1)).code, UNRECOVERED_READ)
        self.faults.heal()
        self.assertEqual(self.numbers(host, FIRST, 4 * PAGE), [1] * 4 * PAGE)

    def test_a_write_over_a_bad_page(self) -> None:
        """Whole pages need no reading. A part of one either fails, or keeps the rest."""
        self.faults.fail(READ, fault=errno.EIO, first=BLOCK * FIRST, end=BLOCK * (FIRST + 2 * PAGE))
        host = self.host()
        self.assertEqual(host.write(FIRST, data_of(FIRST, PAGE, 2)), 0)
        self.assertEqual(self.numbers(host, FIRST, PAGE), [2] * PAGE)
        code = host.write(FIRST + PAGE, data_of(FIRST + PAGE, 1, 3)) & 0x7ff
        self.assertIn(code, (0, WRITE_FAULT))
        self.faults.heal()
        self.again()
        found = read_all(self.host(), FIRST, 2 * PAGE)
        self.assertEqual(found[:PAGE] + found[PAGE + 1:], [2] * PAGE + [1] * (PAGE - 1))
        self.assertIn(found[PAGE], (3,) if code == 0 else (1, 3))

    def test_each_third_read_fails(self) -> None:
        """No read returns wrong blocks, with or without an error."""
        self.faults.fail(READ, 3, errno.EIO)
        history = History(self.at_first)
        players = play(self.target.port, history, [PLACES], 3, lambda _: time.sleep(0.7),
                       weights=(0, 2, 10, 2, 0), may_be=(UNRECOVERED_READ, WRITE_FAULT))
        judge(history, players)
        told = [it.statuses for it in players]
        self.assertGreater(sum(it.get(0, 0) for it in told), 20)
        self.assertGreater(sum(it.get(UNRECOVERED_READ, 0) for it in told), 0)
        self.assertGreater(self.faults.get(READ, "faults"), 0)

    def test_short_reads(self) -> None:
        """Each second read returns half: the rest is read too."""
        self.faults.fail(READ, 2)
        history = History(self.at_first)
        players = play(self.target.port, history, [PLACES], 4, lambda _: time.sleep(0.5))
        judge(history, players)
        self.assertGreater(self.faults.get(READ, "faults"), 0)

    def test_a_file_that_is_cut(self) -> None:
        """Blocks that are gone are never read as zeros, and no write makes the file long again. The target reports
        it, or ends."""
        host = self.host()
        os.truncate(self.disk, BLOCK * FAR)
        codes = []
        try:
            for slba, is_write in ((FAR + PAGE, False), (FAR + 2 * PAGE, True), (FAR - 1, False)):
                if is_write:
                    codes += [host.write(slba, data_of(slba, PAGE, 2)) & 0x7ff, host.flush() & 0x7ff]
                else:
                    answer = host.read(slba, 1)
                    codes.append(answer.code)
                    if answer.code == 0:
                        self.assertEqual(numbers_of(slba, answer.data), [1])
        except (Ended, OSError):
            codes.append(None)
        self.assertTrue(set(codes) & {None, UNRECOVERED_READ, WRITE_FAULT}, codes)
        self.assertLessEqual(os.stat(self.disk).st_size, BLOCK * FAR)
        if self.target.process.poll() is None and None in codes:
            self.target.process.wait(10)
        self.put_back()

    def put_back(self) -> None:
        """A target is running at the end."""
        self.target.kill()
        self.fill()
        self.target.start()

    def end(self) -> None:
        self.target.close()


class Writes(FaultTest):
    """Writes, syncs and zeroes that fail."""

    def writes_fail(self, host: Host) -> None:
        """From now on until the target is started again."""
        self.assertEqual(host.write(FAR, data_of(FAR, 1, 9)) & 0x7ff, WRITE_FAULT)
        self.assertEqual(host.flush() & 0x7ff, WRITE_FAULT)
        self.assertEqual(host.queues[0].call(0x08, 1, FAR.to_bytes(8, "little") + bytes(4)).code, WRITE_FAULT)

    def no_wrong_read(self, host: Host, slba: int, may_be: tuple) -> None:
        answer = host.read(slba, 1)
        if answer.code == 0:
            self.assertIn(number_of(slba, answer.data), may_be)
        else:
            self.assertIn(answer.code, (UNRECOVERED_READ, WRITE_FAULT))

    def fails_by(self, fault: int) -> None:
        host, other = self.host(), self.host(0xb2)
        self.assertEqual([host.write(FIRST, data_of(FIRST, 2, 1)), host.flush()], [0, 0])
        self.faults.fail(WRITE, fault=fault)
        codes = [host.write(FIRST, data_of(FIRST, 1, 2)) & 0x7ff, host.flush() & 0x7ff]
        self.assertIn(WRITE_FAULT, codes)
        self.assertEqual(codes[-1], WRITE_FAULT, "a Flush of what was not written has succeeded")
        self.assertGreater(self.faults.get(WRITE, "faults"), 0)
        for each in (host, other):
            self.writes_fail(each)
        self.faults.heal()
        for each in (host, other):
            self.writes_fail(each)
            self.no_wrong_read(each, FIRST, (1, 2))
            self.no_wrong_read(each, FIRST + 1, (1,))
        self.again()
        found = read_all(self.host(), FIRST, 2)
        self.assertEqual(found[1], 1)
        self.assertIn(found[0], (1, 2) if codes[0] else (2,))
        again = self.host(0xb2)
        self.assertEqual([again.write(FIRST, data_of(FIRST, 1, 4)), again.flush()], [0, 0])
        self.assertEqual(read_file(self.disk, FIRST, 2), [4, 1])

    def test_an_error(self) -> None:
        self.fails_by(errno.EIO)

    def test_no_space(self) -> None:
        self.fails_by(errno.ENOSPC)

    def test_short_writes(self) -> None:
        """Each second write takes half: the rest is written too."""
        self.faults.fail(WRITE, 2)
        history = History({it: 0 for it in PLACES})
        players = play(self.target.port, history, [PLACES], 5, lambda _: time.sleep(0.5))
        self.assertGreater(self.faults.get(WRITE, "faults"), 0)
        self.target.close()
        history.add_numbers(0, read_file(self.disk, 0, len(PLACES)), time.monotonic_ns())
        self.target.start()
        judge(history, players)

    def test_a_sync_that_fails(self) -> None:
        """The system may have dropped what it could not write: a second Flush can't succeed."""
        for command in ("flush", "force unit access"):
            host = self.host()
            self.assertEqual(host.write(FIRST, data_of(FIRST, 1, 1)), 0)
            self.faults.fail(SYNC, fault=errno.EIO)
            flags = FORCE_UNIT_ACCESS
            code = host.flush() if command == "flush" else host.write(FIRST, data_of(FIRST, 1, 1), flags=flags)
            self.assertEqual(code & 0x7ff, WRITE_FAULT, command)
            self.faults.heal()
            self.writes_fail(host)
            self.no_wrong_read(host, FIRST, (1,))
            self.again()
            host = self.host()
            self.assertEqual([host.write(FIRST, data_of(FIRST, 1, 2)), host.flush()], [0, 0])
            host.close()

    def test_each_tenth_write_fails(self) -> None:
        """Four hosts: after the first fault each block is old or new, and what was answered is there."""
        for fault, kind in ((errno.EIO, WRITE), (errno.EIO, SYNC)):
            history = History(dict(enumerate(self.numbers_now())))
            self.faults.fail(kind, 10, fault)
            players = play(self.target.port, history, [PLACES], 6, lambda _: self.wait_for_fault(kind),
                           may_be=(WRITE_FAULT, UNRECOVERED_READ))
            self.assertGreater(sum(it.statuses.get(WRITE_FAULT, 0) for it in players), 0)
            judge(history, players)
            self.again()
            written = history.without_reads()
            written.add_numbers(0, self.numbers_now(), time.monotonic_ns())
            written.check()

    def wait_for_fault(self, kind: int) -> None:
        """Waits for the first fault, and a while longer."""
        self.wait_for(lambda: self.faults.get(kind, "faults") > 0, 30)
        time.sleep(0.5)

    def numbers_now(self) -> List[int]:
        host = self.host()
        numbers = read_all(host, 0, len(PLACES))
        host.close()
        return numbers

    def test_zeroes_that_fail(self) -> None:
        """A refused hole is no fault: zeros are written instead. If these fail, the command does."""
        host = self.host()
        zeroes = FIRST.to_bytes(8, "little") + (63).to_bytes(4, "little")
        self.assertEqual([host.write(FIRST, data_of(FIRST, 64, 1)), host.flush()], [0, 0])
        self.faults.fail(ZERO, fault=errno.EOPNOTSUPP)
        self.assertEqual([host.queues[0].call(0x08, 1, zeroes).code, host.flush()], [0, 0])
        self.assertEqual(read_file(self.disk, FIRST, 64), [0] * 64)
        self.assertEqual([host.write(FIRST, data_of(FIRST, 64, 2)), host.flush()], [0, 0])
        self.faults.fail(ZERO, fault=errno.EIO)
        self.faults.fail(WRITE, fault=errno.EIO)
        codes = [host.queues[0].call(0x08, 1, zeroes).code, host.flush() & 0x7ff]
        self.assertEqual(codes[-1], WRITE_FAULT)
        self.again()
        self.assertLessEqual(set(read_all(self.host(), FIRST, 64)), {0, 2} if codes[0] else {0})


class Full(FaultTest):
    """A file system that is smaller than the image, which is sparse."""

    def make_disk(self):
        small = self.kept / "small"
        small.mkdir()
        words = ["mount", "-t", "tmpfs", "-o", "size=1m", "none", small]
        made = subprocess.run(words, stderr=subprocess.PIPE, text=True)
        if made.returncode:
            self.skipTest(f"no file system can be mounted: {made.stderr.strip()}")
        self.addCleanup(lambda: subprocess.run(["umount", "-l", small], check=True))
        disk = small / "disk.img"
        with open(disk, "wb") as file:
            file.truncate(self.blocks * BLOCK)
        return disk

    def test_a_full_disk(self) -> None:
        host, rng = self.host(), random.Random(7)
        places, answered = list(range(0, self.blocks, 16)), {}
        rng.shuffle(places)
        for slba in places:
            code = host.write(slba, data_of(slba, 16, slba + 1)) & 0x7ff
            if code == 0:
                code = host.flush() & 0x7ff
            if code:
                break
            answered[slba] = slba + 1
        self.assertEqual(code, WRITE_FAULT)
        self.assertTrue(32 < len(answered) < 140, len(answered))
        self.assertEqual(host.flush() & 0x7ff, WRITE_FAULT)
        self.again()
        host = self.host()
        for slba, number in answered.items():
            self.assertEqual(self.numbers(host, slba, 16), [number] * 16)
        self.assertLessEqual(set(self.numbers(host, places[len(answered)], 16)), {0, places[len(answered)] + 1})


del FaultTest
