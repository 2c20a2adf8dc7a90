"""Calls on the image that take long: other hosts don't wait for them, and overlapping commands have one order."""
import struct
import shutil
import threading
import time
import unittest
from typing import List

from tests.faulty_disk import CACHE, FIFTH, READ, SYNC, WRITE, ZERO, DiskTest, judge, play, read_file
from tests.history import History, data_of, numbers_of
from tests.host import BLOCK, Host



def latencies(host: Host, seconds: float, least: int = 0) -> List[float]:
    """The seconds of each of a host's reads of 4 KiB, which are in the cache."""
    taken, last = [], time.monotonic() + seconds
    while time.monotonic() < last or len(taken) < least:
        begun = time.perf_counter()
        assert host.read(8 * (len(taken) % 16), 8).status == 0
        taken.append(time.perf_counter() - begun)
    return taken


def percentile(taken: List[float]) -> float:
    """The 99th percentile, in milliseconds."""
    return 1000 * sorted(taken)[len(taken) * 99 // 100]


@unittest.skipUnless(shutil.which("cc"), "there is no cc")
class Starts(DiskTest):
    def test_what_a_killed_target_wrote_is_synced(self) -> None:
        """With --write-through, before a host can read it; otherwise nothing is promised of it."""
        for options, syncs in ((), 0), (("--write-through",), 1):
            self.target.options = [*self.options, *options]
            before = self.faults.get(SYNC, "calls")
            self.again()
            self.assertEqual(self.faults.get(SYNC, "calls") - before, syncs)


@unittest.skipUnless(shutil.which("cc"), "there is no cc")
class Delays(DiskTest):
    """A disk of which each call of one kind takes very long."""

    options = CACHE

    def others_read(self, kind: int, opcode: int, words: List[bytes], data: bytes = b"", length: int = 0) -> None:
        """A host's commands wait for the disk. Another host's reads meanwhile take as long as before."""
        slow, quick = [self.host(it, queues=4) for it in (0xa1, 0xc3)], self.host(0xb2)
        before = percentile(latencies(quick, 0.3, 200))
        self.assertEqual(slow[0].write(1000, data_of(1000, 8, 7)), 0)
        # The host is the only one that is served before.
        for _ in range(5):
            self.assertEqual(slow[0].read(1000, 8).status, 0)
        self.faults.delay(kind, 5)
        queues = [(slow[0].queues + slow[1].queues)[it // 60] for it in range(len(words))]
        for queue, each in zip(queues, words):
            queue.send_command(opcode, 1, each, data, length)
        self.wait_for(lambda: self.faults.get(kind, "waiting") > 0)
        taken = latencies(quick, 0.7)
        self.assertGreater(self.faults.get(kind, "waiting"), 0, "the commands are over")
        self.faults.delay(kind, 0)
        self.assertEqual([it.completion().status for it in queues], [0] * len(words))
        # A target that waited for its disk would take much longer. The bound is for a machine with other work.
        self.assertLess(percentile(taken), before + 100, f"in milliseconds, of {len(taken)} reads")

    def test_a_flush(self) -> None:
        self.others_read(SYNC, 0x00, [b""])

    def test_a_flush_delays_no_read(self) -> None:
        """While a sync takes a second, the 99th percentile of another host's cached reads is at most a millisecond
        higher. Other work of the machine delays them too, so it is measured until that is seen, at most ten times."""
        flushing, quick = self.host(), self.host(0xb2)
        self.faults.delay(SYNC, 1)
        rises: List[float] = []
        while len(rises) < 10 and min(rises, default=2.0) > 1:
            before = percentile(latencies(quick, 0.3, 200))
            self.assertEqual(flushing.write(1000, data_of(1000, 8, 7)), 0)
            flushing.queues[0].send_command(0x00, 1)
            self.wait_for(lambda: self.faults.get(SYNC, "waiting") > 0)
            rises.append(percentile(latencies(quick, 0.3, 200)) - before)
            self.assertGreater(self.faults.get(SYNC, "waiting"), 0, "the sync is over")
            self.assertEqual(flushing.queues[0].completion().status, 0)
        self.assertLessEqual(min(rises), 1, f"in milliseconds: {rises}")

    def test_many_reads(self) -> None:
        """More than the target's threads do together."""
        self.others_read(READ, 0x02, [struct.pack("<QI", 16384 + 256 * it, 255) for it in range(32)],
                         length=256 * BLOCK)

    def test_a_write(self) -> None:
        self.others_read(WRITE, 0x01, [struct.pack("<QI", 16384, 0)], bytes(BLOCK))

    def test_many_writes(self) -> None:
        """More than the cache may have that the disk does not."""
        self.others_read(WRITE, 0x01, [struct.pack("<QI", 2048 + 64 * it, 15) for it in range(400)], bytes(16 * BLOCK))

    def test_zeroes(self) -> None:
        self.others_read(ZERO, 0x08, [struct.pack("<QI", 16384 + 256 * it, 255) for it in range(20)])

    def test_two_flushes(self) -> None:
        """A Flush that comes while another syncs has a sync of its own: that one began too early."""
        a, b = self.host(), self.host(0xb2)
        self.faults.delay(SYNC, 0.4)
        self.assertEqual(a.write(0, data_of(0, 1, 5)), 0)
        a.queues[0].send_command(0x00, 1)
        self.wait_for(lambda: self.faults.get(SYNC, "waiting") > 0)
        begun = time.monotonic()
        self.assertEqual([b.write(8, data_of(8, 1, 6)), b.flush()], [0, 0])
        self.assertGreater(time.monotonic() - begun, 0.35, "it was answered by a sync that began before its Write")
        self.assertEqual(a.queues[0].completion().status, 0)
        self.assertGreaterEqual(self.faults.get(SYNC, "calls"), 2)

    def test_a_flush_without_writes(self) -> None:
        """A Write that was answered is synced by the next Flush, whichever host sends it."""
        a, b = self.host(), self.host(0xb2)
        self.assertEqual(a.write(0, data_of(0, 1, 5)), 0)
        before = self.faults.get(SYNC, "calls")
        self.assertEqual(b.flush(), 0)
        self.assertGreater(self.faults.get(SYNC, "calls"), before)
        self.assertEqual(read_file(self.disk, 0, 1), [5])


    def test_blocks_that_become_zeros(self) -> None:
        """While zeroes are in progress, others read zeros, write there, and read that."""
        a, b = self.host(), self.host(0xb2)
        self.assertEqual([a.write(2000, data_of(2000, 16, 5)), a.flush()], [0, 0])
        self.again()
        hosts = [self.host(it) for it in (0xa1, 0xb2, 0xc3)]
        self.faults.delay(ZERO, 0.6)
        zeroes, read, write = [it.queues[0] for it in hosts]
        zeroes.send_command(0x08, 1, struct.pack("<QI", 2000, 15))
        self.wait_for(lambda: self.faults.get(ZERO, "waiting") > 0)
        read.send_command(0x02, 1, struct.pack("<QI", 2000, 15), length=16 * BLOCK)
        write.send_command(0x01, 1, struct.pack("<QI", 2003, 0), data_of(2003, 1, 6))
        answers = [it.completion() for it in (zeroes, read, write)]
        self.assertEqual([it.status for it in answers], [0] * 3)
        zeros, written = [0] * 16, [6 * (it == 3) for it in range(16)]
        self.assertIn(numbers_of(2000, answers[1].data), (zeros, written))
        self.target.kill()
        self.assertEqual(read_file(self.disk, 2000, 16), written)
        self.target.start()

    def test_two_writes_of_a_block(self) -> None:
        """The second one would take less time than the first."""
        hosts = [self.host(it) for it in (0xa1, 0xb2)]
        while self.faults.get(WRITE, "calls") % 4 != 2:
            self.assertEqual(hosts[0].write(0, data_of(0, 1, 4)), 0)
        self.faults.delay(WRITE, 1.6, varies=True)
        for number, host in enumerate(hosts, 5):
            host.queues[0].send_command(0x01, 1, struct.pack("<QI", 8, 0), data_of(8, 1, number))
            self.wait_for(lambda: self.faults.get(WRITE, "waiting") > 0)
            time.sleep(0.1)
        self.assertEqual([it.queues[0].completion().status for it in hosts], [0, 0])
        self.wait_for(lambda: self.faults.get(WRITE, "waiting") == 0)
        self.target.kill()
        self.assertEqual(read_file(self.disk, 8, 1), [6])
        self.target.start()

    def test_a_block_that_is_being_written(self) -> None:
        """It doesn't leave the cache, however much is read meanwhile."""
        writer, sweeper, reader = [self.host(it) for it in (0xa1, 0xb2, 0xc3)]
        self.assertEqual([writer.write(8, data_of(8, 1, 5)), writer.flush()], [0, 0])
        self.faults.delay(WRITE, 20)
        writer.queues[0].send_command(0x01, 1, struct.pack("<QI", 8, 0), data_of(8, 1, 6))
        self.wait_for(lambda: self.faults.get(WRITE, "waiting") > 0)
        for slba in range(4096, 4096 + 80 * 256, 256):
            self.assertEqual(sweeper.read(slba, 256).status, 0)
        reader.queues[0].send_command(0x02, 1, struct.pack("<QI", 8, 0), length=BLOCK)
        time.sleep(0.2)
        self.assertGreater(self.faults.get(WRITE, "waiting"), 0)
        self.faults.delay(WRITE, 0)
        self.assertEqual(numbers_of(8, reader.queues[0].completion().data), [6])
        self.assertEqual(writer.queues[0].completion().status, 0)

    def test_the_end(self) -> None:
        """A target that a signal ends writes, answers and syncs what it has begun."""
        host = self.host()
        self.faults.delay(WRITE, 0.6)
        cid = host.queues[0].send_command(0x01, 1, struct.pack("<QI", 8, 0), data_of(8, 1, 6))
        self.wait_for(lambda: self.faults.get(WRITE, "waiting") > 0)
        syncs = self.faults.get(SYNC, "calls")
        self.target.process.terminate()
        answer = host.queues[0].completion()
        self.assertEqual((answer.cid, answer.status), (cid, 0))
        self.assertEqual(self.target.process.wait(10), 0)
        self.assertGreater(self.faults.get(SYNC, "calls"), syncs)
        self.assertEqual(read_file(self.disk, 8, 1), [6])
        self.again()

    def test_what_was_read_stays(self) -> None:
        """A host reads the bytes of a Write that is not answered, and the target is killed: they are not gone."""
        writer, reader = self.host(), self.host(0xb2)
        self.assertEqual([writer.write(8, data_of(8, 1, 5)), writer.flush()], [0, 0])
        self.faults.delay(WRITE, 0.6)
        writer.queues[0].send_command(0x01, 1, struct.pack("<QI", 8, 0), data_of(8, 1, 6))
        self.wait_for(lambda: self.faults.get(WRITE, "waiting") > 0)
        seen = numbers_of(8, reader.read(8, 1).data)
        self.target.kill()
        found = read_file(self.disk, 8, 1)
        self.target.start()
        self.assertIn((seen, found), (([5], [5]), ([5], [6]), ([6], [6])))


@unittest.skipUnless(shutil.which("cc"), "there is no cc")
class Overlaps(DiskTest):
    """Four hosts over the same few blocks, whose disk is slow: no read gives older bytes than an answered command."""

    options = CACHE
    # The rest is longer than the cache: it is read all the time, so that these blocks leave the cache. Half of the
    # places come up again and again, the others are not in the cache when the hosts begin with them.
    places = [range(64 * it, 64 * it + 16) for new in range(30) for it in (new % 4, 4 + new)]
    rest = range(64 * 34, 32768)
    # Seconds of a read, a write and zeroes.
    delays = ((0.003, 0.002, 0.05), (0.0, 0.25, 0.002), (0.1, 0.0, 0.2))

    def setUp(self) -> None:
        super().setUp()
        self.target.kill()
        self.at_first = self.fill()
        self.target.start()

    def test_one_order(self) -> None:
        history = History({it: 1 for it in range(self.rest[0])})
        stop, sweeper = threading.Event(), self.host(FIFTH)
        thread = threading.Thread(target=self.sweep, args=(sweeper, stop))
        thread.start()
        try:
            players = play(self.target.port, history, self.places, 11, lambda _: self.change(), most=8,
                           weights=(1, 6, 8, 2, 4))
        finally:
            stop.set()
            thread.join(30)
        self.assertTrue(all(it.answered > 20 for it in players))
        self.target.close()
        history.add_numbers(0, read_file(self.disk, 0, self.rest[0]), time.monotonic_ns())
        self.target.start()
        judge(history, players)

    def change(self) -> None:
        """Changes the delays now and then."""
        self.faults.delay(SYNC, 0.01)
        for delays in 2 * self.delays:
            for kind, seconds in zip((READ, WRITE, ZERO), delays):
                self.faults.delay(kind, seconds, varies=True)
            time.sleep(0.5)

    def sweep(self, host: Host, stop: threading.Event) -> None:
        """Reads all other blocks again and again, so that those of the hosts leave the cache."""
        while not stop.is_set():
            for slba in range(self.rest[0], self.rest[-1] - 255, 256):
                if stop.is_set():
                    break
                answer = host.read(slba, 256)
                assert answer.status == 0 and set(numbers_of(slba, answer.data)) == {1}


del DiskTest
