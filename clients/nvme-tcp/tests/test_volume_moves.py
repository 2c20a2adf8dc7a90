"""A volume moves: another machine takes it over, or its target is killed. NVMETCP_VOLUME_KILLS is the number of kills,
12 unless it is set."""
import os
import random
import shutil
import signal
import struct
import subprocess
import threading
import time
import unittest
from contextlib import closing
from pathlib import Path
from unittest import mock

from tests.host import BLOCK, Ended, Host, Queue
from tests.targets import BLOCKS, PROGRAM, Target
from tests.test_power_cuts import cut, unsynced
from tests.volumes import BLOCKS_AT, FENCED, VolumeTarget, VolumeTest

KILLS = int(os.environ.get("NVMETCP_VOLUME_KILLS", "12"))


@unittest.skipUnless(shutil.which("cc"), "there is no cc")
class Takeovers(VolumeTest):
    """A target is stopped, another machine takes the volume over, and the first continues."""

    def setUp(self) -> None:
        super().setUp()
        self.format()
        self.first = self.target()

    def taken_over(self) -> VolumeTarget:
        self.first.process.send_signal(signal.SIGSTOP)
        begun = time.monotonic()
        other = self.target("there", self.elsewhere())
        self.assertGreater(time.monotonic() - begun, 4, "the lease was not waited for")
        self.assertIn("waits until the lease of process", self.errors(other))
        return other

    def test_a_shorter_lease(self) -> None:
        """A volume that was formatted with a lease of a second is taken over after that."""
        self.first.close()
        self.format("--force", "--lease", "1")
        self.assertIn("\nlease 1 s\n", self.passes("dump", self.volume))
        self.first.start()
        a = self.host(self.first)
        self.first.process.send_signal(signal.SIGSTOP)
        begun = time.monotonic()
        other = self.target("there", self.elsewhere())
        waited = time.monotonic() - begun
        self.assertTrue(1.1 <= waited < 4, waited)
        a.queues[0].send_command(0x01, 1, struct.pack("<QI", 9, 0), b"\1" * BLOCK)
        self.first.process.send_signal(signal.SIGCONT)
        with self.assertRaises((Ended, OSError)):
            a.queues[0].completion()
        self.ends("has ended")
        self.assertEqual(self.host(other, 0xb2).read(9, 1).data, bytes(BLOCK))
        self.refused("--lease 0: a lease has 1 to 60 whole seconds", "format", self.volume, "--config", self.config,
                     "--lease", "0", status=3)

    def ends(self, text: str) -> None:
        self.assertEqual(self.first.process.wait(3), 2)
        self.assertIn(text, self.errors(self.first))
        self.first.close()

    def test_the_first_ends_without_an_answer(self) -> None:
        """Whatever hosts have asked: a write, a read, or a command that the journal takes."""
        for ask in (lambda it: it.send_command(0x01, 1, struct.pack("<QI", 9, 0), b"\1" * BLOCK),
                    lambda it: it.send_command(0x02, 1, struct.pack("<QI", 9, 0), length=BLOCK),
                    lambda it: it.send_command(0x15, 1, struct.pack("<I", 3 << 8), struct.pack("<Q", 0xa))):
            a = self.host(self.first)
            self.assertEqual([a.register(0, 0xa), a.acquire(0xa, kind=3), a.write(9, b"\2" * BLOCK)], [0] * 3)
            other = self.taken_over()
            b = self.host(other, 0xb2)
            self.assertEqual([b.register(0, 0xb), b.acquire(0xb, 0xa, action=1, kind=3), b.write(9, b"\3" * BLOCK)],
                             [0] * 3)
            b.close()
            ask(a.queues[0])
            before = self.volume.read_bytes()
            self.first.process.send_signal(signal.SIGCONT)
            with self.assertRaises((Ended, OSError)):
                a.queues[0].completion()
            self.ends("has ended")
            self.assertEqual(self.volume.read_bytes(), before, "the first has written")
            self.is_fenced(other)
            other.close()
            self.passes("format", self.volume, "--config", self.config, "--force")
            self.first.start()

    def test_writes_in_progress(self) -> None:
        """The first is stopped while it writes without a pause. After the takeover it writes nothing more."""
        host = self.host(self.first, size=64)
        told = []
        thread = threading.Thread(target=self.writes, args=(host, told))
        thread.start()
        while len(told) < 50:
            time.sleep(0.01)
        other = self.taken_over()
        count, b = len(told), self.host(other, 0xb2)
        for place, data in list(enumerate(told))[-900:-1]:
            self.assertEqual(b.read(place % 1000, 1).data, data, "what was answered is lost")
        for place in range(0, BLOCKS, 128):
            self.assertEqual(b.write(place, b"\x77" * 128 * BLOCK), 0)
        before = self.volume.read_bytes()[BLOCKS_AT:]
        self.first.process.send_signal(signal.SIGCONT)
        self.ends("has ended")
        thread.join()
        # An answer may have been in the socket.
        self.assertLessEqual(len(told), count + 1)
        self.assertEqual(self.volume.read_bytes()[BLOCKS_AT:], before, "the first has written")

    def writes(self, host: Host, told: list) -> None:
        try:
            for number in range(1 << 30):
                data = struct.pack("<Q", number) * 64
                assert host.write(number % 1000, data) == 0
                told.append(data)
        except (Ended, OSError):
            pass

    def test_a_first_that_runs(self) -> None:
        """It finds the newer epoch in time."""
        other = self.target("there", self.elsewhere())
        self.ends("has taken the volume over: it began epoch 2, this one 1")
        self.assertEqual(self.host(other).write(0, bytes(BLOCK)), 0)

    def test_two_at_once(self) -> None:
        """Targets of two machines start at once over a volume that nobody has: one of them serves."""
        self.first.close()
        for lease in ("1", "4"):
            with self.subTest(lease=lease):
                self.format("--force", "--lease", lease)
                self.start_two()

    def start_two(self) -> None:
        words = [PROGRAM, "--listen", "127.0.0.1:0", str(self.volume)]
        environments = [dict(os.environ), {**os.environ, "LD_PRELOAD": self.elsewhere()}]
        processes = [subprocess.Popen(words, env=it, stdout=subprocess.DEVNULL, stderr=subprocess.PIPE, text=True)
                     for it in environments]
        time.sleep(7)
        ended = [it for it in processes if it.poll() is not None]
        [it.kill() for it in processes if it not in ended]
        errors = [it.communicate(timeout=9)[1] for it in processes]
        self.assertEqual([it.returncode for it in ended], [2], errors)
        self.assertIn("has taken the volume over", errors[processes.index(ended[0])])

    def test_read_only(self) -> None:
        host = self.host(self.first)
        self.assertEqual(host.write(5, b"\5" * BLOCK), 0)
        self.first.close()
        self.first.options = ["--read-only"]
        self.first.start()
        host = self.host(self.first)
        self.assertEqual((host.write(5, bytes(BLOCK)), host.read(5, 1).data), (0x4020, b"\5" * BLOCK))
        self.first.close()
        self.first.options = []
        self.first.start()
        self.assertEqual(self.host(self.first).write(5, bytes(BLOCK)), 0)

    def test_a_short_stop(self) -> None:
        """A target that was stopped for less than a lease serves, and one that was stopped for longer ends."""
        host = self.host(self.first)
        for seconds in (1, 5):
            self.first.process.send_signal(signal.SIGSTOP)
            time.sleep(seconds)
            self.first.process.send_signal(signal.SIGCONT)
            if seconds == 1:
                self.assertEqual(host.write(0, bytes(BLOCK)), 0)
        self.ends("the lease of the volume has ended: this process was stopped")
        self.first.start()
        self.assertEqual(self.host(self.first).write(0, bytes(BLOCK)), 0)


class Kills(VolumeTest):
    """Two hosts write, one fences the other at times, and the target is killed at any moment."""

    turns, library = KILLS, ""

    def fail(self, target: VolumeTarget, rng: random.Random) -> None:
        target.kill()

    def test_kills(self) -> None:
        self.format()
        self.may = {}
        target, rng = self.target(library=self.library), random.Random(9)
        for turn in range(self.turns):
            a, b = Host(target.port, 0xa1), Host(target.port, 0xb2)
            self.assertEqual(b.reserve(0x0d, 2 | 8 | 3 << 30, 0, 0xb), 0)
            b.reserve(0x15, 1, 0xb)
            self.assertEqual([a.register(0, 0xa), a.acquire(0xa, kind=3), b.register(0, 0xb)], [0] * 3)
            self.fenced, self.asked = False, False
            threads = [threading.Thread(target=self.writes, args=(it, a if it == 0 else b, turn)) for it in range(2)]
            [thread.start() for thread in threads]
            time.sleep(rng.uniform(0, 0.03))
            if turn % 3:
                fencing = threading.Thread(target=self.preempts, args=(target.port, b.cntlid))
                fencing.start()
                threads.append(fencing)
            time.sleep(rng.uniform(0, 0.03))
            self.fail(target, rng)
            [thread.join() for thread in threads]
            [queue.close() for host in (a, b) for queue in (host.admin, *host.queues)]
            self.judge()
            target.start()
            with closing(Host(target.port, 0xa1)) as host:
                status = host.write(2000, bytes(BLOCK))
                self.assertIn(status, {FENCED} if self.fenced else {0, FENCED} if self.asked else {0})
            self.wait_until_gone(target)

    def wait_until_gone(self, target: Target) -> None:
        while target.hosts():
            time.sleep(0.005)

    def preempts(self, port: int, cntlid: int) -> None:
        try:
            with closing(Queue(port)) as queue:
                if queue.connect(2, 0xb2, cntlid).status == 0:
                    self.asked = True
                    status = queue.call(0x11, 1, struct.pack("<I", 1 | 3 << 8), struct.pack("<QQ", 0xb, 0xa)).status
                    self.fenced = status == 0
        except (Ended, OSError):
            pass

    def writes(self, which: int, host: Host, turn: int) -> None:
        rng = random.Random(turn * 2 + which)
        try:
            while True:
                place, count = 900 * which + rng.randrange(800), rng.choice((1, 9, 60))
                data = rng.randbytes(BLOCK * count)
                pieces = {place + at: data[BLOCK * at:BLOCK * (at + 1)] for at in range(count)}
                late = which == 0 and self.fenced
                for at, piece in pieces.items() if not late else ():
                    self.may[at] = [*self.may.get(at, [bytes(BLOCK)]), piece]
                status = host.write(place, data)
                assert status == 0 or which == 0 and status in (FENCED, 0x401b), hex(status)
                assert not (late and status == 0), "a fenced host's write has succeeded"
                if status == 0:
                    self.may.update({at: [piece] for at, piece in pieces.items()})
        except (Ended, OSError):
            pass

    def judge(self) -> None:
        content = self.volume.read_bytes()[BLOCKS_AT:]
        for place, pieces in self.may.items():
            found = content[BLOCK * place:BLOCK * (place + 1)]
            self.assertIn(found, pieces, "what was answered is lost, or a block is torn")
            self.may[place] = [found]


@unittest.skipUnless(shutil.which("cc"), "there is no cc")
class PowerCuts(Kills):
    """The machine loses its power: of what no sync has followed, a part is lost."""

    turns = max(4, KILLS // 3)

    def setUp(self) -> None:
        super().setUp()
        library, self.log, self.lost = self.room / "unsynced.so", self.room / "unsynced", 0
        source = Path(__file__).parent / "unsynced.c"
        subprocess.run(["cc", "-O1", "-shared", "-fPIC", "-o", library, source, "-ldl", "-pthread"], check=True)
        self.library = str(library)
        named = {"UNSYNCED": str(self.log), "UNSYNCED_IMAGE": str(self.volume)}
        patched = mock.patch.dict(os.environ, named)
        patched.start()
        self.addCleanup(patched.stop)

    def fail(self, target: VolumeTarget, rng: random.Random) -> None:
        target.kill()
        self.lost += cut(self.volume, unsynced(self.log.read_bytes()), rng, rng.random() < 0.5)
        self.log.write_bytes(b"")

    def test_kills(self) -> None:
        super().test_kills()
        # Else nothing was tested.
        self.assertGreater(self.lost, 0)


del VolumeTest
