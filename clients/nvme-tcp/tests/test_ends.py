"""SIGTERM and SIGINT end the target in order: answers that are due go out, its files are whole, its status is 0."""
import os
import signal
import struct
import subprocess
import tempfile
import threading
import time
import unittest
from pathlib import Path

from tests.host import BLOCK, Ended, Host
from tests.targets import BLOCKS, LIVE, PROGRAM, TWO_HOSTS, Target, TargetTest


class Ends(TargetTest):
    image = BLOCKS

    def setUp(self) -> None:
        self.kept = tempfile.TemporaryDirectory()
        self.addCleanup(self.kept.cleanup)
        self.script = Path(self.kept.name, "kept.nvme")
        self.options = ["--script", str(self.script), "--force", "--state", str(Path(self.kept.name, "state"))]
        super().setUp()

    def end(self) -> None:
        self.target.close()

    def ended(self, seconds: float = 5.0) -> int:
        """The status with which the target ends by itself, soon."""
        return self.target.process.wait(seconds)

    def test_while_it_is_idle(self) -> None:
        for number in (signal.SIGTERM, signal.SIGINT):
            host = self.host()
            self.assertEqual(host.write(7, b"\1" * BLOCK), 0)
            self.target.process.send_signal(number)
            for queue in (host.admin, *host.queues):
                with self.assertRaises(Ended) as ended:
                    queue.unit()
                self.assertIsNone(ended.exception.status)
            host.close()
            self.assertEqual(self.ended(), 0)
            self.assertNotRegex((self.folder / "errors").read_text(), "fault|warning")
            self.assertRaises(OSError, Host, self.target.port, 0xa1)
            self.target.close()
            self.target.start()

    def test_a_host_that_does_not_close(self) -> None:
        self.host()
        self.target.process.send_signal(signal.SIGTERM)
        self.assertEqual(self.ended(), 0)

    def test_while_it_is_busy(self) -> None:
        """Each host writes until its connection is closed. What was answered is in the image, and the script has it."""
        hosts, told, going = [self.host(), self.host(0xb2)], [{}, {}], [{}, {}]
        threads = [threading.Thread(target=self.writes, args=it) for it in zip((0, 1024), hosts, told, going)]
        for thread in threads:
            thread.start()
        time.sleep(0.3)
        self.target.process.send_signal(signal.SIGTERM)
        for thread in threads:
            thread.join(10)
        self.assertEqual(self.ended(), 0)
        image = self.target.image.read_bytes()
        for answered, asked in zip(told, going):
            self.assertGreater(len(answered), 20)
            for place, data in answered.items():
                found = image[BLOCK * place:BLOCK * (place + 8)]
                self.assertIn(found, (data, asked.get(place, data)), "what was answered is missing")
        self.replay(image)

    def writes(self, first: int, host: Host, told: dict, going: dict) -> None:
        """Writes 16 commands deep, and keeps what was answered last at each place."""
        queue, turn, asked = host.queues[0], 0, {}
        try:
            while True:
                for cid in range(16):
                    place, data = first + 8 * ((16 * turn + cid) % 64), os.urandom(BLOCK * 8)
                    asked[cid] = (place, data)
                    going[place] = data
                    queue.send_command(0x01, 1, struct.pack("<QI", place, 7), data, cid=cid)
                for _ in range(16):
                    answer = queue.completion()
                    place, data = asked[answer.cid]
                    told[place] = data
                turn += 1
        except (Ended, OSError):
            pass

    def replay(self, image: bytes) -> None:
        """The kept script has whole lines, and leaves the same blocks by the same transcript."""
        lines, gave = self.script.read_bytes(), Path(f"{self.script}.out").read_bytes()
        self.assertEqual((lines[-1:], gave[-1:]), (b"\n", b"\n"))
        if LIVE:
            again = self.folder / "again.img"
            again.write_bytes(bytes(BLOCK * BLOCKS))
            ran = subprocess.run([LIVE, str(again)], input=lines, stdout=subprocess.PIPE, check=True)
            self.assertEqual(ran.stdout.partition(b"started\n")[2], gave)
            self.assertEqual(again.read_bytes(), image)

    def test_reservations_are_there_again(self) -> None:
        host = self.host()
        self.assertEqual([host.register(0, 0xa), host.acquire(0xa)], [0, 0])
        self.target.process.send_signal(signal.SIGTERM)
        self.assertEqual(self.ended(), 0)
        self.target.close()
        self.target.start()
        self.assertEqual(self.host(0xb2).write(7, bytes(BLOCK)), 0x4083)


@unittest.skipUnless(PROGRAM, "NVMETCP names no program")
class Seconds(unittest.TestCase):
    """A target that can't end, since nobody takes the lines of its script: the second signal ends it at once."""

    def test_a_second_signal(self) -> None:
        with tempfile.TemporaryDirectory() as room:
            lines = Path(room, "kept.nvme")
            os.mkfifo(lines)
            reader = os.open(lines, os.O_RDONLY | os.O_NONBLOCK)
            target = Target(Path(room), TWO_HOSTS, options=["--script", str(lines), "--force"])
            host = Host(target.port, 0xa1)
            for cid in range(40):
                host.queues[0].send_command(0x01, 1, struct.pack("<QI", 0, 15), bytes(BLOCK * 16), cid=cid)
            time.sleep(0.3)
            target.process.send_signal(signal.SIGINT)
            with self.assertRaises(subprocess.TimeoutExpired):
                target.process.wait(1.5)
            target.process.send_signal(signal.SIGTERM)
            self.assertEqual(target.process.wait(2), -signal.SIGTERM)
            host.close()
            target.close()
            os.close(reader)
