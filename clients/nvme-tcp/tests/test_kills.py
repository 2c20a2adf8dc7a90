"""Many commands are in progress when the target is killed: the image and the kept run have all answered ones."""
import os
import random
import select
import struct
import subprocess
import tempfile
import threading
import time
import unittest
from pathlib import Path

from tests.host import BLOCK, Ended, Host
from tests.targets import BLOCKS, LIVE, TargetTest, expand

# Number of regions that each host writes at a time, and their blocks. They are neighbours, which an image gets
# together; and their lines are several pieces of a script.
REGIONS, REGION = 6, 100


class Kills(TargetTest):
    """What `content` gives is judged after each kill."""

    turns = 8

    def content(self) -> bytes:
        raise unittest.SkipTest("the classes below have it")

    def test_kills(self) -> None:
        rng = random.Random(8)
        for turn in range(self.turns):
            before = self.content()
            hosts = [Host(self.target.port, 0xa1), Host(self.target.port, 0xb2)]
            # The possible bytes of each position.
            may = {place: [before[BLOCK * place:BLOCK * (place + REGION)]]
                   for place in (1024 * which + REGION * it for which in range(2) for it in range(REGIONS))}
            first = {place: pieces[0] for place, pieces in may.items()}
            threads = [threading.Thread(target=self.writes, args=(it, host, may, turn))
                       for it, host in enumerate(hosts)]
            for thread in threads:
                thread.start()
            # Something was answered by then, however busy the machine is.
            self.wait_for(lambda: any(may[place][0] != pieces for place, pieces in first.items()), 30)
            time.sleep(rng.uniform(0.02, 0.2))
            self.target.kill()
            for thread in threads:
                thread.join()
            self.judge(before, may)
            for queue in (it for host in hosts for it in (host.admin, *host.queues)):
                queue.close()
            self.target.start()

    def judge(self, before: bytes, may: dict) -> None:
        content = self.content()
        self.assertNotEqual(content, before)
        self.judge_blocks(content, may)

    def judge_blocks(self, content: bytes, may: dict) -> None:
        for place, pieces in may.items():
            for at in range(REGION):
                found = content[BLOCK * (place + at):BLOCK * (place + at + 1)]
                self.assertIn(found, [it[BLOCK * at:BLOCK * (at + 1)] for it in pieces], "what was answered is lost")

    def writes(self, which: int, host: Host, may: dict, turn: int) -> None:
        """Writes all regions anew, again and again, until the target is gone."""
        rng, queue = random.Random(turn * 2 + which), host.queues[0]
        try:
            while True:
                asked = {}
                for place in (1024 * which + REGION * it for it in range(REGIONS)):
                    data = rng.randbytes(BLOCK * REGION)
                    may[place].append(data)
                    cid = queue.send_command(0x01, 1, struct.pack("<QI", place, REGION - 1), data)
                    asked[cid] = (place, data)
                for _ in range(REGIONS):
                    answer = queue.completion()
                    assert answer.status == 0, answer
                    place, data = asked[answer.cid]
                    may[place] = [data]
        except (Ended, OSError):
            pass


class Images(Kills):
    image = BLOCKS

    def content(self) -> bytes:
        return self.target.image.read_bytes()


@unittest.skipUnless(LIVE, "NVMELIVE names no program")
class Scripts(Kills):
    option = "--script"

    def setUp(self) -> None:
        super().setUp()
        self.kept = self.folder / "kept.run"
        self.target.close()
        self.target.options = [self.option, str(self.kept), "--force"]
        self.target.start()

    def content(self) -> bytes:
        """The image after the run, whose transcript must be the kept one. A new target has blocks of zeros."""
        if self.target.process.returncode is None:
            return bytes(BLOCK * BLOCKS)
        return self.replayed()

    def replayed(self) -> bytes:
        image = self.folder / "again.img"
        image.write_bytes(bytes(BLOCK * BLOCKS))
        script, transcript = self.texts()
        ran = subprocess.run([LIVE, str(image)], input=script, stdout=subprocess.PIPE, check=True)
        _, _, told = ran.stdout.partition(b"started\n")
        self.assertTrue(told.startswith(transcript), "it has another transcript")
        return image.read_bytes()

    def texts(self) -> tuple:
        """The whole lines of the script, and the transcript."""
        lines = self.kept.read_bytes()
        return lines[:lines.rfind(b"\n") + 1], Path(f"{self.kept}.out").read_bytes()


class Recordings(Scripts):
    option = "--record"

    def texts(self) -> tuple:
        """Both are expanded, without an end that may be torn."""
        both = [expand(self.kept), expand(self.kept, "--transcript")]
        for ran in both:
            self.assertEqual(ran.returncode, 1 if ran.stderr else 0)
            if ran.stderr:
                self.assertRegex(ran.stderr.decode(), "torn end: left out the last [0-9]+ bytes, from byte [0-9]+ on")
        return tuple(ran.stdout for ran in both)


class RecordingsOverImages(Recordings):
    """What was answered is in the recording and in the image alike."""

    turns = 3

    def setUp(self) -> None:
        super().setUp()
        self.target.close()
        self.target.options += ["--image", str(self.target.image)]
        self.begin()
        self.target.start()

    def begin(self) -> None:
        self.target.image.write_bytes(bytes(BLOCK * BLOCKS))

    def judge(self, before: bytes, may: dict) -> None:
        super().judge(before, may)
        self.judge_blocks(self.target.image.read_bytes(), may)
        self.begin()


class Waits(TargetTest):
    """A script whose lines nobody takes, since it is a pipe: no host hears of a command before they are taken."""

    def setUp(self) -> None:
        kept = tempfile.TemporaryDirectory()
        self.addCleanup(kept.cleanup)
        path = Path(kept.name, "kept.nvme")
        os.mkfifo(path)
        self.lines = os.open(path, os.O_RDONLY | os.O_NONBLOCK)
        self.addCleanup(os.close, self.lines)
        self.options = ["--script", str(path), "--force"]
        super().setUp()

    def test_a_slow_script(self) -> None:
        a, b = self.host(), self.host(0xb2)
        queues = [a.queues[0], b.queues[0]]
        for cid in range(REGIONS):
            words = struct.pack("<QI", REGION * cid, REGION - 1)
            queues[0].send_command(0x01, 1, words, bytes(BLOCK * REGION), cid=cid)
        for _, unit in [queues[0].unit() for _ in range(REGIONS)]:
            cid, tag, start, count = struct.unpack_from("<HHII", unit, 8)
            queues[0].send_data(cid, tag, queues[0].going.pop(cid)[start:start + count])
        time.sleep(0.1)
        queues[1].send_command(0x02, 1, struct.pack("<QI", 0, 0), length=BLOCK)
        self.assertEqual(select.select([it.socket for it in queues], [], [], 0.5)[0], [], "an answer came too early")
        os.set_blocking(self.lines, True)
        taken = []
        thread = threading.Thread(target=self.take, args=(taken,))
        thread.start()
        self.assertEqual([queues[0].completion().status for _ in range(REGIONS)] + [queues[1].completion().status],
                         [0] * (REGIONS + 1))
        self.target.kill()
        thread.join()
        os.set_blocking(self.lines, False)
        stores = [line for line in b"".join(taken).splitlines() if line.startswith(b"store ")]
        self.assertEqual(sum(len(line) > 2 * BLOCK * REGION for line in stores), REGIONS)
        self.target.start()

    def take(self, taken: list) -> None:
        """Takes all lines, until the target is gone."""
        while True:
            piece = os.read(self.lines, 1 << 16)
            if not piece:
                break
            taken.append(piece)


del Kills
