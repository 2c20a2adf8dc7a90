"""Kills of a target over an image, under four hosts: no answered write is lost, and each block is old or new.

NVMETCP_KILLS is the number of kills of all tests together, 30 unless it is set.
"""
import os
import random
import shutil
import subprocess
import time
import unittest
from pathlib import Path
from typing import List

from tests.faulty_disk import CACHE, DiskTest, Player, judge, play, read_all, read_file
from tests.history import History
from tests.targets import LIVE, expand

KILLS = int(os.environ.get("NVMETCP_KILLS", "30"))
# Blocks that are written. The cache has fewer, so that blocks leave it.
PLACES = range(1000, 13000)


@unittest.skipUnless(shutil.which("cc"), "there is no cc")
class Kills(DiskTest):
    """After each kill the next target reads the blocks, and so does the test."""

    options = CACHE
    # Of all kills, and the most commands of each host.
    part, commands = 5, Player.ENDLESS

    def test_kills(self) -> None:
        rng = random.Random(77)
        numbers = [0] * len(PLACES)
        for turn in range(max(KILLS // self.part, 1)):
            history = History(dict(zip(PLACES, numbers)))
            self.before()
            # Few blocks meet often, many leave the cache.
            places = [PLACES if turn % 2 else PLACES[:200]]
            players = play(self.target.port, history, places, turn, lambda them: self.end_them(them, rng),
                           commands=self.commands)
            self.assertTrue(all(it.answered for it in players))
            numbers = self.found(history)
            judge(history, players)

    def before(self) -> None:
        """Each turn begins with this."""

    def end_them(self, players: list, rng: random.Random) -> None:
        """Kills the target when each host was answered something."""
        self.wait_for(lambda: all(it.answered > 8 or it.fault for it in players), 30)
        time.sleep(rng.uniform(0, 0.15))
        self.target.kill()

    def judge_end(self, history: History, numbers: List[int]) -> None:
        """Blocks after the kill: whole, and none older than an answered write, or than what a host has read."""
        seen = history.copy()
        seen.add_numbers(PLACES[0], numbers, time.monotonic_ns())
        seen.check()

    def found(self, history: History) -> List[int]:
        """The blocks as the file has them, and as the next target reads them."""
        in_file = read_file(self.disk, PLACES[0], len(PLACES))
        self.judge_end(history, in_file)
        self.target.start()
        host = self.host()
        numbers = read_all(host, PLACES[0], len(PLACES))
        host.close()
        self.assertEqual(numbers, in_file)
        return numbers


class WriteThrough(Kills):
    options = (*CACHE, "--write-through")


class Loop(Kills):
    """A block device."""

    sector = 512

    def make_disk(self) -> Path:
        backing = super().make_disk()
        if not shutil.which("losetup"):
            self.skipTest("there is no losetup")
        words = ["losetup", "-f", "--show", "-b", str(self.sector), backing]
        made = subprocess.run(words, stdout=subprocess.PIPE, stderr=subprocess.PIPE, text=True)
        if made.returncode:
            self.skipTest(f"there is no loop device: {made.stderr.strip()}")
        device = made.stdout.strip()
        self.addCleanup(lambda: subprocess.run(["losetup", "-d", device], check=True))
        return Path(device)


class Direct(Loop):
    """A device whose sectors have eight blocks, without the system's cache."""

    options, sector = (*CACHE, "--direct"), 4096


@unittest.skipUnless(LIVE, "NVMELIVE names no program")
class Recorded(Kills):
    """The recording leads to the same blocks: equal where the target ended by SIGTERM, else old or new."""

    part, commands = 10, 25

    def setUp(self) -> None:
        super().setUp()
        self.recording = self.kept / "recording"
        self.target.options += ["--record", str(self.recording), "--force"]

    def before(self) -> None:
        self.target.close()
        self.copy = self.kept / "copy.img"
        shutil.copyfile(self.disk, self.copy)
        self.target.start()

    def found(self, history: History) -> List[int]:
        ran = expand(self.recording)
        self.assertIn(ran.returncode, (0, 1), ran.stderr)
        subprocess.run([LIVE, str(self.copy)], input=ran.stdout, stdout=subprocess.PIPE, check=True)
        self.judge_end(history, read_file(self.copy, PLACES[0], len(PLACES)))
        return super().found(history)

    def test_the_end(self) -> None:
        """A target that a signal ends has written all that its recording has."""
        self.before()
        history = History({it: 0 for it in PLACES})
        players = play(self.target.port, history, [PLACES], 1, lambda them: time.sleep(0.3), commands=self.commands)
        self.target.close()
        ran = expand(self.recording)
        self.assertEqual((ran.returncode, ran.stderr), (0, b""))
        subprocess.run([LIVE, str(self.copy)], input=ran.stdout, stdout=subprocess.PIPE, check=True)
        self.assertEqual(self.copy.read_bytes(), self.disk.read_bytes())
        self.target.start()
        judge(history, players)
