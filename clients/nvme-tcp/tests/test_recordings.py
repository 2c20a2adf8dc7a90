"""Recordings: `nvmetcp expand` makes the script and the transcript that `--script` would have kept, and refuses what is
damaged."""
import os
import random
import re
import struct
import subprocess
import sys
import tempfile
import unittest
from pathlib import Path
from typing import Tuple

from tests.host import BLOCK, Host
from tests.targets import BLOCKS, LIVE, PROGRAM, SIM, TWO_HOSTS, Target, TargetTest, expand

PACKAGE = Path(__file__).resolve().parents[2] / "python"
# Their namespaces have more blocks than a script has by itself, so it begins with an option.
CONFIG = TWO_HOSTS.replace(str(BLOCKS), "100000") + "namespace 2 blocks 64 private\nattached 2 2\n"
TORN = re.compile(r"nvmetcp: (.*): torn end: left out the last (\d+) bytes, from byte (\d+) on, and (\d+|an unknown "
                  r"number of) events; (\d+) events come before it\n")
DAMAGED = re.compile(r"nvmetcp: .*: damaged frame at byte (\d+): a whole one follows at byte (\d+)\n?.*\n")
ADMIN = (0x00, 0x01, 0x02, 0x04, 0x05, 0x06, 0x08, 0x09, 0x0a, 0x15, 0x18, 0x99)
IO = (0x00, 0x01, 0x01, 0x01, 0x02, 0x05, 0x08, 0x09, 0x0d, 0x0e, 0x11, 0x15, 0x77)
KEEP_ALIVE_TIMER = 0x0f


def any_command(rng: random.Random, host: Host) -> None:
    """A command, mostly one that can be executed, with some field at random."""
    is_admin = rng.random() < 0.3
    queue = host.admin if is_admin else rng.choice(host.queues)
    opcode, nsid = rng.choice(ADMIN if is_admin else IO), rng.choice((0, 1, 1, 1, 2, 3, 0xffffffff))
    words = [rng.choice((0, 1, 5, rng.randrange(1 << 16), rng.randrange(1 << 32))) for _ in range(4)]
    blocks = rng.choice((1, 1, 8, 8, 17, 256))
    if opcode in (0x01, 0x02, 0x05, 0x08) and not is_admin and rng.random() < 0.9:
        words = [rng.randrange(2000), 0, blocks - 1, 0]
    if opcode in (0x09, 0x0a) and is_admin and words[0] & 0xff == KEEP_ALIVE_TIMER:
        words[0] = 1
    data, length = b"", 0
    if opcode & 3 == 1 or opcode in (0x05, 0x15):
        size = rng.choice((0, 16, 16, 512, 4096)) if is_admin or opcode > 0x08 else blocks * BLOCK
        data = rng.choice((rng.randbytes(size), bytes(size)))
    elif opcode & 3 == 2:
        length = rng.choice((4, 512, 4096)) if is_admin or opcode > 0x08 else blocks * BLOCK
    queue.call(opcode, nsid, struct.pack("<IIII", *words), data, length=length)


@unittest.skipUnless(PROGRAM, "NVMETCP names no program")
class Recorded(unittest.TestCase):
    """Targets that run one after the other, and what they keep."""

    def setUp(self) -> None:
        room = tempfile.TemporaryDirectory()
        self.addCleanup(room.cleanup)
        self.folder = Path(room.name)

    def kept(self, option: str, seed: int, commands: int = 300) -> Path:
        """What a target keeps of commands at random, which come one after the other."""
        folder = self.folder / option
        folder.mkdir(exist_ok=True)
        kept, rng = folder / f"kept-{seed}", random.Random(seed)
        target = Target(folder, CONFIG, options=[option, str(kept)])
        try:
            for _ in range(3):
                hosts = [Host(target.port, 0xa1, queues=2), Host(target.port, 0xb2)]
                for _ in range(commands // 3):
                    any_command(rng, rng.choice(hosts))
                # Before the connections are closed, whose order is that of the system.
                target.ask("powercycle")
                for host in hosts:
                    host.close()
        finally:
            target.close()
        return kept

    def expanded(self, recording: Path, *options: str) -> bytes:
        ran = expand(recording, *options)
        self.assertEqual((ran.returncode, ran.stderr), (0, b""))
        return ran.stdout

    def test_they_are_the_script(self) -> None:
        for seed in range(4):
            script, recording = self.kept("--script", seed), self.kept("--record", seed)
            lines = script.read_bytes()
            self.assertTrue(lines.startswith(b"# nvmesim --any-size\ncontroller 1 host 0xa1 raw\n"))
            self.assertGreater(lines.count(b"\nexecute "), 200)
            self.assertTrue(self.expanded(recording) == lines)
            self.assertTrue(self.expanded(recording, "--transcript") == Path(f"{script}.out").read_bytes())
            self.assertLess(recording.stat().st_size, 0.6 * len(lines))

    def test_an_output(self) -> None:
        recording = self.kept("--record", 5, 30)
        text, output = self.expanded(recording), self.folder / "script"
        ran = expand(recording, "--", str(output))
        self.assertEqual((ran.returncode, output.exists()), (3, False))
        self.assertEqual(self.run_words(str(recording), str(output)), (0, ""))
        self.assertEqual(output.read_bytes(), text)
        self.assertEqual(self.run_words("--transcript", str(recording), str(output)),
                         (2, f"nvmetcp: {output}: it exists; --force replaces it\n"))
        self.assertEqual(output.read_bytes(), text)
        self.assertEqual(self.run_words("--transcript", "--force", str(recording), str(output))[0], 0)
        self.assertEqual(output.read_bytes(), self.expanded(recording, "--transcript"))
        link = self.folder / "link"
        link.symlink_to(recording)
        status, told = self.run_words("--force", str(recording), str(link))
        self.assertEqual((status, told), (2, f"nvmetcp: {link}: it would be the recording and its expansion\n"))
        self.assertEqual(self.expanded(recording), text)

    def run_words(self, *words: str) -> Tuple[int, str]:
        """The status of an expansion with these words, and what it says."""
        ran = subprocess.run([PROGRAM, "expand", *words], stdout=subprocess.PIPE, stderr=subprocess.PIPE, text=True)
        self.assertEqual(ran.stdout, "")
        return ran.returncode, ran.stderr

    def test_what_is_no_recording(self) -> None:
        file, output = self.folder / "file", self.folder / "output"
        recording = self.kept("--record", 5, 30).read_bytes()
        first = recording.index(b"\n")
        newer = recording[:first - 1] + b"2" + recording[first:]
        for content, why in ((b"", "not a recording"), (CONFIG.encode(), "not a recording"),
                             (bytes(100), "not a recording"), (recording[:first], "not a recording"),
                             (recording[:first - 1] + b"x" + recording[first:], "not a recording"),
                             (newer, "newer version 2: this program reads version 1")):
            file.write_bytes(content)
            self.assertEqual(self.run_words(str(file), str(output)), (1, f"nvmetcp: {file}: {why}\n"))
            self.assertFalse(output.exists())
        for words, status in (([], 3), ([str(file), "a", "b"], 3), (["--all", str(file)], 3), ([f"{file}.no"], 2)):
            self.assertEqual(self.run_words(*words)[0], status, words)

    def test_a_cut(self) -> None:
        """At each byte of the last frames, and at places at random: all whole frames are expanded."""
        recording = self.kept("--record", 6, 90)
        whole, content, rng = self.expanded(recording), recording.read_bytes(), random.Random(6)
        cut_file = self.folder / "cut"
        texts = {}
        for cut in [*range(len(content) - 200, len(content)), *(rng.randrange(21, len(content)) for _ in range(30))]:
            cut_file.write_bytes(content[:cut])
            ran = expand(cut_file)
            self.assertTrue(whole.startswith(ran.stdout) and ran.stdout[-1:] in (b"", b"\n"), cut)
            texts[cut] = ran.stdout
            if ran.returncode == 0:
                self.assertEqual(ran.stderr, b"")
                continue
            self.assertEqual(ran.returncode, 1)
            told = TORN.fullmatch(ran.stderr.decode())
            self.assertTrue(told, ran.stderr)
            count, place = int(told[2]), int(told[3])
            self.assertEqual(place + count, cut)
            self.assertEqual(max(ran.stdout.partition(b"start\n")[2].count(b"\n"), 0), int(told[5]))
            if place > 20:
                cut_file.write_bytes(content[:place])
                self.assertEqual(self.expanded(cut_file), ran.stdout)
        self.assertGreater(len(set(texts.values())), 5)

    def test_a_changed_byte(self) -> None:
        """A damaged frame is refused by its place, unless it is the last one, which is a torn end."""
        recording = self.kept("--record", 7, 90)
        whole, content, rng = self.expanded(recording), recording.read_bytes(), random.Random(7)
        changed, damaged_frames = self.folder / "changed", 0
        for at in [*range(20, 45), *(rng.randrange(20, len(content)) for _ in range(40)),
                   *range(len(content) - 20, len(content))]:
            changed.write_bytes(content[:at] + bytes([content[at] ^ 1 << at % 8]) + content[at + 1:])
            ran = expand(changed)
            self.assertEqual(ran.returncode, 1)
            self.assertTrue(whole.startswith(ran.stdout) and ran.stdout != whole, at)
            told = ran.stderr.decode()
            damaged = re.search(r": damaged frame at byte (\d+): a whole one follows at byte (\d+); ", told)
            torn = TORN.fullmatch(told)
            self.assertTrue(damaged or torn, told)
            if damaged:
                damaged_frames += 1
                self.assertTrue(int(damaged[1]) <= at < int(damaged[2]), told)
            else:
                self.assertEqual(int(torn[2]) + int(torn[3]), len(content))
                self.assertLessEqual(int(torn[3]), at)
        self.assertGreater(damaged_frames, 40)

    def test_what_reads_a_pipe(self) -> None:
        recording = self.kept("--record", 8, 30)
        with open(recording, "rb") as file:
            cat = subprocess.Popen(["cat"], stdin=file, stdout=subprocess.PIPE)
            ran = subprocess.run([PROGRAM, "expand", "/dev/stdin"], stdin=cat.stdout, stdout=subprocess.PIPE)
            cat.stdout.close()
            cat.wait()
        self.assertEqual((ran.returncode, ran.stdout), (0, self.expanded(recording)))
        closed = subprocess.Popen([PROGRAM, "expand", str(recording)], stdout=subprocess.PIPE, stderr=subprocess.PIPE)
        closed.stdout.close()
        told = closed.stderr.read()
        closed.stderr.close()
        self.assertEqual(closed.wait(), 2)
        self.assertIn(b"standard output: Broken pipe", told)


class Replays(TargetTest):
    """The script of a recording leaves the same blocks, and the Python package reads the recording itself."""

    image = BLOCKS

    def setUp(self) -> None:
        self.kept = tempfile.TemporaryDirectory()
        self.addCleanup(self.kept.cleanup)
        self.recording = Path(self.kept.name, "kept")
        self.options = ["--record", str(self.recording)]
        super().setUp()

    @unittest.skipUnless(SIM and LIVE, "NVMESIM or NVMELIVE names no program")
    def test_a_replay(self) -> None:
        host = self.host()
        for it in range(20):
            self.assertEqual(host.write(50 * it, bytes([it + 1]) * 40 * BLOCK), 0)
        transcript = expand(self.recording, "--transcript").stdout
        for program, before in ((SIM, b""), (LIVE, b"ok\n" * 5 + b"started\n")):
            again = self.folder / "again.img"
            again.write_bytes(bytes(BLOCK * BLOCKS))
            expansion = subprocess.Popen([PROGRAM, "expand", str(self.recording)], stdout=subprocess.PIPE)
            ran = subprocess.run([program, str(again)], stdin=expansion.stdout, stdout=subprocess.PIPE)
            expansion.stdout.close()
            self.assertEqual((expansion.wait(), ran.stdout), (0, before + transcript))
            self.assertEqual(again.read_bytes(), self.target.image.read_bytes())

    @unittest.skipUnless(LIVE, "NVMELIVE names no program")
    def test_the_package(self) -> None:
        host = self.host()
        self.assertEqual([host.register(0, 0xa), host.write(7, b"\7" * BLOCK)], [0, 0])
        script = self.folder / "kept.nvme"
        script.write_bytes(expand(self.recording).stdout)
        for words in (["explain"], ["timeline", "--title", "A run"]):
            told = [self.package(*words, str(it)) for it in (self.recording, script)]
            self.assertEqual(told[0], told[1])
            self.assertIn("Write", told[0])
        torn = self.folder / "torn"
        torn.write_bytes(self.recording.read_bytes()[:-1])
        self.assertIn("controller 1 host 0xa1 raw", self.package("explain", str(torn), told="torn end"))

    def package(self, *words: str, told: str = "") -> str:
        """What a command of the Python package prints."""
        environment = {**os.environ, "NVMETCP": PROGRAM, "NVMELIVE": LIVE, "PYTHONPATH": str(PACKAGE)}
        command = [sys.executable, "-B", "-m", "nvmesim", words[0], "--seconds", "60", *words[1:]]
        ran = subprocess.run(command, env=environment, stdout=subprocess.PIPE, stderr=subprocess.PIPE, text=True)
        self.assertEqual(ran.returncode, 0, ran.stderr)
        self.assertIn(told, ran.stderr)
        self.assertEqual(bool(told), bool(ran.stderr), ran.stderr)
        return ran.stdout
