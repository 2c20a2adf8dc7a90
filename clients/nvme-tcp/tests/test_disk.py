"""A disk below the cache: of any size, slow, with blocks that can't be read, a block device."""
import os
import random
import shutil
import signal
import struct
import subprocess
import tempfile
import time
import unittest
from pathlib import Path
from typing import List, Optional
from unittest import mock

from tests.host import BLOCK, Host
from tests.targets import BLOCKS, PROGRAM, TWO_HOSTS, Target, TargetTest

MEBIBYTE = 1 << 20
READ_ERROR, INVALID_FIELD = 0x4281, 0x4002


def config_of(blocks: int) -> str:
    return TWO_HOSTS.replace(str(BLOCKS), str(blocks))


class Larger(TargetTest):
    """An image of 64 MiB, of which 4 MiB are in memory."""

    image, options = 131072, ["--cache", "4M"]
    config = config_of(image)

    def words(self, slba: int, blocks: int) -> bytes:
        return struct.pack("<QI", slba, blocks - 1)

    def test_random_blocks(self) -> None:
        """Two hosts write and read, many commands at a time, all over the image: each reads what was written last."""
        rng, queues = random.Random(3), [self.host().queues[0], self.host(0xb2).queues[0]]
        wanted = bytearray(BLOCK * self.image)
        for _ in range(60):
            for which, queue in enumerate(queues):
                asked = {}
                for cid in range(16):
                    blocks = rng.choice((1, 8, 31, 256))
                    slba = rng.randrange(65536 - blocks) + 65536 * which
                    place = slice(BLOCK * slba, BLOCK * (slba + blocks))
                    meets = any(slba < last and first < slba + blocks for first, last in asked.values())
                    if meets or rng.random() < 0.4:
                        continue
                    asked[cid] = (slba, slba + blocks)
                    if cid % 2:
                        data = rng.randbytes(BLOCK * blocks)
                        wanted[place] = data
                        queue.send_command(0x01, 1, self.words(slba, blocks), data, in_capsule=blocks < 16, cid=cid)
                    else:
                        queue.send_command(0x02, 1, self.words(slba, blocks), length=BLOCK * blocks, cid=cid)
                for _ in asked:
                    completion = queue.completion()
                    self.assertEqual(completion.status, 0)
                    if completion.cid % 2 == 0:
                        first, last = asked[completion.cid]
                        self.assertEqual(completion.data, wanted[BLOCK * first:BLOCK * last])
        self.assertEqual(self.target.image.read_bytes(), wanted)

    def test_memory(self) -> None:
        host = self.host()
        for slba in range(0, self.image, 256):
            self.assertEqual(host.write(slba, struct.pack("<Q", slba) * (256 * BLOCK // 8)), 0)
        for slba in range(0, self.image, 256):
            self.assertEqual(host.read(slba, 256).data, struct.pack("<Q", slba) * (256 * BLOCK // 8))
        self.assertLess(self.target.memory(), 32 * MEBIBYTE)

    def test_many_zeroes(self) -> None:
        """As many as a command may zero, while others write and read there."""
        a, b = self.host(), self.host(0xb2)
        self.assertEqual([a.write(it, b"\1" * 8192) for it in range(0, 4096, 64)], [0] * 64)
        queue = a.queues[0]
        queue.send_command(0x08, 1, self.words(8, 65536), cid=1)
        self.assertEqual(b.write(4000, b"\2" * 512), 0)
        self.assertEqual(queue.completion().status, 0)
        self.assertEqual(b.write(4001, b"\3" * 512), 0)
        self.assertEqual(a.discard((65544, 65528), (0, 8)), 0)
        # The write of block 4000 came before its zeroes or after them.
        middle = b.read(4000, 1).data
        self.assertIn(middle, (bytes(512), b"\2" * 512))
        self.assertEqual([b.read(slba, 1).data[:1] for slba in (0, 7, 8, 4001, 4002, 65543)],
                         [b"\0", b"\0", b"\0", b"\3", b"\0", b"\0"])
        wanted = bytearray(BLOCK * self.image)
        wanted[4000 * BLOCK:4002 * BLOCK] = middle + b"\3" * BLOCK
        self.assertEqual(self.target.image.read_bytes(), wanted)
        self.assertLess(os.stat(self.target.image).st_blocks * 512, MEBIBYTE, "the file has holes")

    def test_held_commands(self) -> None:
        """They come in the order of their fetches, though their blocks have to be read."""
        host = self.host()
        self.assertEqual(host.write(100000, b"\1" * 512), 0)
        self.target.ask("hold 1")
        queue = host.queues[0]
        for cid, (opcode, slba, data) in enumerate((
                (0x02, 100000, b""), (0x01, 100000, b"\2" * 512), (0x05, 100000, b"\2" * 512), (0x02, 70000, b""),
                (0x05, 100000, b"\1" * 512), (0x00, 0, b""))):
            queue.send_command(opcode, 1, self.words(slba, 1), data, 0 if data else 512 * (opcode == 2), cid=cid)
        self.wait_for(lambda: self.target.ask("held 1") == "held 1 6")
        self.target.ask("go 1")
        told = {}
        for _ in range(6):
            completion = queue.completion()
            told[completion.cid] = (completion.status, completion.data[:1])
        self.assertEqual(told, {0: (0, b"\1"), 1: (0, b""), 2: (0, b""), 3: (0, b"\0"), 4: (0x4285, b""), 5: (0, b"")})


class Direct(Larger):
    """Without the system's cache."""

    options = ["--cache", "4M", "--direct"]

    def setUp(self) -> None:
        with tempfile.NamedTemporaryFile() as file:
            try:
                os.close(os.open(file.name, os.O_RDWR | os.O_DIRECT))
            except OSError as error:
                self.skipTest(f"O_DIRECT: {error}")
        super().setUp()


class LongZeroes(TargetTest):
    """Commands that zero many blocks: each is executed in pieces of at most 1,024 blocks, whole or denied."""

    image, config = 131072, config_of(131072)
    pieces = 65536 // 1024

    def setUp(self) -> None:
        room = tempfile.TemporaryDirectory()
        self.addCleanup(room.cleanup)
        self.script = Path(room.name) / "run.nvme"
        self.options = ["--script", str(self.script), "--force"]
        super().setUp()

    def stop(self) -> None:
        """Stops the target, which receives at once what is sent until it continues."""
        self.target.process.send_signal(signal.SIGSTOP)
        state = Path(f"/proc/{self.target.process.pid}/stat")
        self.wait_for(lambda: state.read_text(encoding="ascii").rsplit(") ", 1)[1].startswith("T"))

    def executed_by(self) -> List[str]:
        """The controllers of all commands that were executed, in order."""
        return [it.split()[1] for it in self.script.read_text().splitlines() if it.startswith("execute ")]

    def test_others_are_served_between_two_pieces(self) -> None:
        """So a command never holds the event loop for longer than a piece takes."""
        a, b = self.host(queues=2), self.host(0xb2)
        self.assertEqual(b.write(131064, b"\1" * 4096), 0)
        before = len(self.executed_by())
        self.stop()
        for cid in range(4):
            a.queues[0].send_command(0x08, 1, struct.pack("<QI", 0, 65535), cid=cid)
            a.queues[1].send_command(0x09, 1, struct.pack("<II", 0, 4), struct.pack("<IIQ", 0, 65536, 4096), cid=cid)
        b.queues[0].send_command(0x02, 1, struct.pack("<QI", 131064, 7), length=4096)
        self.target.process.send_signal(signal.SIGCONT)
        self.assertEqual(b.queues[0].completion().data, b"\1" * 4096)
        self.assertEqual([queue.completion().status for queue in a.queues for _ in range(4)], [0] * 8)
        # The read waits for two pieces at most, and each is one event.
        events = self.executed_by()[before:]
        self.assertEqual(sorted(events), ["1"] * 8 * self.pieces + ["2"])
        self.assertLessEqual(events.index("2"), 2)

    def outcome(self, readers: Host, status: int) -> None:
        """All is zeroed if the command has succeeded, and nothing if it was denied."""
        zeroed = {readers.read(slba, 1).data == bytes(512) for slba in (*range(0, 65536, 2048), 65535)}
        self.assertEqual(zeroed, {status == 0})
        self.assertIn(status, (0, 0x4083))

    def test_a_host_that_is_fenced_meanwhile(self) -> None:
        """A reservation that comes at any moment denies the command as a whole, or comes after it."""
        a, b = self.host(), self.host(0xb2)
        self.assertEqual(b.register(0, 0xb), 0)
        dataset = (0x09, struct.pack("<II", 0, 4), struct.pack("<IIQ", 0, 65536, 0))
        for attempt in range(40):
            opcode, words, data = dataset if attempt % 2 else (0x08, struct.pack("<QI", 0, 65535), b"")
            self.assertEqual({a.write(slba, b"\1" * 512) for slba in (*range(0, 65536, 2048), 65535)}, {0})
            a.queues[0].send_command(opcode, 1, words, data)
            time.sleep(attempt % 10 * 0.0005)
            self.assertEqual(b.acquire(0xb), 0)
            self.outcome(b, a.queues[0].completion().status)
            self.assertEqual(b.reserve(0x15, 1 << 8, 0xb), 0)

    def test_held_zeroes(self) -> None:
        """A fence between fetch and execution denies the command as a whole."""
        a, b = self.host(), self.host(0xb2)
        self.assertEqual(b.register(0, 0xb), 0)
        for is_fenced in (True, False):
            self.assertEqual({a.write(slba, b"\1" * 512) for slba in (*range(0, 65536, 2048), 65535)}, {0})
            self.target.ask("hold 1")
            a.queues[0].send_command(0x08, 1, struct.pack("<QI", 0, 65535))
            self.wait_for(lambda: self.target.ask("held 1") == "held 1 1")
            if is_fenced:
                self.assertEqual(b.acquire(0xb), 0)
            before = len(self.executed_by())
            self.target.ask("go 1")
            status = a.queues[0].completion().status
            self.assertEqual((status, self.executed_by()[before:]), (0x4083 if is_fenced else 0, ["1"]))
            self.outcome(b, status)
            if is_fenced:
                self.assertEqual(b.reserve(0x15, 1 << 8, 0xb), 0)

    def test_a_host_that_goes(self) -> None:
        """Its command is executed up to some block. The next host has its controller, and a Flush does not wait."""
        b, places = self.host(0xb2), range(1, 65536, 2048)
        for seconds in [it * 0.0005 for it in range(10)]:
            a = self.host()
            self.assertEqual({b.write(slba, b"\1" * 512) for slba in places}, {0})
            self.stop()
            a.queues[0].send_command(0x08, 1, struct.pack("<QI", 0, 65535))
            self.target.process.send_signal(signal.SIGCONT)
            time.sleep(seconds)
            a.queues[0].socket.close()
            a.close()
            again = self.host()
            self.assertEqual([again.write(0, b"\2" * 512), again.flush(), b.flush()], [0, 0, 0])
            self.assertEqual(b.read(0, 1).data[:1], b"\2")
            left = [b.read(slba, 1).data[:1] for slba in places]
            self.assertEqual(left, sorted(left))
            again.close()

    def test_memory(self) -> None:
        """The room of 32 MiB of zeros takes no memory afterwards."""
        host = self.host()
        before = self.target.memory()
        for _ in range(2):
            self.assertEqual(host.queues[0].call(0x08, 1, struct.pack("<QI", 0, 65535)).status, 0)
            self.wait_for(lambda: self.target.memory() < before + 4 * MEBIBYTE)


class ManyHosts(TargetTest):
    """As many hosts as there may be."""

    image, options, hosts = 131072, ["--cache", "4M"], range(0xa1, 0xb1)
    config = "".join([*(f"controller {it - 0xa0} host {it:#x}\n" for it in hosts),
                      f"namespace 1 blocks {image} shared\n", *(f"attached {it - 0xa0} 1\n" for it in hosts)])

    def test_memory(self) -> None:
        """Of the 4 MiB that each controller's host has, the target takes what is used."""
        hosts = [self.host(it) for it in self.hosts]
        for slba, host in enumerate(hosts):
            self.assertEqual(host.write(256 * slba, bytes([slba]) * 131072), 0)
            self.assertEqual(host.read(256 * slba, 256).data, bytes([slba]) * 131072)
        self.assertLess(self.target.memory(), 36 * MEBIBYTE)


@unittest.skipUnless(shutil.which("cc"), "there is no cc")
class CallsTest(TargetTest):
    """A target whose calls on the disk fail or take a while: see disk.c."""

    image = 8192
    config = config_of(image)
    words = {}

    def setUp(self) -> None:
        room = tempfile.TemporaryDirectory()
        self.addCleanup(room.cleanup)
        library = Path(room.name, "disk.so")
        subprocess.run(["cc", "-shared", "-fPIC", "-o", library, Path(__file__).parent / "disk.c", "-ldl"], check=True)
        with mock.patch.dict(os.environ, {"LD_PRELOAD": str(library), **self.words}):
            super().setUp()


class Unreadable(CallsTest):
    """Block 1000 can't be read."""

    words = {"DISK_BAD": str(1000 * BLOCK)}

    def test_it_fails(self) -> None:
        host = self.host()
        for slba, blocks, status in ((1000, 1, READ_ERROR), (990, 20, READ_ERROR), (1001, 8, 0), (992, 8, 0),
                                     (1000, 1, READ_ERROR)):
            self.assertEqual(host.read(slba, blocks).status, status)
        compared = host.queues[0].call(0x05, 1, struct.pack("<QI", 1000, 0), bytes(512))
        self.assertEqual(compared.status, READ_ERROR)
        self.assertEqual([host.write(1000, b"\1" * 512), host.flush()], [0, 0])
        self.assertEqual(host.read(999, 3).data, bytes(512) + b"\1" * 512 + bytes(512))
        self.assertIn("can't read all of 1 blocks from block 1000 on: Input/output error",
                      (self.folder / "errors").read_text())


class Slow(CallsTest):
    """Each read takes 200 milliseconds, and each sync a second."""

    words = {"DISK_DELAY": "200", "DISK_SYNC_DELAY": "1000"}

    def test_nobody_waits_for_the_reads_of_others(self) -> None:
        a, b = self.host(), self.host(0xb2)
        b.write(0, b"\1" * 4096)
        begin, queue = time.monotonic(), a.queues[0]
        for cid in range(8):
            queue.send_command(0x02, 1, struct.pack("<QI", 64 * cid + 64, 7), length=4096, cid=cid)
        took: List[float] = []
        while time.monotonic() < begin + 0.15:
            before = time.monotonic()
            self.assertEqual(b.read(0, 8).data, b"\1" * 4096)
            took.append(time.monotonic() - before)
        self.assertEqual(sorted(queue.completion().cid for _ in range(8)), list(range(8)))
        self.assertLess(time.monotonic() - begin, 1, "they were read one after the other")
        self.assertLess(sorted(took)[len(took) // 2], 0.05)

    def test_nobody_waits_for_the_flush_of_others(self) -> None:
        a, b = self.host(), self.host(0xb2)
        b.write(0, b"\1" * 4096)
        a.queues[0].send_command(0x00, 1)
        begin, took = time.monotonic(), []
        while time.monotonic() < begin + 0.8:
            before = time.monotonic()
            self.assertEqual(b.read(0, 8).data, b"\1" * 4096)
            took.append(time.monotonic() - before)
        self.assertEqual(a.queues[0].completion().status, 0)
        self.assertGreater(time.monotonic() - begin, 0.9)
        self.assertLess(sorted(took)[len(took) * 9 // 10], 0.1)

    def test_a_target_that_ends(self) -> None:
        """A write that was answered is synced, and what it has taken is answered, before it ends."""
        host = self.host()
        self.assertEqual(host.write(9, b"\1" * 512), 0)
        host.queues[0].send_command(0x02, 1, struct.pack("<QI", 4000, 0), length=512, cid=7)
        time.sleep(0.05)
        begin = time.monotonic()
        self.target.process.terminate()
        self.assertEqual(host.queues[0].completion().cid, 7)
        self.assertEqual(self.target.process.wait(10), 0)
        self.assertGreater(time.monotonic() - begin, 1)
        self.assertEqual(self.target.image.read_bytes()[9 * BLOCK:10 * BLOCK], b"\1" * 512)

    def end(self) -> None:
        self.target.close()


class SlowRecords(CallsTest):
    """Each record of the journal takes a second."""

    image, config, words = None, TWO_HOSTS, {"DISK_SYNC_DELAY": "1000"}

    def setUp(self) -> None:
        room = tempfile.TemporaryDirectory()
        self.addCleanup(room.cleanup)
        self.options = ["--state", room.name]
        super().setUp()

    def test_a_host_that_sends_more(self) -> None:
        """Its connection waits for a record. That takes no processor, and then it is served."""
        queue, begun, before = self.host().queues[0], time.monotonic(), self.target.seconds()
        queue.send_command(0x0d, 1, struct.pack("<I", 3 << 30 | 8), struct.pack("<QQ", 0, 0xa), cid=1)
        time.sleep(0.1)
        queue.send_command(0x02, 1, struct.pack("<QI", 0, 7), length=4096, cid=2)
        self.assertEqual([queue.completion().cid for _ in range(2)], [1, 2])
        self.assertGreater(time.monotonic() - begun, 0.9)
        self.assertLess(self.target.seconds() - before, 0.3)


class Through(CallsTest):
    """`--write-through`: a write is answered after it is synced."""

    words = {"DISK_SYNC_DELAY": "300"}
    options = ["--write-through"]

    def test_each_write_is_synced(self) -> None:
        host = self.host()
        for change in (lambda: host.write(9, bytes(512)), lambda: host.discard((9, 1)),
                       lambda: host.queues[0].call(0x08, 1, struct.pack("<QI", 7, 0)).status):
            begin = time.monotonic()
            self.assertEqual(change(), 0)
            self.assertGreater(time.monotonic() - begin, 0.29)

    def test_writes_share_a_sync(self) -> None:
        queue, begin = self.host().queues[0], time.monotonic()
        for cid in range(30):
            queue.send_command(0x01, 1, struct.pack("<QI", cid, 0), bytes(512), cid=cid)
        self.assertEqual([queue.completion().status for _ in range(30)], [0] * 30)
        self.assertLess(time.monotonic() - begin, 3)

    def test_there_is_no_write_cache(self) -> None:
        host = self.host()
        self.assertEqual(host.identify(1).data[525] & 1, 0)
        self.assertEqual([host.get_feature(0x06).status, host.set_feature(0x06, 0)], [INVALID_FIELD] * 2)
        self.assertEqual(struct.unpack("<256I", host.log_page(0x12, 1024).data)[0x06], 0)


@unittest.skipUnless(PROGRAM, "NVMETCP names no program")
class Sizes(unittest.TestCase):
    def setUp(self) -> None:
        room = tempfile.TemporaryDirectory()
        self.addCleanup(room.cleanup)
        self.folder = Path(room.name)
        self.image = self.folder / "sparse.img"

    def target(self, config: str, *options: str) -> Target:
        target = Target(self.folder, config, options=["--image", str(self.image), *options])
        self.addCleanup(target.close)
        return target

    def refused(self, *options: str, config: str = TWO_HOSTS) -> str:
        (self.folder / "config.nvme").write_text(config)
        words = [PROGRAM, "--listen", "127.0.0.1:0", *options, str(self.folder / "config.nvme")]
        ran = subprocess.run(words, stdout=subprocess.PIPE, stderr=subprocess.PIPE, text=True, timeout=10)
        self.assertEqual(ran.stdout, "")
        self.assertNotEqual(ran.returncode, 0)
        return ran.stderr

    def test_a_tebibyte(self) -> None:
        blocks = 1 << 31
        begin = time.monotonic()
        target = self.target(config_of(blocks), "--size", "1T")
        self.assertLess(time.monotonic() - begin, 1)
        self.assertEqual(self.image.stat().st_size, 1 << 40)
        host = Host(target.port, 0xa1)
        self.addCleanup(host.close)
        self.assertEqual(struct.unpack_from("<QQQ", host.identify(0, 1).data), (blocks,) * 3)
        for slba in (0, blocks // 2 - 1, blocks - 8):
            self.assertEqual(host.read(slba, 8).data, bytes(4096))
            self.assertEqual(host.write(slba, b"\7" * 4096), 0)
            self.assertEqual(host.read(slba, 8).data, b"\7" * 4096)
        self.assertEqual(host.read(blocks - 7, 8).status, 0x4080)
        self.assertLess(self.image.stat().st_blocks * 512, MEBIBYTE)
        self.assertLess(target.memory(), 32 * MEBIBYTE)

    def test_what_is_refused(self) -> None:
        image = ("--image", str(self.image))
        for options, text in (((*image, "--size", "512K"), "the 1024 blocks"), (("--size", "1M"), "need --image"),
                              ((*image, "--size", "1000"), "--size 1000: "),
                              ((*image, "--cache", "1M"), "--cache 1M: "),
                              (image, "No such file")):
            self.assertIn(text, self.refused(*options))
            self.assertFalse(self.image.exists())
        self.target(TWO_HOSTS, "--size", "1M").close()
        self.target(TWO_HOSTS, "--size", "1M").close()
        self.assertIn("it exists and has 1048576 bytes, and --size asks for 2097152",
                      self.refused(*image, "--size", "2M"))
        os.truncate(self.image, BLOCK * (BLOCKS + 1))
        self.assertIn("--direct needs a multiple of 4096", self.refused(*image, "--direct"))
        self.assertIn("no regular file and no block device", self.refused("--image", "/dev/null"))


def loop_of(image: Path, sector: int) -> Optional[str]:
    """A loop device over a file, with sectors of this size, or nothing."""
    words = ["losetup", "--find", "--show", "--sector-size", str(sector), str(image)]
    try:
        ran = subprocess.run(words, stdout=subprocess.PIPE, stderr=subprocess.PIPE, text=True)
    except OSError:
        return None
    return ran.stdout.strip() if ran.returncode == 0 else None


@unittest.skipUnless(PROGRAM, "NVMETCP names no program")
class Devices(unittest.TestCase):
    """A loop device whose sectors have 4 KiB, by the system's cache and without."""

    def setUp(self) -> None:
        room = tempfile.TemporaryDirectory()
        self.addCleanup(room.cleanup)
        self.folder = Path(room.name)
        file = self.folder / "below.img"
        with open(file, "wb") as below:
            below.truncate(BLOCK * 16384)
        self.device = loop_of(file, 4096)
        if self.device is None:
            self.skipTest("this machine gives no loop device")
        self.addCleanup(subprocess.run, ["losetup", "--detach", self.device], check=True)

    def serve(self, *options: str) -> None:
        words = ["--image", self.device, "--cache", "4M", *options]
        target = Target(self.folder, config_of(16384), options=words)
        self.addCleanup(target.close)
        host, rng = Host(target.port, 0xa1), random.Random(5)
        wanted = bytearray(BLOCK * 16384)
        for _ in range(150):
            blocks = rng.choice((1, 3, 8, 64, 256))
            slba = rng.randrange(16384 - blocks)
            data = rng.randbytes(BLOCK * blocks) if rng.random() < 0.8 else bytes(BLOCK * blocks)
            if any(data):
                self.assertEqual(host.write(slba, data), 0)
            else:
                self.assertEqual(host.discard((slba, blocks)), 0)
            wanted[BLOCK * slba:BLOCK * (slba + blocks)] = data
        for slba in range(0, 16384, 256):
            self.assertEqual(host.read(slba, 256).data, wanted[BLOCK * slba:BLOCK * (slba + 256)])
        self.assertEqual(host.flush(), 0)
        host.close()
        other = subprocess.run([str(it) for it in target.process.args[:3] + words + [self.folder / "config.nvme"]],
                               stdout=subprocess.PIPE, stderr=subprocess.PIPE, text=True, timeout=10)
        self.assertEqual(other.returncode, 2)
        self.assertIn("has it locked", other.stderr)
        target.close()
        with open(self.device, "rb") as device:
            self.assertEqual(device.read(), wanted)

    def test_a_device(self) -> None:
        self.serve()

    def test_a_device_without_cache(self) -> None:
        self.serve("--direct")


del CallsTest
