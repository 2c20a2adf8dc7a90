"""The system calls of a target on its files: a Flush is answered when all blocks before it are synced, and a kept
script or recording has room ahead of it, which is given back."""
import errno
import os
import select
import shutil
import struct
import subprocess
import tempfile
import time
import unittest
from contextlib import closing
from pathlib import Path
from unittest import mock

from tests.host import BLOCK, CAPSULE, IN_CAPSULE, Ended, Host, Queue, entry_of
from tests.targets import BLOCKS, Target, TargetTest, expand

FORCE_UNIT_ACCESS = 1 << 30
MEBIBYTE = 1 << 20
# The most bytes that a file may have on the disk beyond its content.
SLACK = 128 << 10


@unittest.skipUnless(shutil.which("cc"), "there is no cc")
class CallsTest(TargetTest):
    """A target that reports which calls it makes: see calls.c."""

    def setUp(self) -> None:
        room = tempfile.TemporaryDirectory()
        self.addCleanup(room.cleanup)
        self.kept = Path(room.name)
        self.library, self.told_in = self.kept / "calls.so", self.kept / "told"
        subprocess.run(["cc", "-shared", "-fPIC", "-o", self.library, Path(__file__).parent / "calls.c", "-ldl"],
                       check=True)
        with mock.patch.dict(os.environ, {"LD_PRELOAD": str(self.library), "CALLS_TOLD": str(self.told_in),
                                          **self.environment()}):
            super().setUp()

    def environment(self) -> dict:
        return {}

    def told(self) -> list:
        return [line.split() for line in self.told_in.read_text().splitlines()] if self.told_in.exists() else []


class Gate(CallsTest):
    """Calls that write wait for a byte of a pipe."""

    def environment(self) -> dict:
        os.mkfifo(self.kept / "gate")
        self.gate = os.open(self.kept / "gate", os.O_RDWR)
        self.addCleanup(os.close, self.gate)
        return {"CALLS_GATE": str(self.kept / "gate")}

    def test_an_answer(self) -> None:
        """No host hears of commands that are written by a thread before they are."""
        host = self.host()
        queue = host.queues[0]
        # The connection is not the only one that was served last, so the target does not write by itself.
        self.assertEqual(host.identify(1).status, 0)
        queue.socket.sendall(b"".join(self.pdu(queue, 0x01, cid, 16 * cid, 16) for cid in range(3)))
        self.assertEqual(select.select([queue.socket], [], [], 0.5)[0], [], "an answer came too early")
        os.write(self.gate, b"1" * 100)
        self.assertEqual([queue.completion().status for _ in range(3)], [0] * 3)

    def pdu(self, queue: Queue, opcode: int, cid: int, slba: int = 0, count: int = 0, flags: int = 0) -> bytes:
        """A command with `count` blocks in its capsule."""
        data, words = bytes(BLOCK * count), struct.pack("<QI", slba, (count - 1) & 0xffff | flags)
        return queue.pdu(CAPSULE, entry_of(opcode, cid, 1, words, len(data), IN_CAPSULE), data)


class Lines(Gate):
    """Lines that go to a script slowly."""

    option = "--script"

    def setUp(self) -> None:
        room = tempfile.TemporaryDirectory()
        self.addCleanup(room.cleanup)
        self.options = [self.option, str(Path(room.name, "kept.nvme"))]
        super().setUp()


class Syncs(Gate):
    """Blocks that go to the image slowly."""

    image = BLOCKS

    def writes_and(self, units) -> list:
        """Blocks go to the image by threads, and wait there, when `units` of another queue come. The calls when all of
        these are answered, up to the first sync, which is the only one."""
        alone, first, second = [*self.host(queues=2).queues, self.host(0xb2).queues[0]]
        alone.send_command(0x01, 1, struct.pack("<QI", 0, 0), bytes(BLOCK))
        self.wait_for(lambda: self.told() == [["writes", "0", str(BLOCK)]])
        first.socket.sendall(b"".join(self.pdu(first, 0x01, cid, 16 * cid + 100, 16) for cid in range(3)))
        time.sleep(0.2)
        second.socket.sendall(b"".join(units(second)))
        time.sleep(0.2)
        self.assertNotIn(["syncs"], self.told())
        os.write(self.gate, b"1" * 100)
        self.assertEqual(alone.completion().status, 0)
        self.assertEqual([second.completion().status for _ in units(second)], [0] * len(units(second)))
        self.assertEqual([first.completion().status for _ in range(3)], [0] * 3)
        told = self.told()
        self.assertEqual(told.count(["syncs"]), 1)
        return told[:told.index(["syncs"])]

    def test_a_flush(self) -> None:
        """All that was executed before is written before the sync."""
        told = self.writes_and(lambda queue: [self.pdu(queue, 0x01, 7, 1000, 1), self.pdu(queue, 0x00, 8)])
        self.assertEqual(sum(int(count) for what, _, count in told if what == "wrote"), BLOCK * (1 + 48 + 1))

    def test_force_unit_access(self) -> None:
        told = self.writes_and(lambda queue: [self.pdu(queue, 0x01, 7, 1000, 1, FORCE_UNIT_ACCESS)])
        self.assertIn(["wrote", str(1000 * BLOCK), str(BLOCK)], told)

    def test_a_host_without_a_write_cache(self) -> None:
        """Each of its writes is synced before it is answered, and those of others are not."""
        a, b = self.host(), self.host(0xb2)
        os.write(self.gate, b"1" * 100)
        self.assertEqual(a.set_feature(0x06, 0), 0)
        self.assertEqual([a.write(5, bytes(BLOCK)), b.write(6, bytes(BLOCK)), a.discard((7, 1))], [0] * 3)
        calls = ["writes", "wrote", "syncs", "synced"]
        self.assertEqual([words[0] for words in self.told()], calls + calls[:2] + ["reserves"] + calls[2:])

    def test_a_flush_alone(self) -> None:
        host = self.host()
        os.write(self.gate, b"1" * 100)
        self.assertEqual([host.write(5, bytes(BLOCK)), host.flush()], [0, 0])
        self.assertEqual([words[0] for words in self.told()], ["writes", "wrote", "syncs", "synced"])


class Takeover(CallsTest):
    """A record of a target is not synced yet when another target takes its state folder over."""

    def environment(self) -> dict:
        os.mkfifo(self.kept / "gate")
        self.gate = os.open(self.kept / "gate", os.O_RDWR)
        self.addCleanup(os.close, self.gate)
        self.state = self.kept / "state"
        self.options = ["--state", str(self.state)]
        return {"CALLS_SYNC_GATE": str(self.kept / "gate")}

    def end(self) -> None:
        self.target.close()

    def test_no_answer(self) -> None:
        host = self.host()
        host.queues[0].send_command(0x0d, 1, struct.pack("<I", 3 << 30), struct.pack("<QQ", 0, 0xa))
        self.wait_for(lambda: self.told() == [["syncs"]])
        (self.state / "in-use").unlink()
        with tempfile.TemporaryDirectory() as room, closing(Target(Path(room), options=self.options)):
            os.write(self.gate, b"1")
            with self.assertRaises(Ended):
                host.queues[0].completion()
        self.assertEqual(self.target.process.wait(5), 2)
        self.assertIn("another target has taken its folder over", (self.folder / "errors").read_text())


class Starts(CallsTest):
    """A target starts over the journal of one that was killed, whose last record may not be synced."""

    def environment(self) -> dict:
        self.state = self.kept / "state"
        self.options = ["--state", str(self.state)]
        return {"CALLS_JOURNAL": str(self.state / "journal")}

    def test_what_is_there_is_synced_first(self) -> None:
        """Else a power loss could tear a record, and leave the one after it: such a journal is refused."""
        self.target.kill()
        before = len(self.told())
        with mock.patch.dict(os.environ, {"LD_PRELOAD": str(self.library), "CALLS_TOLD": str(self.told_in),
                                          "CALLS_JOURNAL": str(self.state / "journal")}):
            self.target.start()
        self.assertEqual([words[0] for words in self.told()[before:]], ["fsyncs", "appends", "fsyncs"])


class Records(CallsTest):
    """A record of the journal is not synced for a while: the target serves, and answers nothing that came after it."""

    image = BLOCKS

    def environment(self) -> dict:
        os.mkfifo(self.kept / "gate")
        self.gate = os.open(self.kept / "gate", os.O_RDWR)
        self.addCleanup(os.close, self.gate)
        self.options = ["--state", str(self.kept / "state")]
        return {"CALLS_SYNC_GATE": str(self.kept / "gate")}

    def end(self) -> None:
        os.write(self.gate, b"1" * 9)
        super().end()

    def test_the_loop_does_not_wait(self) -> None:
        a, b = self.host(), self.host(0xb2)
        self.assertEqual(b.write(7, b"\7" * BLOCK), 0)
        before = len(self.told())
        a.queues[0].send_command(0x0d, 1, struct.pack("<I", 3 << 30), struct.pack("<QQ", 0, 0xa))
        self.wait_for(lambda: self.told()[before:] == [["syncs"]])
        b.queues[0].send_command(0x01, 1, struct.pack("<QI", 9, 0), b"\1" * BLOCK)
        self.assertIn('"host":"', self.target.ask("hosts").replace(" ", ""))
        self.assertEqual(select.select([a.queues[0].socket, b.queues[0].socket], [], [], 0.5)[0], [])
        self.assertEqual(self.told()[before:], [["syncs"]], "a write came before the record")
        os.write(self.gate, b"1")
        self.assertEqual([it.queues[0].completion().status for it in (a, b)], [0, 0])
        calls = ["syncs", "synced", "writes", "wrote"]
        self.assertEqual([words[0] for words in self.told()[before:]], calls)

    def test_records_are_synced_together(self) -> None:
        """Those that come during a sync share the next one."""
        a, b = self.host(queues=2), self.host(0xb2)
        before = len(self.told())
        queues = [*a.queues, *b.queues]
        for queue in queues:
            queue.send_command(0x0d, 1, struct.pack("<I", 2 | 8 | 3 << 30), struct.pack("<QQ", 0, 0xa))
            time.sleep(0.1)
        os.write(self.gate, b"11")
        self.assertEqual([it.completion().status for it in queues], [0] * 3)
        self.assertEqual([words[0] for words in self.told()[before:]], ["syncs", "synced"] * 2)


class Rooms(CallsTest):
    """A kept script, and the room on the disk that is reserved for it."""

    option, ends = "--script", ("", ".out")
    # The number of reservations of a long run, and of two runs with a rest between them.
    long, rested = 4, 3

    def setUp(self) -> None:
        self.refusal = None
        room = tempfile.TemporaryDirectory()
        self.addCleanup(room.cleanup)
        self.script = Path(room.name, "kept.nvme")
        self.options = [self.option, str(self.script), "--force"]
        super().setUp()

    def content(self) -> bytes:
        return self.script.read_bytes()

    def write(self, host: Host, count: int) -> None:
        """Writes `count` times 128 KiB, of which the script has twice as many bytes."""
        for it in range(count):
            self.assertEqual(host.write(256 * (it % 8), bytes([it + 1]) * 256 * BLOCK), 0)

    def beyond(self) -> int:
        """How many bytes of the disk the script has beyond its end."""
        return self.script.stat().st_blocks * 512 - self.script.stat().st_size

    def reserved(self) -> list:
        """Positions and lengths of reserved space; each reservation keeps the file's length."""
        told = [words for words in self.told() if words[0] == "reserves"]
        self.assertTrue(all(words[1] == "1" for words in told))
        return [(int(place), int(count)) for _, _, place, count in told]

    def test_it_grows_with_the_script(self) -> None:
        host = self.host()
        self.write(host, 2)
        self.assertEqual(self.reserved(), [])
        self.write(host, 40)
        told = self.reserved()
        self.assertEqual(len(told), self.long)
        for (place, count), (behind, _) in zip(told, told[1:]):
            self.assertTrue(MEBIBYTE <= count <= place and place + count == behind, told)
        self.assertGreater(sum(told[-1]), self.script.stat().st_size)

    def test_a_script_that_rests(self) -> None:
        host = self.host()
        for _ in range(2):
            self.write(host, 10)
            self.wait_for(lambda: self.beyond() < SLACK)
        self.assertEqual(len(self.reserved()), self.rested)
        self.assertEqual(self.content().count(b"\nfetch 1 1\n"), 20)

    def test_a_target_that_is_killed(self) -> None:
        host = self.host()
        self.write(host, 10)
        self.target.kill()
        content = self.content()
        self.assertEqual(content.count(b"\nfetch 1 1\n"), 10)
        self.assertNotIn(0, content)
        self.target.start()

    def other(self, **environment: str) -> list:
        """Writes the same data to a target whose calls fail as these words describe: the files are the same. What it
        writes them."""
        self.write(self.host(), 10)
        with tempfile.TemporaryDirectory() as room:
            kept, told = Path(room, "kept.nvme"), Path(room, "told")
            words = {"LD_PRELOAD": str(self.library), "CALLS_TOLD": str(told), **environment}
            with mock.patch.dict(os.environ, words):
                other = Target(Path(room), self.config, options=[self.option, str(kept)])
            with closing(other), closing(Host(other.port, 0xa1)) as host:
                self.write(host, 10)
                for end in self.ends:
                    self.assertEqual(Path(f"{self.script}{end}").read_bytes(), Path(f"{kept}{end}").read_bytes())
                return [line.split() for line in told.read_text().splitlines()]

    def test_a_refusal(self) -> None:
        """The script of a target whose system refuses to reserve is the same, and it is not asked again."""
        self.assertEqual(len(self.other(CALLS_REFUSAL=str(errno.EOPNOTSUPP))), 1)

    def test_calls_that_take_a_part(self) -> None:
        """The script is the same if calls take a part of the bytes, or are interrupted."""
        told = [[int(it) for it in words[1:]] for words in self.other(CALLS_PART="1") if words[0] == "puts"]
        self.assertTrue(any(count < first for count, first, _ in told), told)
        self.assertTrue(any(first <= count < first + second for count, first, second in told), told)


class RecordingRooms(Rooms):
    """Disk space that a recording reserves: half as many bytes as a script does."""

    option, ends = "--record", ("",)
    long, rested = 3, 2

    def content(self) -> bytes:
        ran = expand(self.script)
        self.assertEqual((ran.returncode, ran.stderr), (0, b""))
        return ran.stdout


class RecordingBatches(Lines):
    """Batches that go to a recording slowly."""

    option = "--record"


del CallsTest, Gate
