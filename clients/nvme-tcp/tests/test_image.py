"""An image: it follows the commands, also if the target is killed at any moment; and the script of a run."""
import os
import random
import socket
import struct
import subprocess
import tempfile
import threading
import time
import unittest
from pathlib import Path

from tests.host import BLOCK, CAPSULE, IN_CAPSULE, Ended, Host, Queue, digest_of, entry_of
from tests.targets import BLOCKS, LIVE, SIM, TWO_HOSTS, Target, TargetTest

FORCE_UNIT_ACCESS = 1 << 30
# The kind of a record of the journal that has the records of a batch.
BATCH = 7


def framed(content: bytes) -> bytes:
    """A record of the journal with this content."""
    size = len(content).to_bytes(4, "little")
    return size + digest_of(size) + digest_of(content) + content


class Images(TargetTest):
    image = BLOCKS

    def test_it_follows(self) -> None:
        rng, host = random.Random(4), self.host()
        for _ in range(40):
            blocks = rng.randint(1, 256)
            slba = rng.randint(0, BLOCKS - blocks)
            if rng.random() < 0.2:
                host.queues[0].call(0x08, 1, struct.pack("<QI", slba, blocks - 1))
            else:
                host.write(slba, rng.randbytes(BLOCK * blocks))
            self.assertEqual(self.target.image.read_bytes()[BLOCK * slba:BLOCK * (slba + blocks)],
                             host.read(slba, blocks).data)

    def test_many_at_once(self) -> None:
        """Two hosts send many commands together, whose blocks are neighbours, overlap, or are apart."""
        rng, queues = random.Random(9), [self.host().queues[0], self.host(0xb2).queues[0]]
        wanted = bytearray(BLOCK * BLOCKS)
        for _ in range(20):
            units = [b"", b""]
            for cid, which in ((cid, which) for cid in range(20) for which in range(2)):
                slba, data = 1024 * which + rng.randrange(40), rng.randbytes(BLOCK * rng.randint(1, 4))
                words = struct.pack("<QI", slba, len(data) // BLOCK - 1)
                units[which] += queues[which].pdu(CAPSULE, entry_of(0x01, cid, 1, words, len(data), IN_CAPSULE), data)
                wanted[BLOCK * slba:BLOCK * slba + len(data)] = data
            for queue, sent in zip(queues, units):
                queue.socket.sendall(sent)
            for queue in queues:
                self.assertEqual([queue.completion().status for _ in range(20)], [0] * 20)
            self.assertEqual(self.target.image.read_bytes(), wanted)

    def test_what_is_denied_writes_nothing(self) -> None:
        a, b = self.host(), self.host(0xb2)
        a.register(0, 0xa), a.acquire(0xa)
        before = os.stat(self.target.image).st_mtime_ns
        time.sleep(0.02)
        self.assertEqual(b.write(0, b"\1" * 512), 0x4083)
        self.assertEqual(os.stat(self.target.image).st_mtime_ns, before)

    def test_hosts_are_told_to_flush(self) -> None:
        host = self.host()
        self.assertEqual(host.identify(1).data[525], 5)
        self.assertEqual(host.flush(), 0)
        self.assertEqual(host.write(0, bytes(512), flags=FORCE_UNIT_ACCESS), 0)

    def test_several_namespaces(self) -> None:
        config = TWO_HOSTS + "namespace 3 blocks 8 private\nattached 1 3\n"
        with tempfile.TemporaryDirectory() as room:
            target = Target(Path(room), config, BLOCKS + 8)
            host = Host(target.port, 0xa1)
            self.assertEqual(host.write(7, b"\3" * BLOCK, nsid=3), 0)
            self.assertEqual(target.image.read_bytes(), bytes(BLOCK * (BLOCKS + 7)) + b"\3" * BLOCK)
            host.close()
            target.close()

    def test_what_is_refused(self) -> None:
        self.target.kill()
        for what, config, status in (("too short", TWO_HOSTS.replace("2048", "2049"), 1),
                                     ("no controller", "namespace 1 blocks 4 shared\n", 1),
                                     ("a wrong identifier", "controller 2 host 0xa1\n", 1),
                                     ("not understood", "controller\n", 1)):
            (self.folder / "wrong.nvme").write_text(config)
            words = [self.target.process.args[0], "--listen", "127.0.0.1:0", "--image", str(self.target.image),
                     str(self.folder / "wrong.nvme")]
            ran = subprocess.run(words, stdout=subprocess.PIPE, stderr=subprocess.PIPE, text=True, timeout=10)
            self.assertEqual((ran.returncode, ran.stdout), (status, ""), what)
            self.assertTrue(ran.stderr.startswith("nvmetcp: "), what)
        self.target.start()


class Killed(TargetTest):
    """Two hosts write, one preempts the other, and the target is killed at any moment, and started again."""

    image = BLOCKS

    def setUp(self) -> None:
        self.kept = tempfile.TemporaryDirectory()
        self.addCleanup(self.kept.cleanup)
        self.options = ["--state", self.kept.name]
        super().setUp()

    def test_kills(self) -> None:
        rng = random.Random(5)
        for turn in range(12):
            self.one(turn, rng)

    def one(self, turn: int, rng: random.Random) -> None:
        hosts = [Host(self.target.port, 0xa1), Host(self.target.port, 0xb2)]
        # Of each host: what was answered for each of its blocks, and what was asked after that.
        told, fenced = [{}, {}], threading.Event()
        hosts[1].register(0, 0xb), hosts[1].reserve(0x11, 1 | 3 << 8, 0xb, 0xa), hosts[1].reserve(0x15, 1, 0xb)
        self.assertEqual([hosts[0].register(0, 0xa), hosts[0].acquire(0xa, kind=3), hosts[1].register(0, 0xb)], [0] * 3)
        before, late = self.target.image.read_bytes(), []
        preempter = Host.__new__(Host)
        preempter.queues = [Queue(self.target.port)]
        self.assertEqual(preempter.queues[0].connect(2, 0xb2, hosts[1].cntlid).status, 0)
        threads = [threading.Thread(target=self.writes, args=(it, host, told[it], turn, fenced, late))
                   for it, host in enumerate(hosts)]
        for thread in threads:
            thread.start()
        time.sleep(rng.uniform(0.01, 0.05))
        if turn % 2:
            self.assertEqual(preempter.acquire(0xb, 0xa, action=rng.choice((1, 2)), kind=3), 0)
            fenced.set()
        time.sleep(rng.uniform(0.01, 0.05))
        self.target.kill()
        for thread in threads:
            thread.join()
        self.judge(before, told, late)
        for queue in [hosts[0].admin, hosts[1].admin, *preempter.queues, *hosts[0].queues, *hosts[1].queues]:
            queue.close()
        self.target.start()
        again = Host(self.target.port, 0xa1)
        self.assertEqual(again.write(0, bytes(512)), 0x4083 if turn % 2 else 0, "what persists is there")
        again.close()
        self.wait_for(lambda: self.target.hosts() == [])

    def judge(self, before: bytes, told: list, late: list) -> None:
        content = self.target.image.read_bytes()
        for it in told:
            for place, (answered, asked) in it.items():
                found = content[BLOCK * place:BLOCK * (place + 1)]
                old = before[BLOCK * place:BLOCK * (place + 1)] if answered is None else answered
                self.assertIn(found, (old, *asked), "a block is torn, or what was answered is lost")
        for piece in late:
            self.assertNotIn(piece, content, "a write of a fenced host has landed")

    def writes(self, which: int, host: Host, told: dict, turn: int, fenced: threading.Event, late: list) -> None:
        """Writes until it is fenced, or the target is gone. Each block has a content that no other has."""
        rng = random.Random(turn * 2 + which)
        try:
            while True:
                blocks, is_late = rng.choice((1, 8, 100)), which == 0 and fenced.is_set()
                place = 1024 * which + rng.randint(1, 1024 - blocks)
                data = b"".join(struct.pack("<QQ", place + at, rng.getrandbits(64)) * 32 for at in range(blocks))
                pieces = {place + at: data[BLOCK * at:BLOCK * (at + 1)] for at in range(blocks)}
                if is_late:
                    late += pieces.values()
                for at, piece in pieces.items() if not is_late else ():
                    answered, asked = told.get(at, (None, ()))
                    told[at] = (answered, (*asked, piece))
                status = host.write(place, data)
                assert status in ((0, 0x4083, 0x401b) if which == 0 else (0,)), hex(status)
                assert not (is_late and status == 0), "a fenced host's write has succeeded"
                if status == 0:
                    told.update({at: (piece, (piece,)) for at, piece in pieces.items()})
        except (Ended, OSError):
            pass


@unittest.skipUnless(LIVE, "NVMELIVE names no program")
class Scripts(TargetTest):
    image = BLOCKS

    def setUp(self) -> None:
        self.kept = tempfile.TemporaryDirectory()
        self.addCleanup(self.kept.cleanup)
        self.script = Path(self.kept.name, "kept.nvme")
        self.options = ["--script", str(self.script)]
        super().setUp()

    def test_a_run_is_a_script(self) -> None:
        rng, a, b = random.Random(6), self.host(), self.host(0xb2)
        a.register(0, 0xa), a.acquire(0xa), b.register(0, 0xb)
        for _ in range(30):
            host, blocks = rng.choice((a, b)), rng.choice((1, 3, 17, 64))
            host.write(rng.randint(0, 1000), rng.randbytes(BLOCK * blocks))
            host.flush()
        self.assertEqual(a.queues[0].call(0x0e, 1, struct.pack("<II", 31, 1), length=128).status, 0)
        self.target.ask("hold 1")
        a.queues[0].send_command(0x01, 1, struct.pack("<QI", 7, 0), b"\1" * 512)
        self.wait_for(lambda: self.target.ask("held 1") == "held 1 1")
        b.acquire(0xb, 0xa, action=2)
        self.target.ask("go 1")
        a.queues[0].completion()
        self.target.ask("powercycle")
        self.host().identify(1)
        self.replayed(LIVE, "ok\n" * 5 + "started\n")

    def replayed(self, program: str, before: str) -> None:
        again = self.folder / "again.img"
        again.write_bytes(bytes(BLOCK * BLOCKS))
        with open(self.script, "rb") as lines:
            ran = subprocess.run([program, str(again)], stdin=lines, stdout=subprocess.PIPE, text=True, check=True)
        self.assertEqual(ran.stdout, before + Path(f"{self.script}.out").read_text())
        self.assertEqual(again.read_bytes(), self.target.image.read_bytes())

    @unittest.skipUnless(SIM, "NVMESIM names no program")
    def test_a_short_run_over_nvmesim(self) -> None:
        host = self.host()
        host.write(0, b"\5" * 65536)
        self.replayed(SIM, "")


class Lasts(TargetTest):
    """`--state`: the next target has what persists."""

    image = 64

    def setUp(self) -> None:
        self.kept = tempfile.TemporaryDirectory()
        self.addCleanup(self.kept.cleanup)
        self.journal = Path(self.kept.name, "journal")
        self.options = ["--state", self.kept.name]
        self.config = TWO_HOSTS.replace(str(BLOCKS), "64")
        super().setUp()

    def again(self) -> None:
        self.target.kill()
        self.target.start()

    def test_a_fenced_host_stays_fenced(self) -> None:
        a, b = self.host(), self.host(0xb2)
        a.register(0, 0xa), a.acquire(0xa, kind=3), b.register(0, 0xb), b.acquire(0xb, 0xa, action=1, kind=3)
        self.assertEqual(a.write(7, bytes(512)), 0x4083)
        for _ in range(3):
            self.again()
            a, b = self.host(), self.host(0xb2)
            self.assertEqual([a.write(7, bytes(512)), b.write(7, b"\2" * 512)], [0x4083, 0])
        self.assertEqual([b.reserve(0x15, 3 << 8, 0xb), a.write(7, bytes(512))], [0, 0])
        self.again()
        self.assertEqual(self.host().write(7, bytes(512)), 0)

    def test_what_does_not_persist_is_gone(self) -> None:
        a = self.host()
        a.register(0, 0xa, persist=2), a.acquire(0xa)
        self.again()
        self.assertEqual(self.host(0xb2).write(7, bytes(512)), 0)

    def test_attachments_and_write_protection(self) -> None:
        a, b = self.host(), self.host(0xb2)
        controllers = struct.pack("<HH", 1, 2).ljust(4096, b"\0")
        self.assertEqual(a.admin.call(0x15, 1, struct.pack("<I", 1), controllers).status, 0)
        self.assertEqual(a.admin.call(0x09, 1, struct.pack("<II", 0x84, 1)).status, 0)
        self.again()
        a, b = self.host(), self.host(0xb2)
        self.assertEqual((a.write(0, bytes(512)), b.read(0, 1).status), (0x4020, 0x4002))

    def test_a_torn_journal(self) -> None:
        a, b = self.host(), self.host(0xb2)
        a.register(0, 0xa), a.acquire(0xa)
        self.target.kill()
        whole = self.journal.read_bytes()
        for cut, fenced in ((1, 0x4083), (13, 0x4083), (60, 0x4083)):
            self.journal.write_bytes(whole + whole[-100:][:cut])
            self.target.start()
            self.assertEqual(self.host(0xb2).write(7, bytes(512)), fenced)
            self.assertIn(f"the last {cut} bytes", (self.folder / "errors").read_text())
            self.target.kill()
        self.journal.write_bytes(whole[:-1])
        self.target.start()
        self.assertEqual(self.host(0xb2).write(7, bytes(512)), 0, "the Acquire was not whole")

    def test_what_is_refused(self) -> None:
        self.host().register(0, 0xa)
        self.host(0xb2).register(0, 0xb)
        self.target.kill()
        whole = self.journal.read_bytes()
        damaged = bytearray(whole)
        damaged[-150] ^= 1
        for content, text in ((bytes(damaged), "is damaged"), (b"x" + whole[1:], "another configuration")):
            self.journal.write_bytes(content)
            ran = subprocess.run(self.target.process.args, stdout=subprocess.PIPE, stderr=subprocess.PIPE, text=True,
                                 timeout=10)
            self.assertEqual((ran.returncode, ran.stdout), (2, ""))
            self.assertIn(text, ran.stderr)
            self.assertEqual(self.journal.read_bytes(), content)
        self.journal.write_bytes(whole)
        self.target.start()

    def refused(self, text: str) -> None:
        """The target does not start, with this message."""
        ran = subprocess.run(self.target.process.args, stdout=subprocess.PIPE, stderr=subprocess.PIPE, text=True,
                             timeout=10)
        self.assertEqual((ran.returncode, ran.stdout), (2, ""))
        self.assertIn(text, ran.stderr)

    def test_a_journal_that_is_not_whole(self) -> None:
        """In a used folder it is refused instead of begun anew without the reservations."""
        self.host().register(0, 0xa)
        self.target.kill()
        whole = self.journal.read_bytes()
        for size in (0, 1, 17, 40):
            self.journal.write_bytes(whole[:size])
            self.refused(f"the journal has {size} bytes, fewer than its head: a target has used this folder")
            self.assertEqual(self.journal.read_bytes(), whole[:size])
        self.journal.unlink()
        self.refused("there is no journal: a target has used this folder")
        self.assertFalse(self.journal.exists())
        self.journal.write_bytes(whole)
        self.target.start()

    def test_a_target_that_was_killed_at_its_first_start(self) -> None:
        """No host was answered, and the folder is not marked as used."""
        self.target.kill()
        head = self.journal.read_bytes()[:-1]
        (self.journal.parent / "identity").unlink()
        for size in (0, 1, 17, 40):
            self.journal.write_bytes(head[:size])
            self.target.start()
            self.assertEqual(self.host().register(0, 0xa), 0)
            self.target.kill()
            (self.journal.parent / "identity").unlink()
        self.target.start()

    def test_a_journal_that_is_no_file(self) -> None:
        self.target.kill()
        whole = self.journal.read_bytes()
        self.journal.unlink()
        os.mkfifo(self.journal)
        self.refused("no regular file")
        self.journal.unlink()
        self.journal.symlink_to("/dev/zero")
        self.refused("no regular file")
        self.journal.unlink()
        self.journal.mkdir()
        self.refused("the journal: Is a directory")
        self.journal.rmdir()
        with socket.socket(socket.AF_UNIX) as listener:
            listener.bind(str(self.journal))
            self.refused("the journal: No such device or address")
        self.journal.unlink()
        self.journal.write_bytes(whole)
        self.target.start()

    def test_an_identity_that_is_none(self) -> None:
        self.target.kill()
        identity = self.journal.parent / "identity"
        whole = identity.read_bytes()
        for wrong in (b"", whole[:-2], b"\xff" * 33):
            identity.write_bytes(wrong)
            self.refused("identity has no line of 32 hexadecimal digits")
        identity.write_bytes(whole)
        self.target.start()

    def contents(self) -> list[bytes]:
        """The contents of the journal's records after its version: the configuration, and then also those of batches."""
        rest, contents = self.journal.read_bytes()[18:], []
        while rest:
            size = 12 + int.from_bytes(rest[:4], "little")
            content, rest = rest[12:size], rest[size:]
            if content[0] != BATCH:
                contents.append(content)
                continue
            content = content[1:]
            while content:
                size = 4 + int.from_bytes(content[:4], "little")
                contents.append(content[4:size])
                content = content[size:]
        return contents

    def test_a_journal_of_an_older_version(self) -> None:
        """It is read and continued. Records of the first have no epoch, and no start is among them."""
        a, b = self.host(), self.host(0xb2)
        a.register(0, 0xa), a.acquire(0xa)
        self.target.kill()
        config, *records = self.contents()
        first = [*(bytes([it[0] - 2]) + it[9:] for it in records if it[0] != 5), b"\2"]
        for version, contents in ((2, [config, *records]), (1, [config, *first])):
            self.journal.write_bytes(b"nvmetcp journal %d\n" % version + b"".join(map(framed, contents)))
            (self.journal.parent / "identity").unlink()
            for key in (0xb0, 0xb1):
                self.target.start()
                a, b = self.host(), self.host(0xb2)
                self.assertEqual([b.write(7, bytes(512)), a.write(7, bytes(512))], [0x4083, 0])
                self.assertEqual(b.reserve(0x0d, 2 | 8, 0, key), 0)
                self.target.kill()
            self.assertEqual(self.contents()[-1][-8:], (0xb1).to_bytes(8, "little"))
        self.target.start()

    def test_a_journal_of_a_newer_version(self) -> None:
        self.target.kill()
        whole = self.journal.read_bytes()
        self.journal.write_bytes(whole[:16] + b"4" + whole[17:])
        self.refused("the journal has format 4, which is newer than this program")
        self.journal.write_bytes(whole)
        self.target.start()

    def test_a_torn_batch(self) -> None:
        """Sectors of the last batch are lost, and later ones are there: it was never answered. Not so of one before."""
        a, b = self.host(), self.host(0xb2)
        a.register(0, 0xa), a.acquire(0xa)
        self.target.kill()
        whole = self.journal.read_bytes()
        release = self.contents()[-1][:13] + b"\x15" + self.contents()[-1][14:]
        batch = framed(bytes([BATCH]) + b"".join(len(it).to_bytes(4, "little") + it for it in [release] * 20))
        for torn in (range(0, 512), range(100, 612), range(1000, 1512)):
            left = bytes(0 if at in torn else it for at, it in enumerate(batch))
            self.journal.write_bytes(whole + left + batch)
            self.refused(f"the record at byte {len(whole)} is damaged, and others follow it")
            self.journal.write_bytes(whole + left)
            self.target.start()
            self.assertIn(f"dropped the last {len(left)} bytes", (self.folder / "errors").read_text())
            self.assertEqual(self.host(0xb2).write(7, bytes(512)), 0x4083)
            self.target.kill()
        self.target.start()

    def test_a_restart_is_a_power_cycle(self) -> None:
        """Hosts that ask at random are answered the same by a target that is started again and again, and by one in
        which power is lost instead of that."""
        with tempfile.TemporaryDirectory() as room:
            other = Target(Path(room), self.config, 64)
            rng = random.Random(7)
            for _ in range(12):
                words = [self.any_command(rng) for _ in range(30)]
                answers = [self.answers(target.port, words) for target in (self.target, other)]
                self.assertEqual(*answers)
                self.again()
                other.ask("powercycle")
            other.close()

    def any_command(self, rng: random.Random) -> tuple:
        """The host that asks, the queue, and the words of a command."""
        key, other = rng.randrange(3), rng.randrange(3)
        opcode = rng.choice((0x0d, 0x0d, 0x11, 0x11, 0x15, 0x01, 0x0e, 0x84, 0x115))
        if opcode == 0x115:
            controllers = struct.pack("<HH", 1, rng.choice((1, 2))).ljust(4096, b"\0")
            return rng.randrange(2), 0, (0x15, 1, struct.pack("<I", rng.choice((0, 0, 0, 1))), controllers)
        if opcode == 0x84:
            return rng.randrange(2), 0, (0x09, 1, struct.pack("<II", 0x84, rng.choice((0, 0, 1, 2))))
        if opcode == 0x01:
            return rng.randrange(2), 1, (0x01, 1, struct.pack("<QI", 3, 0), bytes([key]) * 512)
        if opcode == 0x0e:
            return rng.randrange(2), 1, (0x0e, 1, struct.pack("<II", 31, 1), b"", 128)
        word = rng.choice((0, 1, 2)) | rng.choice((0, 0, 8)) | rng.choice((0, 1, 3, 5)) << 8
        word |= rng.choice((0, 2, 3)) << 30
        return rng.randrange(2), 1, (opcode, 1, struct.pack("<I", word), struct.pack("<QQ", key, other))

    def answers(self, port: int, words: list) -> list:
        hosts = [Host(port, 0xa1), Host(port, 0xb2)]
        told = []
        for which, qid, command in words:
            answer = (hosts[which].admin if qid == 0 else hosts[which].queues[0]).call(*command)
            told.append((which, command[0], answer.status, answer.value, answer.data))
        for host in hosts:
            host.close()
        return told
