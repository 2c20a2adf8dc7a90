"""The file of keys, and a client that knows all names but no secret."""
import os
import signal
import socket
import struct
import subprocess
import tempfile
import time
import unittest
from pathlib import Path

from tests.chap import (FAILED, PROTOCOL, RECEIVE, SEND, Challenge, ChapQueue, names_of, negotiate, reply_to, secret_of,
                        success2)
from tests.host import CSTS, DO_NOT_RETRY
from tests.proving import AUTHENTICATION_REQUIRED, CONTROLLER, KEYS, NOBODYS, SECRETS, KeysTest, line, uuid
from tests.targets import PROGRAM, TWO_HOSTS, Target, has_keys


class Thieves(KeysTest):
    """A host that knows all names, but no secret."""

    def test_an_unproved_connect_holds_no_controller(self) -> None:
        thieves = [self.queue() for _ in range(5)]
        for thief in thieves[1:3]:
            thief.begin()
        admin = self.enabled()
        self.assertEqual([it["controller"] for it in self.target.hosts()], [1])
        # One that proves itself later finds it taken, and a new Connect is refused so.
        self.assertEqual(thieves[0].send_message(negotiate(1)), 0)
        challenge = Challenge.read(thieves[0].message())
        self.assert_refused(thieves[0], reply_to(challenge, names_of(0xa1), SECRETS[0xa1]).message, FAILED)
        late = ChapQueue(self.target.port)
        self.addCleanup(late.close)
        self.assertEqual(late.connect(0, 0xa1).status, 0x181)
        self.assertEqual(admin.property(CSTS).value & 1, 1)

    def test_a_stolen_queue(self) -> None:
        """A thief connects an I/O queue of a host that is there: it gets nothing, and takes nothing away."""
        admin = self.enabled()
        first = self.proved(qid=1, cntlid=admin.cntlid)
        thieves = [self.queue(qid=2, cntlid=admin.cntlid) for _ in range(3)]
        for thief in thieves:
            self.assertEqual(self.read(thief), AUTHENTICATION_REQUIRED)
        second = self.proved(qid=2, cntlid=admin.cntlid)
        self.assert_refused(thieves[0], reply_to(thieves[0].begin(), names_of(0xa1), NOBODYS).message, FAILED)
        # Even with the secret it is too late.
        reply = reply_to(thieves[1].begin(), names_of(0xa1), SECRETS[0xa1])
        self.assert_refused(thieves[1], reply.message, FAILED)
        self.assertEqual((self.read(first), self.read(second)), (0, 0))
        self.assertEqual(admin.property(CSTS).value & 1, 1)

    def test_another_host_with_its_own_secret(self) -> None:
        """b2 has a secret of its own, which is no proof that it is a1."""
        admin = self.enabled()
        queue = ChapQueue(self.target.port)
        self.addCleanup(queue.close)
        self.assertEqual(queue.connect(1, 0xb2, admin.cntlid).status, 0x182 | DO_NOT_RETRY)
        stolen = self.queue(0xa1, 1, admin.cntlid)
        reply = reply_to(stolen.begin(), names_of(0xb2), SECRETS[0xb2])
        self.assert_refused(stolen, reply.message, FAILED)

    def test_an_association_that_has_ended(self) -> None:
        """A queue that proves itself when its association has ended is of no other one."""
        admin = self.enabled()
        io = self.queue(qid=1, cntlid=admin.cntlid)
        challenge = io.begin()
        admin.close()
        self.wait_for(lambda: self.target.hosts() == [])
        self.assert_refused(io, reply_to(challenge, names_of(0xa1), SECRETS[0xa1]).message, FAILED)

    def test_guests_make_room_for_hosts(self) -> None:
        """Unproved queues are guests, of which 48 stay: the oldest of the address that has the most goes first."""
        slow = self.queue(0xb2)
        challenge = slow.begin()
        place = ("127.0.0.1", self.target.port)
        for number in range(200):
            guest = socket.create_connection(place, 10, ("127.0.0.2", 0))
            self.addCleanup(guest.close)
            if number == 0:
                first = guest
        self.assertEqual(first.recv(1), b"")
        slow.finish(reply_to(challenge, names_of(0xb2), SECRETS[0xb2]))
        self.assertEqual(slow.property(CSTS).status, 0)
        thieves = [self.queue() for _ in range(60)]
        self.assert_ended(thieves[0])
        self.assertEqual(thieves[-1].property(CSTS).status, AUTHENTICATION_REQUIRED)
        self.enabled()


class TwoPaths(KeysTest):
    config = TWO_HOSTS + "controller 3 host 0xa1\nattached 3 1\n"

    def test_paths_that_connect_together(self) -> None:
        queues = [self.queue() for _ in range(2)]
        self.assertEqual([it.cntlid for it in queues], [1, 3])
        for queue in reversed(queues):
            queue.prove(names_of(0xa1), SECRETS[0xa1])
        self.assertEqual(sorted(it["controller"] for it in self.target.hosts()), [1, 3])


class Waits(KeysTest):
    options = ["--dhchap", "sha512,ffdhe8192"]

    def test_the_loop_never_waits(self) -> None:
        """Commands of a host are executed while numbers of other hosts' exchanges are computed."""
        admin = self.enabled()
        io = self.proved(qid=1, cntlid=admin.cntlid)
        others = [self.queue(0xb2) for _ in range(30)]
        begun = time.monotonic()
        for queue in others:
            queue.send_command(0x7f, SEND, PROTOCOL + struct.pack("<I", 72), negotiate(1), in_capsule=True)
            queue.send_command(0x7f, RECEIVE, PROTOCOL + struct.pack("<I", 4096), length=4096)
        reads = []
        for _ in range(20):
            before = time.monotonic()
            self.assertEqual(self.read(io), 0)
            reads.append(time.monotonic() - before)
        for queue in others:
            self.assertEqual([queue.completion().status for _ in range(2)], [0, 0])
        self.assertLess(sorted(reads)[len(reads) // 2] * 20, time.monotonic() - begun, reads)

    def test_connections_that_are_gone(self) -> None:
        """Work of connections that have ended is left out."""
        for _ in range(40):
            queue = self.queue(0xb2)
            queue.send_command(0x7f, SEND, PROTOCOL + struct.pack("<I", 72), negotiate(1), in_capsule=True)
            queue.close()
        self.enabled()


class ReadAgain(KeysTest):
    def read_again(self, text: str, wanted: str) -> None:
        before = self.errors()
        self.write_keys(text)
        self.target.process.send_signal(signal.SIGHUP)
        self.wait_for(lambda: wanted in self.errors()[len(before):])

    def test_another_secret(self) -> None:
        admin = self.enabled()
        io = self.proved(qid=1, cntlid=admin.cntlid)
        self.read_again(line(0xa1, NOBODYS) + line(0xb2, SECRETS[0xb2]), "the keys are those of")
        # Who is there stays, and a queue of its association needs the new secret, as it does when it proves itself
        # again.
        self.assertEqual(self.read(io), 0)
        old = self.queue(qid=2, cntlid=admin.cntlid)
        self.assert_refused(old, reply_to(old.begin(), names_of(0xa1), SECRETS[0xa1]).message, FAILED)
        io.prove(names_of(0xa1), NOBODYS)
        self.queue(qid=2, cntlid=admin.cntlid).prove(names_of(0xa1), NOBODYS)
        self.assertEqual(self.read(io), 0)

    def test_a_host_that_is_gone(self) -> None:
        unproved = self.queue()
        challenge = unproved.begin()
        a1, b2 = self.enabled(), self.enabled(0xb2)
        self.read_again(line(0xb2, SECRETS[0xb2]), "the keys are those of")
        self.assert_ended(a1)
        self.assertEqual(b2.property(CSTS).value & 1, 1)
        self.assert_refused(unproved, reply_to(challenge, names_of(0xa1), SECRETS[0xa1]).message, FAILED)
        queue = ChapQueue(self.target.port)
        self.addCleanup(queue.close)
        self.assertEqual(queue.connect(0, 0xa1).status, 0x184 | DO_NOT_RETRY)

    def test_a_proof_by_a_secret_that_is_gone(self) -> None:
        """A proof that began with a secret ends with it, in either direction, even if its host is listed again."""
        one, other, live = self.queue(), self.queue(0xb2), self.enabled()
        replies = [reply_to(queue.begin(), names_of(host), SECRETS[host], secret)
                   for queue, host, secret in ((one, 0xa1, ""), (other, 0xb2, CONTROLLER), (live, 0xa1, ""))]
        self.assertEqual(other.send_message(replies[1].message), 0)
        self.assertEqual(other.message()[16:48], replies[1].wanted)
        self.read_again(line(0xa1, NOBODYS) + line(0xb2, secret_of(b"s" * 32)), "the keys are those of")
        self.assert_refused(one, replies[0].message, FAILED)
        self.assertEqual(other.send_message(success2(other.transaction)), 0x184 | DO_NOT_RETRY)
        self.assert_ended(other)
        self.assert_refused(live, replies[2].message, FAILED)
        self.assertEqual(self.target.hosts(), [])

    def test_a_bad_file_changes_nothing(self) -> None:
        admin = self.enabled()
        for text in ("", "x", line(0xa1, "DHHC-1:01:AAAA:"), KEYS + line(0xa1, NOBODYS)):
            self.read_again(text, f"the keys stay as they are: {self.key_file}:")
        self.key_file.unlink()
        self.target.process.send_signal(signal.SIGHUP)
        self.wait_for(lambda: "No such file" in self.errors())
        self.assertEqual(admin.property(CSTS).value & 1, 1)
        self.enabled(0xb2)


@unittest.skipUnless(has_keys(), "NVMETCP names no program that was built with libcrypto")
class Files(unittest.TestCase):
    def setUp(self) -> None:
        room = tempfile.TemporaryDirectory()
        self.addCleanup(room.cleanup)
        self.folder = Path(room.name)
        self.config, self.keys = self.folder / "config.nvme", self.folder / "keys"
        self.config.write_text(TWO_HOSTS)

    def refused(self, status: int = 1, *options: str) -> str:
        words = [PROGRAM, "--listen", "127.0.0.1:0", "--keys", str(self.keys), *options, str(self.config)]
        ran = subprocess.run(words, stdout=subprocess.PIPE, stderr=subprocess.PIPE, text=True, timeout=10)
        self.assertEqual((ran.returncode, ran.stdout), (status, ""), ran.stderr)
        self.assertNotIn("DHHC-1:01", ran.stderr)
        return ran.stderr

    def write(self, text: str, mode: int = 0o600) -> None:
        self.keys.write_text(text)
        self.keys.chmod(mode)

    def test_who_may_read_it(self) -> None:
        for mode in (0o640, 0o604, 0o620, 0o602, 0o644, 0o610, 0o666):
            self.write(KEYS, mode)
            self.assertIn(f"{self.keys}: others than its owner can read or write it, by mode {mode:04o}: chmod 600",
                          self.refused())
        if os.geteuid() == 0:
            self.write(KEYS)
            os.chown(self.keys, 12345, 0)
            self.assertIn("it is of user 12345", self.refused())

    def test_its_size(self) -> None:
        text = KEYS + "#" * (65536 - len(KEYS))
        self.write(text + "#")
        self.assertIn("it has 65537 bytes; at most 65536 are read", self.refused())
        self.write(text)
        Target(self.folder, options=["--keys", str(self.keys)]).close()

    def test_what_is_no_file(self) -> None:
        self.assertIn(f"{self.keys}: No such file", self.refused())
        os.mkfifo(self.keys, 0o600)
        self.assertIn("it is no file", self.refused())
        self.keys.unlink()
        self.keys.mkdir(0o700)
        self.assertIn("it is no file", self.refused())

    def test_bad_lines(self) -> None:
        for text, place, what, hint in (
                (f"# keys\n0xa1 nqn.a1 {NOBODYS}\n", "2:1", "this is no HOSTID", f"that of host 0xa1 is {uuid(0xa1)}"),
                (f"{uuid(0xa1)} a1 {NOBODYS}\n", "1:38", "this is no HOSTNQN", "it begins with nqn."),
                (f"{uuid(0xa1)} nqn.a1\n", "1:44", "there are 2 words", "a line is HOSTID HOSTNQN SECRET"),
                (f"{uuid(0xa1)} nqn.a1 {NOBODYS[:-2]}A:\n", "1:45", "this secret", "nvme gen-dhchap-key --nqn=nqn.a1"),
                (KEYS + line(0xa1, NOBODYS), "3:1", "line 1 has this HOSTID", "a host has one line"),
                (KEYS + line(0xc3, SECRETS[0xa1]), "3:61", "line 1 has this secret", "make each its own")):
            with self.subTest(what):
                self.write(text)
                told = self.refused()
                self.assertTrue(told.startswith(f"nvmetcp: {self.keys}:{place}: {what}"), told)
                self.assertIn(f"; {hint}", told)

    def test_no_output_replaces_it(self) -> None:
        self.write(KEYS)
        os.link(self.keys, self.folder / "link")
        self.assertIn("it would be", self.refused(2, "--script", str(self.folder / "link"), "--force"))
        self.assertEqual(self.keys.read_text(), KEYS)

    def test_hosts_without_a_line(self) -> None:
        self.write(line(0xa1, SECRETS[0xa1]))
        target = Target(self.folder, options=["--keys", str(self.keys)])
        self.addCleanup(target.close)
        told = (self.folder / "errors").read_text()
        self.assertIn(f"host {uuid(0xb2)} has no line in the file of keys, and can't connect", told)
        self.assertNotIn(f"host {uuid(0xa1)} has no line", told)
