"""Hosts that authenticate by DH-HMAC-CHAP, with each option and with each error."""
import base64
import os
import random
import signal
import struct
import subprocess
import tempfile
import time
import unittest
from pathlib import Path
from typing import Optional, Tuple

from tests.chap import (CHANNEL, FAILED, GROUP, GROUP_NAMES, HASH, HASHES, MESSAGE, PAYLOAD, PRIMES, PROTOCOL,
                        PROTOCOL_NOT_USABLE, RECEIVE, REQUIRED, SEND, Challenge, ChapQueue, failure2, key_of, names_of,
                        negotiate, reply_to, secret_of, size_of, success2)
from tests.chap_vectors import VECTORS, vectors
from tests.host import BLOCK, CC, CSTS, DISCOVERY, DO_NOT_RETRY, ENABLE, SUBSYSTEM, Ended
from tests.proving import (AUTHENTICATION_REQUIRED, CONTROLLER, FIELD, HOSTS, KEYS, LENGTH, NOBODYS, SECRETS, SEQUENCE,
                           KeysTest, line, uuid)
from tests.targets import PROGRAM, Target, TargetTest, has_keys


class Proofs(KeysTest):
    def test_before_the_proof_nothing_is_answered(self) -> None:
        queue = self.queue()
        admin = ((0x7f, 4, struct.pack("<BxxxI", 0, CSTS)), (0x7f, 0, struct.pack("<BxxxIQ", 0, CC, ENABLE)),
                 (0x7f, 7, b""), (0x06, 0, struct.pack("<I", 1)), (0x18, 0, b""), (0x0c, 0, b""), (0x0a, 0, b"\1"))
        for state in range(2):
            for opcode, kind, words in admin:
                self.assertEqual(queue.call(opcode, kind, words, length=4096).status, AUTHENTICATION_REQUIRED)
            self.assertEqual(queue.connect(0, 0xa1).status, AUTHENTICATION_REQUIRED)
            # Data that would be asked for are not.
            large = queue.call(0x7f, 0, b"", bytes(65536))
            self.assertEqual(large.status, AUTHENTICATION_REQUIRED)
            if state == 0:
                challenge = queue.begin()
        queue.finish(reply_to(challenge, names_of(0xa1), SECRETS[0xa1]))
        self.assertEqual(queue.property(CSTS).status, 0)
        self.assertEqual(queue.set_property(CC, ENABLE).status, 0)
        io = self.queue(0xa1, 1, queue.cntlid)
        for opcode in (0x00, 0x01, 0x02, 0x0d, 0x11):
            self.assertEqual(io.call(opcode, 1, bytes(16), length=BLOCK).status, AUTHENTICATION_REQUIRED)
        self.assertEqual(io.call(0x01, 1, struct.pack("<QI", 0, 127), bytes(65536)).status, AUTHENTICATION_REQUIRED)
        io.prove(names_of(0xa1), SECRETS[0xa1])
        self.assertEqual(self.read(io), 0)
        self.assertEqual([it["io_queues"] for it in self.target.hosts()], [1])

    def test_with_both_directions_the_host_has_the_last_word(self) -> None:
        queue = self.queue()
        reply = reply_to(queue.begin(), names_of(0xa1), SECRETS[0xa1], CONTROLLER)
        self.assertEqual(queue.send_message(reply.message), 0)
        told = queue.message()
        self.assertEqual(told[16:48], reply.wanted)
        self.assertEqual((queue.property(CSTS).status, self.target.hosts()), (AUTHENTICATION_REQUIRED, []))
        self.assertEqual(queue.send_message(success2(queue.transaction)), 0)
        self.assertEqual(queue.property(CSTS).status, 0)

    def test_a_host_that_does_not_take_the_response(self) -> None:
        queue = self.queue()
        self.assertEqual(queue.send_message(reply_to(queue.begin(), names_of(0xa1), SECRETS[0xa1], NOBODYS).message), 0)
        queue.message()
        self.assertEqual(queue.send_message(failure2(queue.transaction)), 0)
        self.assert_ended(queue)
        self.assertEqual(self.target.hosts(), [])

    def test_again_on_live_queues(self) -> None:
        admin = self.enabled()
        io = self.proved(qid=1, cntlid=admin.cntlid)
        for _ in range(3):
            for queue in (admin, io):
                queue.prove(names_of(0xa1), SECRETS[0xa1], CONTROLLER)
                self.assertEqual(self.read(io), 0)
        # While it continues, commands are executed.
        challenge = io.begin()
        self.assertEqual(self.read(io), 0)
        io.finish(reply_to(challenge, names_of(0xa1), SECRETS[0xa1]))
        self.assertEqual(self.read(io), 0)

    def test_a_queue_that_fails_again_ends(self) -> None:
        admin = self.enabled()
        first, second = (self.proved(qid=qid, cntlid=admin.cntlid) for qid in (1, 2))
        reply = reply_to(first.begin(), names_of(0xa1), NOBODYS)
        self.assert_refused(first, reply.message, FAILED)
        self.assertEqual((self.read(second), [it["io_queues"] for it in self.target.hosts()]), (0, [1]))
        # With the admin queue the association ends, and its controller is free.
        reply = reply_to(admin.begin(), names_of(0xa1), NOBODYS)
        self.assert_refused(admin, reply.message, FAILED)
        self.assert_ended(second)
        self.assertEqual(self.target.hosts(), [])
        self.enabled()

    def test_disconnect(self) -> None:
        admin = self.enabled()
        io = self.queue(qid=1, cntlid=admin.cntlid)
        self.assertEqual(io.call(0x7f, 8, b"\0\0").status, 0)
        self.assert_ended(io)

    def test_discovery(self) -> None:
        """Discovery needs no authentication: it reports the subsystem's address to listed hosts."""
        queue = ChapQueue(self.target.port)
        self.addCleanup(queue.close)
        completion = queue.connect(0, 0xa1, name=DISCOVERY)
        self.assertEqual((completion.status, completion.value & REQUIRED), (0, 0))
        self.assertEqual(queue.send_message(negotiate(1)), 0x001 | DO_NOT_RETRY)
        self.assertEqual(queue.set_property(CC, ENABLE).status, 0)
        page = queue.call(0x02, 0, struct.pack("<HHIQ", 0x70, 511, 0, 0), length=2048).data
        self.assertEqual(page[1280:1280 + len(SUBSYSTEM)], SUBSYSTEM.encode())

    def test_keep_alive_begins_with_the_proof(self) -> None:
        """Linux sends none before it has proved itself, which may take longer than the Keep Alive Timeout."""
        queue = self.queue(keep_alive=500)
        challenge = queue.begin()
        time.sleep(2.5)
        queue.finish(reply_to(challenge, names_of(0xa1), SECRETS[0xa1]))
        self.assertEqual(queue.set_property(CC, ENABLE).status, 0)
        self.assertEqual(queue.call(0x18).status, 0)
        begun = time.monotonic()
        self.assert_ended(queue)
        self.assertGreater(time.monotonic() - begun, 0.5)

    def test_numbers_with_zeros_at_their_front(self) -> None:
        """One of 256 exchanges gives a number that is a byte shorter than the prime, or more."""
        queue, short = self.queue(), 0
        while short < 2:
            challenge = queue.begin(groups=(1,))
            reply = reply_to(challenge, names_of(0xa1), SECRETS[0xa1], private=random.getrandbits(63) + 2)
            short += reply.shared[0] == 0
            queue.finish(reply)
        self.assertEqual(queue.property(CSTS).status, 0)

    def test_no_secret_is_shown(self) -> None:
        self.target.close()
        self.target.options.append("--trace")
        self.target.start()
        self.proved(controller=CONTROLLER)
        queue = self.queue(0xb2)
        self.assert_refused(queue, reply_to(queue.begin(), names_of(0xb2), NOBODYS).message, FAILED)
        self.write_keys(KEYS.replace("DHHC-1:01:", "DHHC-1:09:"))
        self.target.process.send_signal(signal.SIGHUP)
        self.wait_for(lambda: "stay as they are" in self.errors())
        told = self.errors()
        self.assertIn(f"host {uuid(0xa1)}, queue 0, has proved who it is", told)
        self.assertIn(f"host {uuid(0xb2)}, queue 0, has not proved who it is: Failed", told)
        self.assertRegex(told, f" connected host={uuid(0xa1)} address=")
        self.assertRegex(told, f' refused host={uuid(0xb2)} .* status=1:91 reason="the host has not proved who it is"')
        for host, secret in [*SECRETS.items(), (0xa1, CONTROLLER)]:
            data = base64.b64decode(secret.split(":")[2])
            key = key_of(secret, names_of(host)[0])
            for it in (secret, secret.split(":")[2], data[:8].hex(), key[:8].hex(), str(list(data[:8]))[1:-1]):
                self.assertNotIn(it, told)

    def test_its_memory_is_nobody_elses(self) -> None:
        """A process with keys makes no core dump, nor may others of its user trace it: its files in /proc are
        root's."""
        user = os.geteuid() or 65534
        if os.geteuid() == 0:
            self.folder.chmod(0o755)
            os.chown(self.key_file, user, user)
        for options, owner in ([], user), (["--keys", str(self.key_file)], 0):
            words = [PROGRAM, "--listen", "127.0.0.1:0", *options, str(self.folder / "config.nvme")]
            process = subprocess.Popen(words, stdout=subprocess.PIPE, text=True,
                                       preexec_fn=lambda: os.geteuid() == 0 and os.setuid(user))
            self.addCleanup(process.stdout.close)
            self.addCleanup(process.wait)
            self.addCleanup(process.kill)
            self.assertIn(" at ", process.stdout.readline())
            self.assertEqual(os.stat(f"/proc/{process.pid}/environ").st_uid, owner, options)


class Refusals(KeysTest):
    def test_who_is_not_listed(self) -> None:
        """A HOSTID with another host's HOSTNQN, a HOSTNQN with another's HOSTID, and strangers."""
        queue = ChapQueue(self.target.port)
        self.addCleanup(queue.close)
        a, b = (names_of(host)[0] for host in HOSTS)
        for name in (SUBSYSTEM, DISCOVERY):
            for host, host_name in ((0xb2, a), (0xa1, b), (0xa1, f"{a}x"), (0xa1, a[:-1]), (0xc3, a), (0xc3, "nqn.c3")):
                self.assertEqual(queue.connect(0, host, host_name=host_name, name=name).status, 0x184 | DO_NOT_RETRY)
        self.assertEqual(queue.connect(0, 0xa1).value & REQUIRED, REQUIRED)

    def test_wrong_replies(self) -> None:
        names, secret = names_of(0xa1), SECRETS[0xa1]
        replies = {
            "another secret": (FAILED, lambda it: reply_to(it, names, NOBODYS)),
            "another host's secret": (FAILED, lambda it: reply_to(it, names_of(0xb2), SECRETS[0xb2])),
            "the controller's secret": (FAILED, lambda it: reply_to(it, names, CONTROLLER)),
            "its own challenge": (FAILED, lambda it: reply_to(it, names, secret, CONTROLLER, it.value)),
            "sequence number 0": (PAYLOAD, lambda it: reply_to(it, names, secret, CONTROLLER, sequence=0)),
            **{f"value {number:x}"[:12]: (PAYLOAD, lambda it, n=number: reply_to(it, names, secret, public=n))
               for number in (0, 1, PRIMES[1] - 1, PRIMES[1])},
        }
        for what, (explanation, make) in replies.items():
            with self.subTest(what):
                queue = self.queue()
                self.assert_refused(queue, make(queue.begin()).message, explanation)
                self.assertEqual(self.target.hosts(), [])
        self.enabled()

    def test_wrong_offers(self) -> None:
        for explanation, how in ((CHANNEL, {"channel": 1}), (PROTOCOL_NOT_USABLE, {"protocol": 2}),
                                 (HASH, {"hashes": (2, 3)}), (GROUP, {"groups": (0, 2)})):
            with self.subTest(how):
                self.assert_refused(self.queue(), negotiate(1, **how), explanation)

    def test_replay(self) -> None:
        """A reply that was recorded on one queue is refused on another, and on the same one later."""
        first, second = self.queue(), self.queue()
        reply = reply_to(first.begin(), names_of(0xa1), SECRETS[0xa1])
        first.finish(reply)
        self.assertEqual(first.property(CSTS).status, 0)
        second.begin()
        self.assert_refused(second, reply.message, FAILED)
        self.assert_refused(first, reply.message, MESSAGE)

    def test_order(self) -> None:
        queue = self.queue()
        self.assertEqual(queue.ask_for_message().status, SEQUENCE)
        self.assert_refused(queue, success2(0), MESSAGE)
        queue = self.queue()
        queue.begin()
        self.assertEqual(queue.ask_for_message().status, SEQUENCE)
        self.assert_refused(queue, negotiate(9), MESSAGE)

    def test_words_of_the_commands(self) -> None:
        queue, message = self.queue(), negotiate(1)
        for words in (b"\0\1\1\xe8", b"\0\1\0\xe9", b"\0\0\1\xe9", bytes(4)):
            self.assertEqual(queue.send_message(message, words), FIELD)
            self.assertEqual(queue.ask_for_message(words=words).status, FIELD)
        for length in (71, 73, 0):
            self.assertEqual(queue.call(0x7f, SEND, PROTOCOL + struct.pack("<I", length), message).status, LENGTH)
        self.assertEqual(queue.call(0x7f, RECEIVE, PROTOCOL + struct.pack("<I", 64), length=65).status, LENGTH)
        # A challenge that does not fit is still there.
        self.assertEqual(queue.send_message(message), 0)
        queue.transaction = 1
        for length in (1, 303):
            self.assertEqual(queue.ask_for_message(length).status, FIELD)
        challenge = Challenge.read(queue.message())
        queue.finish(reply_to(challenge, names_of(0xa1), SECRETS[0xa1]))

    def test_commands_that_wait(self) -> None:
        """Authentication Receive waits for the challenge that is made; its identifier is in use meanwhile."""
        queue = self.queue()
        words = PROTOCOL + struct.pack("<I", 4096)
        sent = [queue.pdu(4, entry) for entry in (
            self.entry(SEND, 1, PROTOCOL + struct.pack("<I", 72), 72, 1), self.entry(RECEIVE, 2, words, 4096, 0x5a),
            self.entry(RECEIVE, 2, words, 4096, 0x5a), self.entry(RECEIVE, 3, words, 4096, 0x5a))]
        sent[0] = queue.pdu(4, self.entry(SEND, 1, PROTOCOL + struct.pack("<I", 72), 72, 1), negotiate(1))
        queue.socket.sendall(b"".join(sent))
        came = [queue.completion() for _ in range(4)]
        self.assertEqual([(it.cid, it.status) for it in came],
                         [(1, 0), (2, 0x003 | DO_NOT_RETRY), (3, SEQUENCE), (2, 0)])
        Challenge.read(came[3].data)

    @staticmethod
    def entry(kind: int, cid: int, words: bytes, length: int, sgl: int) -> bytes:
        head = struct.pack("<BBHI16x", 0x7f, 0x40, cid, kind)
        return (head + struct.pack("<QI3xB", 0, length, sgl) + words).ljust(64, b"\0")

    def test_mutated_messages(self) -> None:
        """Over the wire, with mutated words and lengths of the commands too. The crate's own tests have 100,000."""
        rng = random.Random(20)
        admin = self.enabled(0xb2)
        for _ in range(400):
            queue = self.queue()
            try:
                message = negotiate(1)
                if rng.random() < 0.7:
                    message = reply_to(queue.begin(), names_of(0xa1), SECRETS[0xa1], CONTROLLER, private=3).message
                changed = bytearray(message)
                for _ in range(rng.randint(1, 3)):
                    changed[rng.randrange(len(changed))] ^= 1 << rng.randrange(8)
                changed = bytes(changed[:rng.choice((len(changed), rng.randrange(1, len(changed))))])
                words = bytearray(PROTOCOL + struct.pack("<I", len(changed)))
                words[rng.randrange(8)] ^= rng.choice((0, 0, 0, 1, 128))
                queue.call(0x7f, rng.choice((SEND, SEND, SEND, RECEIVE)), bytes(words), changed)
                queue.ask_for_message(rng.choice((4096, 4096, 8, 1)))
                self.assertEqual(queue.property(CSTS).status, AUTHENTICATION_REQUIRED)
            except Ended:
                pass
            queue.close()
        self.assertEqual([it["controller"] for it in self.target.hosts()], [2])
        self.assertEqual(admin.property(CSTS).value & 1, 1)

    def test_without_a_secret_of_the_controller(self) -> None:
        self.write_keys(line(0xa1, SECRETS[0xa1]))
        self.target.process.send_signal(signal.SIGHUP)
        self.wait_for(lambda: "the keys are those of" in self.errors())
        queue = self.queue()
        self.assert_refused(queue, reply_to(queue.begin(), names_of(0xa1), SECRETS[0xa1], CONTROLLER).message, FAILED)
        self.proved()


@unittest.skipUnless(has_keys(), "NVMETCP names no program that was built with libcrypto")
class Ways(unittest.TestCase):
    def test_vectors(self) -> None:
        """Those of the crate's own tests are what Python computes."""
        self.assertEqual(VECTORS.read_text(encoding="ascii").splitlines(), list(vectors()))

    def test_each_hash_and_group(self) -> None:
        """With each form of a secret too."""
        forms = ((0, 32), (0, 48), (0, 64), (1, 32), (2, 48), (3, 64))
        for number, (kind, group) in enumerate((kind, group) for kind in HASHES for group in range(6)):
            (form, size), (other, other_size) = forms[number % 6], forms[(number + 1) % 6]
            host, controller = secret_of(os.urandom(size), form), secret_of(os.urandom(other_size), other)
            with self.subTest(f"{HASHES[kind]} {GROUP_NAMES[group]}"), tempfile.TemporaryDirectory() as room:
                key_file = Path(room, "keys")
                key_file.touch(0o600)
                key_file.write_text(line(0xa1, host, controller))
                target = Target(Path(room), options=["--keys", str(key_file), "--dhchap",
                                                     f"{HASHES[kind]},{GROUP_NAMES[group]}"])
                self.addCleanup(target.close)
                self.play(target, (kind, group), (host, controller))

    def play(self, target: Target, choice: Tuple[int, int], secrets: Tuple[str, str]) -> None:
        cntlid: Optional[int] = None
        for qid in (0, 1):
            queue = ChapQueue(target.port)
            self.addCleanup(queue.close)
            completion = queue.connect(qid, 0xa1, 0xffff if cntlid is None else cntlid)
            self.assertEqual(completion.status, 0)
            for both in (False, True):
                challenge = queue.begin()
                self.assertEqual((challenge.kind, challenge.group), choice)
                self.assertEqual(len(challenge.public), size_of(challenge.group))
                queue.finish(reply_to(challenge, names_of(0xa1), secrets[0], secrets[1] if both else ""))
            if qid == 0:
                cntlid = completion.value & 0xffff
                queue.set_property(CC, ENABLE)
        self.assertEqual(queue.call(0x02, 1, struct.pack("<QI", 0, 0), length=BLOCK).status, 0)


@unittest.skipUnless(PROGRAM and not has_keys(), "the program was built with libcrypto, or there is none")
class WithoutLibcrypto(unittest.TestCase):
    def test_keys_are_refused(self) -> None:
        ran = subprocess.run([PROGRAM, "--keys", "/dev/null", "/dev/null"], stderr=subprocess.PIPE, text=True)
        self.assertEqual(ran.returncode, 3)
        self.assertIn("this build has no authentication; install libssl-dev", ran.stderr)


class Without(TargetTest):
    def test_commands_are_what_they_were(self) -> None:
        """Without --keys hosts are trusted, and the commands of authentication do not exist."""
        queue = ChapQueue(self.target.port)
        self.addCleanup(queue.close)
        self.assertEqual(queue.connect(0, 0xa1).value, 1)
        self.assertEqual(queue.send_message(negotiate(1)), 0x001 | DO_NOT_RETRY)
        self.assertEqual(queue.ask_for_message().status, 0x001 | DO_NOT_RETRY)
        self.assertEqual(queue.property(CSTS).status, 0)
