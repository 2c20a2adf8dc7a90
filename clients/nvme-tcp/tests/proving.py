"""A target with keys, and queues of hosts that authenticate, for tests."""
import struct
import tempfile
import unittest
from pathlib import Path

from tests.chap import REQUIRED, ChapQueue, Refused, names_of, secret_of
from tests.host import BLOCK, CC, CSTS, DO_NOT_RETRY, ENABLE, Ended
from tests.targets import Target, TargetTest, has_keys

AUTHENTICATION_REQUIRED = 0x191 | DO_NOT_RETRY
SEQUENCE, FIELD, LENGTH = 0x00c, 0x002 | DO_NOT_RETRY, 0x00f | DO_NOT_RETRY
HOSTS = (0xa1, 0xb2)
# A secret for each host, one of the controller, and one that nobody has.
SECRETS = {host: secret_of(bytes([host]) * 32) for host in HOSTS}
CONTROLLER, NOBODYS = secret_of(b"c" * 32), secret_of(b"n" * 32)


def uuid(host: int) -> str:
    return f"{host:02x}000000-0000-0000-0000-000000000000"


def line(host: int, *secrets: str) -> str:
    return f"{uuid(host)} {names_of(host)[0]} {' '.join(secrets)}\n"


KEYS = "".join(line(host, SECRETS[host], CONTROLLER) for host in HOSTS)


@unittest.skipUnless(has_keys(), "NVMETCP names no program that was built with libcrypto")
class KeysTest(TargetTest):
    """A test of a target that has keys."""

    keys = KEYS

    def setUp(self) -> None:
        self.room = tempfile.TemporaryDirectory()
        self.addCleanup(self.room.cleanup)
        self.folder = Path(self.room.name)
        self.key_file = self.folder / "keys"
        self.write_keys(self.keys)
        self.target = Target(self.folder, self.config, self.image, ["--keys", str(self.key_file), *self.options])
        self.addCleanup(self.end)

    def write_keys(self, text: str) -> None:
        self.key_file.write_text(text)
        self.key_file.chmod(0o600)

    def errors(self) -> str:
        return (self.folder / "errors").read_text()

    def queue(self, host: int = 0xa1, qid: int = 0, cntlid: int = 0xffff, **how) -> ChapQueue:
        """A queue whose Connect succeeded, but which has not authenticated."""
        queue = ChapQueue(self.target.port)
        self.addCleanup(queue.close)
        completion = queue.connect(qid, host, cntlid, **how)
        self.assertEqual((completion.status, completion.value & ~0xffff), (0, REQUIRED))
        queue.cntlid = completion.value & 0xffff
        return queue

    def proved(self, host: int = 0xa1, qid: int = 0, cntlid: int = 0xffff, controller: str = "", **how) -> ChapQueue:
        queue = self.queue(host, qid, cntlid, **how)
        queue.prove(names_of(host), SECRETS[host], controller)
        return queue

    def enabled(self, host: int = 0xa1, **how) -> ChapQueue:
        """An admin queue whose controller is ready."""
        queue = self.proved(host, **how)
        self.assertEqual(queue.set_property(CC, ENABLE).status, 0)
        self.assertEqual(queue.property(CSTS).value & 1, 1)
        return queue

    def read(self, queue: ChapQueue) -> int:
        return queue.call(0x02, 1, struct.pack("<QI", 0, 0), length=BLOCK).status

    def assert_refused(self, queue: ChapQueue, message: bytes, explanation: int) -> None:
        """A message is answered by Failure1, and then the connection ends."""
        self.assertEqual(queue.send_message(message), 0)
        self.assert_failure(queue, explanation)

    def assert_failure(self, queue: ChapQueue, explanation: int) -> None:
        with self.assertRaises(Refused) as refused:
            queue.message()
        self.assertEqual(refused.exception.explanation, explanation)
        self.assert_ended(queue)

    def assert_ended(self, queue: ChapQueue) -> None:
        with self.assertRaises(Ended) as ended:
            queue.unit()
        self.assertIsNone(ended.exception.status)
