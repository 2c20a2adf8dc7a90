"""The host's side of DH-HMAC-CHAP, by hashlib, hmac and whole numbers, independent of the target's code."""
import base64
import hashlib
import hmac
import os
import struct
import zlib
from typing import NamedTuple, Optional, Sequence, Tuple

from tests.host import SUBSYSTEM, Completion, Queue

SEND, RECEIVE = 5, 6
# SPSP0, SPSP1 and SECP, after a reserved byte.
PROTOCOL = b"\0\1\1\xe9"
HASHES = {1: "sha256", 2: "sha384", 3: "sha512"}
GROUP_NAMES = ("null", "ffdhe2048", "ffdhe3072", "ffdhe4096", "ffdhe6144", "ffdhe8192")
REQUIRED = 1 << 17
# Reason Code Explanations of Failure1.
FAILED, PROTOCOL_NOT_USABLE, CHANNEL, HASH, GROUP, PAYLOAD, MESSAGE = range(1, 8)


def digits_of_e(bits: int) -> int:
    """The integer part of e * 2^`power`."""
    term = total = 1 << (bits + 64)
    divisor = 1
    while term:
        term //= divisor
        total += term
        divisor += 1
    return total >> 64


def prime_of(bits: int, offset: int) -> int:
    """A prime of RFC 7919, by the formula that it gives."""
    return (1 << bits) - (1 << (bits - 64)) + ((digits_of_e(bits - 130) + offset) << 64) - 1


OFFSETS = ((2048, 560316), (3072, 2625351), (4096, 5736041), (6144, 15705020), (8192, 10965728))
PRIMES = [0, *(prime_of(bits, offset) for bits, offset in OFFSETS)]


def size_of(group: int) -> int:
    return (PRIMES[group].bit_length() + 7) // 8


def secret_of(data: bytes, form: int = 1) -> str:
    """A secret as `nvme gen-dhchap-key` makes it."""
    return f"DHHC-1:{form:02x}:{base64.b64encode(data + struct.pack('<I', zlib.crc32(data))).decode()}:"


def key_of(secret: str, name: str) -> bytes:
    """The key of a host that proves by a secret that it has this name."""
    _, form, text, _ = secret.split(":")
    data = base64.b64decode(text)[:-4]
    return data if form == "00" else hmac.digest(data, name.encode() + b"NVMe-over-Fabrics", HASHES[int(form)])


def response_to(kind: int, key: bytes, challenge: bytes, shared: Optional[bytes], sequence: int, transaction: int,
                who: bytes, names: Tuple[str, str]) -> bytes:
    name = HASHES[kind]
    if shared is not None:
        challenge = hmac.digest(hashlib.new(name, shared).digest(), challenge, name)
    first, second = (it.encode() for it in names)
    return hmac.digest(key, challenge + struct.pack("<IHB", sequence, transaction, 0) + who + first + b"\0" + second,
                       name)


def negotiate(transaction: int, hashes: Sequence[int] = (1, 2, 3), groups: Sequence[int] = range(6),
              channel: int = 0, protocol: int = 1) -> bytes:
    head = struct.pack("<BBHHBB", 0, 0, 0, transaction, channel, 1)
    return head + struct.pack("<BBBB30s30s", protocol, 0, len(hashes), len(groups), bytes(hashes), bytes(groups))


class Challenge(NamedTuple):
    """A challenge's fields."""
    transaction: int
    kind: int
    group: int
    sequence: int
    value: bytes
    public: bytes

    @staticmethod
    def read(message: bytes) -> "Challenge":
        assert message[:4] == b"\1\1\0\0", message[:16]
        transaction, size, _, kind, group, length, sequence = struct.unpack_from("<HBBBBHI", message, 4)
        value, public = message[16:16 + size], message[16 + size:16 + size + length]
        assert (size, length) == (16 + 16 * kind, size_of(group)) and not any(message[16 + size + length:])
        return Challenge(transaction, kind, group, sequence, value, public)


class Reply(NamedTuple):
    """A reply's bytes, and the response of the controller that it wants."""
    message: bytes
    wanted: Optional[bytes]
    shared: Optional[bytes]


def reply_to(it: Challenge, names: Tuple[str, str], secret: str, controller: str = "", challenge: bytes = b"",
             sequence: int = 7, private: int = 0, public: Optional[int] = None) -> Reply:
    """The reply of a host, whose name is the first of these. `public` is another value than the exchange gives."""
    host, subsystem = names
    shared, mine = None, b""
    if it.group:
        prime, own = PRIMES[it.group], private or int.from_bytes(os.urandom(40), "big")
        mine = (pow(2, own, prime) if public is None else public).to_bytes(len(it.public), "big")
        shared = pow(int.from_bytes(it.public, "big"), own, prime).to_bytes(len(it.public), "big")
    response = response_to(it.kind, key_of(secret, host), it.value, shared, it.sequence, it.transaction, b"HostHost",
                           (host, subsystem))
    own_value = challenge or (os.urandom(len(it.value)) if controller else bytes(len(it.value)))
    wanted = controller and response_to(it.kind, key_of(controller, subsystem), own_value, shared, sequence,
                                        it.transaction, b"Controller", (subsystem, host))
    head = struct.pack("<BBHHBBBBHI", 1, 2, 0, it.transaction, len(response), 0, bool(controller), 0, len(mine),
                       sequence)
    return Reply(head + response + own_value + mine, wanted or None, shared)


def success2(transaction: int) -> bytes:
    return struct.pack("<BBHH10x", 1, 4, 0, transaction)


def failure2(transaction: int, explanation: int = FAILED) -> bytes:
    return struct.pack("<BBHHBB", 0, 0xf0, 0, transaction, 1, explanation)


class Refused(Exception):
    """The target has sent Failure1, with this explanation."""

    def __init__(self, explanation: int) -> None:
        super().__init__(f"Failure1, explanation {explanation}")
        self.explanation = explanation


class ChapQueue(Queue):
    """A queue whose host authenticates itself."""

    transaction = 0

    def send_message(self, message: bytes, words: bytes = PROTOCOL) -> int:
        return self.call(0x7f, SEND, words + struct.pack("<I", len(message)), message).status

    def ask_for_message(self, length: int = 4096, words: bytes = PROTOCOL) -> Completion:
        return self.call(0x7f, RECEIVE, words + struct.pack("<I", length), length=length)

    def message(self) -> bytes:
        """The next message, which must not be a failure."""
        completion = self.ask_for_message()
        assert completion.status == 0, completion
        if completion.data[:2] == b"\0\xf1":
            assert completion.data[6] == 1 and not any(completion.data[8:]), completion.data[:16]
            raise Refused(completion.data[7])
        return completion.data

    def begin(self, **how) -> Challenge:
        """Negotiates, and returns the challenge."""
        self.transaction = self.transaction + 1 & 0xffff
        assert self.send_message(negotiate(self.transaction, **how)) == 0
        challenge = Challenge.read(self.message())
        assert challenge.transaction == self.transaction and challenge.sequence, challenge
        return challenge

    def finish(self, reply: Reply) -> None:
        assert self.send_message(reply.message) == 0
        told = self.message()
        size = told[6]
        assert told[:4] == b"\1\3\0\0" and size == reply.message[6] and not any(told[16 + size:]), told[:16]
        if reply.wanted is None:
            assert told[8] == 0 and not any(told[16:])
        else:
            assert told[8] == 1 and told[16:16 + size] == reply.wanted, "the controller's response is wrong"
            assert self.send_message(success2(self.transaction)) == 0

    def prove(self, names: Tuple[str, str], secret: str, controller: str = "", **how) -> None:
        self.finish(reply_to(self.begin(), names, secret, controller, **how))


def names_of(host: int, subsystem: str = SUBSYSTEM) -> Tuple[str, str]:
    return f"nqn.2024-01.example:{host:x}", subsystem
