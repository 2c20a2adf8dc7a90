#!/usr/bin/env python3
"""Prints fixed vectors of DH-HMAC-CHAP, which tests/vectors/dhchap.txt has: tests/chap_vectors.py

A line is one authentication in both directions: the hash, the group, the secrets of host and controller, the private
numbers of controller and host, the transaction, the sequence numbers and challenges of both, the SHA-256 of the
challenge's message and of the reply's, and the responses of both. The last line's DH exchange gives a number whose
first byte is zero.
"""
import hashlib
import sys
from pathlib import Path
from typing import Iterator

sys.path.insert(0, str(Path(__file__).resolve().parent.parent))

from tests.chap import Challenge, PRIMES, reply_to, secret_of, size_of
from tests.host import SUBSYSTEM

VECTORS = Path(__file__).resolve().parent / "vectors/dhchap.txt"
NAMES = ("nqn.2024-01.example:a1", SUBSYSTEM)
# The forms of secrets: the number of the hash that transforms them, and their sizes.
FORMS = ((0, 32), (0, 48), (0, 64), (1, 32), (2, 48), (3, 64))


def drawn(what: str, number: int, size: int) -> bytes:
    """Bytes that look random, and are the same each time."""
    return hashlib.sha512(f"{what} {number}".encode()).digest()[:size]


def secret(what: str, number: int, form: int) -> str:
    kind, size = FORMS[form % len(FORMS)]
    return secret_of(drawn(what, number, size), kind)


def line(number: int, kind: int, group: int, privates: tuple) -> str:
    """The vector of a number."""
    secrets = secret("host", number, number), secret("controller", number, number + 1)
    own, theirs = (int.from_bytes(it, "big") for it in privates)
    public = pow(2, own, PRIMES[group]).to_bytes(size_of(group), "big") if group else b""
    size = 16 + 16 * kind
    challenge = Challenge(0x1234 + number, kind, group, 0x89abcdef + number, drawn("C1", number, size), public)
    sent = b"\1\1\0\0" + challenge.transaction.to_bytes(2, "little") + bytes((size, 0, kind, group))
    sent += len(public).to_bytes(2, "little") + challenge.sequence.to_bytes(4, "little") + challenge.value + public
    value, sequence = drawn("C2", number, size), 0x1000 + number
    reply = reply_to(challenge, NAMES, *secrets, value, sequence, theirs)
    fields = [kind, group, *secrets, *(it.hex() for it in privates), challenge.transaction, challenge.sequence,
              challenge.value.hex(), sequence, value.hex(), hashlib.sha256(sent).hexdigest(),
              hashlib.sha256(reply.message).hexdigest(), reply.message[16:16 + size].hex(), reply.wanted.hex()]
    return " ".join(map(str, fields))


def short_privates() -> tuple:
    """Private numbers of ffdhe2048 whose exchange gives a number with a zero at its front."""
    own = drawn("short", 0, 40)
    public = pow(2, int.from_bytes(own, "big"), PRIMES[1])
    for number in range(1, 10_000):
        theirs = drawn("short", number, 40)
        if pow(public, int.from_bytes(theirs, "big"), PRIMES[1]) >> 2040 == 0:
            return own, theirs
    raise AssertionError("there is none")


def vectors() -> Iterator[str]:
    number = 0
    for kind in (1, 2, 3):
        for group in range(6):
            yield line(number, kind, group, (drawn("x", number, 64), drawn("y", number, 40)))
            number += 1
    yield line(number, 1, 1, short_privates())


if __name__ == "__main__":
    print("\n".join(vectors()))
