"""Scenes: random commands from a seed, among those that all compared devices support."""
from __future__ import annotations

import random
from typing import Callable, List, Sequence, Tuple

from .device import Abilities
from .steps import REGION, Step

KEYS = (0x11, 0x22, 0x33, 0)
"""The keys of scenes: each host's own key first."""

_Maker = Callable[[random.Random, int], Tuple[int, ...]]


def scene(seed: int, hosts: Sequence[Abilities], length: int) -> List[Step]:
    """`length` random commands of these hosts, from a seed."""
    chance, makers = random.Random(seed), _makers(hosts)
    words = list(makers)
    found: List[Step] = []
    for _ in range(length):
        host, word = chance.randrange(len(hosts)), chance.choice(words)
        verb = word.rstrip("0123456789")
        found.append(Step(host, verb, makers[word](chance, host)))
    return found


def _makers(hosts: Sequence[Abilities]) -> "dict[str, _Maker]":
    """The makers of each command's numbers. A word that is listed several times is chosen more often."""
    blocks, most = hosts[0].blocks, min(it.most_blocks for it in hosts)
    has_past_end = all(it.has_past_end for it in hosts)

    def ranges(chance: random.Random, _: int) -> Tuple[int, ...]:
        count = chance.choice((1, 1, 2, 3, 8))
        near_end = chance.random() < 0.4
        slba = blocks - chance.randrange(-1, REGION) if near_end else chance.randrange(REGION - count + 1)
        return slba if has_past_end else min(slba, blocks - count), min(count, most)

    def with_data(chance: random.Random, host: int) -> Tuple[int, ...]:
        return (*ranges(chance, host), chance.randrange(1, 4))

    found: "dict[str, _Maker]" = {"read": ranges, "read1": ranges, "write": with_data, "write1": with_data,
                                  "write2": with_data, "flush": lambda chance, host: (),
                                  "identify": lambda chance, host: ()}
    if all(it.has_compare for it in hosts):
        found["compare"] = with_data
    if all(it.has_zeroes for it in hosts):
        found["zeroes"] = ranges
    if all(it.has_protection for it in hosts):
        found["protect"] = lambda chance, host: (chance.choice((0, 0, 1, 3)),)
        found["protection"] = lambda chance, host: ()
    if all(it.has_attachment for it in hosts):
        lists = [(0,), (), (0, 0), *([(1,), (0, 1), (1, 0)] if len(hosts) > 1 else [])]
        found["attach"] = lambda chance, host: chance.choice(lists)
        wrong = [it for it in lists if not it or it != tuple(sorted(set(it)))]
        found["detach"] = lambda chance, host: chance.choice(wrong)  # these are refused
    if all(it.rtypes for it in hosts):
        found.update(_reservation_makers(hosts))
    return found


def _reservation_makers(hosts: Sequence[Abilities]) -> "dict[str, _Maker]":
    rtypes = [it for it in range(1, 7) if all(it in host.rtypes for host in hosts)]
    tried = [*rtypes, *rtypes, 0, 7]
    cptpls = (0, 0, 2, 3, 1) if all(it.has_persistence for it in hosts) else (0,)

    def mine(chance: random.Random, host: int) -> int:
        return KEYS[host] if chance.random() < 0.85 else chance.choice(KEYS)

    def register(chance: random.Random, host: int) -> Tuple[int, ...]:
        action = chance.choice((0, 0, 0, 0, 1, 2, 3))
        return (action, chance.choice((0, 0, 0, 1)), chance.choice(cptpls), mine(chance, host) if action else 0,
                mine(chance, host))

    def acquire(chance: random.Random, host: int) -> Tuple[int, ...]:
        action = chance.choice((0, 0, 0, 1, 2, 3))
        return action, chance.choice(tried), mine(chance, host), chance.choice(KEYS) if action else 0

    def release(chance: random.Random, host: int) -> Tuple[int, ...]:
        return chance.choice((0, 0, 1, 2)), chance.choice(tried), mine(chance, host)

    def nothing(chance: random.Random, host: int) -> Tuple[int, ...]:
        return ()

    return {"register": register, "register1": register, "register2": register, "acquire": acquire,
            "acquire1": acquire, "acquire2": acquire, "release": release, "report": nothing, "report1": nothing}
