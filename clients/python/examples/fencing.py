#!/usr/bin/env python3
"""A cluster whose agents fence with reservations.

    python3 fencing.py [--nodes 2|3] [--careful] [--kept FILE [--force]]

All nodes are registered on the disk, which is reserved as Write Exclusive - Registrants Only. Node 1 hangs, with a
Write in progress. The agents that are left have a quorum: one of them fences node 1 by a Preempt and Abort, and writes
the block itself. Then node 1 rejoins.

`--kept FILE` writes the session's lines for `python3 -m nvmesim scene`. This run looks right whether agents are careful
or not. `python3 -m nvmesim explore` finds the order in which a careless node's old Write lands after the fence.
"""
from __future__ import annotations

import argparse
import sys
from typing import List, Set

from nvmesim import AcquireAction, Host, NvmeError, ReservationType, Subsystem
from nvmesim.files import Output, add_force
from nvmesim.hosts import Namespace

TYPE = ReservationType.WRITE_EXCLUSIVE_REGISTRANTS_ONLY
BLOCK = 0
OLD, NEW = b"old", b"new"


class NoQuorum(Exception):
    """A node that sees too few others must not fence."""


class Agent:
    """The agent of one node.

    Attributes:
        host: the node's driver and controller.
        key: its reservation key.
        sees: the nodes that it reaches, itself among them.
    """

    def __init__(self, host: Host, disk: Namespace, nodes: int, is_careful: bool) -> None:
        self.host, self.disk, self.nodes, self.is_careful = host, disk, nodes, is_careful
        self.key = host.host
        self.sees: Set[int] = set(range(1, nodes + 1))

    def join(self) -> None:
        """Comes up and registers; the first of all nodes takes the reservation."""
        self.host.up()
        self.host.register(self.disk, self.key)
        if not self.host.report(self.disk).rtype:
            self.host.acquire(self.disk, TYPE, self.key)

    @property
    def has_quorum(self) -> bool:
        """Whether it sees more than half of the nodes. Of two nodes, the one that preempts first continues."""
        return 2 * len(self.sees) > self.nodes or self.nodes == 2

    @property
    def is_leader(self) -> bool:
        """Whether it is the one that fences: the first of those that it sees."""
        return self.host.number == min(self.sees)

    def fence(self, other: Agent) -> None:
        """Removes another node's registration, and aborts the commands that its controller fetched."""
        if not self.has_quorum:
            raise NoQuorum(f"node {self.host.number} sees {len(self.sees)} of {self.nodes}")
        self.host.acquire(self.disk, TYPE, self.key, other.key, AcquireAction.PREEMPT_AND_ABORT)

    def rejoin(self) -> None:
        """Registers again. A careful agent first resets its controller, which discards its old commands."""
        if self.is_careful:
            self.host.reset()
            self.host.up()
        self.host.place_register(self.disk, self.key, ignore_existing_key=True)
        self.host.ring()
        self.host.controller.fetch(1)
        for place in (1, 0):  # a controller may execute what it has fetched in any order
            self.host.controller.execute(place)
        self.host.poll()
        self.host.poll()


def story(subsystem: Subsystem, nodes: int, is_careful: bool) -> List[str]:
    """Runs the cluster, and returns one line for each result."""
    hosts = [subsystem.controller(host=0xa1 + 0x11 * n) for n in range(nodes)]
    disk = subsystem.namespace(blocks=64)
    for host in hosts:
        subsystem.attach(host, disk)
    subsystem.start()
    agents = [Agent(it, disk, nodes, is_careful) for it in hosts]
    for agent in agents:
        agent.join()
    hung, left = agents[0], agents[1:]
    told = [f"line {len(subsystem.script.splitlines()) + 1} places the Write"]
    hung.host.place_write(disk, BLOCK, OLD)
    hung.host.ring()
    hung.host.controller.fetch(1)
    hung.sees = {hung.host.number}
    for agent in left:
        agent.sees -= hung.sees
    leader = next(it for it in left if it.is_leader)
    leader.fence(hung)
    told.append(f"node {leader.host.number} of {nodes} has fenced node {hung.host.number}")
    leader.host.write(disk, BLOCK, NEW)
    for other in left[1:]:
        other.host.write(disk, BLOCK + 1, NEW)
    hung.rejoin()
    told.append(f"node {hung.host.number} has rejoined; block {BLOCK} has "
                f"{subsystem.blocks(disk, BLOCK).rstrip(bytes(1)).decode()!r}")
    return told


def main() -> int:
    """Runs the story."""
    parser = argparse.ArgumentParser(description=__doc__.splitlines()[0] if __doc__ else None)
    parser.add_argument("--nodes", type=int, choices=(2, 3), default=2)
    parser.add_argument("--careful", action="store_true", help="agents reset their controller before they rejoin")
    parser.add_argument("--kept", metavar="FILE", help="where the session's lines go")
    add_force(parser)
    words = parser.parse_args()
    kept = Output(words.kept, is_forced=words.force) if words.kept else None
    with Subsystem() as subsystem:
        try:
            print("\n".join(story(subsystem, words.nodes, words.careful)))
        except (NvmeError, NoQuorum) as fault:
            print(fault, file=sys.stderr)
            return 1
        finally:
            if kept is not None:
                kept.write(subsystem.script)
    return 0


if __name__ == "__main__":
    sys.exit(main())
