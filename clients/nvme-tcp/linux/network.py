"""A network namespace for a scene: a bridge between guests, by TAP devices, and the programs of the scene."""
import contextlib
import ctypes
import os
import subprocess
from typing import Iterator, List

# The namespace of the network, in unshare(2) and setns(2).
NEWNET = 0x40000000
# The address of the scene on the bridge.
OWN = "10.88.0.254"


def call(name: str, *words: int) -> None:
    """A call of the C library that returns 0."""
    library = ctypes.CDLL(None, use_errno=True)
    if getattr(library, name)(*words) != 0:
        fault = os.strerror(ctypes.get_errno())
        raise AssertionError(f"{name}: {fault}; scenes with a network namespace are for root")


def bridge(name: str, address: str) -> List[str]:
    """Lines for ip(8) that make a bridge. It has a MAC address of its own: else it would have one of its devices', and
    another one when that device's machine is dead."""
    number = int(address.rsplit(".", 1)[1])
    return [f"link add {name} address 52:54:00:00:03:{number:02x} type bridge", f"addr add {address}/24 dev {name}",
            f"link set {name} up"]


def tap(guest: str) -> str:
    """The name of a guest's device."""
    return f"tap-{guest}"


@contextlib.contextmanager
def network_namespace(*guests: str) -> Iterator[None]:
    """Puts this thread, and those that it starts, into a network with a bridge to these guests."""
    before = os.open("/proc/thread-self/ns/net", os.O_RDONLY)
    call("unshare", NEWNET)
    try:
        lines = ["link set lo up", *bridge("hosts", OWN)]
        for it in guests:
            lines += [f"tuntap add {tap(it)} mode tap", f"link set {tap(it)} master hosts up"]
        for line in lines:
            subprocess.run(["ip", *line.split()], check=True)
        yield
    finally:
        call("setns", before, NEWNET)
        os.close(before)
