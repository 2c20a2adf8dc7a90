"""Machines in namespaces, for scenes whose guests would take too long without KVM. They share this machine's kernel."""
import os
import signal
import subprocess
import threading
import time
from pathlib import Path
from typing import List

from linux.machines import BOOT, Guest, say
from linux.network import bridge

HERE = Path(__file__).resolve().parent
# The bridge by which they reach the scene, at the address that guests of QEMU have for it.
OUTSIDE = ("management", "10.0.2.2")


class Namespace(Guest):
    """A machine in namespaces. `run` types a line into its shell, as for a guest."""

    def __init__(self, root: Path, folder: Path, host: str) -> None:
        self.host, self.come, self.ending = host, b"", threading.Lock()
        self.console = open(folder / f"console-{host}.txt", "ab")
        # A device for each, so that neither meets the other's locks and pages.
        words = ["losetup", "--find", "--show", folder / "volume"]
        self.disk = subprocess.run(words, stdout=subprocess.PIPE, text=True, check=True).stdout.strip()
        words = ["unshare", "--pid", "--mount", "--net", "--uts", "--ipc", "--fork", "--kill-child", "--propagation",
                 "private", HERE / "namespace", host, root, folder, self.disk]
        self.process = subprocess.Popen(words, stdin=subprocess.PIPE, stdout=subprocess.PIPE, bufsize=0,
                                        stderr=subprocess.STDOUT, start_new_session=True)
        self.first = self.find_first()
        plug_in(host, self.first)
        self.wait(BOOT)
        say(f"{host} is up, in namespaces")

    def type(self, line: str) -> None:
        """As a terminal does, it shows the line."""
        self.come += f"{line}\n".encode()
        super().type(line)

    def find_first(self) -> int:
        """The first process of the machine, in whose network the cables end."""
        children = Path(f"/proc/{self.process.pid}/task/{self.process.pid}/children")
        last = time.monotonic() + BOOT
        while not children.read_text().split() and time.monotonic() < last:
            time.sleep(0.05)
        return int(children.read_text().split()[0])

    def members(self) -> List[int]:
        """All processes of the machine."""
        found = []
        mine = os.readlink(f"/proc/{self.first}/ns/pid")
        for it in Path("/proc").iterdir():
            try:
                if it.name.isdigit() and os.readlink(it / "ns/pid") == mine:
                    found.append(int(it.name))
            except OSError:
                pass
        return found

    def signal(self, number: int) -> None:
        for it in self.members():
            try:
                os.kill(it, number)
            except ProcessLookupError:
                pass

    def freeze(self) -> None:
        """Stops all processes."""
        self.signal(signal.SIGSTOP)

    def thaw(self) -> None:
        self.signal(signal.SIGCONT)

    def cut(self) -> None:
        """Takes the cable to the other machine out."""
        subprocess.run(["nsenter", "-t", str(self.first), "-n", "ip", "link", "set", "eth1", "down"], check=True)

    def end(self) -> None:
        """Ends all processes at once. Returns after their end."""
        with self.ending:
            if self.process.poll() is None:
                os.kill(self.first, signal.SIGKILL)
            # unshare ends after the first process, which ends after all others.
            self.process.wait()

    def close(self) -> None:
        self.end()
        subprocess.run(["losetup", "--detach", self.disk], check=True)
        self.console.close()


def ip(line: str) -> None:
    subprocess.run(["ip", *line.split()], check=True)


def make_cables(*hosts: str) -> None:
    """The bridge to the scene, and the cable between two machines."""
    for line in bridge(*OUTSIDE):
        ip(line)
    ip("link add cable-{} type veth peer name cable-{}".format(*hosts))


def plug_in(host: str, first: int) -> None:
    """Connects a machine to its networks: eth0 to the scene, eth1 to the other machine, eth2 to the hosts."""
    ip(f"link set cable-{host} name eth1 netns {first}")
    # The machine waits for the last one.
    for device, bridge in (("eth0", OUTSIDE[0]), ("eth2", "hosts")):
        ip(f"link add {device}-{host} type veth peer name {device} netns {first}")
        ip(f"link set {device}-{host} master {bridge} up")
