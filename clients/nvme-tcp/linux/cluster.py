"""A cluster of two Debian nodes with Pacemaker, whose fence agent is fence_nvme_pr."""
import re
import subprocess
import time
from pathlib import Path
from typing import Callable, Dict

from linux.machines import SLOWER, Guest, ask_monitor, say
from linux.scenes import AGAIN, FENCED, READ, Stage, free_port, stage, write

NODES = ("a1", "b2")
FENCE = "crm configure primitive disks stonith:fence_nvme_pr params devices=/dev/nvme0n1 " \
    'pcmk_host_list="a1 b2" pcmk_reboot_action=off pcmk_delay_base="a1:5s;b2:0s" meta provides=unfencing'
# A service that runs on b2 if it can, and on unfenced nodes only.
SERVICE = "printf 'primitive service ocf:pacemaker:Dummy meta requires=unfencing\\n" \
    "location near service 10: b2\\n' | crm configure"
LIST = "fence_nvme_pr --action=list --devices=/dev/nvme0n1"
STATE = "crm_mon -1 | sed -n '/Node List/,$p'"
LOG = "/var/log/pacemaker/pacemaker.log"
# Time limits for what Pacemaker does by itself, in a guest without KVM.
SETTLED = 600 * SLOWER


def nodes_image(built: Path) -> Path:
    """The root file system of nodes, which is made once."""
    image, maker = built.parent / "nodes/root.img", Path(__file__).parent / "nodes"
    if not image.is_file() or image.stat().st_mtime < maker.stat().st_mtime:
        say("making the root file system of the nodes")
        if subprocess.run([maker, image]).returncode:
            raise AssertionError("the root file system of the nodes could not be made")
    return image


class Cluster:
    """Both nodes; the cluster's own network is a cable between them."""

    def __init__(self, it: Stage) -> None:
        self.it = it
        self.image = nodes_image(it.built)
        self.ports = dict(zip(NODES, (free_port(), free_port())))

    def boot(self, host: str) -> Guest:
        """A node, connected to its disk, before it joins the cluster."""
        other = next(name for name in NODES if name != host)
        cable = f"socket,id=cluster,udp=127.0.0.1:{self.ports[other]},localaddr=127.0.0.1:{self.ports[host]}"
        devices = ["-drive", f"file={self.image},if=virtio,snapshot=on,format=raw", "-netdev", cable,
                   "-device", f"e1000,netdev=cluster,mac=52:54:00:00:00:{host}",
                   "-monitor", f"unix:{self.monitor(host)},server,nowait"]
        return self.it.connected(host, AGAIN, cpus=2, archive="node.gz", devices=devices)

    def monitor(self, host: str) -> Path:
        return self.it.folder / f"monitor-{host}"

    def pull(self, host: str) -> None:
        """Pulls the cable of the cluster's network out of a node. Its other network stays."""
        say(f"{host} loses the network of the cluster; its connection to the disk stays")
        ask_monitor(self.monitor(host), "set_link cluster off\ninfo network", b"cluster: index=0")

    def join(self, guest: Guest) -> None:
        """A node joins. It tries the agent first, whose first start takes longest: Pacemaker waits for 10 seconds."""
        text = guest.run("fence_nvme_pr --action=monitor --devices=/dev/nvme0n1; echo status $?")
        self.it.wants("the agent reaches the disk", "status 0" in text)
        guest.run("corosync && sleep 2 && { pacemakerd >/dev/null 2>&1 & }")

    def until(self, what: str, guest: Guest, line: str, pattern: str) -> str:
        """Executes a line until its output has a pattern. Returns the output."""
        last, text = time.monotonic() + SETTLED, ""
        while not re.search(pattern, text) and time.monotonic() < last:
            guest.rest(5)
            text = guest.run(line, SETTLED)
        self.it.wants(what, re.search(pattern, text) is not None)
        return text


def form(cluster: Cluster, a: Guest, b: Guest) -> None:
    say("both join, and the fence agent registers them")
    for guest in (a, b):
        cluster.join(guest)
    cluster.until("both nodes are online", a, STATE, r"Online: \[ a1 b2 \]")
    a.run(FENCE, SETTLED)
    a.run(SERVICE, SETTLED)
    cluster.until("both have been unfenced", a, LIST, r"(?s)0x\w+,/dev.*0x\w+,/dev")
    cluster.until("a service that needs the disk runs on b2", a, STATE, r"service.*Started b2")
    a.run("nvme resv-report /dev/nvme0n1 --eds | grep -E 'rtype|regctl |rkey|cntlid'")


def writes(it: Stage, guest: Guest, text: str) -> None:
    """A node writes, and reads it back."""
    guest.run(write(text))
    it.wants(f"{guest.host} writes", text in guest.run(READ))


def fence(cluster: Cluster, a: Guest, b: Guest) -> None:
    it = cluster.it
    cluster.pull("b2")
    cluster.until("a1 has fenced b2", a, "stonith_admin --history b2 --verbose", "(?m)^reboot of b2 successful")
    it.wants("b2 is fenced", FENCED in b.run(write("written by b2, cut off")))
    writes(it, a, "written by a1, the rest of the cluster")
    it.wants("only the key of a1 is left", a.run(LIST).count("0x") == 1)
    cluster.until("the service runs on a1", a, STATE, r"service.*Started a1")
    a.run(f"grep -o 'Remapping.*b2.*off. \\|Operation.*b2 using.*returned.*|' {LOG}")
    say("b2 tries to fence a1, after its delay of 5 seconds")
    line = f"grep -o 'fence_nvme_pr: .*no reg.*' {LOG} | tail -n 1 | fold -sw 110"
    cluster.until("b2 can't fence a1", b, line, "has no registration")
    b.run(STATE)
    it.wants("b2 is still fenced", FENCED in b.run(write("written by b2, still cut off")))
    writes(it, a, "written by a1, again")


def rejoin(cluster: Cluster, a: Guest, b: Guest) -> None:
    say("b2 is rebooted and joins again")
    b.close()
    cluster.it.guests.remove(b)
    b = cluster.boot("b2")
    cluster.it.wants("it is still fenced", FENCED in b.run(write("written by b2, rebooted")))
    cluster.join(b)
    cluster.until("both nodes are online again", a, STATE, r"Online: \[ a1 b2 \]")
    cluster.until("b2 has been unfenced", b, LIST, r"(?s)0x\w+,/dev.*0x\w+,/dev")
    writes(cluster.it, b, "written by b2, back in the cluster")
    writes(cluster.it, a, "written by a1, with b2 again")


def pacemaker(built: Path, folder: Path) -> None:
    """Two nodes of a Pacemaker cluster: one is cut off, and the other fences it by fence_nvme_pr."""
    with stage(built, folder, 2048, *NODES) as it:
        cluster = Cluster(it)
        a, b = cluster.boot("a1"), cluster.boot("b2")
        form(cluster, a, b)
        writes(it, a, "written by a1")
        writes(it, b, "written by b2")
        fence(cluster, a, b)
        rejoin(cluster, a, b)


CLUSTER: Dict[str, Callable[[Path, Path], None]] = {"pacemaker": pacemaker}
