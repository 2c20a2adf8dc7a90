"""Guests of a target that moves, each with a disk that DRBD mirrors on the other. They boot once; scenes start from the
saved state of their settled cluster, in seconds."""
import contextlib
import hashlib
import shutil
import subprocess
import time
from concurrent.futures import ThreadPoolExecutor
from pathlib import Path
from typing import Dict

from linux.cluster import SETTLED, STATE, nodes_image
from linux.machines import SLOW, Guest, ask_monitor, say
from linux.network import tap
from linux.pairs import HERE, MACHINES, RESOURCES, Pair, fill, adapted
from linux.scenes import free_port

OTHER = {"t1": "t2", "t2": "t1"}
# Another number for each change of a guest's devices or of its kernel's command line.
FORM = 3
# Bytes of DRBD's metadata, for a small disk.
METADATA = 1 << 20
MOUNT = "mkdir -p /share && mount -t 9p -o trans=virtio,version=9p2000.L share /share"
# The kernel shows the states of the connection, of both roles, and of both disks.
MIRRORED = "cs:Connected ro:Primary/Secondary ds:UpToDate/UpToDate"
STARTED = "crm_resource --resource disk --meta --set-parameter target-role --parameter-value Started"


class Twin(Guest):
    """A guest with a disk, a cable to the other, and a network of hosts. It boots, or starts from a saved state."""

    def __init__(self, built: Path, folder: Path, name: str, ports: Dict[str, int], saved: bool = False) -> None:
        number, other = name[1:], OTHER[name]
        cable = f"socket,id=cluster,udp=127.0.0.1:{ports[other]},localaddr=127.0.0.1:{ports[name]}"
        modules = next((built / "kernel/lib/modules").iterdir())
        self.monitor = folder / f"monitor-{name}"
        super().__init__(built, folder, name, archive="node.gz", saved=folder / f"saved-{name}" if saved else None,
                         devices=[
            "-drive", f"file={folder}/root-{name},if=virtio,format=qcow2",
            "-drive", f"file={folder}/volume-{name},if=virtio,format=raw",
            "-drive", f"file={folder}/metadata-{name},if=virtio,format=raw",
            "-netdev", cable, "-device", f"virtio-net-pci,netdev=cluster,mac=52:54:00:00:01:0{number},romfile=",
            "-netdev", f"tap,id=hosts,ifname={tap(name)},script=no,downscript=no",
            "-device", f"virtio-net-pci,netdev=hosts,mac=52:54:00:00:02:0{number},romfile=",
            "-fsdev", f"local,id=share,path={folder}/share-{name},security_model=none",
            "-device", "virtio-9p-pci,fsdev=share,mount_tag=share",
            "-fsdev", f"local,id=modules,path={modules},security_model=none,readonly=on",
            "-device", "virtio-9p-pci,fsdev=modules,mount_tag=modules",
            "-device", "i6300esb", "-action", "watchdog=poweroff",
            "-monitor", f"unix:{self.monitor},server,nowait"])

        while saved and not self.has_arrived():
            time.sleep(0.1)

    def has_arrived(self) -> bool:
        """Whether the saved state has been read."""
        return self.monitor.exists() and b"inmigrate" not in ask_monitor(self.monitor, "info status", b"status: paused")

    def ask(self, lines: str, answer: str) -> None:
        ask_monitor(self.monitor, lines, answer.encode())

    def freeze(self) -> None:
        self.ask("stop\ninfo status", "status: paused")

    def thaw(self) -> None:
        self.ask("cont\ninfo status", "status: running")

    def save(self, folder: Path) -> None:
        """Writes the state of a guest that is frozen."""
        self.ask(f'migrate "exec:cat >{folder}/saved-{self.host}"\ninfo status', "(postmigrate)")

    def cut(self) -> None:
        """Takes the cable to the other machine out."""
        self.ask("set_link cluster off\ninfo network", "cluster: index=0")

    def hang(self) -> None:
        """No read or write of the disk ends from now on."""
        self.type("dmsetup suspend --noflush --nolockfs disk")

    def end(self) -> None:
        self.process.kill()
        self.process.wait()

    def is_off(self, seconds: float) -> bool:
        """Whether the machine ends within this time, by itself."""
        with contextlib.suppress(subprocess.TimeoutExpired):
            self.process.wait(seconds)
            say(f"{self.host} is off")
        return self.process.poll() is not None


def key_of(built: Path, image: Path, volume: Path) -> str:
    """What a saved state depends on, besides the devices and the command line of its guests."""
    state = hashlib.sha256(f"{FORM} {built.name} {image.stat().st_mtime} {volume.stat().st_size} {SLOW}".encode())
    for it in ("init", "target-node", "fence_guest", RESOURCES, "drbd.res", "targets.corosync.conf"):
        state.update(adapted((HERE / it).read_text()).encode())
    state.update((HERE.parent / "ocf/nvmetcp").read_bytes())
    return state.hexdigest()


def boot(pair: Pair, built: Path, image: Path, volume: Path) -> None:
    """Boots both, with copies of the volume."""
    ports = {it: free_port() for it in MACHINES}

    def one(name: str) -> Guest:
        folder = pair.folder
        words = ["qemu-img", "create", "-q", "-f", "qcow2", "-F", "raw", "-b", image, folder / f"root-{name}"]
        subprocess.run(words, check=True)
        shutil.copy(volume, folder / f"volume-{name}")
        (folder / f"metadata-{name}").write_bytes(bytes(METADATA))
        fill(pair.share(name))
        guest = Twin(built, folder, name, ports)
        guest.run(MOUNT)
        return guest

    with ThreadPoolExecutor() as pool:
        pair.guests.update(zip(MACHINES, pool.map(one, MACHINES)))


def settle(pair: Pair) -> None:
    """The cluster forms, with DRBD's primary on t1 and no target, so that no file of the scene is open."""
    pair.form()
    pair.until("DRBD mirrors", "t1", "cat /proc/drbd", MIRRORED)
    # The first checks of all resources have ended.
    pair.until("nothing is left to do", "t1", "crmadmin -qS $(crmadmin -qD)", "S_IDLE")
    for it in pair.guests.values():
        text = it.run("umount /share && sync; echo status $?", SETTLED)
        pair.wants(f"{it.host} has left its share", "status 0" in text)


def saved(built: Path, volume: Path) -> Path:
    """The folder with the saved state of both machines, which is made if there is none."""
    image, folder = nodes_image(built), built.parent / "twins"
    key = key_of(built, image, volume)
    if (folder / "key").is_file() and (folder / "key").read_text() == key:
        return folder
    shutil.rmtree(folder, ignore_errors=True)
    folder.mkdir(parents=True)
    begun, pair = time.monotonic(), Pair(folder)
    try:
        boot(pair, built, image, volume)
        settle(pair)
        for freezing in (True, False):
            for it in pair.guests.values():
                it.freeze() if freezing else it.save(folder)
    finally:
        pair.close()
    if pair.faults:
        raise AssertionError("; ".join(pair.faults))
    (folder / "key").write_text(key)
    say(f"the state of both machines is saved, after {time.monotonic() - begun:.0f} s")
    return folder


def restore(pair: Pair, built: Path, source: Path, volume: Path) -> None:
    """Both machines continue from their saved state, each with its copy of a volume, and the target starts on t1."""
    ports = {it: free_port() for it in MACHINES}
    for name in MACHINES:
        words = ["qemu-img", "create", "-q", "-f", "qcow2", "-F", "qcow2", "-b", source / f"root-{name}",
                 pair.folder / f"root-{name}"]
        subprocess.run(words, check=True)
        shutil.copy(volume, pair.folder / f"volume-{name}")
        shutil.copy(source / f"metadata-{name}", pair.folder)
        (pair.folder / f"saved-{name}").symlink_to(source / f"saved-{name}")
        fill(pair.share(name))
        pair.guests[name] = Twin(built, pair.folder, name, ports, saved=True)
    for it in pair.guests.values():
        it.thaw()
    for it in pair.guests.values():
        it.run(f"{MOUNT}; cp /share/nvmetcp /usr/bin/")
    pair.until("both machines are online", "t1", STATE, r"Online: \[ t1 t2 \]")
    pair.until("DRBD mirrors", "t1", "cat /proc/drbd", MIRRORED)
    pair.guests["t1"].run(STARTED, SETTLED)
