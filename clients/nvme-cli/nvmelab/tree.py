"""A host's files under /dev and /sys, in their own folder, as Linux has them.

A device is an empty file, known by its name. Attributes are files with a line each. Namespaces appear and disappear
when they are attached and detached.
"""
import os
import shutil
import struct
from dataclasses import dataclass
from pathlib import Path
from typing import Dict, List, Set

from nvmelab import entries, queues
from nvmelab.configuration import BLOCK_BYTES
from nvmelab.entries import Command
from nvmelab.faults import LabFault
from nvmelab.host import Data, Host, NoQueue

IDENTIFY_BYTES = 4096
REGISTER_BYTES = 16384
NAMESPACE, CONTROLLER, ATTACHED = 0, 1, 2


def identify(host: Host, cns: int, nsid: int = 0) -> bytes:
    """A data structure of Identify, from an ordinary Identify command."""
    command = Command.of(entries.IDENTIFY, nsid, cns)
    completion, found = host.admin(command, Data(content=bytes(IDENTIFY_BYTES)))
    if not completion.is_success:
        raise LabFault(f"controller {host.cntlid} refuses Identify with status {completion.status:#x}")
    return found


def text_of(field: bytes) -> str:
    return field.decode("ascii", "replace").rstrip(" \0")


@dataclass
class Identity:
    """The fields of Identify Controller that Linux shows."""
    vendor: int
    subsystem_vendor: int
    serial: bytes
    model: bytes
    firmware: bytes
    cntlid: int
    nqn: str

    @classmethod
    def of(cls, found: bytes) -> "Identity":
        vendor, subsystem_vendor = struct.unpack_from("<HH", found, 0)
        return cls(vendor, subsystem_vendor, found[4:24], found[24:64], found[64:72],
                   struct.unpack_from("<H", found, 78)[0], text_of(found[768:1024]))

    @property
    def subsystem(self) -> str:
        """The subsystem's name. If Identify has none, Linux makes one of the other fields, and so does this."""
        made = (f"nqn.2014.08.org.nvmexpress:{self.vendor:04x}{self.subsystem_vendor:04x}"
                f"{self.serial.decode('ascii', 'replace')}{self.model.decode('ascii', 'replace')}")
        return self.nqn or made.rstrip(" ")

    def worldwide(self, nsid: int) -> str:
        """The name of a namespace without identifiers of its own, as Linux makes it."""
        serial, model = self.serial.rstrip(b" \0").hex(), self.model.rstrip(b" \0").hex()
        return f"nvme.{self.vendor:04x}-{serial}-{model}-{nsid:08x}"


@dataclass
class Space:
    """The fields of Identify Namespace that Linux shows: blocks, and whether they are write protected."""
    blocks: int
    used: int
    is_protected: bool

    @classmethod
    def of(cls, found: bytes) -> "Space":
        blocks, _, used = struct.unpack_from("<QQQ", found, 0)
        return cls(blocks, used, bool(found[99] & 1))


def attached(host: Host) -> List[int]:
    """The namespaces that are attached to a host's controller."""
    found = struct.unpack("<1024I", identify(host, ATTACHED))
    return [nsid for nsid in found if nsid]


def write_files(folder: Path, lines: Dict[str, object]) -> None:
    """Writes attributes, each with a line feed; an existing one is replaced atomically."""
    folder.mkdir(parents=True, exist_ok=True)
    for name, value in lines.items():
        place = folder / name
        place.parent.mkdir(parents=True, exist_ok=True)
        new = place.with_name(place.name + "~")
        new.write_text(f"{value}\n")
        new.replace(place)


class View:
    """The devices of one host, numbered from 0."""

    def __init__(self, folder: Path, hosts: List[Host]) -> None:
        self.folder = folder
        self.hosts = hosts
        self.identities = [Identity.of(identify(host, CONTROLLER)) for host in hosts]
        self.shown: List[Set[int]] = [set() for _ in hosts]

    @property
    def devices(self) -> Path:
        return self.folder / "dev"

    def classes(self, name: str) -> Path:
        return self.folder / "sys" / "class" / name

    def make(self) -> None:
        """Creates everything except the namespaces."""
        self.devices.mkdir(parents=True)
        subsystem = self.classes("nvme-subsystem") / "nvme-subsys0"
        for folder in (subsystem, self.classes("nvme"), self.classes("nvme-generic"), self.folder / "sys" / "block"):
            folder.mkdir(parents=True)
        self.classes("block").symlink_to(os.path.join("..", "block"))
        first = self.identities[0]
        write_files(subsystem, {
            "subsysnqn": first.subsystem, "model": text_of(first.model), "serial": text_of(first.serial),
            "firmware_rev": text_of(first.firmware), "iopolicy": "numa", "subsystype": "nvm",
        })
        for number, (identity, host) in enumerate(zip(self.identities, self.hosts)):
            (subsystem / f"nvme{number}").mkdir()
            (self.devices / f"nvme{number}").touch()
            write_files(self.classes("nvme") / f"nvme{number}", {
                "address": f"0000:{number + 1:02x}:00.0", "cntlid": identity.cntlid, "cntrltype": "io",
                "dctype": "none", "firmware_rev": text_of(identity.firmware), "model": text_of(identity.model),
                "numa_node": -1, "queue_count": 2, "serial": text_of(identity.serial),
                "sqsize": host.queue_entries - 1, "state": "live", "subsysnqn": identity.subsystem,
                "transport": "pcie",
            })

    def refresh(self) -> None:
        """Updates the registers and the attached namespaces. A host without an admin queue learns of no change."""
        for number, host in enumerate(self.hosts):
            self.show_registers(number, host)
            try:
                now = {nsid: Space.of(identify(host, NAMESPACE, nsid)) for nsid in attached(host)}
            except NoQueue:
                continue
            for nsid in self.shown[number] - set(now):
                self.hide(number, nsid)
            for nsid, space in now.items():
                self.show(number, nsid, space)
            self.shown[number] = set(now)

    def show_registers(self, number: int, host: Host) -> None:
        """The registers, as their file under /sys has them."""
        place = self.classes("nvme") / f"nvme{number}" / "device" / "resource0"
        place.parent.mkdir(exist_ok=True)
        content = bytearray(REGISTER_BYTES)
        for offset, value in host.registers().items():
            struct.pack_into("<I", content, offset, value)
        place.write_bytes(content)

    def show(self, number: int, nsid: int, space: Space) -> None:
        name = f"nvme{number}n{nsid}"
        lines = {
            "nsid": nsid, "size": space.blocks, "wwid": self.identities[number].worldwide(nsid),
            "ro": int(space.is_protected), "csi": 0, "metadata_bytes": 0, "nuse": space.used,
            "queue/logical_block_size": BLOCK_BYTES, "queue/physical_block_size": BLOCK_BYTES,
            "queue/hw_sector_size": BLOCK_BYTES, "queue/max_hw_sectors_kb": queues.MOST_DATA // 1024,
        }
        write_files(self.classes("nvme") / f"nvme{number}" / name, lines)
        write_files(self.folder / "sys" / "block" / name, lines)
        (self.classes("nvme-generic") / f"ng{number}n{nsid}").mkdir(exist_ok=True)
        for device in (name, f"ng{number}n{nsid}"):
            (self.devices / device).touch()

    def hide(self, number: int, nsid: int) -> None:
        name = f"nvme{number}n{nsid}"
        for device in (name, f"ng{number}n{nsid}"):
            os.unlink(self.devices / device)
        for folder in (self.classes("nvme") / f"nvme{number}" / name, self.folder / "sys" / "block" / name,
                       self.classes("nvme-generic") / f"ng{number}n{nsid}"):
            shutil.rmtree(folder)
