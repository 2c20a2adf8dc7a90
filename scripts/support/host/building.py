"""Builds libnvmehost, the library of the crate nvme_host, and the program nvmehost over it."""
import shutil
import tempfile
from pathlib import Path

from support.library.building import call, kept_archives, proved_archive, put_interface, whole_object

CRATE = "nvme_host"
# The C that a program compiles with the library: the port, and VFIO.
SOURCES = ("port.c", "port.h", "snapshot.h", "vfio.c", "vfio.h")
PROGRAM = ("nvmehost.c", "session.c", "options.c", "reservations.c", "events.c", "lines.c", "bench.c", "port.c",
           "vfio.c")
FLAGS = ["-std=c11", "-D_GNU_SOURCE", "-O2", "-Wall", "-Wextra", "-Werror"]


def built_archive(top):
    """The proved archive, if it is built and newer than its sources."""
    return next(iter(kept_archives(top, [CRATE])[0]), None)


def build(top, prefix):
    """Proves and builds the library, and installs it and the program under a folder."""
    put(top, proved_archive(top, CRATE), prefix)


def put(top, archive, prefix):
    """Installs the library of this archive and the program under a folder."""
    clients = top / "clients" / "host"
    for part in ("bin", "share/nvmehost", "share/man/man1"):
        (prefix / part).mkdir(parents=True, exist_ok=True)
    with tempfile.TemporaryDirectory(prefix="nvmehost-object-") as place:
        room = Path(place)
        made = whole_object(archive, room, "nvmehost")
        call(["ar", "rcs", "libnvmehost.a", made.name], room)
        put_interface(clients, ["nvmehost.h"], prefix, name="nvmehost", version="1",
                      description="The proved driver of an NVMe host, for controllers of any maker")
        shutil.copyfile(room / "libnvmehost.a", prefix / "lib/libnvmehost.a")
    shutil.copyfile(top / "man" / "nvmehost.1", prefix / "share/man/man1/nvmehost.1")
    for name in SOURCES:
        shutil.copyfile(clients / name, prefix / "share/nvmehost" / name)
    call(["cc", *FLAGS, *(str(clients / it) for it in PROGRAM), str(prefix / "lib/libnvmehost.a"), "-o",
          str(prefix / "bin/nvmehost")], clients)
