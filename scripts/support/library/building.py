"""Builds the library for C of the crates nvme_library and nvme_tcp_library."""
import math
import os
import shutil
import subprocess
import tempfile
from pathlib import Path

from support import proving, toolchain

# The interface's number, as in nvmesim.h: that of the shared object's name.
VERSION = "3"
CRATES = ("nvme_library", "nvme_tcp_library")
HEADERS = ("nvmesim.h", "nvmesim_texts.h", "nvmetcp.h")
MOST_TOLD = 4000
PKGCONFIG = """prefix=${{pcfiledir}}/../..
includedir=${{prefix}}/include
libdir=${{prefix}}/lib

Name: {name}
Description: {description}
Version: {version}
Cflags: -I${{includedir}}
Libs: -L${{libdir}} -l{name}
"""


class NotBuilt(Exception):
    """It can't be built, with the reason."""


def call(words, folder):
    """Runs a tool and returns its output, which is the reason if it fails."""
    try:
        ran = subprocess.run(words, cwd=folder, stdin=subprocess.DEVNULL, stdout=subprocess.PIPE,
                             stderr=subprocess.STDOUT, text=True, errors="replace")
    except OSError as error:
        raise NotBuilt(f"{words[0]}: {error}") from error
    if ran.returncode != 0:
        raise NotBuilt(f"{' '.join(map(str, words[:3]))} .. failed\n{ran.stdout[-MOST_TOLD:]}")
    return ran.stdout


def is_built_over_ci(top, name):
    """Builds a crate's archive from the libraries that `rt ci` has just built, if they are there; whether it could. Then `rt
    lib` would prove all of them again; otherwise it takes kept ones."""
    rt = toolchain.load(top)
    crate = toolchain.crates_of(rt, str(top))[name]
    if not all(map(proving.is_left_by_ci, crate.below())):
        return False
    Path(crate.folder, "out").mkdir(exist_ok=True)
    with open(os.devnull, "w", encoding="utf-8") as crate.out:
        return crate.build_static([]) == 0


def proved_archive(top, name):
    """Proves a crate and builds its archive, if that is not done yet."""
    folder = top / "crates" / name
    if not is_built_over_ci(top, name):
        call(["rt", "lib"], folder)
    return folder / "out" / f"lib{name}.a"


def unproved_archive(top):
    """The path of the archive that is built without its proofs."""
    return top / "out" / "library" / "libnvmesim-unproved.a"


def is_newer(archive, sources):
    """Whether an archive is there, and newer than its sources."""
    return archive.is_file() and archive.stat().st_mtime > sources


def kept_archives(top, names):
    """The proved archives of crates, without any if one is not built or older than its sources; and when a source was
    last changed."""
    try:
        rt = toolchain.load(top)
    except toolchain.NoToolchain:
        return [], math.inf
    known = toolchain.crates_of(rt, str(top))
    crates = [known[it] for it in names]
    newest = [max(proving.newest_source(it) for it in [*crate.below(), crate]) for crate in crates]
    found = [Path(it.folder, "out", f"lib{it.name}.a") for it in crates]
    return found if all(map(is_newer, found, newest)) else [], max(newest)


def built_archives(top):
    """What is built and newer than its sources, as lists of archives: the proved ones first, if they are there."""
    proved, newest = kept_archives(top, CRATES)
    # The unproved archive also depends on the headers, and on these scripts.
    makers = [*(top / "clients/c" / it for it in HEADERS), *Path(__file__).parent.glob("*.py")]
    is_last = is_newer(unproved_archive(top), max(newest, *(it.stat().st_mtime for it in makers)))
    return [it for it in (proved, [unproved_archive(top)] if is_last else []) if it]


def whole_object(archive, room, prefix="nvmesim"):
    """One object of the archive and the toolchain's objects that it needs; only calls with this prefix are exported."""
    heap = Path(toolchain.ask("doc")).parent / "c" / "liblibc_c.a"
    call(["ar", "x", str(archive)], room)
    parts = sorted(str(it) for it in room.glob("*.o"))
    call(["ld", "-r", "-o", "all", *parts, str(heap)], room)
    call(["objcopy", "--wildcard", f"--keep-global-symbol={prefix}_*", "all", f"{prefix}.o"], room)
    return room / f"{prefix}.o"


def build(top, prefix):
    """Builds the proved library and installs it under a folder."""
    put(top, [proved_archive(top, it) for it in CRATES], prefix)


def objects_of(archives, room):
    """One object for each archive, in a room."""
    made = []
    for archive in archives:
        place = room / archive.stem
        place.mkdir()
        made.append(whole_object(archive, place).replace(room / f"{archive.stem}.o").name)
    return made


def put_interface(folder, headers, prefix, **fields):
    """Installs headers of a folder, and the file for pkg-config, under a folder."""
    for part in ("include", "lib/pkgconfig"):
        (prefix / part).mkdir(parents=True, exist_ok=True)
    for name in headers:
        shutil.copyfile(folder / name, prefix / "include" / name)
    text = PKGCONFIG.format(**fields)
    (prefix / "lib/pkgconfig" / f"{fields['name']}.pc").write_text(text, encoding="utf-8")


def put(top, archives, prefix):
    """Installs the library of these archives under a folder."""
    with tempfile.TemporaryDirectory(prefix="nvmesim-object-") as place:
        room = Path(place)
        made = objects_of(archives, room)
        call(["ar", "rcs", "libnvmesim.a", *made], room)
        shared = f"libnvmesim.so.{VERSION}"
        call(["cc", "-shared", "-o", shared, f"-Wl,-soname,{shared}", *made], room)
        put_interface(top / "clients/c", HEADERS, prefix, name="nvmesim", version=VERSION,
                      description="A proved NVMe subsystem that several hosts share")
        for name in ("libnvmesim.a", shared):
            shutil.copyfile(room / name, prefix / "lib" / name)
    link = prefix / "lib" / "libnvmesim.so"
    link.unlink(missing_ok=True)
    link.symlink_to(shared)


def put_examples(top, prefix):
    """Installs the examples for C, and the crate for Rust with its examples, under a folder."""
    share, passed = prefix / "share" / "nvmesim", shutil.ignore_patterns("target", "out")
    shutil.copytree(top / "clients/c/examples", share / "examples/c", dirs_exist_ok=True)
    shutil.copytree(top / "clients/rust", share / "rust", ignore=passed, dirs_exist_ok=True)
