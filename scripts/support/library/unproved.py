"""Builds the library for C without its proofs, in half a minute.

The toolchain makes a static library of proved crates alone, but compiles a program of unproved ones. So one of the
crates gets a `main` that calls each export of both, in a copy. Of the module that comes of that the exports are given their names for
others, and those that answer a structure a function of C before them: Rattle's own calls leave it in memory that the
caller names.
"""
import re
import shutil
import tempfile
from pathlib import Path
from typing import Dict, List, Set, Tuple

from support import building, unproved
from support.library.building import CRATES, HEADERS, NotBuilt, call, put, unproved_archive
from support.library.header import EXPORT, LIBRARY, STRUCT

# The crate that gets the `main`, and the other crate with exports.
CRATE, TCP = CRATES
LENT = "nvme_lent"
# What the header declares of a call: its result, and its parameters.
Declared = Tuple[str, List[str]]
# The values of the calls. None is known before the program runs, so that nothing is computed from them.
VALUES = {"Global": "alloc", "usize": "n", "bool": "n == 3", "Handle": "Handle::closed(alloc)",
          "FabricsHandle": f"{TCP}::FabricsHandle::closed(alloc)",
          "TransfersHandle": f"{TCP}::TransfersHandle::closed(alloc)",
          "LentBytes": f"{LENT}::LentBytes {{ at: ptr::null_mut(), len: n }}",
          "DiskContent": "nvme_brought::DiskContent {}"}
REFERENCE = re.compile(r"(&(?:mut )?)(.+)")
LIST = re.compile(r"\[(\w+)(; \d+)?\]")
FIELD = re.compile(r"^    pub (\w+): (.+),$", re.M)
MAIN = """
use std::process::ExitCode;
use std::rt::Env;
use std::{{env, io, ptr}};

fn main(rt: HostRuntime) -> io::Result<ExitCode> {{
    let alloc = rt.alloc();
    let n = env::args(&rt)?.count();
{calls}
    Ok(ExitCode::from(0))
}}
"""
# How an export is named in the module, and what its definition begins with.
NAMED = re.compile(rf'@"(?:{"|".join(CRATES)})::\w+::(nvmesim_\w+)"')
DEFINED = re.compile(rf'^define internal (.*@"(?:{"|".join(CRATES)})::\w+::(nvmesim_\w+)".*)$', re.M)
# A function that its source has inlined everywhere, and the definition of a function in the module, with its name.
INLINED = re.compile(r"#\[inline\(always\)\]\s*(?:#\[[^\]]*\]\s*)*(?:pub(?:\([^)]*\))?\s+)?fn (\w+)")
INTERNAL = re.compile(r'^(define internal [^\n]*?@"([^"]+)"\([^\n]*\)) (#\d+ \{)$', re.M)
# What is before the name of an export that C calls by another function.
BEHIND = "rattle_"
# Structures of two words, which Rattle's calls leave in registers as C's do.
IN_REGISTERS = ("nvmesim_written", "nvmesim_queue_connection")


def structs(top: Path) -> Dict[str, Tuple[str, str]]:
    """The structs that calls take, by their names: with the crate before them, and the text of their fields."""
    found: Dict[str, Tuple[str, str]] = {}
    for path in LIBRARY.files(top):
        crate = path.relative_to(top / "crates").parts[0]
        for name, body in STRUCT.findall(path.read_text(encoding="utf-8")):
            found[name] = name if crate == CRATE else f"{crate}::{name}", body
    return found


def value(kind: str, known: Dict[str, Tuple[str, str]]) -> str:
    """A value of a type."""
    if kind in VALUES:
        return VALUES[kind]
    if kind in ("u8", "u16", "u32", "u64"):
        return f"n as {kind}"
    if found := REFERENCE.fullmatch(kind):
        return found[1] + value(found[2], known)
    if found := LIST.fullmatch(kind):
        return f"[{value(found[1], known)}{found[2] or ''}]"
    if kind not in known:
        raise NotBuilt(f"a call takes {kind}, which is not known here")
    name, body = known[kind]
    return f"{name} {{ {', '.join(f'{it}: {value(of, known)}' for it, of in FIELD.findall(body))} }}"


def calls(top: Path, sources: Path, before: str) -> List[str]:
    """A call of each export of a crate, whose path has these words before it."""
    found, known = [], structs(top)
    for path in sorted(sources.glob("*.rt")):
        for name, words, _ in EXPORT.findall(path.read_text(encoding="utf-8")):
            kinds = [" ".join(it.split(":", 1)[1].split()) for it in words.split(",") if ":" in it]
            found.append(f"    let _ = {before}{path.stem}::{name}({', '.join(value(it, known) for it in kinds)});")
    return found


def copies(top: Path, room: Path) -> Dict[str, Path]:
    """Copies of the crates as a program, by their names."""
    for name in (CRATE, TCP, LENT):
        shutil.copytree(top / "crates" / name, room / name, ignore=shutil.ignore_patterns("out", "wrong-bodies"))
    lent = room / LENT / "src" / "bytes.rt"
    text = lent.read_text(encoding="utf-8")
    lent.write_text(re.sub(r"^    (at|len):", r"    pub \1:", text, flags=re.M), encoding="utf-8")
    tcp = room / TCP / "src"
    for handle in tcp / "handle.rt", tcp / "transfers_handle.rt":
        handle.write_text(handle.read_text(encoding="utf-8").replace("pub(crate) fn", "pub fn"), encoding="utf-8")
    root = room / CRATE / "src" / "lib.rt"
    made = [*calls(top, root.parent, ""), *calls(top, tcp, f"{TCP}::")]
    text = root.read_text(encoding="utf-8") + MAIN.format(calls="\n".join(made))
    root.with_name("main.rt").write_text(text, encoding="utf-8")
    root.unlink()
    return {name: room / name for name in (CRATE, TCP, LENT)}


def answering(declared: Dict[str, Declared]) -> List[str]:
    """The calls that answer a structure in memory."""
    return [name for name, (result, _) in declared.items()
            if result.startswith("nvmesim_") and result not in IN_REGISTERS]


def shims(declared: Dict[str, Declared]) -> str:
    """Functions of C before the exports that answer a structure."""
    text = [f'#include "{it}"' for it in HEADERS]
    for name in answering(declared):
        result, kinds = declared[name]
        words = ", ".join(f"{kind} a{at}" for at, kind in enumerate(kinds))
        given = ", ".join(f"a{at}" for at in range(len(kinds)))
        text += [f"void {BEHIND}{name}({result} *, {words});",
                 f"{result} {name}({words}) {{ {result} it; {BEHIND}{name}(&it, {given}); return it; }}"]
    return "\n".join(text) + "\n"


def inlined(crates: Path) -> Set[Tuple[str, str]]:
    """The functions that are inlined everywhere: the path of the module, and the name."""
    found = set()
    for path in crates.glob("*/src/**/*.rt"):
        crate, _, *parts = path.relative_to(crates).with_suffix("").parts
        module = "::".join([crate, *(it for it in parts if it != "lib")])
        found |= {(module, name) for name in INLINED.findall(path.read_text(encoding="utf-8"))}
    return found


def with_inlining(module: str, wanted: Set[Tuple[str, str]]) -> str:
    """The module with these functions marked as inlined: without the mark each would be a call."""

    def definition(found: "re.Match[str]") -> str:
        *path, name = re.sub("::<[^>]*>", "", found.group(2)).split("::")
        is_wanted = any(("::".join(path[:count]), name) in wanted for count in range(1, len(path) + 1))
        return f"{found.group(1)} alwaysinline {found.group(3)}" if is_wanted else found.group()

    return INTERNAL.sub(definition, module)


def exported(module: str, behind: List[str]) -> str:
    """The module with names for others: those of the header, or such as only the functions of C know."""

    def name(found: "re.Match[str]") -> str:
        return f"@{BEHIND if found.group(1) in behind else ''}{found.group(1)}"

    others = [it for it in DEFINED.findall(module) if it[1] in behind and not it[0].startswith("void @")]
    if others:
        raise NotBuilt(f"{others[0][1]} does not leave its answer in memory: {others[0][0][:80]}")
    module = DEFINED.sub(r"define \1", module)
    return NAMED.sub(name, module).replace("define i32 @main(", "define internal i32 @unused_main(")


def compiled(kit: unproved.Kit, room: Path, top: Path) -> Path:
    """The archive of the module that is kept in the room."""
    declared = LIBRARY.declarations(LIBRARY.text_of(top / "clients/c"))
    words = (room / unproved.WORDS).read_text(encoding="utf-8").splitlines()
    words = [it for it in words if not it.startswith(("-fsanitize", "-O", "--sysroot=", "-fPIE"))]
    words = words[:words.index("-o")] + words[words.index("-o") + 2:]
    clang = [f"{kit.tools}/bin/clang", f"--sysroot={kit.tools}", "-fPIC"]
    text = ["-S", "-emit-llvm", "-O0", "-Xclang", "-disable-llvm-passes", "-o", "module.ll"]
    call([*clang, *[it for it in words if it != "-c"], *text], room)
    module = (room / "module.ll").read_text(encoding="utf-8")
    module = with_inlining(exported(module, answering(declared)), inlined(top / "crates"))
    (room / "library.ll").write_text(module, encoding="utf-8")
    (room / "shims.c").write_text(shims(declared), encoding="utf-8")
    call([*clang, *["library.ll" if it == unproved.MODULE else it for it in words], "-O2", "-o", "library.o"], room)
    call(["cc", "-O1", "-fPIC", "-I", str(top / "clients/c"), "-c", "shims.c", "-o", "shims.o"], room)
    call(["ar", "rcs", "unproved.a", "library.o", "shims.o"], room)
    return room / "unproved.a"


def archive(top: Path) -> Path:
    """Builds the archive without its proofs, and keeps it; where it is."""
    with tempfile.TemporaryDirectory(prefix="nvmesim-unproved-") as place:
        room = Path(place)
        try:
            kit = unproved.Kit(top)
            for name, folder in copies(top, room).items():
                kit.crates[name].folder = str(folder)
            used = (TCP, "nvme_pdu", "nvme_connection", "nvme_transfers", "nvme_responses", "nvme_data_buffers",
                    "nvme_journal", "nvme_capsules")
            kit.crates[CRATE].deps += [kit.crates[it] for it in used]
            unproved.keep_module(kit, CRATE, room)
        except (building.NotBuilt, unproved.toolchain.NoToolchain) as error:
            raise NotBuilt(str(error)) from error
        kept = unproved_archive(top)
        kept.parent.mkdir(parents=True, exist_ok=True)
        # A concurrent reader has a whole one.
        shutil.copyfile(compiled(kit, room, top), kept.with_suffix(".new"))
        return kept.with_suffix(".new").replace(kept)


def build(top: Path, prefix: Path) -> None:
    """Builds the library without its proofs, and puts it under a folder."""
    put(top, [archive(top)], prefix)
