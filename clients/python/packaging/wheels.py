"""Builds the package for pip and the like by Python alone: so `pip install` needs no network.

It is the build backend that `pyproject.toml` names, by PEP 517 and PEP 660. Every other one would have to be fetched
first. The table `[project]` has all metadata of the package, except for its version, which is in `nvmesim/__init__.py`.
"""
from __future__ import annotations

import ast
import base64
import hashlib
import io
import re
import tarfile
import zipfile
from pathlib import Path
from typing import Any, Dict, Iterator, List, Mapping, Optional, Tuple

TOP = Path(__file__).resolve().parents[1]
PACKAGE = "nvmesim"
_ENTRY_POINTS = "project.entry-points."
Settings = Optional[Mapping[str, Any]]
Table = Dict[str, Any]


def build_wheel(wheel_directory: str, config_settings: Settings = None,
                metadata_directory: Optional[str] = None) -> str:
    """Writes the wheel of the package into a folder; its name."""
    return _write_wheel(Path(wheel_directory), {str(it.relative_to(TOP)): it.read_bytes() for it in _modules()})


def build_editable(wheel_directory: str, config_settings: Settings = None,
                   metadata_directory: Optional[str] = None) -> str:
    """Writes a wheel that leads to the package where it is; its name."""
    return _write_wheel(Path(wheel_directory), {f"{PACKAGE}.pth": f"{TOP}\n".encode()})


def build_sdist(sdist_directory: str, config_settings: Settings = None) -> str:
    """Writes an archive of the sources, from which the wheel can be built, into a folder; its name."""
    stem = f"{PACKAGE}-{version()}"
    sources = [TOP / "pyproject.toml", TOP / "README.md", Path(__file__).resolve(), *_modules()]
    files = {str(it.relative_to(TOP)): it.read_bytes() for it in sources}
    with tarfile.open(Path(sdist_directory) / f"{stem}.tar.gz", "w:gz", format=tarfile.PAX_FORMAT) as archive:
        for name, content in {**files, "PKG-INFO": _metadata().encode()}.items():
            member = tarfile.TarInfo(f"{stem}/{name}")
            member.size = len(content)
            archive.addfile(member, io.BytesIO(content))
    return f"{stem}.tar.gz"


def version() -> str:
    """The version, which is in the package, and nowhere else of its folder."""
    text = (TOP / PACKAGE / "__init__.py").read_text(encoding="utf-8")
    found = re.search(r'^__version__ = "([^"]+)"$', text, re.MULTILINE)
    if found is None:
        raise ValueError("nvmesim/__init__.py has no line __version__")
    return found[1]


def tables(text: str) -> Dict[str, Table]:
    """The tables of a `pyproject.toml` whose values are on a line each and are texts, numbers, truths and lists."""
    found: Dict[str, Table] = {}
    table: Table = {}
    for line in text.splitlines():
        head = re.fullmatch(r"\[([\w.-]+)\]", line.strip())
        if head:
            table = found.setdefault(head[1], {})
        elif line.strip() and not line.lstrip().startswith("#"):
            key, _, value = line.partition(" = ")
            table[key.strip()] = ast.literal_eval({"true": "True", "false": "False"}.get(value, value))
    return found


def _modules() -> Iterator[Path]:
    """The files of the package."""
    for path in sorted((TOP / PACKAGE).rglob("*")):
        if path.suffix in (".py", ".c", ".h") or path.name == "py.typed":
            yield path


def _metadata() -> str:
    """The package's metadata, in the form of the core metadata."""
    said = tables((TOP / "pyproject.toml").read_text(encoding="utf-8"))
    project, extras = said["project"], said.get("project.optional-dependencies", {})
    heads: List[Tuple[str, str]] = [
        ("Metadata-Version", "2.1"), ("Name", project["name"]), ("Version", version()),
        ("Summary", project["description"]), ("Requires-Python", project["requires-python"]),
        *(("Requires-Dist", it) for it in project["dependencies"])]
    for extra, needs in extras.items():
        heads += [("Provides-Extra", extra), *(("Requires-Dist", f"{it}; extra == '{extra}'") for it in needs)]
    heads.append(("Description-Content-Type", "text/markdown"))
    text = (TOP / project["readme"]).read_text(encoding="utf-8")
    return "".join(f"{name}: {value}\n" for name, value in heads) + f"\n{text}"


def _entry_points() -> str:
    """The entry points of the package, in the form of the file `entry_points.txt`."""
    said = tables((TOP / "pyproject.toml").read_text(encoding="utf-8"))
    groups = {head[len(_ENTRY_POINTS):]: table for head, table in said.items() if head.startswith(_ENTRY_POINTS)}
    groups.update({"console_scripts": said["project.scripts"]} if "project.scripts" in said else {})
    return "\n".join("".join([f"[{group}]\n", *(f"{name} = {place}\n" for name, place in table.items())])
                     for group, table in groups.items())


def _write_wheel(folder: Path, files: Dict[str, bytes]) -> str:
    """Writes a wheel of these files, with what every wheel has."""
    stem = f"{PACKAGE}-{version()}"
    about = f"{stem}.dist-info"
    told = "Wheel-Version: 1.0\nGenerator: nvmesim\nRoot-Is-Purelib: true\nTag: py3-none-any\n"
    whole = {**files, f"{about}/METADATA": _metadata().encode(), f"{about}/WHEEL": told.encode(),
             f"{about}/entry_points.txt": _entry_points().encode()}
    lines = [f"{name},sha256={_digest(content)},{len(content)}" for name, content in whole.items()]
    whole[f"{about}/RECORD"] = "\n".join([*lines, f"{about}/RECORD,,", ""]).encode()
    name = f"{stem}-py3-none-any.whl"
    with zipfile.ZipFile(folder / name, "w", zipfile.ZIP_DEFLATED) as archive:
        for path, content in whole.items():
            member = zipfile.ZipInfo(path)
            member.compress_type, member.external_attr = zipfile.ZIP_DEFLATED, 0o100644 << 16
            archive.writestr(member, content)
    return name


def _digest(content: bytes) -> str:
    return base64.urlsafe_b64encode(hashlib.sha256(content).digest()).rstrip(b"=").decode()
