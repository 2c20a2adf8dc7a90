"""The package as pip installs it, without a network: what is in it, what runs there, and which version it is."""
from __future__ import annotations

import hashlib
import os
import re
import shutil
import subprocess
import sys
import tarfile
import unittest
import zipfile
from importlib import util
from pathlib import Path
from types import ModuleType
from typing import Dict, List

import nvmesim

from .support import DATA, PACKAGE, PROGRAMS, TOP, FolderCase

ABOUT = ("METADATA", "WHEEL", "RECORD", "entry_points.txt")


def backend_of(package: Path) -> ModuleType:
    """The build backend that is in a package."""
    spec = util.spec_from_file_location("wheels", package / "packaging" / "wheels.py")
    assert spec is not None and spec.loader is not None
    module = util.module_from_spec(spec)
    spec.loader.exec_module(module)
    return module


def has_pip() -> bool:
    """Whether this Python has pip."""
    return subprocess.run([sys.executable, "-m", "pip", "--version"], capture_output=True).returncode == 0


class InstallationTest(FolderCase):
    def run_python(self, words: List[str], **environment: str) -> str:
        """What a run of this Python prints that ends well, in a folder that has no package."""
        done = subprocess.run([sys.executable, *words], capture_output=True, text=True, cwd=self.folder, timeout=120,
                              env={**os.environ, **environment})
        self.assertEqual(done.returncode, 0, done.stderr)
        return done.stdout

    @unittest.skipUnless(has_pip(), "there is no pip")
    def test_pip_installs_it_without_a_network(self) -> None:
        place = self.folder / "installed"
        self.run_python(["-m", "pip", "--isolated", "--disable-pip-version-check", "--no-python-version-warning",
                         "install", "--quiet", "--no-index", "--no-cache-dir", "--target", str(place), str(PACKAGE)])
        where = {"PYTHONPATH": str(place), "NVMELIVE": str(PROGRAMS[-1])}
        told = self.run_python(["-c", "import nvmesim, importlib.metadata as metadata\n"
                                "print(nvmesim.__file__, nvmesim.__version__, metadata.version('nvmesim'))\n"
                                "print(metadata.requires('nvmesim'))"], **where)
        self.assertEqual(told, f"{place}/nvmesim/__init__.py {nvmesim.__version__} {nvmesim.__version__}\n"
                               "[\"distributed>=2022.1; extra == 'dask'\"]\n")
        self.assertEqual(self.run_python(["-m", "nvmesim", "--version"], **where), f"nvmesim {nvmesim.__version__}\n")
        self.assertIn("explore", self.run_python(["-m", "nvmesim", "--help"], **where))
        for command in ("explain", "explore", "scene", "test", "timeline"):
            done = subprocess.run([str(place / "bin" / f"nvmesim-{command}"), "--help"], capture_output=True, text=True,
                                  cwd=self.folder, timeout=60, env={**os.environ, **where})
            self.assertEqual((done.returncode, done.stderr), (0, ""))
            self.assertIn(f"nvmesim {command} ", done.stdout)
        self.assertFalse((place / "bin" / "nvmesim").exists())
        script = str(DATA / "fenced.nvme")
        for command in (["explain", script], ["timeline", script]):
            self.assertIn("rule 7", self.run_python(["-m", "nvmesim", *command], **where))

    def test_an_installed_package_finds_installed_programs(self) -> None:
        """With itself before all; else on the path, and then under the user's prefix."""
        prefix, home, path = (self.folder / it for it in ("prefix", "home", "path"))
        package = prefix / "lib" / "nvmesim" / "python"
        shutil.copytree(PACKAGE / "nvmesim", package / "nvmesim", ignore=shutil.ignore_patterns("__pycache__"))
        shutil.copytree(package, self.folder / "elsewhere")
        beside, local, on_path = (prefix / "lib/nvmesim/nvmelive", home / ".local/lib/nvmesim/nvmelive", path / "nvmelive")
        words = ["-c", "from nvmesim.process import find_program; print(find_program())"]
        environment = {"NVMELIVE": "", "HOME": str(home), "PATH": str(path)}
        missing = self.run_python(["-c", "import nvmesim.process as it\ntry: print(it.find_program())\n"
                                   "except it.ProgramNotFound as fault: print(fault)"],
                                  PYTHONPATH=str(self.folder / "elsewhere"), **environment)
        if "there is no program" in missing:  # else something is installed on this machine
            self.assertIn(f"{home}/.local, /usr/local, /usr: scripts/install puts it there", missing)
        for program in (local, on_path, beside):
            program.parent.mkdir(parents=True, exist_ok=True)
            program.write_text("#!/bin/sh\n", encoding="utf-8")
            program.chmod(0o755)
            for place in ("elsewhere", "prefix/lib/nvmesim/python"):
                found = self.run_python(words, PYTHONPATH=str(self.folder / place), **environment)
                wanted = on_path if program is beside and place == "elsewhere" else program
                self.assertEqual(found, f"{wanted}\n")

    def test_the_wheel_has_the_package_and_nothing_else(self) -> None:
        name = backend_of(PACKAGE).build_wheel(str(self.folder))
        self.assertEqual(name, f"nvmesim-{nvmesim.__version__}-py3-none-any.whl")
        with zipfile.ZipFile(self.folder / name) as wheel:
            files = {it: wheel.read(it) for it in wheel.namelist()}
        modules = {str(it.relative_to(PACKAGE)): it.read_bytes() for it in (PACKAGE / "nvmesim").rglob("*.py")}
        about = f"nvmesim-{nvmesim.__version__}.dist-info"
        self.assertEqual({it: files[it] for it in files if it.endswith(".py")}, modules)
        sources = {str(it.relative_to(PACKAGE)) for it in (PACKAGE / "nvmesim").rglob("*.[ch]")}
        self.assertEqual(set(files) - set(modules), {"nvmesim/py.typed", *sources, *(f"{about}/{it}" for it in ABOUT)})
        lines = [it.split(",") for it in files[f"{about}/RECORD"].decode().splitlines()]
        self.assertEqual([(path, size) for path, _, size in lines[:-1]],
                         [(path, str(len(content))) for path, content in files.items()][:-1])

    def test_the_archive_of_sources_gives_the_same_wheel(self) -> None:
        name = backend_of(PACKAGE).build_sdist(str(self.folder))
        with tarfile.open(self.folder / name) as archive:
            for member in archive:
                path = self.folder / member.name
                path.parent.mkdir(parents=True, exist_ok=True)
                held = archive.extractfile(member)
                assert held is not None
                path.write_bytes(held.read())
        wheels: Dict[str, str] = {}
        for package in (PACKAGE, self.folder / name[:-len(".tar.gz")]):
            made = self.folder / backend_of(package).build_wheel(str(self.folder))
            wheels[hashlib.sha256(made.read_bytes()).hexdigest()] = str(package)
        self.assertEqual(len(wheels), 1)

    def test_an_editable_wheel_leads_here(self) -> None:
        with zipfile.ZipFile(self.folder / backend_of(PACKAGE).build_editable(str(self.folder))) as wheel:
            self.assertEqual(wheel.read("nvmesim.pth").decode(), f"{PACKAGE}\n")

    @unittest.skipUnless(util.find_spec("tomllib"), "this Python reads no TOML")
    def test_the_backend_reads_what_everybody_reads(self) -> None:
        import tomllib
        text = (PACKAGE / "pyproject.toml").read_text(encoding="utf-8")
        for head, table in backend_of(PACKAGE).tables(text).items():
            there = tomllib.loads(text)
            for name in head.split("."):
                there = there[name]
            self.assertEqual(table, {key: value for key, value in there.items() if not isinstance(value, dict)})

    def test_the_version_is_the_repository_s(self) -> None:
        """The newest heading of CHANGELOG.md says it, and what `--version` of the programs prints."""
        heading = re.search(r"^## (.*)$", (TOP / "CHANGELOG.md").read_text(encoding="utf-8"), re.MULTILINE)
        assert heading is not None
        self.assertEqual(re.split(r"[ ,]", heading[1])[0], nvmesim.__version__)


if __name__ == "__main__":
    unittest.main()
