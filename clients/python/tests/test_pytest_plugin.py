"""The plugin for pytest, if some Python on this machine has pytest."""
from __future__ import annotations

import os
import re
import subprocess
import sys
import unittest
from typing import List, Optional, Tuple

from .support import PACKAGE, PROGRAMS, FolderCase
from .test_expect import FENCING, HEAD

TESTS = """
def ready(subsystem):
    host, disk = subsystem.controller(host=0xA1), subsystem.namespace(blocks=64)
    subsystem.attach(host, disk)
    subsystem.start()
    host.up()
    host.write(disk, 3, b"Hello")
    return host.read(disk, 3)

def test_good(subsystem):
    assert ready(subsystem)[:5] == b"Hello"

def test_bad(subsystem):
    assert ready(subsystem)[:5] == b"Other"
"""


def with_pytest() -> Optional[str]:
    """A Python that has pytest."""
    for python in (sys.executable, "/usr/bin/python3"):
        try:
            if subprocess.run([python, "-c", "import pytest"], capture_output=True).returncode == 0:
                return python
        except OSError:
            continue
    return None


PYTHON = with_pytest()


@unittest.skipUnless(PYTHON, "there is no pytest")
class PluginTest(FolderCase):
    def pytest(self, *words: str) -> Tuple[int, str]:
        """The status of pytest in the folder, and what it prints."""
        environment = {**os.environ, "PYTHONPATH": str(PACKAGE), "PYTEST_ADDOPTS": ""}
        command: List[str] = [str(PYTHON), "-m", "pytest", "-p", "nvmesim.pytest_plugin", "-p", "no:cacheprovider",
                              "--nvmelive", str(PROGRAMS[-1]), *words]
        done = subprocess.run(command, capture_output=True, text=True, cwd=self.folder, timeout=120, env=environment)
        return done.returncode, done.stdout + done.stderr

    def test_the_fixture(self) -> None:
        (self.folder / "test_it.py").write_text(TESTS, encoding="utf-8")
        status, told = self.pytest()
        self.assertEqual(status, 1, told)
        self.assertIn("1 failed, 1 passed", told)
        self.assertRegex(told, r"-+ script of the subsystem -+\ncontroller 1 host 0xa1\n")
        self.assertRegex(told, r"-+ its transcript -+\nup 1 ok\n")

    def test_scripts_are_collected(self) -> None:
        texts = {"good.nvme": FENCING.read_text(encoding="utf-8"), "bad.nvme": HEAD + "up 1\n# expect up 1 AlreadyUp\n",
                 "slip.nvme": HEAD + "up 1\n# expected up 1 ok\n", "other.nvme": HEAD + "up 1\n"}
        for name, text in texts.items():
            (self.folder / name).write_text(text, encoding="utf-8")
        status, told = self.pytest()
        self.assertEqual(status, 1, told)
        self.assertIn("2 failed, 1 passed", told)
        self.assertTrue(re.search(r"bad\.nvme:6: FAILED\n    event    up 1\n    wanted   up 1 AlreadyUp\n"
                                  r"    came     up 1 ok\n", told), told)
        self.assertIn("slip.nvme: line 6: '# expected up 1 ok' nearly is an expectation", told)
        status, told = self.pytest("other.nvme")
        self.assertEqual(status, 1, told)
        self.assertIn("the script has no expectation", told)
        status, told = self.pytest("--nvmelive", "absent", "good.nvme")
        self.assertEqual((status, told.count("good.nvme: absent is no program that can be run\n")), (1, 1), told)
        self.assertNotIn("Traceback", told)
