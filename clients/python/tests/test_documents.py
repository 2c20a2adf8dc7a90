"""What the documents show is what happens."""
from __future__ import annotations

import contextlib
import io
import os
import re
import subprocess
import sys
import tempfile
import textwrap
import unittest
from typing import List

from nvmesim.__main__ import main

from .support import PACKAGE, PROGRAMS, RACE, TOP


def blocks_of(name: str) -> List[str]:
    """The indented blocks of a document."""
    text = (TOP / name).read_text(encoding="utf-8")
    found = re.findall(r"(?:^    .*\n|^\n(?=    ))+", text, re.MULTILINE)
    return [textwrap.dedent(it).strip("\n") for it in found]


class DocumentsTest(unittest.TestCase):
    def test_the_example_of_a_failover(self) -> None:
        for program in PROGRAMS:
            environment = {**os.environ, "NVMELIVE": str(program), "PYTHONPATH": str(PACKAGE)}
            done = subprocess.run([sys.executable, "-m", "unittest", "failover_test"], capture_output=True, text=True,
                                  env=environment, cwd=PACKAGE / "examples", timeout=60)
            with self.subTest(program):
                self.assertEqual(done.returncode, 0, done.stderr)
                self.assertIn("Ran 3 tests", done.stderr)

    def test_the_session_of_the_page(self) -> None:
        code = next(it for it in blocks_of("docs/CLIENTS.md") if it.startswith("from nvmesim"))
        for program in PROGRAMS:
            environment = {**os.environ, "NVMELIVE": str(program), "PYTHONPATH": str(PACKAGE)}
            done = subprocess.run([sys.executable, "-c", code], capture_output=True, text=True, env=environment,
                                  timeout=60)
            with self.subTest(program):
                self.assertEqual(done.stderr, "")
                self.assertEqual(done.stdout.split("\n")[:2], ["b'Hello'", "controller 1 host 0xa1"])

    def test_the_report_of_the_worked_example(self) -> None:
        told = io.StringIO()
        with contextlib.redirect_stdout(told):
            self.assertEqual(main(["explore", str(RACE), "--program", str(PROGRAMS[-1])]), 0)
        shown = next(it for it in blocks_of("docs/CLIENTS.md") if it.startswith("252 orders"))
        self.assertEqual(shown, told.getvalue().strip("\n"))
        marked = next(it for it in blocks_of("docs/CLIENTS.md") if it.startswith("# host a"))
        self.assertIn(marked, RACE.read_text(encoding="utf-8"))

    def test_the_example_over_an_image(self) -> None:
        code = next(it for it in blocks_of("docs/CLIENTS.md") if it.startswith("truncate"))
        environment = {**os.environ, "NVMELIVE": str(PROGRAMS[-1]), "PYTHONPATH": str(PACKAGE)}
        with tempfile.TemporaryDirectory() as room:
            os.symlink(RACE.parent, os.path.join(room, "examples"))
            done = subprocess.run(["bash", "-ec", code], capture_output=True, text=True, env=environment, cwd=room,
                                  timeout=60)
        self.assertEqual((done.returncode, done.stderr), (0, ""))
        self.assertEqual(done.stdout.count("block 1:0   512 bytes, 48656c6c6f 'Hello'"), 2)

    def test_every_option_is_documented(self) -> None:
        text = (TOP / "docs" / "CLIENTS.md").read_text(encoding="utf-8")
        for command in ("explore", "test", "conform"):
            told = io.StringIO()
            with self.subTest(command), contextlib.redirect_stdout(told), self.assertRaises(SystemExit):
                main([command, "--help"])
            options = set(re.findall(r"--[a-z][a-z-]*", told.getvalue())) - {"--help"}
            self.assertTrue(options)
            self.assertEqual(options - set(re.findall(r"--[a-z][a-z-]*", text)), set())


if __name__ == "__main__":
    unittest.main()
