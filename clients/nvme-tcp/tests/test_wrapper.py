"""./nvmetcp at the top, which builds the program: it looks for what that needs before it builds anything."""
import os
import shutil
import subprocess
import tempfile
import time
import unittest
from pathlib import Path

TOP = Path(__file__).resolve().parent.parent.parent.parent


class Wrapper(unittest.TestCase):
    def run_with(self, *tools: str) -> tuple:
        """The status and the message of ./nvmetcp if there are these tools alone, and how long it has taken."""
        with tempfile.TemporaryDirectory() as room:
            for tool in ("bash", "dirname", "realpath", *tools):
                os.symlink(shutil.which(tool), Path(room, tool))
            begun = time.monotonic()
            ran = subprocess.run([TOP / "nvmetcp", "--version"], env={"PATH": room}, stdout=subprocess.PIPE,
                                 stderr=subprocess.PIPE, text=True)
        return ran.returncode, ran.stderr, time.monotonic() - begun

    def test_what_is_not_there(self) -> None:
        for tools, what in ((), "python3"), (("python3",), "make"), (("env", "find", "make", "python3"), "cargo"):
            status, told, seconds = self.run_with(*tools)
            self.assertEqual(status, 70)
            self.assertRegex(told, rf"\Anvmetcp: could not be built: there is no {what}; version .* is needed\n\Z")
            self.assertLess(seconds, 10)
