"""Ctrl-C and a full disk: a message of one line, and never a trace."""
from __future__ import annotations

import contextlib
import io
import os
import signal
import subprocess
import sys
import unittest
from typing import List
from unittest import mock

from nvmesim.__main__ import main
from nvmesim.errors import FileFault
from nvmesim.explore import Medium

from .support import PACKAGE, RACE, STANDIN, FolderCase, heed_interrupts

COMMANDS = {"explain": [], "timeline": [], "scene": [], "test": [], "explore": []}


class InterruptTest(FolderCase):
    def begun(self, words: List[str], stdin: int = subprocess.PIPE) -> "subprocess.Popen[bytes]":
        environment = {**os.environ, "PYTHONPATH": str(PACKAGE)}
        return subprocess.Popen([sys.executable, "-m", "nvmesim", *words], stdin=stdin, stdout=subprocess.PIPE,
                                stderr=subprocess.PIPE, env=environment, preexec_fn=heed_interrupts)

    def ended(self, child: "subprocess.Popen[bytes]") -> None:
        """It is interrupted, and reports that in one line."""
        child.send_signal(signal.SIGINT)
        told, wrong = child.communicate(timeout=30)
        self.assertEqual((child.returncode, told, wrong), (130, b"", b"nvmesim: interrupted\n"))

    def test_while_a_script_is_read(self) -> None:
        for command in COMMANDS:
            with self.subTest(command):
                child = self.begun([command, "-"])
                assert child.stdin is not None
                child.stdin.write(b"# a comment\n" * 20_000)  # more than a pipe holds: it is reading by then
                child.stdin.flush()
                self.ended(child)

    def test_while_the_program_is_awaited(self) -> None:
        fifo = self.folder / "asked"
        os.mkfifo(fifo)
        program = self.program(f"open({str(fifo)!r}, 'w').close()\ntime.sleep(60)\n")
        for command in ("explain", "timeline", "test", "explore"):
            script = self.folder / "script.nvme"
            script.write_text(RACE.read_text(encoding="utf-8") + "# expect poll 2 *\n".replace("2 *", "2 1 *"),
                              encoding="utf-8")
            with self.subTest(command):
                child = self.begun([command, str(script), "--program", str(program)], subprocess.DEVNULL)
                open(fifo, encoding="utf-8").close()  # the program runs, and will not answer
                self.ended(child)


class FullTest(FolderCase):
    def test_standard_output(self) -> None:
        if not os.path.exists("/dev/full"):
            self.skipTest("there is no /dev/full")
        for words in (["explain"], ["timeline"], ["scene"], ["explore"]):
            given = words if words == ["scene"] else [*words, "--program", str(STANDIN)]
            with open("/dev/full", "wb") as full, self.subTest(words):
                done = subprocess.run([sys.executable, "-m", "nvmesim", *given, str(RACE)], stdout=full,
                                      stderr=subprocess.PIPE, env={**os.environ, "PYTHONPATH": str(PACKAGE)},
                                      timeout=60, text=True)
                self.assertEqual((done.returncode, done.stderr),
                                 (2, "nvmesim: can't write standard output: No space left on device\n"))

    def test_no_more_descriptors(self) -> None:
        wrong = io.StringIO()
        with mock.patch("nvmesim.__main__.text_of", side_effect=OSError(24, "Too many open files")):
            with contextlib.redirect_stderr(wrong):
                self.assertEqual(main(["scene", str(RACE)]), 2)
        self.assertEqual(wrong.getvalue(), "nvmesim: a system call failed: Too many open files\n")

    def test_a_copy_of_an_image(self) -> None:
        image = self.folder / "image"
        image.write_bytes(b"some")
        with mock.patch("os.pwrite", side_effect=OSError(28, "No space left on device")):
            with self.assertRaisesRegex(FileFault, "can't write a copy of the image in /.*: No space left on device"):
                Medium(image)


if __name__ == "__main__":
    unittest.main()
