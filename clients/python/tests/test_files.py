"""Outputs of commands: never an input, no file replaced without --force, and whole or not there."""
from __future__ import annotations

import contextlib
import io
import os
import unittest
from pathlib import Path
from typing import List, Tuple
from unittest import mock

from nvmesim.__main__ import main
from nvmesim.errors import FileFault, OutputRefused
from nvmesim.files import Output

from .support import RACE, FolderCase
from .test_explore import PROGRAM

EXPECTING = ("controller 1 host 0xa1\nnamespace 1 blocks 8 shared\nattached 1 1\nstart\nup 1\n# expect up 1 ok\n")


def run_command(*words: str) -> Tuple[int, str, str]:
    """A command's status, and its message."""
    told, wrong = io.StringIO(), io.StringIO()
    with contextlib.redirect_stdout(told), contextlib.redirect_stderr(wrong):
        try:
            status = main([words[0], "--program", str(PROGRAM), *words[1:]] if words[0] != "scene" else words)
        except SystemExit as end:
            status = int(end.code or 0)
    return status, told.getvalue(), wrong.getvalue()


class OutputTest(FolderCase):
    def setUp(self) -> None:
        super().setUp()
        self.script = self.folder / "x.nvme"
        self.script.write_bytes(RACE.read_bytes())
        self.test = self.folder / "test.nvme"
        self.test.write_text(EXPECTING, encoding="utf-8")
        self.failing = ["--always", "a.write1.rule == 0"]

    def commands(self, output: Path) -> "List[Tuple[str, ...]]":
        """Each command that writes a file."""
        script, test, name = str(self.script), str(self.test), str(output)
        return [("timeline", script, "-o", name), ("scene", script, "-o", name),
                ("explore", script, *self.failing, "--counterexample", name),
                ("explore", script, *self.failing, "--page", name), ("test", test, "--junit", name)]

    def test_an_input_is_never_written(self) -> None:
        hard, soft = self.folder / "hard.nvme", self.folder / "soft.nvme"
        os.symlink(self.script, soft)
        os.link(self.script, hard)
        before = self.script.read_bytes()
        for words in [it for output in (self.script, soft, hard) for it in self.commands(output)[:4]]:
            for force in ((), ("--force",)):
                with self.subTest(words, force=force):
                    status, told, wrong = run_command(*words, *force)
                    self.assertEqual((status, told, wrong.count("\n")), (2, "", 1))
                    self.assertIn("is also read", wrong)
                    self.assertEqual(self.script.read_bytes(), before)
        self.assertEqual(run_command("test", str(self.test), "--junit", str(self.test), "--force")[0], 2)
        self.assertEqual(self.test.read_text(encoding="utf-8"), EXPECTING)

    def test_a_file_is_replaced_by_force_alone(self) -> None:
        kept = self.folder / "kept"
        for words in self.commands(kept):
            with self.subTest(words):
                kept.write_text("kept", encoding="utf-8")
                kept.chmod(0o640)
                status, told, wrong = run_command(*words)
                self.assertEqual((status, told, wrong), (2, "", f"nvmesim: {kept} exists; --force replaces it\n"))
                self.assertEqual(kept.read_text(encoding="utf-8"), "kept")
                self.assertLess(run_command(*words, "--force")[0], 2)
                self.assertGreater(len(kept.read_bytes()), 100)
                self.assertEqual(kept.stat().st_mode & 0o777, 0o640)

    def test_two_outputs_are_two_files(self) -> None:
        for one, other in (("page", "page"), ("page", "./page")):
            status, _, wrong = run_command("explore", str(self.script), *self.failing, "--page", str(self.folder / one),
                                           "--counterexample", os.path.join(self.folder, other))
            self.assertEqual((status, "is also read or written otherwise" in wrong), (2, True))

    def test_a_write_that_fails_leaves_what_was_there(self) -> None:
        kept = self.folder / "kept"
        kept.write_text("kept", encoding="utf-8")
        output = Output(kept, is_forced=True)
        with mock.patch("os.replace", side_effect=OSError(28, "No space left on device")):
            with self.assertRaisesRegex(FileFault, f"can't write {kept}: No space left on device"):
                output.write("new")
        self.assertEqual(kept.read_text(encoding="utf-8"), "kept")
        self.assertEqual(sorted(it.name for it in self.folder.iterdir()), ["kept", "test.nvme", "x.nvme"])

    def test_what_is_no_regular_file(self) -> None:
        with self.assertRaisesRegex(OutputRefused, "is no regular file"):
            Output(self.folder, is_forced=True)
        Output("/dev/null").write("goes there")
        os.symlink(self.folder / "later", self.folder / "link")
        Output(self.folder / "link").write(b"by a link")
        self.assertEqual((self.folder / "later").read_bytes(), b"by a link")

    def test_what_another_has_written_meanwhile_stays(self) -> None:
        output = Output(self.folder / "late")
        (self.folder / "late").write_text("another's", encoding="utf-8")
        with self.assertRaisesRegex(OutputRefused, "exists; --force replaces it"):
            output.write("ours")

    def test_a_second_write_replaces_the_first(self) -> None:
        output = Output(self.folder / "twice")
        output.write("one")
        output.write("two")
        self.assertEqual((self.folder / "twice").read_text(encoding="utf-8"), "two")


if __name__ == "__main__":
    unittest.main()
