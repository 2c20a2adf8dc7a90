"""Recordings: commands read the script that `nvmetcp expand` makes of one. A stand-in for it has the script."""
from __future__ import annotations

import os
import unittest
from unittest import mock

from .support import RACE, FolderCase
from .test_files import run_command

STANDIN = """#!/bin/sh
[ "$1 $2 $#" = "expand /dev/stdin 2" ] || exit 3
read -r line
echo "got $line" >"$0.got"
cat "$0.script"
cat "$0.told" >&2
exit "$(cat "$0.status")"
"""


class RecordingTest(FolderCase):
    def setUp(self) -> None:
        super().setUp()
        self.recording, self.program = self.folder / "run", self.folder / "nvmetcp"
        self.recording.write_bytes(b"nvmetcp recording 7\n\xff\0 frames")
        self.program.write_text(STANDIN, encoding="ascii")
        self.program.chmod(0o755)
        patched = mock.patch.dict(os.environ, {"NVMETCP": str(self.program)})
        patched.start()
        self.addCleanup(patched.stop)

    def give(self, script: str, told: str = "", status: int = 0) -> None:
        """What the program does from now on."""
        for end, text in (("script", script), ("told", told), ("status", str(status))):
            self.folder.joinpath(f"nvmetcp.{end}").write_text(text, encoding="utf-8")

    def test_it_is_read_as_its_script(self) -> None:
        script = RACE.read_text(encoding="utf-8")
        self.give(script)
        for words in (["explain"], ["timeline", "--title", "x"], ["explore"], ["scene"]):
            told = run_command(*words, str(self.recording))
            self.assertEqual(told, run_command(*words, str(RACE)))
            self.assertEqual((told[0], self.folder.joinpath("nvmetcp.got").read_text()),
                             (0, "got nvmetcp recording 7\n"))

    def test_a_torn_end_is_a_warning(self) -> None:
        why = "torn end: left out the last 7 bytes, from byte 30 on, and 2 events; 9 events come before it"
        self.give(RACE.read_text(encoding="utf-8"), f"nvmetcp: /dev/stdin: {why}\n", 1)
        status, told, wrong = run_command("explain", str(self.recording))
        self.assertEqual((status, told), run_command("explain", str(RACE))[:2])
        self.assertEqual((status, wrong), (0, f"nvmesim: {self.recording}: {why}\n"))

    def test_a_refusal(self) -> None:
        for why, status in (("newer version 7: this program reads version 1", 1),
                            ("damaged frame at byte 20: a whole one follows at byte 90; 0 events come before it", 1),
                            ("torn end: read failed", 2)):
            self.give("controller 1 host 0xa1\n", f"nvmetcp: /dev/stdin: {why}\n", status)
            self.assertEqual(run_command("explain", str(self.recording)),
                             (2, "", f"nvmesim: {self.recording}: {why}\n"))

    def test_a_program_that_is_not_there(self) -> None:
        with mock.patch.dict(os.environ, {"NVMETCP": str(self.folder / "none")}):
            status, told, wrong = run_command("explain", str(self.recording))
        self.assertEqual((status, told), (2, ""))
        self.assertIn("none is no program that can be run", wrong)


if __name__ == "__main__":
    unittest.main()
