"""Faults in the orders: the program crashes and is opened again, and calls of its image fail."""
from __future__ import annotations

import contextlib
import io
import os
import unittest
from pathlib import Path
from typing import Dict, Tuple
from unittest import mock

from nvmesim import ScriptError
from nvmesim.__main__ import main
from nvmesim.explore import Medium, Plan, Programs, Walk, explore, programs_of
from nvmesim.explore.report import Report

from .inprocess import counts_of, one_by_one, walk_of
from .support import LIVE, RACE, STANDIN, FolderCase
from .test_explore import HEAD
from .test_forking import HAS_COMPILER

PROGRAM = LIVE or STANDIN
# The program crashes while host a writes and host b registers; then host b comes up again, and reads.
CRASH = HEAD + """# host a
write 1 1 0 1 hex:a1
ring 1
fetch 1 1
execute 1 0
poll 1
# host b
register 2 1 0 0 0 0 0x22
ring 2
fetch 2 1
# host machine
# crash
# then
up 2
read 2 1 0 1
ring 2
fetch 2 1
execute 2 0
poll 2
"""
TWICE = CRASH.replace("# crash\n", "# crash\nup 1\n# crash\n")


class CrashTest(FolderCase):
    def test_what_was_written_is_left(self) -> None:
        for text in (CRASH, TWICE):
            plan = Plan(text)
            wanted = one_by_one(plan) if text == CRASH else counts_of(walk_of(plan, is_reduced=False).explore())
            for can_fork in (True, False):
                for is_reduced in (True, False):
                    with self.subTest(can_fork=can_fork, is_reduced=is_reduced):
                        walk = walk_of(plan, can_fork=can_fork, is_reduced=is_reduced)
                        self.assertEqual(counts_of(walk.explore()), wanted)
                        self.assertEqual(walk.branches.live, 0)
        for values in Report(plan, walk.explore()).values:
            written = values.answers["a.execute1"].text == "Successful Completion"
            self.assertEqual(values.answers["then.read1"].data, "a1" if written else "")
            self.assertEqual(values.reservations[1].registrants, {})

    def test_over_programs(self) -> None:
        for text in (CRASH, TWICE):
            plan = Plan(text)
            wanted = walk_of(plan).explore()
            self.assertEqual(explore(plan, PROGRAM, jobs=3), wanted)
        with Medium() as medium:
            medium.make_file()
            plan = Plan(CRASH.replace("fetch 2 1\n# host", "# host").replace("execute 1 0\npoll 1\n", "execute 1 0\n"))
            with Programs(PROGRAM, plan.setup, 10.0, medium) as programs:
                self.assertEqual(Walk(plan, programs, jobs=3).explore(), walk_of(plan).explore())

    def test_over_an_image_which_stays(self) -> None:
        image = self.folder / "image"
        image.write_bytes(b"old".ljust(512 * 64, b"\0"))
        with Medium(image) as medium:
            found = explore(Plan(CRASH), PROGRAM, medium=medium)
        read = {it.answers["then.read1"].data for it in Report(Plan(CRASH), found).values}
        self.assertEqual(read, {"a1", b"old".hex()})
        self.assertEqual(image.read_bytes(), b"old".ljust(512 * 64, b"\0"))

    def test_what_is_nearly_a_crash(self) -> None:
        for comment in ("# Crash", "#crash", "# crsh", "# crash."):
            with self.subTest(comment), self.assertRaisesRegex(ScriptError, "nearly the mark '# crash'"):
                Plan(CRASH.replace("# crash", comment))
        self.assertEqual(Plan(CRASH.replace("# crash", "# crash of the machine\nring 1")).parts["machine"], 1)


@unittest.skipUnless(LIVE and HAS_COMPILER, "NVMELIVE does not name the program, or there is no C compiler")
class FailureTest(FolderCase):
    def outcomes(self, fails: int, **options: bool) -> Dict[Tuple[str, str], int]:
        """The number of orders of the race for each pair of results of the Write and the Read."""
        plan = Plan(RACE.read_text(encoding="utf-8"), fails)
        with programs_of(plan, LIVE) as programs:
            report = Report(plan, Walk(plan, programs, jobs=3, **options).explore())  # type: ignore[arg-type]
        counts: Dict[Tuple[str, str], int] = {}
        for (_, ways), values in zip(report.found, report.values):
            key = values.answers["a.write1"].text, values.answers["then.read1"].text
            counts[key] = counts.get(key, 0) + ways.count
        return counts

    def test_the_call_that_fails(self) -> None:
        good, conflict, aborted = ("Successful Completion", "Reservation Conflict",
                                   "Command Aborted due to Preempt and Abort")
        bad = "Unrecovered Read Error"
        for options in ({}, {"is_reduced": False}):
            self.assertEqual(self.outcomes(1, **options),
                             {("Write Fault", good): 126, (conflict, bad): 66, (aborted, bad): 60})
            self.assertEqual(self.outcomes(2, **options),
                             {(good, good): 126, (conflict, good): 66, (aborted, good): 60})

    def test_it_needs_a_compiler(self) -> None:
        told, wrong = io.StringIO(), io.StringIO()
        with mock.patch.dict(os.environ, CC="absent", XDG_CACHE_HOME=str(Path(self.folder))), \
                contextlib.redirect_stdout(told), contextlib.redirect_stderr(wrong):
            self.assertEqual(main(["explore", str(RACE), "--program", str(LIVE), "--fail", "1"]), 2)
        self.assertEqual(wrong.getvalue(),
                         "nvmesim: there is no C compiler 'absent', so no call of the image can fail\n")


if __name__ == "__main__":
    unittest.main()
