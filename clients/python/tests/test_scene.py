"""Scenes of what happened, and counterexamples that are cut down."""
from __future__ import annotations

import contextlib
import io
import subprocess
import unittest
from typing import List, Tuple

from nvmesim import ScriptError
from nvmesim.__main__ import main
from nvmesim.explore import Plan, Walk
from nvmesim.explore.expressions import Expression
from nvmesim.explore.report import Check, Report, script_of
from nvmesim.explore.shrink import shrunk
from nvmesim.scene import scene
from nvmesim.script import LineKind, read_lines

from .inprocess import InProcess
from .support import RACE, SIM, STANDIN, FolderCase, examples
from .test_faults import CRASH

RACE_TEXT = RACE.read_text(encoding="utf-8")


def events_of(text: str) -> List[str]:
    return [it.text for it in read_lines(text) if it.kind is LineKind.EVENT]


class SceneTest(FolderCase):
    def test_each_example_becomes_a_scene(self) -> None:
        seen = 0
        for name, text, _ in examples():
            if not events_of(text):
                continue
            kept = text.replace("start\n", "start\n?attached\n", 1)
            with self.subTest(name):
                plan = Plan(scene(kept, most=500))
                self.assertLessEqual(plan.positions, 500 + len(plan.steps) + 1)
                self.assertEqual(sorted(it.line.text for it in plan.steps), sorted(events_of(text)))
                seen += plan.orders > 1
        self.assertGreater(seen, 10)

    def test_where_it_begins(self) -> None:
        text = RACE_TEXT.replace("# host a\n", "").replace("# host b\n", "").replace("# then\n", "")
        plan = Plan(scene(text, most=200))
        self.assertEqual(plan.parts, {"ha1": 10, "hb2": 15})
        begin = text.splitlines().index("write 1 1 0 1 hex:a1") + 1
        self.assertEqual(Plan(scene(text, begin)).parts, {"ha1": 5, "hb2": 10})
        for wrong in ("controller 1 host 1\nstart\n", "what is this\n"):
            with self.assertRaises(ScriptError):
                scene(wrong)
        with self.assertRaises(ScriptError):
            scene(text, 10_000)

    def test_the_command(self) -> None:
        kept, made, told = self.folder / "kept", self.folder / "scene.nvme", io.StringIO()
        kept.write_text("controller 1 host 0x11\ncontroller 2 host 0xb2\nstart\nup 1\n?driver 1\nup 2\npowercycle\n",
                        encoding="utf-8")
        self.assertEqual(main(["scene", str(kept), "--from", "4", "-o", str(made)]), 0)
        self.assertEqual(made.read_text(encoding="utf-8"), "controller 1 host 0x11\ncontroller 2 host 0xb2\nstart\n"
                         "# host h11\nup 1\n# host hb2\nup 2\n# host power\npowercycle\n")
        with contextlib.redirect_stdout(told):
            self.assertEqual(main(["explore", str(made), "--program", str(STANDIN)]), 0)
        self.assertIn("6 orders of h11 1 event, hb2 1 event, power 1 event", told.getvalue())


class ShrinkTest(FolderCase):
    def cut(self, text: str, never: str) -> Tuple[Plan, List[str]]:
        """A counterexample that was cut down, as its events' names."""
        plan = Plan(text)
        branches = InProcess(plan)
        check = Check(Expression(never, plan), False)
        report = Report(plan, Walk(plan, branches).explore(), [check])
        less, order = shrunk(plan, branches, check, report.broken(check)[0][1].order)
        self.assertEqual(branches.live, 0)
        self.script = "".join(f"{it}\n" for it in script_of(less, order))
        return less, [it.name for it in less.steps_of(order)]

    def test_what_is_left_shows_it(self) -> None:
        _, names = self.cut(RACE_TEXT, "a.write1.rule == 7")
        self.assertEqual([it for it in names if it.startswith("a.")],
                         ["a.write1", "a.ring1", "a.fetch1", "a.execute1", "a.poll1"])
        self.assertEqual([it for it in names if it.startswith("then.")], [])
        self.assertLess(len(names), Plan(RACE_TEXT).length - 5)

    def test_nothing_is_unanswered_since_its_poll_is_gone(self) -> None:
        text = RACE_TEXT.replace("poll 1\n# host b", "# host c\npoll 1\n# host b")
        _, names = self.cut(text, "a.write1 == 'unanswered'")
        self.assertEqual(names, ["before.up1", "a.write1", "a.ring1", "a.fetch1", "a.execute1"])
        _, names = self.cut(text, "a.write1 == 'unanswered' and then.read1.data == 'a1'")
        self.assertIn("a.execute1", names)
        self.assertIn("then.poll1", names)

    def test_a_crash_that_is_wanted_stays(self) -> None:
        _, names = self.cut(CRASH, "a.write1 == 'unanswered' and then.read1.data == 'a1' and "
                            "machine.crash1 == 'crash'")
        self.assertIn("machine.crash1", names)
        self.assertIn("# crash\n", self.script)
        self.assertNotIn("b.register1", names)

    @unittest.skipUnless(SIM, "NVMESIM does not name the program")
    def test_it_is_a_script(self) -> None:
        self.cut(RACE_TEXT, "a.write1.rule == 7")
        done = subprocess.run([str(SIM)], input=self.script, capture_output=True, text=True, timeout=60)
        self.assertEqual(done.returncode, 0)
        self.assertIn("posted 0:83 7", done.stdout)

    def test_the_command(self) -> None:
        told, example = io.StringIO(), self.folder / "example.nvme"
        with contextlib.redirect_stdout(told):
            status = main(["explore", str(RACE), "--program", str(STANDIN), "--never", "a.write1.rule == 7", "--shrink",
                           "--counterexample", str(example)])
        self.assertEqual(status, 1)
        script = example.read_text(encoding="utf-8")
        self.assertTrue(told.getvalue().endswith(f"for instance by this script:\n\n{script}"))
        self.assertNotIn("read 2", script)


if __name__ == "__main__":
    unittest.main()
