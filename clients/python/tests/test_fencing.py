"""The cluster of the example: its race is found in what it sent, and is gone once agents are careful."""
from __future__ import annotations

import os
import subprocess
import sys
import unittest
from typing import List, Tuple

from nvmesim.explore import Plan
from nvmesim.explore.expressions import Expression
from nvmesim.explore.report import Check, Report
from nvmesim.explore.states import Looks
from nvmesim.scene import scene

from .inprocess import walk_of
from .support import PACKAGE, PROGRAMS, FolderCase

EXAMPLE = PACKAGE / "examples" / "fencing.py"
BAD = "hb2.write1 == 'Successful Completion' and reservation(1).holder == 0xb2 and block(1, 0) == '6f6c64'"


class FencingTest(FolderCase):
    def run_example(self, *words: str) -> Tuple[List[str], str]:
        """The output of the cluster, and the scene of what it sent."""
        kept = self.folder / "kept"
        environment = {**os.environ, "PYTHONPATH": str(PACKAGE), "NVMELIVE": str(PROGRAMS[-1])}
        done = subprocess.run([sys.executable, str(EXAMPLE), "--kept", str(kept), "--force", *words],
                              capture_output=True,
                              text=True, env=environment, timeout=60)
        self.assertEqual((done.returncode, done.stderr), (0, ""))
        told = done.stdout.splitlines()
        return told, scene(kept.read_text(encoding="utf-8"), int(told[0].split(" ")[1]), apart=(1,))

    def report_of(self, text: str) -> Report:
        plan = Plan(text)
        return Report(plan, walk_of(plan).explore(), [Check(Expression(BAD, plan, Looks(plan).blocks), False)])

    def test_two_nodes(self) -> None:
        for words, is_good in (((), False), (("--careful",), True)):
            told, text = self.run_example(*words)
            self.assertEqual(told[1:], ["node 2 of 2 has fenced node 1", "node 1 has rejoined; block 0 has 'new'"])
            with self.subTest(words):
                report = self.report_of(text)
                self.assertIs(report.is_good, is_good)
                self.assertEqual(report.orders, report.plan.orders)

    def test_three_nodes(self) -> None:
        """The third node's write is not executed here, so that it does not take long."""
        for words, is_good in (((), False), (("--careful",), True)):
            told, text = self.run_example("--nodes", "3", *words)
            self.assertEqual(told[1], "node 2 of 3 has fenced node 1")
            with self.subTest(words):
                head, _, rest = text.partition("# host hc3\n")
                self.assertIs(self.report_of(f"{head}# host hc3\n{rest.splitlines()[0]}\nring 3\n").is_good, is_good)


if __name__ == "__main__":
    unittest.main()
