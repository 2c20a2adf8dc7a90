"""Answers, statuses and rules: what the documents have, and nothing else."""
from __future__ import annotations

import ast
import re
import unittest

from nvmesim import ExecuteOutcome, PollOutcome, ProtocolError, Refusal, Rule, Status, parse_answer
from nvmesim.answers import Executed, Fetched, NotThere, Placed, Polled, PowerCycled, Refused

from .support import PACKAGE, TOP, examples

WRONG = (
    "", "placed", "placed 1", "placed 1 x", "placed 1 2 3", "placed 01 2", "placed  1 2", "placed -1 2", "refused 1",
    "refused 1 Never", "refused line 5: BadId; line 2: controller 2 is not configured",
    "rung", "rung 1 Up", "fetch 1 1", "fetch 1 1 given", "execute 1 0",
    "execute 1 0 posted", "execute 1 0 posted 9:99 0", "execute 1 0 posted 0:00 12", "execute 1 0 none 0", "poll 1",
    "poll 1 answered", "poll 1 aborted", "poll 1 2 0:00", "poll 1 2 0:00 0", "poll 1 2 0:00 0000000G", "ok", "started",
    "poll 1 2 0:00 00000000 512", "poll 1 2 0:00 00000000 1 0000", "poll 1 2 0:00 00000000 512 zz", "wirte 1",
    "poll 1 2 0:00 00000000 512 - -", "up 1", "up 1 Refused", "up 1 ok ok", "reset", "reset 1 2", "! line 1 word 1: no",
    "PLACED 1 1", "placed 1 1 ", "placed 1 ١", "nocontroller", "stored x", "powercycle 1", "powercycle 0",
    "powercycle ",
    "power cycle", "powercycled",
)


class AnswersTest(unittest.TestCase):
    def test_each_line_of_the_examples_is_understood(self) -> None:
        for name, _, transcript in examples():
            for line in transcript.splitlines():
                with self.subTest(name, line=line[:60]):
                    parse_answer(line)

    def test_what_lines_say(self) -> None:
        self.assertEqual(parse_answer("placed 2 17"), Placed(2, 17))
        self.assertEqual(parse_answer("refused 1 NoSlot"), Refused(1, Refusal.NO_SLOT))
        self.assertEqual(parse_answer("fetch 1 0 idle"), Fetched(1, 0, False))
        self.assertEqual(parse_answer("execute 2 1 posted 0:83 7"),
                         Executed(2, 1, ExecuteOutcome.POSTED, Status.RESERVATION_CONFLICT, Rule.RESERVATION))
        self.assertEqual(parse_answer("poll 1 3 aborted"), Polled(1, PollOutcome.ABORTED, 3))
        self.assertEqual(parse_answer("poll 1 3 0:00 0000001f 4 0102"),
                         Polled(1, PollOutcome.ANSWERED, 3, Status.SUCCESSFUL_COMPLETION, 31, b"\1\2\0\0"))
        self.assertEqual(parse_answer("poll 1 3 0:00 00000000 512 -").data, bytes(512))
        self.assertEqual(parse_answer("nodriver 4"), NotThere(4, "nodriver"))
        self.assertEqual(parse_answer("powercycle"), PowerCycled())

    def test_what_is_no_answer_raises(self) -> None:
        for line in WRONG:
            with self.subTest(line=line), self.assertRaises(ProtocolError):
                parse_answer(line)


class NamesTest(unittest.TestCase):
    def setUp(self) -> None:
        self.document = (TOP / "docs" / "USING.md").read_text(encoding="utf-8")

    def test_statuses_are_those_of_the_document(self) -> None:
        told = re.findall(r"^\| (\d:[0-9a-f]{2}) \| ([^|:]+?)(?:: [^|]*)? \|$", self.document, re.MULTILINE)
        self.assertEqual(told, [(it.code, it.text) for it in Status])

    def test_rules_and_refusals_are_those_of_the_document(self) -> None:
        rules = re.findall(r"^\| (\d+) \| [^|]+ \| \d:", self.document, re.MULTILINE)
        self.assertEqual([int(it) for it in rules], [it.value for it in Rule if it is not Rule.NONE])
        section = self.document[self.document.index("| Refusal | When |"):]
        told = re.findall(r"^\| `(\w+)` \|", section[:section.index("\n\n")], re.MULTILINE)
        self.assertEqual(told, [it.value for it in Refusal])

    def test_every_module_is_python_3_9(self) -> None:
        for path in sorted(PACKAGE.rglob("*.py")):
            with self.subTest(path.name):
                ast.parse(path.read_text(encoding="utf-8"), feature_version=(3, 9))


if __name__ == "__main__":
    unittest.main()
