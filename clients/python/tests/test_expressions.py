"""The values of expressions of `--always` and `--never`, and expressions that are refused before anything is run."""
from __future__ import annotations

import unittest
from typing import List

from nvmesim import ExpressionError
from nvmesim.answers import Polled
from nvmesim.explore import Plan
from nvmesim.explore.expressions import Expression
from nvmesim.explore.possible import codes_of
from nvmesim.explore.report import Report
from nvmesim.explore.states import Looks
from nvmesim.history import follow
from nvmesim.script import read_lines

from .support import examples
from .test_explore import RACE_TEXT, walk_of


class ExpressionTest(unittest.TestCase):
    def setUp(self) -> None:
        self.plan = Plan(RACE_TEXT)
        self.report = Report(self.plan, walk_of(self.plan).explore())
        self.blocks = Looks(self.plan).blocks

    def truths(self, text: str) -> List[bool]:
        """Whether an expression holds of each outcome: it lands, it is refused, it is aborted."""
        expression = Expression(text, self.plan, self.blocks)
        return [expression.holds(it) for it in self.report.values]

    def test_what_they_say(self) -> None:
        for text, wanted in (
                ("a.write1 == 'Successful Completion'", [True, False, False]),
                ("a.write1 != 'Successful Completion'", [False, True, True]),
                ("a.write1.rule == 7", [False, True, False]),
                ("a.write1.rule in (1, 7)", [False, True, True]),
                ("0 < a.write1.rule < 7", [False, False, True]),
                ("a.write1.status == '0:1b'", [False, False, True]),
                ("a.write1.executed == 'Reservation Conflict'", [False, True, False]),
                ("a.execute1.request == 'a.write1'", [True, True, True]),
                ("a.fetch1 == 'took' and not a.poll1 == 'nothing'", [True, True, True]),
                ("block(1, 0) == 'a1'", [True, False, False]),
                ("then.read1.data in ('a1', '')", [True, True, True]),
                ("reservation(1).holder == 0xb2 and reservation(1).rtype == 1", [True, True, True]),
                ("0xa1 in reservation(1).registrants", [False, False, False]),
                ("reservation(1).name == 'Write Exclusive'", [True, True, True]),
                ("implies(a.write1.rule == 0, block(1, 0) == 'a1')", [True, True, True]),
                ("a.write1 == 'Reservation Conflict' or b.acquire1 == 'aborted'", [False, True, False]),
                ("True", [True, True, True])):
            with self.subTest(text):
                self.assertEqual(self.truths(text), wanted)

    def test_what_they_can_not_say(self) -> None:
        for text in ("", "a.", "a.write2 == 'aborted'", "c.write1", "a.write1 == 'Reservation Conflct'", "write1",
                     "a.fetch1 == 'Successful Completion'", "a.write1 in ('aborted', 'abortd')", "a.write1.rules == 1",
                     "__import__('os').system('true')", "a.write1.__class__", "(lambda: 1)()", "[x for x in (1,)]",
                     "a.write1 is None", "1 + 1", "f'{a}'", "open('x')", "reservation(2).holder", "block(1, 1)",
                     "block(1)", "implies(True)", "reservation(1).keys", "'a'.upper()", "(1).real", "a.write1[0]",
                     "x := 1", "exit()", "a.write1; b.poll1", "1.5 == 1", "b'x' == 1", "...", "-1 == 1"):
            with self.subTest(text), self.assertRaises(ExpressionError):
                Expression(text, self.plan, self.blocks)

    def test_what_an_answer_can_never_be(self) -> None:
        for text, why in (
                ("a.write1.status == '0:8'", "a.write1.status is never '0:8'; did you mean '0:8"),
                ("'0:8' != a.write1.status", "is never '0:8'"),
                ("a.write1.status in ('0:83', '0:8')", "is never '0:8'"),
                ("'0:8' in (a.write1.status, b.acquire1.status)", "is never '0:8'"),
                ("a.write1.status == '2:85'", "a.write1.status is never '2:85'"),
                ("a.write1 == 'Compare Failure'", "a.write1 is never 'Compare Failure'"),
                ("then.read1.status == '0:20'", "is never '0:20'"),
                ("a.write1.executed == 'Write Falt'", "did you mean 'Write Fault'"),
                ("a.ring1.status == '0:00'", "a.ring1.status is never '0:00'"),
                ("a.write1.rule == 12", "a.write1.rule is never 12; it can be 0, 1, 2"),
                ("a.execute1.request == 'a.write2'", "did you mean 'a.write1'"),
                ("block(1, 0) == 'A1'", "is never 'A1': bytes are hexadecimal digits of lower case"),
                ("block(1, 0) == 'a100'", "without the zeros at their end"),
                ("then.read1.data == 'a'", "is never 'a'"),
                ("reservation(1).rtype == 7", "is never 7"),
                ("reservation(1).name == 'Write exclusive'", "did you mean 'Write Exclusive'"),
                ("reservation(1).holder == 0xb3", "is never 0xb3; it can be None, 0xa1, 0xb2, 'all'"),
                ("reservation(1).holder == 'b2'", "is never 'b2'")):
            with self.subTest(text), self.assertRaises(ExpressionError) as caught:
                Expression(text, self.plan, self.blocks)
            self.assertIn(why, str(caught.exception))
        for text in ("a.write1.status == ''", "reservation(1).holder == None", "a.execute1.request == ''",
                     "block(1, 0) == ''", "'Conflict' in a.write1", "a.write1.status == '2:80'", "a.write1.rule < 12"):
            self.assertEqual(len(self.truths(text)), 3)

    def test_each_status_of_the_examples_is_one_that_its_request_can_have(self) -> None:
        seen = set()
        for _, script, transcript in examples():
            for event in follow(list(read_lines(script)), transcript):
                command = event.command
                if isinstance(event.answer, Polled) and event.answer.status is not None and command is not None:
                    assert command.line is not None
                    self.assertIn(event.answer.status.code, codes_of(command.line), command.line.text)
                    seen.add((command.line.verb, event.answer.status.code))
        self.assertGreater(len(seen), 40)

    def test_kinds_that_can_not_be_compared(self) -> None:
        for text in ("a.write1.rule < 'x'", "a.write1 < 3", "a.write1 == 3", "a.write1.rule == '7'", "1 < 'x' < 2",
                     "reservation(1).rtype == 'Write Exclusive'", "a.write1.rule in (1, '7')", "'x' in 3",
                     "block(1, 0) == 0xa1", "reservation(1).persists < 1", "(a.write1 == 'aborted') == 'yes'"):
            with self.subTest(text), self.assertRaisesRegex(ExpressionError, "a text|a number|true or false"):
                Expression(text, self.plan, self.blocks)

    def test_comparisons_that_fail_on_what_was_found(self) -> None:
        with self.assertRaisesRegex(ExpressionError, "compares what can't be compared"):
            self.truths("reservation(1).registrants < 3")

    def test_near_names_are_offered(self) -> None:
        with self.assertRaisesRegex(ExpressionError, "did you mean a.write1"):
            Expression("a.wirte1 == 'aborted'", self.plan)
        with self.assertRaisesRegex(ExpressionError, "did you mean 'Reservation Conflict'"):
            Expression("a.write1 == 'Reservation Conflct'", self.plan)


if __name__ == "__main__":
    unittest.main()
