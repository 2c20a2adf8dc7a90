"""The stand-in for nvmelive answers the examples that it knows the lines of as their transcripts do."""
from __future__ import annotations

import unittest

from nvmesim.script import LineKind, read_lines

from . import standin
from .support import examples

# What the names of those begin with that it does not know: all of raw hosts, and some others.
UNKNOWN = ("nobody", "spelling", "each-line", "identify", "attachments", "raw-")


class StandinTest(unittest.TestCase):
    def test_it_answers_as_the_transcripts(self) -> None:
        for name, script, transcript in examples():
            if name.startswith(UNKNOWN):
                continue
            world, told = standin.World(), ""
            for line in read_lines(script):
                answer = world.answer(line.text)
                told += f"{answer}\n" if line.kind is LineKind.EVENT else ""
            with self.subTest(name):
                self.assertEqual(told, transcript)


if __name__ == "__main__":
    unittest.main()
