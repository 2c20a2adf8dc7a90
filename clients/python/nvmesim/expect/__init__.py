"""Scripts as tests: comments with the expected answers of events, and their results.

    from nvmesim.expect import read_test, try_script

    trial = try_script(read_test("fenced.nvme", text))
    print(trial.is_good)
"""
from __future__ import annotations

from .marks import AnswerExpected, BlocksExpected, Expectation, ScriptTest, has_marks, read_test
from .trials import Judged, Trial, try_script

__all__ = ["AnswerExpected", "BlocksExpected", "Expectation", "Judged", "ScriptTest", "Trial", "has_marks", "read_test",
           "try_script"]
