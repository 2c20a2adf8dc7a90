"""Results of tests as a JUnit report, which continuous integration services read."""
from __future__ import annotations

import re
import xml.etree.ElementTree as xml
from typing import List, Sequence, Tuple

from .told import failure_rows, line_of, unanswered_words
from .trials import Judged, Trial

Refused = Tuple[str, str]
"""A file that isn't a test: its name, and why."""

# What XML 1.0 can't have, not even spelled out.
_UNSPEAKABLE = re.compile("[^\t\n\r\x20-\ud7ff\ue000-\ufffd\U00010000-\U0010ffff]")


def report(trials: Sequence[Trial], refused: Sequence[Refused]) -> str:
    """The report: a suite for each script, a case for each expectation."""
    root = xml.Element("testsuites", name="nvmesim")
    for trial in trials:
        root.append(_suite(trial))
    for name, why in refused:
        root.append(_suite_of_refused(name, why))
    for attribute in ("tests", "failures", "errors"):
        root.set(attribute, str(sum(int(it.get(attribute, "0")) for it in root)))
    root.set("time", f"{sum(it.seconds for it in trials):.3f}")
    return '<?xml version="1.0" encoding="UTF-8"?>\n' + xml.tostring(root, encoding="unicode") + "\n"


def _suite(trial: Trial) -> xml.Element:
    cases: List[xml.Element] = [_case(trial, it) for it in trial.judged]
    for wanted in trial.test.expectations[len(trial.judged):]:
        case = _new_case(trial.test.name, wanted.line, wanted.text)
        _add(case, "error", "not reached", trial.fault)
        cases.append(case)
    errors = len(trial.test.expectations) - len(trial.judged)
    if trial.fault and not errors:
        cases.append(_new_case(trial.test.name, 0, "the run to its end"))
        _add(cases[-1], "error", "the run did not complete", trial.fault)
        errors = 1
    suite = xml.Element("testsuite", name=_clean(trial.test.name), tests=str(len(cases)), errors=str(errors),
                        failures=str(len(trial.failed)), skipped="0", time=f"{trial.seconds:.3f}")
    suite.extend(cases)
    if trial.unanswered:
        told = "".join(f"{trial.test.name}:{line_of(trial, it)}: left without an answer: {unanswered_words(it)}\n"
                       for it in trial.unanswered)
        xml.SubElement(suite, "system-out").text = _clean(told)
    return suite


def _suite_of_refused(name: str, why: str) -> xml.Element:
    suite = xml.Element("testsuite", name=_clean(name), tests="1", errors="1", failures="0", skipped="0", time="0.000")
    case = _new_case(name, 0, "the script")
    _add(case, "error", "refused", why)
    suite.append(case)
    return suite


def _case(trial: Trial, judged: Judged) -> xml.Element:
    case = _new_case(trial.test.name, judged.expectation.line, judged.expectation.text)
    if not judged.holds:
        rows = dict(failure_rows(trial, judged))
        text = "".join(f"{word}: {told}\n" for word, told in rows.items())
        _add(case, "failure", f"wanted {rows['wanted']}, came {rows['came']}", text)
    return case


def _new_case(name: str, line: int, text: str) -> xml.Element:
    case = xml.Element("testcase", classname=_clean(name), file=_clean(name), time="0")
    case.set("name", _clean(f"line {line}: {text.lstrip('# ')}" if line else text))
    if line:
        case.set("line", str(line))
    return case


def _add(case: xml.Element, kind: str, message: str, text: str) -> None:
    xml.SubElement(case, kind, message=_clean(message), type="expectation").text = _clean(text)


def _clean(text: str) -> str:
    """A text without the characters that XML forbids."""
    return _UNSPEAKABLE.sub("?", text)
