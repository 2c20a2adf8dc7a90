"""A plugin for pytest: the fixture `subsystem`, and scripts with expectations as tests.

pytest finds it if the package is installed. If it is only on the path: `pytest -p nvmesim.pytest_plugin`.
"""
from __future__ import annotations

from pathlib import Path
from typing import Any, Iterable, Iterator, Optional, Tuple

import pytest

from .errors import NvmesimError
from .expect import Trial, has_marks, read_test, try_script
from .expect.told import trial_lines
from .explore.medium import Medium
from .reading import read_with
from .script import configuration_of
from .subsystem import Subsystem
from .texts import text_of

_SUFFIX = ".nvme"


def pytest_addoption(parser: Any) -> None:
    """The option that names the program."""
    parser.getgroup("nvmesim").addoption("--nvmelive", metavar="FILE", help="the program nvmelive, for the fixture "
                                         "`subsystem` and for scripts; else the one that the package finds")


@pytest.fixture
def subsystem(request: Any) -> Iterator[Subsystem]:
    """A subsystem over 1,024 blocks of zeros in memory, not described yet; it ends with the test.

    Of a test that fails, the report has the script and the transcript.
    """
    with Subsystem(program=request.config.getoption("--nvmelive")) as made:
        yield made


@pytest.hookimpl(hookwrapper=True)
def pytest_runtest_makereport(item: Any, call: Any) -> Iterator[None]:
    """Puts the script and the transcript into the report of a test that failed with the fixture."""
    outcome = yield
    report = outcome.get_result()  # type: ignore[attr-defined]
    used = getattr(item, "funcargs", {}).get("subsystem")
    if report.when == "call" and report.failed and isinstance(used, Subsystem):
        report.sections.append(("script of the subsystem", used.script))
        report.sections.append(("its transcript", used.transcript))


def pytest_collect_file(file_path: Path, parent: Any) -> Optional["ScriptFile"]:
    """A script is collected if it has an expectation, and if it is named on the command line."""
    if file_path.suffix != _SUFFIX:
        return None
    if not parent.session.isinitpath(file_path) and not _has_marks(file_path):
        return None
    return ScriptFile.from_parent(parent, path=file_path)


def _has_marks(path: Path) -> bool:
    try:
        return has_marks(text_of(str(path)))
    except (NvmesimError, OSError):
        return False


class ExpectationsFailed(Exception):
    """Expectations of a script do not hold, or it did not come to its end."""

    def __init__(self, trial: Trial) -> None:
        super().__init__(trial.test.name)
        self.trial = trial


class ScriptFile(pytest.File):
    """A script: one test."""

    def collect(self) -> Iterable["ScriptItem"]:
        yield ScriptItem.from_parent(self, name="expectations")


class ScriptItem(pytest.Item):
    """A script's expectations, judged in one run over zeros."""

    def runtest(self) -> None:
        read_with(self.config.getoption("--nvmelive"))
        test = read_test(self.path.name, text_of(str(self.path)))
        with Medium(blocks=configuration_of(test.lines).blocks) as medium, medium.of_a_run() as image:
            trial = try_script(test, image, self.config.getoption("--nvmelive"))
        if not trial.is_good:
            raise ExpectationsFailed(trial)

    def repr_failure(self, excinfo: Any, style: Optional[str] = None) -> Any:
        """What was expected next to what came, instead of a trace."""
        if isinstance(excinfo.value, ExpectationsFailed):
            return "\n".join(trial_lines(excinfo.value.trial))
        if isinstance(excinfo.value, NvmesimError):  # no script, or no program
            return f"{self.path.name}: {excinfo.value}"
        return super().repr_failure(excinfo, style)

    def reportinfo(self) -> Tuple[Path, int, str]:
        return self.path, 0, f"{self.path.name}: expectations"
