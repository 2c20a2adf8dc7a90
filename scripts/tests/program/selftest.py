"""Each expectation of each case changed in turn, which must be noticed."""
from dataclasses import replace
from functools import partial
from importlib import import_module
from typing import Callable, Iterator, Tuple

from tests.program.case import Case, faults, tried
from tests.runs import Wrong


def spoiled(case: Case) -> Iterator[Case]:
    """The case, with each thing that it wants spoiled in turn."""
    yield replace(case, status=case.status + 1)
    yield replace(case, output=f"{case.output}\n")
    yield replace(case, errors=case.errors[:-1] or "\n")
    for name, content in {**case.files, **case.left}.items():
        yield replace(case, left={**case.left, name: content[:-1] + b"?"})
    yield replace(case, left={**case.left, "more": b""})
    yield replace(case, is_left_alone=not case.is_left_alone)


def must_notice(case: Case) -> None:
    """Fails if the comparison lets a spoiled case pass."""
    shown = tried(case)
    for other in spoiled(case):
        if not any(faults(other, shown)):
            raise Wrong(f"passes as {str(other)[:200]}")


def cases(module: str) -> Iterator[Tuple[str, Callable[[], None]]]:
    """The tests of this test over a module, by their names."""
    for case in import_module(f"tests.program.{module}").CASES:
        yield f"{case.name}, spoiled", partial(must_notice, case)
