"""Faults that are planted in the program: each test that can see one must find it, and each must find one."""
from functools import partial
from importlib import import_module
from typing import Callable, Dict, Iterator, Tuple

from tests.faults import bench
from tests.runs import Wrong

# What the program is made to do wrong, and the tests that must not let it pass, module by module; refuse.c describes
# each planted fault.
LIES: Dict[str, Dict[str, str]] = {
    "unharmed": {"memory": "turns onward", "calls": "each", "device": "reads writes syncs onward unkept killed",
                 "commands": "blocks raw", "script": "reads", "transcript": "writes killed", "files": "opening",
                 "locks": "refused"},
    "lost": {"memory": "turns onward", "device": "reads writes syncs onward unkept killed", "commands": "blocks raw",
             "transcript": "writes killed gone leaving", "files": "paths opening limit", "mounts": "full",
             "cuts": "each"},
    "stray": {"memory": "turns onward", "device": "reads writes syncs onward unkept killed", "commands": "blocks raw",
              "script": "reads", "transcript": "writes killed gone leaving",
              "files": "sizes changed paths opening limit", "mounts": "full", "cuts": "each", "moments": "random"},
    "late": {"memory": "turns onward", "device": "writes onward killed", "transcript": "killed",
             "files": "changed limit", "moments": "random"},
    "garbled": {"memory": "turns onward", "calls": "each", "device": "reads writes syncs onward unkept killed",
                "commands": "blocks", "script": "reads", "transcript": "writes killed leaving",
                "files": "sizes changed paths rights opening limit", "mounts": "full", "cuts": "each",
                "moments": "random"},
    "calm": {"memory": "turns onward", "script": "reads", "transcript": "writes gone leaving",
             "files": "sizes paths rights opening", "mounts": "read_only", "cuts": "each lengths endless"},
    "blurred": {"memory": "turns onward", "script": "reads", "transcript": "writes gone leaving",
                "files": "sizes paths rights opening", "mounts": "read_only", "cuts": "each lengths endless"},
    "bold": {"files": "rights opening", "mounts": "read_only"},
    "smooth": {"device": "writes onward", "commands": "blocks", "files": "limit", "mounts": "full"},
    "filled": {"files": "changed"},
    "hungry": {"steady": "rounds", "session": "lines"},
    "unlocked": {"locks": "held"},
}


def must_find(lie: str, test: Callable[[], None]) -> None:
    """Fails if a test passes with a planted fault."""
    bench.planted = lie
    try:
        test()
    except Wrong:
        return
    finally:
        bench.planted = ""
    raise Wrong("not found")


def must_be_tried(module: str, tests: Dict[str, Callable[[], None]]) -> None:
    """Fails if no planted fault tries one of the tests of a module."""
    tried = {f"test_{it}" for modules in LIES.values() for it in modules.get(module, "").split()}
    if missed := set(tests) - tried:
        raise Wrong(f"no planted fault tries {sorted(missed)}")


def cases(module: str) -> Iterator[Tuple[str, Callable[[], None]]]:
    """The tests of this test over a module, by their names."""
    found = vars(import_module(f"tests.faults.{module}"))
    tests = {name: it for name, it in found.items() if name.startswith("test_")}
    yield "each test finds a planted fault", partial(must_be_tried, module, tests)
    for lie, modules in LIES.items():
        for name in modules.get(module, "").split():
            yield f"{name} finds {lie}", partial(must_find, lie, tests[f"test_{name}"])
