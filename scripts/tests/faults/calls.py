"""Each request for memory refused in turn to a program that makes each call which takes memory.

The program itself checks that a refused call changes nothing: it returns the medium, its events have not happened, and
its run continues after the replies that it added. An image is opened without a request of the program's own; there the
system has no memory.
"""
import shutil
from typing import Dict, List

from tests.faults.bench import Plan, Shown, finish, start
from tests.runs import TOP, Wrong, clip, new_room

CRATE = "crates/nvme_refusals"
# More requests than the program makes.
MOST = 2000
SAID = ("done", "refused", "not tried")


def refuse(refused: Plan) -> Shown:
    """The program with one request for memory refused."""
    room = new_room(image=(TOP / CRATE / "data/image").read_bytes())
    shown = finish(room, start(room, [], refused, TOP / CRATE / "out/nvme_refusals"))
    shutil.rmtree(room)
    return shown


def judge(names: List[str], refused: Plan, shown: Shown) -> Dict[str, str]:
    """The report of each call, of which at most one may be refused."""
    what = f"memory refused to the calls ({refused})"
    told = dict(line.split(": ", 1) for line in shown.output.decode().splitlines() if ": " in line)
    if shown.status != 0 or list(told) != names or any(it not in SAID for it in told.values()):
        raise Wrong(f"{what}: status {shown.status}, and {clip(shown.output)}")
    if sum(it != "done" for it in told.values()) > (shown.hits > 0):
        raise Wrong(f"{what}: more calls than one were not done: {clip(shown.output)}")
    return told


def test_each() -> None:
    """Each request of each call refused."""
    if not (TOP / CRATE / "out/nvme_refusals").is_file():
        raise Wrong(f"{CRATE} is not built: `rt run` there builds it")
    names = [line.split(": ")[0] for line in (TOP / CRATE / "stdout").read_text(encoding="utf-8").splitlines()]
    counts = {name: 0 for name in names}
    for kind in ("open", "stat", "alloc"):
        for number in range(1, MOST):
            refused = Plan(kind, number, "ENOMEM")
            shown = refuse(refused)
            told = judge(names, refused, shown)
            for name in names:
                counts[name] += told[name] == "refused"
            if shown.hits == 0:
                break
    for name, count in counts.items():
        if not count:
            raise Wrong(f"no request of {name} was refused")
