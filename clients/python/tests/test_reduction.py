"""What is spared since events commute: nothing is lost by it, over each example and scenes that chance has made."""
from __future__ import annotations

import random
import time
import unittest
from typing import Dict, List, Tuple

from nvmesim.explore import Plan, Walk, programs_of
from nvmesim.explore.independence import EVERYTHING, Independence
from nvmesim.explore.plan import Step
from nvmesim.explore.states import State
from nvmesim.script import LineKind, read_lines

from .inprocess import walk_of
from .support import LIVE, RACE, examples
from .test_explore import HEAD, POWER, RAW, SHARED, SMALL, random_script

SCENES = 200
# The number of events at the end of an example that come in every order: it then has hundreds of states.
_LAST = 12
_MOST_POSITIONS = 120
# What the stand-in does not know; the program takes these.
_UNKNOWN = ("identify", "attach", "detach", "store", "write32")


def marked(text: str) -> str:
    """An example whose last events come in any order with those of other controllers."""
    lines = list(read_lines(text))
    events = [it for it in lines if it.kind is LineKind.EVENT]
    for count in range(_LAST, 1, -1):
        free = events[-count:]
        parts: Dict[str, List[str]] = {}
        for line in free:
            parts.setdefault(f"c{line.controller}", []).append(line.text)
        found = "".join(f"{it.text}\n" for it in lines if it.kind is not LineKind.COMMENT and it not in free)
        found += "".join(f"# host {part}\n" + "".join(f"{it}\n" for it in texts) for part, texts in parts.items())
        if Plan(found).positions <= _MOST_POSITIONS:
            return found
    return found


def scene(seed: int, has_all: bool = False) -> str:
    """A scene that chance has made: of two hosts as elsewhere, or of three and of power; `has_all`: also of admin
    commands that the stand-in does not know."""
    chance = random.Random(seed)
    if seed % 2:
        return random_script(seed)
    text = HEAD.replace("namespace 1", "controller 3 host 0xc3\nnamespace 1").replace("start", "attached 3 1\nstart")
    text += "up 3\nregister 1 1 0 0 0 0 0x11\nring 1\nfetch 1 1\nexecute 1 0\npoll 1\n"
    for mine in (1, 2, 3):
        requests = (f"write {mine} 1 {chance.randrange(3)} 1 fill:{mine:02}", f"read {mine} 1 0 2", f"flush {mine} 1",
                    f"register {mine} 1 {chance.randrange(2)} 0 0 0x11 0x{mine}{mine}", f"identify {mine} 0 1",
                    f"acquire {mine} 1 {chance.randrange(3)} 1 0x{mine}{mine} 0x11", f"protect {mine} 1 1",
                    f"attach {mine} 1 {chance.randrange(1, 4)}", f"detach {mine} 1 {chance.randrange(1, 4)}",
                    f"zeroes {mine} 1 1 1", f"report {mine} 1 32", f"compare {mine} 1 0 1 fill:01")
        request = chance.choice([it for it in requests if has_all or it.split()[0] not in _UNKNOWN])
        queue = 0 if request.split()[0] in ("identify", "protect", "attach", "detach") else 1
        events = [request, f"ring {mine}", f"fetch {mine} {queue}", f"execute {mine} 0"]
        if chance.random() < 0.3:
            change = (f"reset {mine}", f"poll {mine}", f"up {chance.choice((1, 2))}")
            events[chance.randrange(1, 4)] = chance.choice(change)
        text += f"# host p{mine}\n" + "".join(f"{it}\n" for it in events[:4 if mine < 3 else chance.choice((2, 4))])
    return text + ("# host power\npowercycle\n" if chance.random() < 0.15 else "")


class ReductionTest(unittest.TestCase):
    def check(self, text: str) -> Tuple[int, int, int]:
        """Explores with and without it; what it took, and how many outcomes there are."""
        plan = Plan(text)
        spared, whole = walk_of(plan), walk_of(plan, is_reduced=False)
        self.assertEqual(spared.explore(), whole.explore())
        self.assertLessEqual(spared.statistics.events, whole.statistics.events)
        self.assertEqual(whole.statistics.spared, 0)
        return spared.statistics.events, whole.statistics.events, spared.statistics.states

    def test_scripts_and_each_example(self) -> None:
        for name, text in (("small", SMALL), ("race", RACE.read_text(encoding="utf-8")), ("shared", SHARED),
                           ("power", POWER)):
            with self.subTest(name):
                self.check(text)
        seen = 0
        for name, text, _ in examples():
            if " raw" in text or any(it.words and it.verb in _UNKNOWN for it in read_lines(text)):
                continue
            with self.subTest(name):
                seen += self.check(marked(text))[1]
        self.assertGreater(seen, 1000)

    def test_scenes_that_chance_made(self) -> None:
        begun, run, all_of_them = time.monotonic(), 0, 0
        for seed in range(SCENES):
            with self.subTest(seed=seed):
                few, many, _ = self.check(scene(seed))
                run, all_of_them = run + few, all_of_them + many
        self.assertLess(run, 0.8 * all_of_them)
        print(f"{SCENES} scenes: {run} events instead of {all_of_them}, {time.monotonic() - begun:.1f} seconds")

    @unittest.skipUnless(LIVE, "NVMELIVE does not name the program")
    def test_over_the_program(self) -> None:
        texts = [("raw", RAW), *((name, marked(text)) for name, text, _ in examples()),
                 *((str(seed), scene(seed, True)) for seed in range(12))]
        begun = time.monotonic()
        for name, text in texts:
            plan, found = Plan(text), []
            for is_reduced in (True, False):
                with programs_of(plan, LIVE) as programs:
                    found.append(Walk(plan, programs, jobs=4, is_reduced=is_reduced).explore())
            with self.subTest(name):
                self.assertEqual(*found)
        print(f"{len(texts)} scripts over the program, {time.monotonic() - begun:.1f} seconds")


class IndependenceTest(unittest.TestCase):
    def touched(self, line: str, command: str = "") -> object:
        plan = Plan(HEAD + f"# host a\n{command or 'ring 1'}\n# host b\n{line}\n")
        state = State(plan.begin(), ())
        step = plan.by_name[f"b.{line.split()[0]}1"]
        request = plan.steps[2].name if command else ""
        return Independence(plan)._touched(Step(step.name, step.part, step.line), request), state

    def test_what_events_touch(self) -> None:
        own, fetched = ("host", 1), ("fetched", 1)
        for line, command, changed, looked_at in (
                ("ring 1", "", {own}, set()), ("poll 1", "", {own}, set()), ("fetch 1 1", "", {own, fetched}, set()),
                ("reset 1", "", {own, fetched}, set()), ("execute 1 0", "", {own, fetched}, set()),
                ("execute 1 0", "read 1 1 2 1", {own, fetched}, {("access", 1), ("attached",), ("block", 1, 2)}),
                ("execute 1 0", "acquire 1 1 1 1 0x1 0x2", {own, fetched, ("access", 1)},
                 {("access", 1), ("attached",)}),
                ("execute 1 0", "acquire 1 1 2 1 0x1 0x2", {own, fetched, ("fetched", 2), ("access", 1)},
                 {("access", 1), ("attached",)})):
            touched, _ = self.touched(line, command)  # type: ignore[misc]
            with self.subTest(line=line, command=command):
                self.assertEqual((touched.changed, touched.looked_at, touched.is_all), (changed, looked_at, False))

    def test_what_may_touch_everything(self) -> None:
        for line, command in (("powercycle", ""), ("execute 1 0", "attach 1 1 2"), ("execute 1 0", "protect 1 1 1")):
            touched, _ = self.touched(line, command)  # type: ignore[misc]
            self.assertEqual(touched, EVERYTHING)
            self.assertFalse(touched.commutes_with(self.touched("ring 2")[0]))  # type: ignore[index]


if __name__ == "__main__":
    unittest.main()
