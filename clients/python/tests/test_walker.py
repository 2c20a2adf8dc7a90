"""Walks inside the program: judged by walks over forks of it, on each example and on scenes that chance has made."""
from __future__ import annotations

import time
import unittest
from pathlib import Path
from typing import Iterator, List, Optional, Tuple
from unittest import mock

from nvmesim import ConfigurationRefused, ProgramDied, ScriptError
from nvmesim.explore import Limits, Medium, MemoryExhausted, Plan, Walk, explored, programs_of
from nvmesim.explore.job import is_suited
from nvmesim.explore.library import walking_library
from nvmesim.explore.native import NativeWalk, Unsuited
from nvmesim.explore.walk import Statistics

from .support import LIVE, FolderCase, examples
from .test_explore import HEAD, POWER, RACE_TEXT, RAW, SHARED, SMALL
from .test_faults import CRASH, TWICE
from .test_forking import HAS_COMPILER, LONG
from .test_reduction import marked, scene

SCENES = 20
MACHINE = "# host machine\n# crash\n"


def texts() -> Iterator[Tuple[str, str, int]]:
    """Scripts by names, each with the call of the image that fails."""
    for name, text in (("small", SMALL), ("shared", SHARED), ("raw", RAW), ("power", POWER), ("crash", CRASH),
                       ("twice", TWICE)):
        yield name, text, 0
    yield from ((f"race {call}", RACE_TEXT, call) for call in range(5))
    yield from ((name, marked(text), 0) for name, text, _ in list(examples())[::4])
    for seed in range(SCENES):
        yield f"scene {seed}", scene(seed, True), 0
        if seed % 4 == 0:
            yield f"scene {seed} that crashes", scene(seed, True) + MACHINE, 0
            yield f"scene {seed} that fails", scene(seed, True), 1 + seed // 4 % 3


@unittest.skipUnless(LIVE and HAS_COMPILER, "NVMELIVE does not name the program, or there is no C compiler")
class WalkerTest(FolderCase):
    def walk(self, plan: Plan, medium: Medium, jobs: int = 3, megabytes: int = 256,
             program: Optional[Path] = LIVE) -> NativeWalk:
        assert program is not None
        if plan.has_crash or plan.fails:
            medium.make_file()
        return NativeWalk(plan, program, walking_library(), medium, 10.0, jobs, megabytes << 20)

    def test_as_over_forks(self) -> None:
        """Outcomes, counts and the orders shown are equal, and so are states and events if all events are run."""
        spent = [0.0, 0.0]
        for name, text, fails in texts():
            plan = Plan(text, fails)
            begun = time.monotonic()
            with Medium(blocks=plan.blocks) as medium:
                walk = self.walk(plan, medium)
                found = walk.explore()
            between = time.monotonic()
            with programs_of(plan, LIVE) as programs:
                forked = Walk(plan, programs, jobs=4, is_reduced=False)
                wanted = forked.explore()
            spent = [spent[0] + between - begun, spent[1] + time.monotonic() - between]
            with self.subTest(name):
                self.assertEqual(found, wanted)
                self.assertEqual(sum(it.count for it in found.values()), plan.orders)
                self.assertEqual(*((it.states, it.positions, it.events) for it in (walk.statistics, forked.statistics)))
        print("inside {:.1f} seconds, over forks {:.1f}".format(*spent))

    def test_the_number_of_processes_does_not_matter(self) -> None:
        plan = Plan(LONG.split("# host c")[0])
        with Medium() as medium:
            self.assertEqual(*(self.walk(plan, medium, jobs).explore() for jobs in (1, 4)))

    def test_over_an_image_which_stays(self) -> None:
        image = self.folder / "image"
        image.write_bytes(b"old".ljust(512 * 64, b"\0"))
        for text in (CRASH, SMALL, RACE_TEXT):
            plan = Plan(text)
            with Medium(image) as medium, programs_of(plan, LIVE, medium=medium) as programs:
                self.assertEqual(self.walk(plan, medium).explore(), Walk(plan, programs, jobs=4).explore())
        self.assertEqual(image.read_bytes(), b"old".ljust(512 * 64, b"\0"))

    def test_memory_is_bounded(self) -> None:
        plan = Plan(LONG)
        with Medium() as medium:
            walk = self.walk(plan, medium, megabytes=64)
            found = walk.explore()
            self.assertEqual((walk.is_whole, walk.why), (False, "its memory is used up"))
            self.assertTrue(found)
            self.assertLess(walk.statistics.most_bytes, 64 << 20)
            with self.assertRaisesRegex(MemoryExhausted, "more memory is needed than --memory allows: to count"):
                self.walk(plan, medium, megabytes=1).explore()

    def test_it_is_stopped_in_time(self) -> None:
        with Medium() as medium:
            walk = self.walk(Plan(LONG), medium)
            found = walk.explore(time.monotonic() + 3)
        self.assertEqual((walk.is_whole, walk.why), (False, ""))
        self.assertLess(sum(it.count for it in found.values()), Plan(LONG).orders)

    def test_what_the_program_refuses(self) -> None:
        with Medium() as medium, self.assertRaises(ConfigurationRefused):
            self.walk(Plan(SMALL.replace("attached 1 1", "attached 1 2")), medium).explore()
        plan = Plan(SMALL)
        with mock.patch.object(type(plan.steps[-1].line), "sent", "nonsense"), Medium() as medium, \
                self.assertRaisesRegex(ScriptError, "'nonsense' was answered '! line"):
            self.walk(plan, medium).explore()

    def test_other_programs_are_forked(self) -> None:
        told: List[str] = []
        with self.assertRaises(ProgramDied):
            explored(Plan(SMALL), "/bin/true", Limits(), tell=told.append)
        self.assertRegex(told[0], "^/bin/true does not load the library: the program is forked for each event, ")
        self.assertEqual(len(told), 1)
        with Medium() as medium, self.assertRaises(Unsuited):
            self.walk(Plan(SMALL), medium, program=Path("/bin/true")).explore()

    def test_too_large_a_plan_is_forked(self) -> None:
        parts = "".join(f"# host p{n}\nring 1\n" for n in range(65))
        self.assertFalse(is_suited(Plan(HEAD + parts)))
        self.assertTrue(is_suited(Plan(HEAD + parts.replace("# host p64\nring 1\n", ""))))

    def test_progress_and_memory_are_reported(self) -> None:
        seen: List[Statistics] = []
        with Medium() as medium:
            walk = self.walk(Plan(RACE_TEXT), medium)
            walk.report = seen.append
            walk.explore()
        self.assertIsInstance(seen[-1], Statistics)
        self.assertEqual(walk.statistics.states, 71)
        self.assertGreater(walk.statistics.most_bytes, 1 << 20)


if __name__ == "__main__":
    unittest.main()
