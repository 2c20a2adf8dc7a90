"""Every order: judged by running each order by itself, over small scripts; parts, checks, and what they print."""
from __future__ import annotations

import pickle
import random
import subprocess
import sys
import time
import unittest
from typing import List, Sequence

from nvmesim import ConfigurationRefused, ProgramDied, ProgramHangs, ProgramNotFound, ScriptError
from nvmesim.explore import Plan, Walk, explore, programs_of
from nvmesim.explore.expressions import Expression
from nvmesim.explore.outcomes import in_one_form
from nvmesim.explore.report import Check, Report
from nvmesim.explore.states import Looks

from .inprocess import counts_of, one_by_one, one_by_one_over, orders_of, walk_of
from .standin import World
from .support import LIVE, PROGRAMS, RACE, SIM, STANDIN, FolderCase

HEAD = """controller 1 host 0xa1
controller 2 host 0xb2
namespace 1 blocks 8 shared
attached 1 1
attached 2 1
start
up 1
up 2
"""
SMALL = HEAD + """# host a
write 1 1 0 1 hex:a1
ring 1
fetch 1 1
execute 1 0
# host b
read 2 1 0 1
ring 2
fetch 2 1
execute 2 0
poll 2
# then
poll 1
"""
SHARED = HEAD + """# host a
write 1 1 0 1 hex:a1
ring 1
read 1 1 0 1
# host b
write 1 1 0 1 hex:b2
reset 1
up 1
# host c
fetch 1 1
execute 1 0
# then
poll 1
read 2 1 0 1
ring 2
fetch 2 1
execute 2 0
poll 2
"""
# A raw host reads block 3 into its window, and writes block 4 from there; a host with a driver writes block 3.
RAW = """controller 1 host 0xa1 raw
controller 2 host 0xb2
namespace 1 blocks 64 shared
attached 1 1
attached 2 1
start
up 2
write32 1 0x24 0x1f0007
write32 1 0x30 0x1000
write32 1 0x14 0x460001
store 1 0 hex:05000100
store 1 24 hex:0030
store 1 40 hex:01001f0001
store 1 64 hex:01000200
store 1 88 hex:0020
store 1 104 hex:0100070001000100
write32 1 0x1000 2
fetch 1 0
fetch 1 0
execute 1 0
execute 1 0
store 1 0x2000 hex:0200070001
store 1 0x2018 hex:0050
store 1 0x2028 hex:03
store 1 0x2040 hex:0100080001
store 1 0x2058 hex:0050
store 1 0x2068 hex:04
# host a
write32 1 0x1008 2
fetch 1 1
fetch 1 1
execute 1 0
execute 1 0
# host b
write 2 1 3 1 hex:b2
ring 2
fetch 2 1
execute 2 0
# then
read 2 1 4 1
ring 2
fetch 2 1
execute 2 0
poll 2
poll 2
"""
# Power is lost while host a registers and asks for persistence, and while host b protects the namespace.
POWER = HEAD + """# host a
register 1 1 0 0 3 0 0x11
ring 1
fetch 1 1
execute 1 0
# host b
protect 2 1 2
ring 2
fetch 2 0
execute 2 0
# host power
powercycle
# then
poll 1
poll 2
up 1
report 1 1 32
ring 1
fetch 1 1
execute 1 0
poll 1
"""
PROGRAM = LIVE or STANDIN
RACE_TEXT = RACE.read_text(encoding="utf-8")


def random_script(seed: int) -> str:
    """A small script of two hosts that chance has made, most of whose events do something."""
    chance = random.Random(seed)
    lines = [HEAD, "register 1 1 0 0 0 0 0x11\nregister 2 1 0 0 0 0 0x22\nring 1\nring 2\nfetch 1 1\nfetch 2 1\n"
             "execute 1 0\nexecute 2 0\npoll 1\npoll 2\nacquire 1 1 0 1 0x11 0\nring 1\nfetch 1 1\n"
              "execute 1 0\npoll 1\n"]
    for part, mine, key, other in (("a", 1, "0x11", "0x22"), ("b", 2, "0x22", "0x11")):
        requests = (f"write {mine} 1 0 1 hex:{part}{part}", f"write {mine} 1 0 2 fill:{mine:02}", f"read {mine} 1 0 2",
                    f"compare {mine} 1 0 1 hex:{part}{part}", f"acquire {mine} 1 2 1 {key} {other}",
                    f"acquire {mine} 1 1 3 {key} {other}", f"release {mine} 1 0 1 {key}", f"release {mine} 1 1 0 {key}",
                    f"register {mine} 1 1 0 0 {key} 0", f"report {mine} 1 32")
        events = [chance.choice(requests), f"ring {mine}", f"fetch {mine} 1", f"execute {mine} 0", f"poll {mine}"]
        for _ in range(chance.randrange(2)):
            change = (chance.choice(requests), f"reset {chance.choice((1, 2))}", f"execute {mine} 0",
                      f"poll {3 - mine}")
            events[chance.randrange(1, 5)] = chance.choice(change)
        lines += [f"# host {part}\n", *(f"{it}\n" for it in events)]
    return "".join(lines)


class PlanTest(unittest.TestCase):
    def test_parts_and_orders(self) -> None:
        plan = Plan(SHARED)
        self.assertEqual((plan.parts, plan.length, plan.orders), ({"a": 3, "b": 3, "c": 2}, 16, 560))
        self.assertEqual(len(orders_of(plan)), 560)
        self.assertEqual([it.name for it in plan.steps][:6],
                         ["before.up1", "before.up2", "a.write1", "a.ring1", "a.read1", "b.write1"])

    def test_parts_may_go_on_and_phases_follow(self) -> None:
        plan = Plan(HEAD + "# host a\nring 1\n# host b\nring 2\n# host a\npoll 1\n# then\npoll 2\n# host a\nring 1\n"
                    "# host c\nring 2\n# then\npoll 1\n")
        self.assertEqual(plan.orders, 3 * 2)
        self.assertEqual([it.name for it in plan.steps][2:], ["a.ring1", "a.poll1", "b.ring1", "then.poll1", "a.ring2",
                                                             "c.ring1", "then.poll2"])

    def test_what_is_no_mark(self) -> None:
        for comment in ("# host a1h never noticed", "#  a", "# then we read", "# most hosts", "# the host", "# a host",
                        "# Host b preempts and aborts", "#", "# host b, as above, writes"):
            text = HEAD + "# host a\nring 1\n" + comment + "\nring 1\n"
            with self.subTest(comment):
                self.assertEqual(Plan(text).parts, {"a": 2})

    def test_a_script_without_marks_is_one_order(self) -> None:
        """Its comments may be what is nearly a mark elsewhere."""
        for comment, near in (("# host b2h writes", "line 9, '# host b2h writes', is nearly '# host b2h'"),
                              ("# Host b", "is nearly '# host b'"), ("# then c", "is nearly '# then'"), ("# any", "")):
            plan = Plan(HEAD + comment + "\nring 1\n")
            lines = list(Report(plan, walk_of(plan).explore()).lines())
            with self.subTest(comment):
                self.assertEqual((plan.orders, plan.parts, lines[0]), (1, {}, "1 order of 3 events: 1 outcome"))
                self.assertRegex(lines[1], "^The script has no mark '# host NAME'.*, so nothing was tried")
                self.assertIn(near, lines[1])

    def test_what_is_nearly_a_mark(self) -> None:
        for comment, meant in (("# Host b", "# host b"), ("# hosts b", "# host b"), ("#host c", "# host c"),
                               ("# host b c", "# host b"), ("# hots b", "# host b"), ("# hst b", "# host b"),
                               ("# HOST b", "# host b"), ("# host: b", "# host b"), ("## host b", "# host b"),
                               ("# host b.", "# host b"), ("# host", "# host NAME"), ("# host 1a", "# host NAME"),
                               ("#then", "# then"), ("# Then", "# then"), ("# then:", "# then"), ("# htne", ""),
                               ("# tehn", "# then"), ("# thn", "# then"), ("# then c", "# then"), ("# than", "")):
            text = HEAD + "# host a\nring 1\n# host b\nring 2\n" + comment + "\nring 2\n"
            with self.subTest(comment):
                if meant:
                    with self.assertRaisesRegex(ScriptError, f"^line 13: {comment!r} is nearly the mark '{meant}':"):
                        Plan(text)
                else:
                    Plan(text)
        Plan("# Two hosts:\n# host b2h.\n" + HEAD + "# host a\nring 1\n")

    def test_what_is_refused(self) -> None:
        for text in ("# host a\n" + HEAD, HEAD + "# host then\n", HEAD + "# host before\n"):
            with self.subTest(text), self.assertRaises(ScriptError):
                Plan(text)


class WalkTest(unittest.TestCase):
    def test_counts_are_those_of_the_orders_one_by_one(self) -> None:
        for name, text in (("small", SMALL), ("race", RACE_TEXT), ("shared", SHARED), ("power", POWER)):
            plan = Plan(text)
            walk = walk_of(plan)
            with self.subTest(name):
                found = walk.explore()
                self.assertEqual(counts_of(found), one_by_one(plan))
                self.assertLess(walk.statistics.events, plan.orders)

    def test_scripts_that_chance_made(self) -> None:
        outcomes = 0
        for seed in range(8):
            plan = Plan(random_script(seed))
            with self.subTest(seed=seed):
                found = walk_of(plan).explore()
                self.assertEqual(counts_of(found), one_by_one(plan))
                outcomes += len(found)
        self.assertGreater(outcomes, 2 * 8)

    def test_the_shown_order_of_an_outcome_has_the_fewest_changes(self) -> None:
        plan = Plan(RACE_TEXT)
        for outcome, ways in walk_of(plan).explore().items():
            world = World()
            for line in plan.setup:
                world.answer(line)
            told = [world.answer(it.line.text) for it in plan.steps_of(ways.order)]
            self.assertTrue(all(told))
            self.assertEqual(tuple(map(world.answer, Looks(plan).last())), outcome.last)
        self.assertEqual([ways.changes - 2 for _, ways in Report(plan, walk_of(plan).explore()).found], [2, 2, 3])

    def test_the_order_of_registrants_does_not_distinguish_outcomes(self) -> None:
        text = HEAD
        for part, mine in (("a", 1), ("b", 2)):
            text += f"# host {part}\nregister {mine} 1 0 0 0 0 0x{mine}\nring {mine}\n"
            text += f"fetch {mine} 1\nexecute {mine} 0\n"
        self.assertEqual([it.count for it in walk_of(Plan(text)).explore().values()], [70])
        self.assertEqual(in_one_form("attached controller 10 namespace 1 controller 9 namespace 2"),
                         "attached controller 9 namespace 2 controller 10 namespace 1")


class ProgramTest(FolderCase):
    def test_the_race_over_programs(self) -> None:
        for program in PROGRAMS:
            with self.subTest(program):
                found = explore(Plan(RACE_TEXT), program, jobs=4)
                self.assertEqual(sorted(it.count for it in found.values()), [60, 66, 126])

    def test_an_error_of_a_worker_is_passed_on(self) -> None:
        for fault in (ProgramDied(4, "ring 1", "ended"), ProgramDied(None, "", ""), ProgramHangs(1.0, "ring 1", ""),
                      ConfigurationRefused("line 3: BadId"), ScriptError(3, "why"), ProgramNotFound("nowhere")):
            came = pickle.loads(pickle.dumps(fault))
            self.assertEqual((type(came), str(came), vars(came)), (type(fault), str(fault), vars(fault)))

    def test_what_the_program_refuses(self) -> None:
        with self.assertRaises(ConfigurationRefused):
            explore(Plan(SMALL.replace("attached 1 1", "attached 1 2")), STANDIN)
        with self.assertRaises(ProgramDied):
            explore(Plan(SMALL), self.program("sys.exit(4)\n"))

    @unittest.skipUnless(LIVE, "NVMELIVE does not name the program")
    def test_orders_over_the_program_are_those_of_the_stand_in(self) -> None:
        for text in (SMALL, SHARED, *map(random_script, range(8))):
            plan = Plan(text)
            with self.subTest(text):
                self.assertEqual(explore(plan, LIVE, jobs=4), walk_of(plan).explore())

    @unittest.skipUnless(LIVE, "NVMELIVE does not name the program")
    def test_counts_over_the_program_are_those_of_the_orders_one_by_one(self) -> None:
        assert LIVE is not None
        for name, text, outcomes in (("raw", RAW, 2), ("race", RACE_TEXT, 3), ("chance", random_script(3), 1)):
            plan = Plan(text)
            with self.subTest(name):
                found = explore(plan, LIVE, jobs=4)
                self.assertEqual(counts_of(found), one_by_one_over(plan, LIVE))
                self.assertGreaterEqual(len(found), outcomes)

    @unittest.skipUnless(LIVE, "NVMELIVE does not name the program")
    def test_924_orders_take_few_runs(self) -> None:
        """Times are printed but not judged, since they depend on other work of the machine."""
        assert LIVE is not None
        text = RACE_TEXT.replace("poll 1\n# host b", "poll 1\npoll 1\n# host b")
        text = text.replace("poll 2\n# then", "poll 2\npoll 2\n# then")
        plan = Plan(text)
        self.assertEqual((plan.orders, plan.parts), (924, {"a": 6, "b": 6}))
        begun = time.monotonic()
        with programs_of(plan, LIVE) as programs:
            walk = Walk(plan, programs, jobs=4)
            found = walk.explore()
        print(f"924 orders: {walk.statistics}, {time.monotonic() - begun:.2f} seconds", file=sys.stderr)
        self.assertEqual(sum(it.count for it in found.values()), 924)
        self.assertEqual(counts_of(found), counts_of(walk_of(plan).explore()))
        self.assertLess(walk.statistics.events, 150)

    @unittest.skipUnless(SIM, "NVMESIM does not name the program")
    def test_counterexamples_are_scripts(self) -> None:
        plan = Plan(RACE_TEXT)
        found = walk_of(plan).explore()
        report = Report(plan, found, [Check(Expression("a.write1 == 'Reservation Conflict'", plan), False)])
        done = subprocess.run([str(SIM)], input=report.counterexample(), capture_output=True, text=True, timeout=60)
        self.assertEqual(done.returncode, 0)
        self.assertIn("posted 0:83 7", done.stdout)


if __name__ == "__main__":
    unittest.main()
