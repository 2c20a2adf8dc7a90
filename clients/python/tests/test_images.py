"""Explorations over an image: each run begins with it as it was, and nothing ever comes to it."""
from __future__ import annotations

import contextlib
import io
import os
import tempfile
import unittest
from pathlib import Path
from typing import List, Tuple
from unittest import mock

from nvmesim import ConfigurationRefused
from nvmesim.errors import FileFault
from nvmesim.__main__ import main
from nvmesim.explore import Medium, Plan, explore
from nvmesim.explore.medium import MediumError
from nvmesim.explore.plan import Order
from nvmesim.explore.report import Report

from .standin import World
from .support import LIVE, PROGRAMS, FolderCase

# Two hosts compare the block that the image has with what they know, and swap it: one of them comes too late.
SWAP = """controller 1 host 0xa1
controller 2 host 0xb2
namespace 1 blocks 8 shared
attached 1 1
attached 2 1
start
up 1
up 2
# host a
compare 1 1 3 1 hex:5eed
ring 1
fetch 1 1
execute 1 0
poll 1
write 1 1 3 1 hex:a1
ring 1
fetch 1 1
execute 1 0
# host b
compare 2 1 3 1 hex:5eed
ring 2
fetch 2 1
execute 2 0
# then
poll 2
read 1 1 4 1
ring 1
fetch 1 1
execute 1 0
poll 1
poll 1
"""
# A block of the image is read in three orders.
READ = """controller 1 host 0xa1
namespace 1 blocks 8 shared
attached 1 1
start
up 1
read 1 1 4 1
ring 1
# host a
fetch 1 1
execute 1 0
# host b
poll 1
# then
poll 1
"""
FOUR = b"four"
BLOCKS = 64
NEVER = "a.execute1 == 'Successful Completion' and before.read1 == 'unanswered'"


def answers_of(plan: Plan, image: bytes) -> List[Tuple[str, ...]]:
    """What each order's events are answered over an image, one by one, each over a stand-in and bytes of its own."""
    found: List[Tuple[str, ...]] = []

    def go(order: Order, position: object) -> None:
        choices = plan.choices(position)  # type: ignore[arg-type]
        if not choices:
            world = World(io.BytesIO(image))
            lines = [*plan.setup, *(it.line.text for it in plan.steps_of(order))]
            found.append(tuple(map(world.answer, lines)))
        for it in choices:
            go((*order, it), plan.after(position, it))  # type: ignore[arg-type]

    go((), plan.begin())
    return found


class ImagesTest(FolderCase):
    def setUp(self) -> None:
        super().setUp()
        self.image = self.folder / "disk.img"
        self.bytes = bytes(3 * 512) + bytes.fromhex("5eed").ljust(512, b"\0") + FOUR.ljust(512, b"\0")
        self.image.write_bytes(self.bytes.ljust(512 * BLOCKS, b"\0"))
        self.room = self.folder / "room"
        self.room.mkdir()
        redirected = mock.patch.object(tempfile, "tempdir", str(self.room))
        redirected.start()
        self.addCleanup(redirected.stop)

    def run_command(self, *words: str) -> Tuple[int, str, str]:
        told, wrong = io.StringIO(), io.StringIO()
        with contextlib.redirect_stdout(told), contextlib.redirect_stderr(wrong):
            status = main(("explore", "--program", str(PROGRAMS[-1]), *words))
        return status, told.getvalue(), wrong.getvalue()

    def script(self) -> str:
        path = self.folder / "script.nvme"
        path.write_text(READ, encoding="utf-8")
        return str(path)

    def test_each_run_begins_with_the_image_and_leaves_it(self) -> None:
        os.utime(self.image, ns=(1, 1))
        before = self.image.read_bytes()
        plan = Plan(SWAP)
        told = answers_of(plan, before)
        matches = sum("poll 2 1 0:00 00000000" in it for it in told)
        self.assertLess(0, matches)
        self.assertLess(matches, len(told))
        for program in PROGRAMS:
            with self.subTest(program), Medium(self.image) as medium:
                found = explore(plan, program, jobs=4, medium=medium)
                counts = {it.answers["b.compare1"].text: 0 for it in Report(plan, found).values}
                for (_, ways), values in zip(Report(plan, found).found, Report(plan, found).values):
                    counts[values.answers["b.compare1"].text] += ways.count
                    self.assertEqual(values.answers["then.read1"].data, FOUR.hex())
                    self.assertEqual(values.answers["a.compare1"].text, "Successful Completion")
                self.assertEqual(counts, {"Successful Completion": matches, "Compare Failure": len(told) - matches})
        self.assertEqual(self.image.read_bytes(), before)
        self.assertEqual(self.image.stat().st_mtime_ns, 1)
        self.assertEqual(list(self.room.iterdir()), [])

    def test_a_change_meanwhile_does_not_matter(self) -> None:
        plan = Plan(READ)
        with Medium(self.image) as medium:
            self.image.write_bytes(bytes(512 * BLOCKS))
            found = explore(plan, PROGRAMS[-1], medium=medium)
        self.assertEqual({it.answers["before.read1"].data for it in Report(plan, found).values}, {FOUR.hex()})

    def test_holes_stay_holes(self) -> None:
        with open(self.image, "r+b") as file:
            file.truncate(1 << 26)
        with Medium(self.image) as medium:
            copied = medium.fresh()
            assert copied is not None
            self.assertEqual(os.stat(copied).st_size, 1 << 26)
            self.assertLess(512 * os.stat(copied).st_blocks, 1 << 20)
            with open(copied, "rb") as file:
                self.assertEqual(file.read(len(self.bytes)), self.bytes)
        for size in (0, 1, 512 * BLOCKS + 7):
            with open(self.image, "r+b") as file:
                file.truncate(size)
            with Medium(self.image) as medium:
                copied = medium.fresh()
                assert copied is not None
                with open(copied, "rb") as file:
                    self.assertEqual(file.read(), self.image.read_bytes())

    def test_the_command(self) -> None:
        status, whole, _ = self.run_command(self.script(), "--image", str(self.image), "--never", NEVER)
        self.assertEqual(status, 0)
        self.assertIn(f"data {FOUR.hex()}", whole)
        status, without, _ = self.run_command(self.script())
        self.assertEqual(status, 0)
        self.assertNotIn("data", without)
        self.assertEqual(list(self.room.iterdir()), [])

    def test_what_is_no_image(self) -> None:
        with self.assertRaises(MediumError):
            Medium(self.folder)
        with self.assertRaisesRegex(FileFault, "can't read .*absent: No such file or directory"):
            Medium(self.folder / "absent")
        script, absent = self.script(), str(self.folder / "absent")
        for words in ((script, "--image", str(self.folder)), (script, "--image", absent)):
            with self.subTest(words):
                status, told, wrong = self.run_command(*words)
                self.assertEqual((status, told, wrong.count("\n"), wrong[:9]), (2, "", 1, "nvmesim: "))

    @unittest.skipUnless(LIVE, "NVMELIVE does not name the program")
    def test_an_image_that_is_too_short(self) -> None:
        self.image.write_bytes(bytes(7 * 512))
        with Medium(self.image) as medium, self.assertRaisesRegex(ConfigurationRefused, "DoesNotFit"):
            explore(Plan(READ), LIVE, medium=medium)


if __name__ == "__main__":
    unittest.main()
