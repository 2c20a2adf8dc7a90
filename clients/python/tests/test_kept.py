"""Kept runs of Linux hosts: `explain`, `timeline` and `explore` read them, with the blocks that their CONFIG needs."""
from __future__ import annotations

import fcntl
import re
import unittest

from .support import LIVE, TOP, FolderCase, script_of
from .test_files import run_command

# What a target keeps has the CONFIG of its page, with raw hosts, and then what their raw hosts did.
CONFIG = (TOP / "clients" / "nvme-tcp" / "two-hosts.nvme").read_text(encoding="utf-8")
EVENTS = script_of("raw-queues").split("\nstart\n", 1)[1]
KEPT = re.sub(r"^(controller .*)$", r"\1 raw", CONFIG, flags=re.M) + "start\n" + EVENTS


@unittest.skipUnless(LIVE, "NVMELIVE does not name the program")
class KeptTest(FolderCase):
    def setUp(self) -> None:
        super().setUp()
        self.kept = self.folder / "run.nvme"
        self.kept.write_text(KEPT, encoding="utf-8")
        self.marked = self.folder / "marked.nvme"
        self.marked.write_text(f"{KEPT}# host a\nwrite32 1 0x1000 0\n# host b\nwrite32 2 0x1000 0\n", encoding="utf-8")
        self.image = self.folder / "disk.img"
        self.image.write_bytes(b"Hello".ljust(512, b"\0") + bytes(16 << 20)[512:])

    def test_it_is_explained_and_drawn(self) -> None:
        for image in ((), ("--image", str(self.image))):
            status, told, wrong = run_command("explain", str(self.kept), *image)
            self.assertEqual((status, wrong), (0, ""))
            self.assertIn("(Write", told.replace("Write, CID", "(Write"))
            page = self.folder / "page.html"
            status, _, wrong = run_command("timeline", str(self.kept), *image, "-o", str(page), "--force")
            self.assertEqual((status, wrong), (0, ""))
            self.assertIn('class="changes"', page.read_text(encoding="utf-8").split("</ul>", 1)[1])
        self.assertEqual(self.image.read_bytes()[:6], b"Hello\0")

    def test_every_order_of_it(self) -> None:
        status, told, wrong = run_command("explore", str(self.marked))
        self.assertEqual((status, wrong), (0, ""))
        self.assertIn("2 orders of a 1 event, b 1 event", told)
        test = self.folder / "test.nvme"
        test.write_text(CONFIG + "start\nup 1\n# expect up 1 ok\n# expect-blocks 1 32767 1 -\n", encoding="utf-8")
        self.assertEqual(run_command("test", str(test))[0], 0)

    def test_more_blocks_than_a_file_has(self) -> None:
        self.kept.write_text(KEPT.replace("32768", str(2**64 - 1)), encoding="utf-8")
        status, told, wrong = run_command("explain", str(self.kept))
        self.assertEqual((status, told, wrong.count("\n")), (2, "", 1))
        self.assertIn("the configuration is refused", wrong)

    def test_an_image_that_another_program_has_locked(self) -> None:
        with open(self.image, "rb") as held:
            fcntl.flock(held, fcntl.LOCK_EX)
            for command, script in (("explain", self.kept), ("timeline", self.kept), ("explore", self.marked),
                                    ("test", self.kept)):
                status, told, wrong = run_command(command, str(script), "--image", str(self.image))
                with self.subTest(command):
                    self.assertEqual((status, told, wrong.count("\n")), (2, "", 1))
                    self.assertIn(f"{self.image} is in use: another program has it locked", wrong)


if __name__ == "__main__":
    unittest.main()
