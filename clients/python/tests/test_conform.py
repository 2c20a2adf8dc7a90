"""A device compared with the model, without a device: scenes, and what a step is for either side. The lab's trials have
the rest."""
from __future__ import annotations

import argparse
import contextlib
import errno
import io
import os
import struct
import unittest
from dataclasses import replace
from typing import List
from unittest import mock

from nvmesim.__main__ import main
from nvmesim.conform import Abilities, Answer, Judge, Step, scene
from nvmesim.conform.command import compare
from nvmesim.conform.device import Command, Device, DeviceFault
from nvmesim.conform.steps import Places

from .support import LIVE, STANDIN

ABLE = Abilities(2048, True, 1, 0xA1, "model", 256, True, True, True, True, (1, 2, 3, 4, 5, 6), True)
PLAIN = replace(ABLE, has_compare=False, has_zeroes=False, has_protection=False, has_attachment=False, rtypes=(),
                has_persistence=False)


class Zeros:
    """A device whose blocks are all zeros, whatever is written."""

    def __init__(self) -> None:
        self.came: List[Command] = []

    def submit(self, command: Command) -> Answer:
        self.came.append(command)
        return Answer("0:00", data=bytes(command.wanted))


class SceneTest(unittest.TestCase):
    def test_a_seed_has_one_scene(self) -> None:
        self.assertEqual(scene(7, [ABLE, ABLE], 50), scene(7, [ABLE, ABLE], 50))
        self.assertNotEqual(scene(7, [ABLE, ABLE], 50), scene(8, [ABLE, ABLE], 50))

    def test_what_a_device_lacks_is_left_out(self) -> None:
        able = {it.verb for it in scene(1, [ABLE, ABLE], 2000)}
        self.assertEqual(able, {"read", "write", "flush", "compare", "zeroes", "identify", "protect", "protection",
                                "attach", "detach", "register", "acquire", "release", "report"})
        self.assertEqual({it.verb for it in scene(1, [ABLE, PLAIN], 2000)}, {"read", "write", "flush", "identify"})
        few = replace(ABLE, rtypes=(1, 3))
        tried = {it.numbers[1] for it in scene(1, [few], 2000) if it.verb == "acquire"}
        self.assertEqual(tried, {0, 1, 3, 7})
        self.assertEqual({it.numbers[2] for it in scene(1, [replace(ABLE, has_persistence=False)], 900)
                          if it.verb == "register"}, {0})

    def test_only_blocks_of_the_plan_are_written(self) -> None:
        for it in scene(3, [ABLE, ABLE], 3000):
            if it.verb in ("write", "zeroes"):
                slba, count, *_ = it.numbers
                self.assertTrue(slba + count <= 16 or slba >= 2048 - 16, it)
            if it.verb == "protect":
                self.assertNotEqual(it.numbers[0], 2)
            if it.verb == "detach":  # such a list is always refused
                self.assertFalse(it.numbers and it.numbers == tuple(sorted(set(it.numbers))), it)

    def test_blocks_past_the_end_are_left_out(self) -> None:
        ends = {whole: max(sum(it.numbers[:2]) for it in scene(3, [able, ABLE], 3000) if it.verb == "read")
                for whole, able in ((True, ABLE), (False, replace(ABLE, has_past_end=False)))}
        self.assertGreater(ends[True], 2048)
        self.assertEqual(ends[False], 2048)


class StepTest(unittest.TestCase):
    places = Places(1 << 40, 1024)

    def test_lines_and_commands(self) -> None:
        last = (1 << 40) - 2
        write = Step(1, "write", (last, 1, 2))
        self.assertTrue(write.line(self.places).startswith("write 2 1 1022 1 hex:02000100"))
        command = write.command([3, 4])
        self.assertEqual((command.opcode, command.cdw10, command.cdw11, command.cdw12, len(command.sent)),
                         (1, last & 0xFFFFFFFF, last >> 32, 0, 512))
        self.assertEqual(len({Step(0, "write", (0, 3, 1)).data[n:n + 512] for n in range(0, 1536, 512)}), 3)
        register = Step(0, "register", (2, 1, 3, 0x11, 0x22))
        self.assertEqual(register.line(self.places), "register 1 1 2 1 3 17 34")
        self.assertEqual(register.command([1]), Command(False, 0x0D, 0xC000000A, sent=struct.pack("<QQ", 0x11, 0x22)))
        attach = Step(0, "attach", (0, 1))
        self.assertEqual(attach.line(self.places), "attach 1 1 1 2")
        self.assertEqual(attach.command([5, 9]).sent[:6], struct.pack("<HHH", 2, 5, 9))
        self.assertEqual(Step(0, "acquire", (1, 6, 1, 2)).command([1]).cdw10, 0x601)
        self.assertEqual(Step(0, "identify").line(self.places), "identify 1 0 1")

    def test_a_device_that_forgets_is_found_and_made_short(self) -> None:
        device = Zeros()
        judge = Judge([device], [PLAIN], STANDIN)
        # The stand-in of the program knows no Identify.
        steps = [it for it in scene(1, [PLAIN], 30) if it.verb != "identify"]
        found = judge.play(steps)
        assert found is not None
        shortest = judge.shortened(found)
        self.assertLessEqual(len(shortest.steps), 2)
        self.assertIn("write", [it.verb for it in shortest.steps])
        script = list(judge.script(shortest))
        self.assertTrue(script[0].startswith("# The device answers 0:00"), script[0])
        self.assertEqual(script[-1], f"# expect * {shortest.model[0]}")

    @unittest.skipUnless(LIVE, "nvmelive is not built")
    def test_each_kind_of_difference_is_reported_once(self) -> None:
        told: List[List[str]] = []
        for is_all in (False, True):
            words = argparse.Namespace(seed=1, scenes=4, length=30, all=is_all, output=None)
            shown = io.StringIO()
            with contextlib.redirect_stdout(shown), contextlib.redirect_stderr(io.StringIO()):
                self.assertEqual(compare(words, Judge([Zeros()], [PLAIN], LIVE)), 1)
            told.append([it for it in shown.getvalue().splitlines() if it.startswith("# The device answers")])
        first, each = told
        self.assertEqual(first, each[:1])
        self.assertGreater(len(each), 1)
        self.assertEqual(len(set(each)), len(each), each)
        self.assertIn("# The device answers 0:00, and the model 0:80.", each)

    def test_a_terminal_shows_the_progress(self) -> None:
        class Terminal(io.StringIO):
            def isatty(self) -> bool:
                return True

        words = argparse.Namespace(seed=5, scenes=2, length=30, all=False, output=None)
        for stream, told in ((Terminal(), "\rscene 1 of 2\033[K\r\033[K\rscene 2 of 2\033[K\r\033[K"),
                             (io.StringIO(), "")):
            judge = Judge([Zeros()], [PLAIN], STANDIN)
            with mock.patch.object(judge, "play", lambda _: None), contextlib.redirect_stdout(io.StringIO()), \
                    contextlib.redirect_stderr(stream):
                self.assertEqual(compare(words, judge), 0)
            self.assertEqual(stream.getvalue(), told)

    def test_a_device_that_disappears_after_a_difference(self) -> None:
        """The difference is printed as it was found, and the search ends there."""
        class Gone(Zeros):
            most = 0

            def submit(self, command: Command) -> Answer:
                if self.most and len(self.came) >= self.most:
                    raise DeviceFault("the system refuses it")
                return super().submit(command)

        steps, plain = [it for it in scene(1, [PLAIN], 30) if it.verb != "identify"], Zeros()
        found = Judge([plain], [PLAIN], STANDIN).play(steps)
        assert found is not None
        gone = Gone()
        gone.most = len(plain.came)
        words = argparse.Namespace(seed=1, scenes=4, length=30, all=True, output=None)
        shown, wrong = io.StringIO(), io.StringIO()
        with contextlib.redirect_stdout(shown), contextlib.redirect_stderr(wrong), \
                mock.patch("nvmesim.conform.command.scene", lambda *_: steps):
            self.assertEqual(compare(words, Judge([gone], [PLAIN], STANDIN)), 1)
        self.assertEqual(shown.getvalue().splitlines(), list(Judge([plain], [PLAIN], STANDIN).script(found)))
        self.assertEqual(wrong.getvalue().count("it can't be reduced: the system refuses it; it was "), 1)

    def test_what_the_system_refuses(self) -> None:
        """A device that something else has open for itself, one that is none, and a command that is not executed."""
        def busy(path: str, flags: int) -> int:
            self.assertTrue(flags & os.O_EXCL, path)
            raise OSError(errno.EBUSY, os.strerror(errno.EBUSY), path)

        wrong = io.StringIO()
        with mock.patch("nvmesim.conform.device.os.open", busy), contextlib.redirect_stderr(wrong):
            self.assertEqual(main(["conform", "--device", "/dev/nvme0n1", "--destroy-data"]), 2)
        self.assertEqual(wrong.getvalue(), "nvmesim: can't open /dev/nvme0n1: Device or resource busy\n")
        with self.assertRaisesRegex(DeviceFault, "^/dev/null is no namespace of an NVMe device"):
            Device("/dev/null")
        with mock.patch("nvmesim.conform.device.fcntl.ioctl", side_effect=[1, OSError(errno.EINVAL, "")]):
            device = Device("/dev/null")
            with self.assertRaisesRegex(DeviceFault, "^/dev/null: the system refuses opcode 2h: EINVAL$"):
                device.submit(Command(False, 2, wanted=512))
            device.close()

    def test_devices_that_can_t_be_compared(self) -> None:
        class Told:
            def __init__(self, blocks: int, lbads: int) -> None:
                self.space = bytearray(4096)
                struct.pack_into("<Q", self.space, 0, blocks)
                self.space[130] = lbads

            def submit(self, command: Command) -> Answer:
                return Answer("0:00", data=bytes(self.space) if command.cdw10 == 0 else bytes(command.wanted))

        with self.assertRaisesRegex(DeviceFault, "has 63 blocks"):
            Abilities.of(Told(63, 9))
        with self.assertRaisesRegex(DeviceFault, "blocks of 4096 bytes"):
            Abilities.of(Told(64, 12))
        told = Abilities.of(Told(64, 9))
        self.assertEqual((told.blocks, told.rtypes, told.has_compare, told.most_blocks), (64, (), False, 256))
