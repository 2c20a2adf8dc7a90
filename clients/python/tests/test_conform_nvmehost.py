"""A comparison over nvmehost: the lines for a session, and its results. A stand-in replaces the program; the trials of
scripts/host have the rest."""
from __future__ import annotations

import contextlib
import io
import json
import os
import struct
import sys
from dataclasses import replace
from typing import List
from unittest import mock

from nvmesim.__main__ import main
from nvmesim.conform import Abilities, DeviceFault, Nvmehost, Step
from nvmesim.conform.device import Command
from nvmesim.conform.nvmehost import host_of

from .support import FolderCase

STANDIN = f"""#!{sys.executable}
import json, os, pathlib, sys
folder = pathlib.Path(__file__).parent
(folder / "words").write_text(" ".join(sys.argv[1:]))
answers = json.loads((folder / "answers").read_text())
for line in sys.stdin:
    with open(folder / "lines", "a") as lines:
        lines.write(line)
    word = line.split()[0] + (line.split()[1] if line.startswith("identify") else "")
    if word not in answers:
        sys.exit((folder / "told").read_text())
    print(answers[word], flush=True)
(folder / "ended").write_text("")
"""
GOOD = '{"command":"x","status":"0:00","dw0":0}'


def with_data(data: bytes) -> str:
    return f'{{"command":"x","status":"0:00","dw0":0,"data":"{data.hex()}"}}'


def identify_data(cntlid: int = 7, oncs: int = 0x29, nqn: bytes = b"nqn.s") -> List[bytes]:
    """The data of Identify: of a controller, and of a namespace of 64 blocks with reservations."""
    controller, namespace = bytearray(4096), bytearray(4096)
    controller[4:64] = b"SERIAL".ljust(20) + b"MODEL".ljust(40)
    struct.pack_into("<H", controller, 78, cntlid)
    struct.pack_into("<H", controller, 520, oncs)
    controller[256], controller[531] = 8, 1  # Namespace Attachment, and write protection
    controller[768:768 + len(nqn)] = nqn
    struct.pack_into("<Q", namespace, 0, 64)
    namespace[31], namespace[130] = 0x7E, 9
    return [bytes(controller), bytes(namespace)]


class NvmehostCase(FolderCase):
    """A test with a stand-in for nvmehost."""

    def setUp(self) -> None:
        super().setUp()
        program = self.folder / "nvmehost"
        program.write_text(STANDIN, encoding="ascii")
        program.chmod(0o755)
        patched = mock.patch.dict(os.environ, {"NVMEHOST": str(program)})
        patched.start()
        self.addCleanup(patched.stop)

    def give(self, told: str = "", **answers: str) -> None:
        """What the program answers to a line with a word; it ends at others, with these words."""
        known = {it.replace("_", "-"): text for it, text in answers.items()}
        (self.folder / "answers").write_text(json.dumps(known), encoding="ascii")
        (self.folder / "told").write_text(told, encoding="ascii")

    def lines(self) -> List[str]:
        """The lines that the program got."""
        return (self.folder / "lines").read_text(encoding="ascii").splitlines()

    def opened(self, nsid: int = 1) -> Nvmehost:
        device = Nvmehost("0000:00:04.0", nsid)
        self.addCleanup(device.close)
        return device


class LineTest(NvmehostCase):
    def test_each_step_is_a_line(self) -> None:
        self.give(**{it: GOOD for it in ("read", "write", "compare", "zeroes", "flush", "resv_register", "resv_acquire",
                                         "resv_release", "resv_report", "identify3")})
        device = self.opened(3)
        write = Step(0, "write", (1 << 33, 2, 1))
        for step, line in (
                (Step(0, "read", (5, 3)), "read 3 5 3"), (write, f"write 3 8589934592 {write.data.hex()}"),
                (Step(0, "compare", (5, 1, 0)), f"compare 3 5 {bytes(512).hex()}"),
                (Step(0, "zeroes", (5, 8)), "zeroes 3 5 8"), (Step(0, "flush"), "flush 3"),
                (Step(0, "register", (2, 1, 3, 17, 34)), "resv-register 3 --rrega 2 --iekey --cptpl 3 --crkey 17 --nrkey 34"),
                (Step(0, "register", (0, 0, 0, 0, 1)), "resv-register 3 --rrega 0 --cptpl 0 --crkey 0 --nrkey 1"),
                (Step(0, "acquire", (1, 6, 1, 2)), "resv-acquire 3 --racqa 1 --rtype 6 --crkey 1 --prkey 2"),
                (Step(0, "release", (1, 5, 9)), "resv-release 3 --rrela 1 --rtype 5 --crkey 9"),
                (Step(0, "report"), "resv-report 3 256"), (Step(0, "identify"), "identify 3")):
            self.assertEqual(device.submit(step.command([7])).status, "0:00", step)
            self.assertEqual(self.lines()[-1], line)
        device.close()
        self.assertEqual((self.folder / "words").read_text(), "0000:00:04.0 session")
        self.assertTrue((self.folder / "ended").exists())

    def test_results(self) -> None:
        self.give(read=with_data(b"ab" * 256), flush='{"command":"flush","status":"0:83","dw0":5}',
                  zeroes='{"refused":"it is too long"}', write="ok", compare="[]", told="nvmehost: it is late\nnvmehost: it is gone")
        device = self.opened()
        self.assertEqual(device.submit(Command(False, 2, wanted=4)).data, b"abab")
        denied = device.submit(Command(False, 0))
        self.assertEqual((denied.status, denied.value, denied.data), ("0:83", 5, b""))
        for command, reason in (
                (Command(False, 8), "nvmehost refuses zeroes: it is too long$"),
                (Command(False, 1, sent=bytes(512)), "nvmehost answers 'write 1 0 .*' with 'ok'$"),
                (Command(False, 5, sent=bytes(512)), "nvmehost answers 'compare 1 0 .*' with '\\[\\]'$"),
                (Command(True, 9, 0x84), "nvmehost has no command for opcode 9h$"),
                (Command(False, 0x0E, 255, 1, wanted=1024), "^nvmehost: it is late; nvmehost: it is gone$")):
            with self.assertRaisesRegex(DeviceFault, reason):
                device.submit(command)


class AbilitiesTest(NvmehostCase):
    def give_identify(self, host: str = GOOD, oncs: int = 0x29) -> None:
        controller, namespace = identify_data(oncs=oncs)
        self.give(identify0=with_data(controller), identify1=with_data(namespace), host_identifier=host)

    def test_of_the_device_and_the_driver(self) -> None:
        self.give_identify()
        able = self.opened().abilities()
        self.assertEqual((able.blocks, able.cntlid, able.model, able.nqn), (64, 7, "MODEL SERIAL", "nqn.s"))
        self.assertEqual((able.has_compare, able.has_zeroes, able.rtypes), (True, True, (1, 2, 3, 4, 5, 6)))
        self.assertEqual((able.has_protection, able.has_attachment, able.has_past_end), (False, False, False))
        self.assertEqual(able.host, int.from_bytes(host_of(7), "little"))
        self.assertEqual(self.lines()[-1], f"host-identifier {host_of(7).hex()}")
        self.assertEqual(len(host_of(7)), 16)

    def test_a_host_identifier_that_is_refused(self) -> None:
        self.give_identify('{"command":"x","status":"0:02","dw0":0}')
        able = self.opened().abilities()
        self.assertEqual(able.rtypes, ())
        self.assertIn(("reservations", "0000:00:04.0 answers the Host Identifier with 0:02"), able.missing)

    def test_none_is_set_without_reservations(self) -> None:
        self.give_identify(oncs=9)
        self.assertEqual(self.opened().abilities().rtypes, ())
        self.assertEqual(self.lines(), ["identify 0", "identify 1"])


class CommandTest(NvmehostCase):
    def refused(self, *words: str) -> str:
        """What the command says, which ends with status 2."""
        wrong = io.StringIO()
        with contextlib.redirect_stderr(wrong), contextlib.redirect_stdout(io.StringIO()):
            self.assertEqual(main(["conform", *words]), 2)
        return wrong.getvalue()

    def test_options_that_do_not_belong_together(self) -> None:
        """They are refused before a program is started."""
        for words, reason in (
                (["--nvmehost", "a", "--second", "b"], "--second is a device of Linux; give --nvmehost a second time instead"),
                (["--nvmehost", "a", "--nvmehost", "A"], "--nvmehost a is given twice; two hosts need two controllers"),
                (["--nvmehost", "a", "--nvmehost", "b", "--nvmehost", "c"],
                 "--nvmehost is given 3 times; at most 2 controllers are compared"),
                (["--nvmehost", "a", "--nsid", "0"], "--nsid 0 is no namespace: they begin with 1"),
                (["--device", "a", "--nsid", "1"],
                 "--nsid belongs to --nvmehost; a device such as /dev/nvme0n1 is one namespace")):
            self.assertEqual(self.refused(*words, "--destroy-data"), f"nvmesim: {reason}\n")
        for words, reason in (([], "one of the arguments --device --nvmehost is required"),
                              (["--device", "a", "--nvmehost", "b"], "not allowed with argument")):
            wrong = io.StringIO()
            with contextlib.redirect_stderr(wrong), self.assertRaises(SystemExit) as ended:
                main(["conform", *words])
            self.assertEqual(ended.exception.code, 2)
            self.assertIn(reason, wrong.getvalue())
        self.assertFalse((self.folder / "words").exists())

    def test_a_program_that_is_not_there(self) -> None:
        with mock.patch.dict(os.environ, {"NVMEHOST": str(self.folder / "none")}):
            self.assertIn("is no program that can be run: `scripts/host FOLDER` builds bin/nvmehost",
                          self.refused("--nvmehost", "0000:00:04.0"))

    def test_two_that_are_one_or_of_two_subsystems(self) -> None:
        controller, namespace = identify_data()
        self.give(identify0=with_data(controller), identify1=with_data(namespace), host_identifier=GOOD)
        self.assertEqual(self.refused("--nvmehost", "a", "--nvmehost", "b", "--destroy-data"),
                         "nvmesim: both devices are controller 7; two hosts need two controllers\n")
        able = Nvmehost.abilities
        for name, value in (("nqn", "nqn.t"), ("model", "MODEL OTHER"), ("blocks", 65)):
            def other(device: Nvmehost, name: str = name, value: object = value) -> Abilities:
                found = replace(able(device), cntlid=ord(device.path))
                return replace(found, **{name: value}) if device.path == "b" else found  # type: ignore[arg-type]

            with mock.patch.object(Nvmehost, "abilities", other):
                self.assertEqual(self.refused("--nvmehost", "a", "--nvmehost", "b", "--destroy-data"),
                                 "nvmesim: the two devices are not the same namespace\n")
        self.assertEqual({it.split()[0] for it in self.lines()}, {"identify", "host-identifier"})
