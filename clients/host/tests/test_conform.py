"""Tests `python3 -m nvmesim conform` over nvmehost, with controllers of the proved subsystem instead of a device."""
import json
import os
import subprocess
import sys
from contextlib import contextmanager

from support.host import building
from support.library.checks import TIME, TOP
from tests.test_nvmehost import HERE, Over

FIRST, SECOND = ADDRESSES = "0000:00:04.0", "0000:00:05.0"
BOTH = ["--nvmehost", FIRST, "--nvmehost", SECOND]
WRITTEN = "written: blocks 0 to 15 and 1008 to 1023, with data and with zeros\n"
RESERVED = "set and cleared: registrations, reservations and what persists of the namespace\n"
UNSENT = "left out, since nvmehost does not send it: write protection, attachment, blocks after the last one\n"
PLAN = "".join(f"{address}: Multi-Host Subsystem NVMESIM, controller {nth}, namespace 1 of 1024 blocks\n"
               for nth, address in enumerate(ADDRESSES, 1)) + WRITTEN + RESERVED + UNSENT
UNASKED = "nvmesim: nothing was written: give --destroy-data to write, or --dry-run to print the plan\n"
IN_USE = f"nvmesim: {FIRST} has registrants, so it is in use; nothing was written\n"
NO_HOST = f"left out, since {FIRST} answers the Host Identifier with 0:02: reservations\n"
# The commands that each controller has to execute in scenes of two hosts: all I/O commands, and no other.
IO_COMMANDS = {f"io {it:02x}" for it in (0x00, 0x01, 0x02, 0x05, 0x08, 0x0D, 0x0E, 0x11, 0x15)}
SCENES = 3
# Scenes until a fault must be found; they are short, since the difference is made as short as it can be.
FAULTY = ["--scenes", "60", "--length", "10"]
# What can't be compared.
REFUSED = (
    (["--nvmehost", FIRST, "--nvmehost", "0000:00:06.0"],
     "nvmehost: 0000:00:06.0: there is no such PCI device; lspci -D lists them"),
    (["--nvmehost", "disk"], "nvmehost: disk is no PCI address, such as 0000:00:04.0; lspci -D lists them"),
    (["--nvmehost", FIRST, "--nsid", "2"], "the namespace has 0 blocks, but the comparison needs at least 64"),
    (["--nvmehost", FIRST, "--nsid", "65"],
     f"{FIRST}: nvmehost refuses identify: namespaces above 64 are not supported"),
    (["--nvmehost", FIRST, "--nvmehost", FIRST], f"--nvmehost {FIRST} is given twice; two hosts need two controllers"),
)


def io_of(counts):
    """The I/O commands among those that a controller executed."""
    return {it for it in counts if it.startswith("io ")}


class TestConform(Over):
    def setUp(self):
        super().setUp()
        sources = [it for it in building.PROGRAM if it != "vfio.c"]
        self.program, self.count = self.made("nvmehost", (*sources, "tests/shared_vfio.c")), 0
        live = subprocess.run([str(TOP / "nvmelive"), "--where"], stdout=subprocess.PIPE, text=True, check=True).stdout
        self.environment = {**os.environ, "NVMELIVE": live.strip(), "NVMEHOST": str(self.program),
                            "PYTHONPATH": str(TOP / "clients/python")}

    @contextmanager
    def controllers(self, *fault):
        """The environment of a program for new controllers, and a list that gets what they executed."""
        self.count += 1
        folder, executed = self.room / f"controllers{self.count}", []
        folder.mkdir()
        words = [sys.executable, str(HERE / "modelled.py"), str(folder), *fault]
        with subprocess.Popen(words, stdin=subprocess.PIPE, stdout=subprocess.PIPE, text=True,
                              env=self.environment) as bus:
            bus.stdout.readline()
            yield {**self.environment, "MODELLED": str(folder)}, executed
            executed.append(json.loads(bus.communicate(timeout=TIME)[0]))

    def nvmesim(self, environment, *words):
        """Status, output and errors of the command."""
        done = subprocess.run([sys.executable, "-m", "nvmesim", *words], cwd=self.room, env=environment, timeout=TIME,
                              stdin=subprocess.DEVNULL, capture_output=True, text=True)
        return done.returncode, done.stdout, done.stderr

    def conform(self, environment, *words):
        return self.nvmesim(environment, "conform", *words)

    def test_controllers_of_the_model(self):
        """They are as the model is."""
        for words, skipped in ((BOTH, 3), (["--nvmehost", SECOND, "--nvmehost", FIRST, "--seed", "900"], 3),
                               (["--nvmehost", SECOND], 4)):
            with self.subTest(words):
                with self.controllers() as (environment, executed):
                    done = self.conform(environment, *words, "--destroy-data", "--scenes", str(SCENES))
                self.assertEqual((done[0], done[2]), (0, ""), done[1])
                self.assertIn(f"no difference in {SCENES} scenes of 40 commands, from seed ", done[1])
                self.assertIn(f"\nskipped, {skipped} kinds: ", done[1])
                self.assertEqual({address: io_of(counts) for address, counts in executed[0].items()},
                                 {it: IO_COMMANDS if it in words else set() for it in ADDRESSES})

    def test_data_is_safe(self):
        """Nothing is written without --destroy-data, nor to a namespace with registrants."""
        for words, wanted in (([*BOTH, "--dry-run"], (0, PLAN, "")), (BOTH, (2, PLAN, UNASKED)),
                              ([*BOTH, "--dry-run", "--destroy-data"], (0, PLAN, ""))):
            with self.subTest(words):
                with self.controllers() as (environment, executed):
                    self.assertEqual(self.conform(environment, *words), wanted)
                self.assertEqual([io_of(it) for it in executed[0].values()], [set()] * len(executed[0]))
        with self.controllers() as (environment, executed):
            register = [FIRST, "resv-register", "1", "--host-identifier", b"nvmesim-cntlid\1\0".hex(), "--nrkey", "1"]
            self.assertEqual(subprocess.run([str(self.program), *register], env=environment).returncode, 0)
            self.assertEqual(self.conform(environment, *BOTH, "--destroy-data"), (2, PLAN, IN_USE))
        self.assertEqual(set().union(*map(io_of, executed[0].values())), {"io 0d", "io 0e"})

    def test_faults(self):
        """Controllers with a fault differ, and the script of the difference has the model's answer."""
        for fault, said in (("write", "# The device answers 0:00 with block "),
                            ("conflict", "# The device answers 0:00, and the model 0:83.")):
            with self.subTest(fault):
                with self.controllers(fault) as (environment, _):
                    done = self.conform(environment, *BOTH, "--destroy-data", *FAULTY, "--output", f"{fault}.nvme")
                self.assertEqual(done[0], 1, done)
                self.assertIn(said, done[1])
                self.assertIn(" differs after ", done[2])
                told = self.nvmesim(self.environment, "test", f"{fault}.nvme")
                self.assertEqual(told[0], 0, told)

    def test_no_host_identifier(self):
        with self.controllers("host") as (environment, _):
            done = self.conform(environment, *BOTH, "--destroy-data", "--scenes", "1")
        self.assertEqual(done[0], 0, done)
        self.assertIn(NO_HOST, done[1])
        self.assertIn("\nskipped, 4 kinds: ", done[1])

    def test_refused(self):
        with self.controllers() as (environment, _):
            for words, wanted in REFUSED:
                with self.subTest(words):
                    done = self.conform(environment, *words, "--destroy-data")
                    self.assertEqual(done, (2, "", f"nvmesim: {wanted}\n"))
