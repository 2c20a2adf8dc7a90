"""The resource agent: by ocf-tester, and over a target that is stopped."""
import os
import shutil
import signal
import subprocess
import time
import unittest
from pathlib import Path
from typing import Set

from tests.targets import PROGRAM
from tests.volumes import VolumeTest

AGENT = Path(__file__).resolve().parent.parent / "ocf/nvmetcp"
OCF = Path("/usr/lib/ocf")
NO_ERROR, GENERIC, NOT_INSTALLED, NOT_CONFIGURED, NOT_RUNNING = 0, 1, 5, 6, 7
# Takes the place of each program: it notes the name, and runs that program.
NOTES = """#!/bin/sh
echo "${0##*/}" >>"${0%/*}/../started"
PATH=${PATH#*:} exec "${0##*/}" "$@"
"""


@unittest.skipUnless((OCF / "lib/heartbeat/ocf-shellfuncs").exists() and os.geteuid() == 0, "it needs Debian's package")
class Agent(VolumeTest):
    def setUp(self) -> None:
        super().setUp()
        self.rundir = self.room / "run"
        self.settings = {"volume": str(self.volume), "program": PROGRAM, "rundir": str(self.rundir),
                         "options": "--listen 127.0.0.1:0"}
        self.addCleanup(self.act, "stop")

    def act(self, action: str) -> int:
        environment = {**os.environ, "OCF_ROOT": str(OCF), "OCF_RESOURCE_INSTANCE": "disk",
                       **{f"OCF_RESKEY_{name}": value for name, value in self.settings.items()}}
        return subprocess.run([str(AGENT), action], env=environment, stdout=subprocess.DEVNULL,
                              stderr=subprocess.DEVNULL, timeout=30).returncode

    def test_actions(self) -> None:
        self.assertEqual([self.act("monitor"), self.act("stop")], [NOT_RUNNING, NO_ERROR])
        self.assertEqual([self.act("validate-all"), self.act("start")], [NOT_INSTALLED] * 2)
        self.format()
        self.assertEqual([self.act(it) for it in ("validate-all", "start", "start", "monitor")], [NO_ERROR] * 4)
        os.kill(int((self.rundir / "pid").read_text()), signal.SIGSTOP)
        self.assertEqual([self.act("monitor"), self.act("stop"), self.act("monitor")],
                         [GENERIC, NO_ERROR, NOT_RUNNING])
        self.assertEqual([self.act("start"), self.act("stop")], [NO_ERROR] * 2)
        self.assertIn("owner nobody", self.passes("dump", self.volume))

    def test_a_start_that_fails(self) -> None:
        """The result says whether another machine can serve: not with wrong options, but if this volume is damaged."""
        self.format()
        other = self.target()
        self.assertEqual([self.act("start"), self.act("monitor")], [GENERIC, NOT_RUNNING])
        other.close()
        self.settings["options"] = "--listen nowhere"
        self.assertEqual([self.act("start"), self.act("monitor")], [NOT_CONFIGURED, NOT_RUNNING])
        self.volume.write_bytes(self.volume.read_bytes()[:-1024 * 1024])
        self.settings["options"] = "--listen 127.0.0.1:0"
        self.assertEqual([self.act("start"), self.act("monitor")], [NOT_INSTALLED, NOT_RUNNING])

    def started_by(self, action: str) -> Set[str]:
        """The programs that the agent starts for an action, from the folders of PATH."""
        folder, started, before = self.room / "noted", self.room / "started", os.environ["PATH"]
        if not folder.exists():
            folder.mkdir()
            (self.room / "notes").write_text(NOTES)
            (self.room / "notes").chmod(0o755)
            for name in {it.name for place in before.split(":") for it in Path(place).glob("*")}:
                (folder / name).symlink_to(self.room / "notes")
        started.write_text("")
        os.environ["PATH"] = f"{folder}:{before}"
        try:
            self.act(action)
        finally:
            os.environ["PATH"] = before
        return set(started.read_text().split())

    def test_programs(self) -> None:
        """Hosts wait while the agent acts, and a busy machine takes long to start a program: it starts few."""
        self.format()
        shell = self.started_by("usage")
        self.assertLessEqual(self.started_by("start") - shell, {"mkdir", "setsid", "timeout", "sleep", "readlink"})
        self.assertEqual(self.started_by("monitor") - shell, {"timeout"})
        self.assertEqual(self.started_by("stop") - shell - {"sleep"}, {"seq", "rm"})

    def test_a_program_that_was_replaced(self) -> None:
        """The agent knows its target after an update of the program, and another program is none."""
        self.format()
        program = self.room / "nvmetcp"
        shutil.copy(PROGRAM, program)
        self.settings["program"] = str(program)
        self.assertEqual(self.act("start"), NO_ERROR)
        program.unlink()
        shutil.copy(PROGRAM, program)
        self.assertEqual([self.act("monitor"), self.act("stop"), self.act("monitor")],
                         [NO_ERROR, NO_ERROR, NOT_RUNNING])
        (self.rundir / "pid").write_text(f"{os.getpid()}\n")
        self.assertEqual([self.act("monitor"), self.act("stop")], [NOT_RUNNING, NO_ERROR])

    @unittest.skipUnless(shutil.which("cc"), "there is no cc")
    def test_a_thread_that_is_left(self) -> None:
        """A process runs until its last thread has ended: `stop` must not succeed before."""
        self.format()
        program = self.room / "leaderless"
        source = Path(__file__).parent / "leaderless.c"
        subprocess.run(["cc", "-O1", "-Wall", "-Wextra", "-pthread", "-o", program, source], check=True)
        self.settings["program"] = str(program)
        self.assertEqual(self.act("start"), NO_ERROR)
        number = (self.rundir / "pid").read_text().strip()
        os.kill(int(number), signal.SIGUSR1)
        self.wait_for_state(number, "Z")
        self.assertEqual([self.act("monitor"), self.act("stop")], [NO_ERROR] * 2)
        threads = list(Path(f"/proc/{number}/task").glob("*"))
        self.assertLessEqual(len(threads), 1, "a thread of the process is left")
        self.assertEqual(self.act("monitor"), NOT_RUNNING)

    def wait_for_state(self, number: str, state: str) -> None:
        """Waits until the first thread of a process is in a state of proc(5)."""
        last = time.monotonic() + 5
        while Path(f"/proc/{number}/stat").read_text(encoding="ascii").rpartition(")")[2].split()[0] != state:
            self.assertLess(time.monotonic(), last)
            time.sleep(0.01)

    @unittest.skipUnless(shutil.which("ocf-tester"), "there is no ocf-tester")
    def test_ocf_tester(self) -> None:
        self.format()
        settings = [word for name, value in self.settings.items() for word in ("-o", f"{name}={value}")]
        ran = subprocess.run(["ocf-tester", "-n", "disk", *settings, str(AGENT)], stdout=subprocess.PIPE,
                             stderr=subprocess.STDOUT, text=True, timeout=60)
        self.assertIn("passed all tests", ran.stdout)


del VolumeTest
