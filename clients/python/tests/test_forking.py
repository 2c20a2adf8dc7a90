"""Programs that are forked where they wait: equal to programs that are begun anew, few, and all gone at the end."""
from __future__ import annotations

import contextlib
import io
import os
import shutil
import signal
import socket
import subprocess
import sys
import time
import unittest
from pathlib import Path
from typing import Callable, List, Optional, Set
from unittest import mock

from nvmesim.__main__ import main
from nvmesim.explore import Medium, Plan, Programs, Walk, programs_of
from nvmesim.explore.branches import NoFork
from nvmesim.explore.library import NoLibrary, forking_library, walking_library

from .inprocess import one_by_one, walk_of
from .support import LIVE, PACKAGE, RACE, STANDIN, FolderCase, heed_interrupts
from .test_explore import POWER, SHARED, SMALL

PROGRAM = LIVE or STANDIN
HAS_COMPILER = shutil.which(os.environ.get("CC", "cc")) is not None
# It answers two lines: the first with two answers, the second with a long one and a short one.
TALKING = r"""
import os
os.read(0, 9)
os.write(1, b"one\n")
os.write(1, b"two\n")
os.read(0, 9)
os.write(1, b"x" * 100000)
os.write(1, b"end\n")
"""
# More orders than an exploration finishes during a test.
LONG = SHARED.split("# host a")[0] + "".join(
    f"# host {part}\n" + f"write 1 1 {n} 1 hex:a{n}\nring 1\nfetch 1 1\nexecute 1 0\npoll 1\n" * 3
    for n, part in enumerate("abcd"))


def session_of(pid: int) -> Optional[int]:
    """The session of a process, None if it runs no more."""
    try:
        words = Path(f"/proc/{pid}/stat").read_text().rsplit(")", 1)[1].split()
    except (OSError, IndexError):
        return None
    return None if words[0] in "ZX" else int(words[3])


def begun_by(pid: int) -> Set[int]:
    """The process sessions that a process has started for its programs."""
    found: Set[int] = set()
    for task in Path(f"/proc/{pid}/task").glob("*/children"):
        with contextlib.suppress(OSError):
            found |= {int(it) for it in task.read_text().split()}
    return {it for it in found if session_of(it) == it}


def in_sessions(sessions: Set[int]) -> List[int]:
    """The processes of some sessions that still run."""
    processes = [int(it.name) for it in Path("/proc").iterdir() if it.name.isdigit()]
    return [it for it in processes if session_of(it) in sessions]


def wait_until(what: Callable[[], bool], seconds: float = 20.0) -> bool:
    """Waits until something holds; whether it did."""
    until = time.monotonic() + seconds
    while time.monotonic() < until:
        if what():
            return True
        time.sleep(0.05)
    return False


@unittest.skipUnless(HAS_COMPILER, "there is no C compiler")
class GatheringTest(unittest.TestCase):
    def test_answers_come_together(self) -> None:
        """A program's output is sent as one message when it waits for a line or ends; long output is sent
        immediately."""
        ours, theirs = socket.socketpair(socket.AF_UNIX, socket.SOCK_SEQPACKET)
        ours.settimeout(20.0)
        environment = {**os.environ, "LD_PRELOAD": str(forking_library())}
        with ours, subprocess.Popen([sys.executable, "-c", TALKING], stdin=theirs, stdout=theirs,
                                    env=environment) as program:
            theirs.close()
            self.assertEqual(ours.recv(100), b"\0%d\n" % program.pid)
            ours.send(b"first")
            self.assertEqual(ours.recv(1 << 20), b"one\ntwo\n")
            ours.send(b"second")
            self.assertEqual(ours.recv(1 << 20), b"x" * 100000)
            self.assertEqual(ours.recv(1 << 20), b"end\n")
        self.assertEqual(program.returncode, 0)


@unittest.skipUnless(HAS_COMPILER, "there is no C compiler")
class ForkingTest(FolderCase):
    def setUp(self) -> None:
        super().setUp()
        environment = mock.patch.dict(os.environ, XDG_CACHE_HOME=str(self.folder / "cache"))
        environment.start()
        self.addCleanup(environment.stop)

    def explored(self, text: str, can_fork: bool, jobs: int = 3, image: Optional[Path] = None) -> object:
        plan = Plan(text)
        with Medium(image) as medium:
            with Programs(PROGRAM, plan.setup, 10.0, medium, forking_library() if can_fork else None) as programs:
                walk = Walk(plan, programs, jobs=jobs)
                found = walk.explore()
                self.assertEqual(programs.can_fork, can_fork)
                self.assertEqual(programs.live, int(can_fork), "each branch was closed, and the first one is left")
        return found

    def test_forked_and_begun_anew_are_the_same(self) -> None:
        for name, text in (("small", SMALL), ("power", POWER)):
            with self.subTest(name):
                forked = self.explored(text, True)
                self.assertEqual(forked, self.explored(text, False))
                self.assertEqual(forked, walk_of(Plan(text)).explore())

    def test_each_fork_has_an_image_of_its_own(self) -> None:
        image = self.folder / "image"
        image.write_bytes(bytes(512 * 64))
        text = SMALL.replace("poll 1\n", "poll 1\nread 2 1 0 1\nring 2\nfetch 2 1\nexecute 2 0\npoll 2\n")
        found = self.explored(text, True, image=image)
        self.assertEqual(found, self.explored(text, False, image=image))
        self.assertEqual(found, self.explored(text, True))
        self.assertEqual(image.read_bytes(), bytes(512 * 64))

    def test_a_system_that_forks_no_more(self) -> None:
        plan = Plan(SMALL)
        with self.assertRaises(NoFork), Programs(PROGRAM, plan.setup, 10.0, None, forking_library()) as programs:
            branch = programs.begin()
            with mock.patch("socket.send_fds"):  # as if the child were never made
                other = branch.fork()
            other.ask(["?attached"])
            programs.wait([other])

    def test_few_wait_at_once(self) -> None:
        """Those that are too many end, and are run again from the start."""
        plan = Plan(SHARED)
        with mock.patch("nvmesim.explore.walk.MOST_BRANCHES", 5):
            walk = walk_of(plan, jobs=2)
            found = walk.explore()
        self.assertLessEqual(walk.statistics.most_live, 5 + 2 + 1)
        self.assertGreater(walk.branches.begun, 1)  # type: ignore[attr-defined]
        self.assertEqual({it: ways.count for it, ways in found.items()}, one_by_one(plan))

    def test_the_library_is_compiled_once(self) -> None:
        place = forking_library()
        with mock.patch("subprocess.run", side_effect=AssertionError):
            self.assertEqual(forking_library(), place)
        self.assertEqual([it.name for it in place.parent.iterdir()], [place.name])

    def test_without_a_compiler_it_prints_a_message(self) -> None:
        told, wrong = io.StringIO(), io.StringIO()
        with mock.patch.dict(os.environ, CC="absent"), contextlib.redirect_stdout(told), \
                contextlib.redirect_stderr(wrong):
            self.assertEqual(main(["explore", str(RACE), "--program", str(PROGRAM)]), 0)
        self.assertIn("252 orders of a 5 events, b 5 events: 3 outcomes", told.getvalue())
        self.assertEqual(wrong.getvalue(), "nvmesim: there is no C compiler 'absent': orders are run again from the "
                                           "start, which is slower\n")
        broken = self.folder / "broken"
        broken.write_text("#!/bin/sh\necho no; exit 1\n", encoding="utf-8")
        broken.chmod(0o755)
        with mock.patch.dict(os.environ, CC=str(broken)), self.assertRaisesRegex(NoLibrary, "compile.*: no$"):
            forking_library()
        self.assertEqual([it for it in (self.folder / "cache" / "nvmesim").iterdir()], [])

    def test_a_program_without_the_library_is_begun_anew(self) -> None:
        plan, told = Plan(SMALL), []  # type: ignore[var-annotated]
        script = self.program(f"import os\nos.environ.pop('LD_PRELOAD', '')\n"
                              f"os.execv({str(PROGRAM)!r}, [{str(PROGRAM)!r}, *sys.argv[1:]])\n")
        with programs_of(plan, script, tell=told.append) as programs:
            self.assertEqual(Walk(plan, programs).explore(), walk_of(plan).explore())
        self.assertEqual(told, [f"{script} can't be forked: orders are run again from the start, which is slower"])

    def test_all_are_gone_at_the_end(self) -> None:
        script = self.folder / "long.nvme"
        script.write_text(LONG, encoding="utf-8")
        walking_library()  # compiled before the time runs
        for name in (signal.SIGINT, signal.SIGKILL, signal.SIGTERM):
            with self.subTest(name):
                explorer = subprocess.Popen(
                    [sys.executable, "-m", "nvmesim", "explore", str(script), "--program", str(PROGRAM), "--jobs", "2"],
                    cwd=PACKAGE, stdout=subprocess.PIPE, stderr=subprocess.PIPE, text=True, preexec_fn=heed_interrupts)
                sessions: Set[int] = set()

                def has_forked() -> bool:
                    sessions.update(begun_by(explorer.pid))
                    return len(in_sessions(sessions)) > 2

                self.assertTrue(wait_until(has_forked))
                explorer.send_signal(name)
                told, wrong = explorer.communicate(timeout=60)
                self.assertTrue(wait_until(lambda: not in_sessions(sessions)))
                if name is signal.SIGINT:
                    self.assertEqual(explorer.returncode, 2, wrong)
                    self.assertTrue(told.startswith("PARTIAL: "), told)
                    self.assertIn("was stopped early", wrong)

    def test_a_partial_report_finds_what_fails(self) -> None:
        script = self.folder / "long.nvme"
        script.write_text(LONG, encoding="utf-8")
        for seconds in ("2", "8", "32"):  # on a busy machine no order has come to its end so soon
            told, wrong = io.StringIO(), io.StringIO()
            with contextlib.redirect_stdout(told), contextlib.redirect_stderr(wrong):
                status = main(["explore", str(script), "--program", str(PROGRAM), "--within", seconds, "--never",
                               "a.ring1 == 'rung'"])
            if status == 1:
                break
        self.assertEqual(status, 1)
        self.assertIn("fails in ", told.getvalue())


if __name__ == "__main__":
    unittest.main()
