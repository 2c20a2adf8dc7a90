"""The prompt: what typed lines are answered, looks that decode, a refused start, and a real terminal."""
from __future__ import annotations

import os
import pty
import select
import subprocess
import sys
import time
import unittest
from typing import Dict, List, Optional, Sequence, Tuple

from nvmesim import Status
from nvmesim.shell.statuses import status_lines

from .support import DATA, LIVE, PACKAGE, SIM, FolderCase

SETUP = ["controller 1 host 0xa1", "controller 2 host 0xb2 raw", "namespace 1 blocks 64 shared",
         "namespace 2 blocks 2000 shared", "attached 1 1", "start"]
RESERVED = ["up 1", "register 1 1 0 0 3 0 0x11", "ring 1", "fetch 1 1", "execute 1 0", "poll 1",
            "acquire 1 1 0 1 0x11 0", "ring 1", "fetch 1 1", "execute 1 0", "poll 1"]
HELD = ["namespace 1: Write Exclusive (RTYPE 1), held by host a1h; generation 1; persists through a loss of power; "
        "not write protected", "    host a1h with key 11h, a holder; controller 1"]
# Ctrl-C, as a terminal sends it.
INTERRUPT = b"\x03"


def environment() -> Dict[str, str]:
    return {**os.environ, "PYTHONPATH": str(PACKAGE), "NVMELIVE": str(LIVE), "TERM": "dumb"}


class StatusTest(unittest.TestCase):
    def test_each_status_has_its_reason(self) -> None:
        for status in Status:
            told = list(status_lines(status.code))
            self.assertEqual(told[0], f"{status.code} is {status.text}")
            self.assertGreater(len(told), 1, status)


@unittest.skipUnless(LIVE, "nvmelive is not built")
class ShellTest(FolderCase):
    def typed(self, lines: Sequence[str], *words: str) -> Tuple[int, List[str], str]:
        """The status of the command `shell`, the lines that it prints for these, and what is on standard error."""
        text = "".join(f"{it}\n" for it in lines)
        done = subprocess.run([sys.executable, "-m", "nvmesim", "shell", *words], input=text, capture_output=True,
                              text=True, cwd=self.folder, timeout=60, env=environment())
        return done.returncode, done.stdout.splitlines(), done.stderr

    def answers(self, lines: Sequence[str], image: str = "-") -> List[str]:
        """What is printed for lines after the set up and the reservation."""
        before = [*SETUP, *RESERVED]
        status, told, errors = self.typed([*before, *lines], image)
        self.assertEqual((status, errors), (0, ""))
        return told[len(before):]

    def image(self) -> str:
        (self.folder / "image").write_bytes(bytes(512 * 2064))
        return "image"

    def test_help_and_quit(self) -> None:
        status, told, _ = self.typed(["", "help", "help read", "help ?blocks", "help ?identify", "help quit", "help no",
                                      "quit now", "quit", "up 1"])
        self.assertEqual(status, 0)
        self.assertEqual(told[0:4], ["before start:", "    controller namespace attached start", "after start:",
                                     "    up read write compare zeroes flush register acquire release report identify "
                                     "protect protection"])
        self.assertIn("    ?line ?controllers ?report ?identify ?status ?read32", told)
        self.assertEqual(told[-6:-1], ["read C N SLBA BLOCKS", "?blocks N SLBA COUNT", "?identify C CNS [NSID]",
                                       "quit               end the session, as Ctrl-D does",
                                       "! there is no line 'no': help names all"])
        self.assertEqual(told[-1], "! quit takes no words")

    def test_looks_that_decode(self) -> None:
        image = self.image()
        told = self.answers(["?controllers", "?report 1", "?report 2", "?read32 1 0x1c", "?read32 2 20"], image)
        self.assertEqual(told, [
            "controller 1 of host a1h: its driver is up, 0 requests without an answer; 0 fetched; namespaces 1",
            "controller 2 of host b2h: a raw host's; 0 fetched; namespaces none", *HELD,
            "namespace 2: nobody holds it; generation 0; does not persist through a loss of power; not write protected",
            "the status of the controller: 0x00000001", "Controller Configuration: 0x00000000"])
        told = self.answers(["?identify 1 1", "?identify 1 0 1", "?identify 1 0 2", "?identify 1 2"], image)
        for line in ("MN        'Multi-Host Subsystem'", "CNTLID    1", "VER       2.0", "NN        8", "NSZE      64",
                     "MDTS      5: at most 131,072 bytes a command",
                     "ONCS      29h: Compare; Write Zeroes; reservations",
                     "NMIC      1h: shared", "LBAF0     blocks of 512 bytes, 0 bytes of metadata", "namespaces 1",
                     "all bytes are 0: the namespace is not attached to the controller"):
            self.assertIn(line, told)
        self.assertFalse([it for it in told if it.startswith("byte")], "a field without a name")

    def test_looks_change_nothing(self) -> None:
        looks = ["?driver 1", "?queues 1", "?fetched 1", "?window 1 0 4096", "?report 1"]
        lines = ["flush 1 1", "read 1 1 0 1", "ring 1", "fetch 1 1"]
        told = self.answers([*lines, *looks, "?identify 1 1", "?controllers", *looks], self.image())
        self.assertEqual(told[4:10], told[-6:])

    def test_what_is_refused(self) -> None:
        wanted = {
            "?identify 2 1": "! controller 2 is a raw host's, and has no driver that could ask it",
            "?identify 3 1": "! there is no controller 3",
            "?identify 1 x": "! CNS, a number below 2^8, not 'x': ?identify C CNS [NSID]",
            "?identify 1 9": "! it is answered Invalid Field in Command (0:02)",
            "?identify 1": "! ?identify C CNS [NSID] is how it is written", "?report 5": "! there is no such namespace",
            "?report": "! ?report N is how it is written", "?controllers 1": "! ?controllers is how it is written",
            "?status": "! ?status TYPE:CODE, such as ?status 0:83 is how it is written",
            "?read32 1": "! ?read32 C OFF is how it is written", "list now": "! list takes no words",
            "drop 1": "! the session is started, and its lines can't be changed any more",
            "save": "! save FILE is how it is written", "save image": "! image exists, and save replaces no file",
        }
        self.assertEqual(dict(zip(wanted, self.answers(list(wanted), self.image()))), wanted)
        status, told, _ = self.typed(["?controllers", "why", "?status 9:99", "drop 1", "drop", "change 1 x", "up 1"])
        self.assertEqual(told[:2], ["! nothing is started yet", "! no event has happened yet"])
        self.assertIn("! 9:99 is no status of this subsystem, whose statuses are 0:00, 0:01", told[2])
        self.assertEqual(told[3:6], ["! there is no line 1: list shows them", "! drop K is how it is written",
                                     "! there is no line 1: list shows them"])
        self.assertTrue(told[6].startswith("! line 7 word 1: "), told[6])

    def test_a_refused_start_keeps_what_was_typed(self) -> None:
        lines = ["controller 1 host 1", "", "?help", "namespace 1 blocks 70000 shared", *["attached 1 1"] * 2, "start",
                 "list", "change 2 namespace 1 blocks", "change 2 start", "change 2 up 1", "drop 4", "start",
                 "change 2 namespace 1 blocks 8 shared", "start", "up 1", "why"]
        status, told, errors = self.typed(lines)
        self.assertEqual((status, errors), (0, ""))
        kept = "the lines are kept: list shows them, change K LINE and drop K fix them, and start tries again"
        self.assertEqual(told[5:11], [
            "refused line 5: BadId; line 4: controller 1 is attached to namespace 1 twice", kept,
            "  1  controller 1 host 1", "  2  namespace 1 blocks 70000 shared", "  3  attached 1 1",
            "  4  attached 1 1"])
        self.assertTrue(told[11].startswith("! line 2 word 1: namespace takes 5 words"), told[11])
        self.assertEqual(told[12], "! start takes no words")
        self.assertTrue(told[13].startswith("! line 2 word 1: "), told[13])
        self.assertEqual(told[14:], [
            "ok", "refused line 4: BadSize; line 2: namespace 1 has 70000 blocks; at most 65536 are allowed", kept,
            "ok", "started", "up 1 ok", "host 1h's driver comes up, and controller 1 with it"])

    def test_blocks_that_do_not_fit(self) -> None:
        """In memory the message describes how to get more blocks; over an image it does not."""
        lines = ["controller 1 host 1", "namespace 1 blocks 65536 shared", "start"]
        more = "for more blocks than the 1,024 in memory: truncate -s 32M disk.img, and ./nvmelive disk.img"
        status, told, _ = self.typed(lines)
        self.assertEqual((status, told[-1]), (0, more))
        self.assertNotIn(more, self.typed(lines, self.image())[1])
        with open(self.folder / "disk.img", "wb") as image:
            image.truncate(32 << 20)
        self.assertEqual(self.typed(lines, "disk.img")[1][-1], "started")

    def test_a_script_that_runs_first_and_one_that_is_saved(self) -> None:
        script = DATA / "fenced.nvme"
        transcript = (DATA / "fenced.out").read_text(encoding="utf-8").splitlines()
        status, told, errors = self.typed(["up 1", "?report 1", "save kept"], "-", str(script))
        self.assertEqual((status, errors), (0, ""))
        self.assertEqual(told[:len(transcript)], transcript)
        self.assertEqual(told[len(transcript)], "up 1 AlreadyUp")
        if SIM:
            again = subprocess.run([str(SIM), "-", "kept"], capture_output=True, text=True, cwd=self.folder)
            self.assertEqual(again.stdout.splitlines(), [*transcript, "up 1 AlreadyUp"])

    def test_a_script_that_is_refused(self) -> None:
        refused = {"wirte\n": "line 1: not understood", "namespace 1 blocks 0 shared\nstart\n": "line 2: BadSize",
                   "start\n\xff\n": "line 2: not understood"}
        for text, why in refused.items():
            (self.folder / "script").write_bytes(text.encode("latin-1"))
            status, told, errors = self.typed(["up 1"], "-", "script")
            self.assertEqual((status, told), (1, []), errors)
            self.assertIn(f"nvmelive: {why}", errors)
        status, told, errors = self.typed([], "absent")
        self.assertEqual((status, told), (2, []), errors)
        self.assertIn("file fault", errors)
        (self.folder / "script").write_bytes(b"# \xff\nstart\n")
        self.assertEqual(self.typed(["?namespaces"], "-", "script"), (0, ["namespaces"], ""))

    def test_a_program_that_dies(self) -> None:
        program = self.program("for n, line in enumerate(sys.stdin):\n    if n: sys.exit('no more')\n"
                               "    print('ok', flush=True)\n")
        status, told, errors = self.typed(["", "# one", "up 1", "up 1"], "--program", str(program))
        self.assertEqual((status, told, errors), (1, ["ok"], "no more\n"))

    def test_a_terminal(self) -> None:
        """Lines are edited, completed and kept; Ctrl-C forgets one, and Ctrl-D ends the session."""
        keys = [(b"> ", b"controller 1 host 1\n"), (b"ok\r\n> ", b"forgotten"), (b"forgotten", INTERRUPT),
                (b"session\r\n> ", b"?stat\t0:83\n"), (b"detached\r\n> ", b"\x1b[A\x1b[A\n"),
                (b"ok\r\n> ", b"list\n"), (b"  2  controller 1 host 1\r\n> ", b"\x04")]
        status, shown = at_terminal([sys.executable, "-m", "nvmesim", "shell"], keys)
        self.assertEqual(status, 0, shown)
        self.assertIn("an NVMe subsystem that hosts share, over 1,024 blocks of zeros in memory.", shown)
        self.assertIn("  1  controller 1 host 1\r\n  2  controller 1 host 1\r\n", shown)
        self.assertNotIn("Traceback", shown)

    def test_lines_are_counted_as_they_are_typed(self) -> None:
        """What the prompt asks for itself, for the key Tab and for its looks, is not counted."""
        keys = [(b"> ", b"bad\n"), (b"! line 1 word 1: there is no line 'bad'\r\n> ", b"help up\n"),
                (b"up C\r\n> ", b"worse\n"), (b"! line 3 word 1: there is no line 'worse'\r\n> ", b"\x04")]
        status, shown = at_terminal([sys.executable, "-m", "nvmesim", "shell"], keys)
        self.assertEqual(status, 0, shown)
        self.assertIn("! line 3 word 1: there is no line 'worse'", shown)


def at_terminal(command: Sequence[str], keys: Sequence[Tuple[bytes, bytes]]) -> Tuple[int, str]:
    """Runs a command at a terminal, and types keys, each after something that is waited for; its status, and all that
    it shows. A key that comes before the prompt belongs to the terminal."""
    child, terminal = pty.fork()
    if child == 0:
        os.execvpe(command[0], list(command), {**environment(), "TERM": "xterm"})
    shown, last, until = b"", b"", time.monotonic() + 60
    for wanted, typed in [*keys, (b"\0never", b"")]:
        begin, piece = len(shown), b""
        while piece is not None and wanted not in shown[begin:] and time.monotonic() < until:
            piece = shown_next(terminal, last)
            shown += piece or b""
        if typed:
            os.write(terminal, typed)
        last = typed
    os.close(terminal)
    return os.waitstatus_to_exitcode(os.waitpid(child, 0)[1]), shown.decode("utf-8", "replace")


def shown_next(terminal: int, last: bytes) -> Optional[bytes]:
    """What a terminal shows next; None if the other side is closed. Ctrl-C is typed again if nothing follows it
    for a second: Python's readline passes over a signal that comes while it shows a key."""
    if not select.select([terminal], [], [], 1)[0]:
        if last == INTERRUPT:
            os.write(terminal, last)
        return b""
    try:
        return os.read(terminal, 65536)
    except OSError:
        return None


if __name__ == "__main__":
    unittest.main()
