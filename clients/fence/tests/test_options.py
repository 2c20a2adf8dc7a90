"""Options from the command line and from standard input, keys made from names, metadata, and the time limit, without a
device."""
from __future__ import annotations

import contextlib
import hashlib
import io
import os
import re
import struct
import subprocess
import sys
import tempfile
import time
import unittest
import xml.etree.ElementTree as xml
from pathlib import Path
from typing import Dict, List, Set, Tuple
from unittest import mock

from .support import AGENT

from nvmefence import command, keys
from nvmefence.failures import Failure
from nvmefence.metadata import metadata
from nvmefence.options import ACTIONS, OPTIONS, Asked, given_words, parser_of
from nvmefence.reports import Registrant, Report

DEVICES = "/dev/nvme0n1,/dev/nvme1n1"
GIVEN: Dict[str, str] = {"action": "off", "devices": DEVICES, "key": "0x1B"}
# Wrong options, each with the message of its refusal.
WRONG: Tuple[Tuple[Dict[str, str], str], ...] = (
    ({"action": "reboot"}, "there is no action 'reboot'"),
    ({"devices": ""}, "no devices are given"),
    ({"key": ""}, "no node is given"),
    ({"key": "0"}, "key 0 is no key"),
    ({"key": "0x0000"}, "key 0 is no key"),
    ({"key": "node"}, "key is a number of at most 16 hexadecimal digits, not 'node'"),
    ({"key": "1" * 17}, "key is a number of at most 16"),
    ({"reservation_type": "1"}, "reservation_type is 3, 4, 5 or 6"),
    ({"power_timeout": "0"}, "power_timeout is a number of seconds, at least 1, not '0'"),
    ({"power_timeout": "soon"}, "power_timeout is a number of seconds"),
    ({"delay": "-1"}, "delay is a number of seconds"),
    ({"verbose": "maybe"}, "verbose is 1 or 0, not 'maybe'"),
)
# Elements and their attributes in ocf-1.0.rng of pcs 0.11.5, of those that fence agents use.
ACCEPTED: Dict[str, Set[str]] = {
    "resource-agent": {"name", "version", "shortdesc"}, "longdesc": {"lang"}, "shortdesc": {"lang"}, "vendor-url": set(),
    "parameters": set(), "parameter": {"name", "unique", "required", "deprecated", "obsoletes"},
    "getopt": {"mixed"}, "content": {"type", "default"}, "actions": set(),
    "action": {"name", "timeout", "interval", "start-delay", "depth", "role", "on_target", "automatic"},
}


def run(words: List[str], given: str = "") -> "subprocess.CompletedProcess[str]":
    return subprocess.run([sys.executable, str(AGENT), *words], input=given, capture_output=True, text=True, timeout=60)


class OptionsTest(unittest.TestCase):
    def test_both_ways_are_one(self) -> None:
        lines = "# as Pacemaker gives them\n\naction=off\nnodeid=2\n devices=" + DEVICES + "\nkey=0x1B\n"
        from_lines = given_words([], io.StringIO(lines))
        for words in (["--action=off", f"--devices={DEVICES}", "--key", "0x1B"],
                      ["-o", "off", "-d", DEVICES, "-k", "0x1B"]):
            self.assertEqual(given_words(words, io.StringIO()), from_lines)
        self.assertEqual(from_lines, GIVEN)
        asked = Asked.of(from_lines)
        self.assertEqual((asked.key, asked.devices, asked.rtype, asked.seconds),
                         (0x1B, ("/dev/nvme0n1", "/dev/nvme1n1"), 5, 20.0))

    def test_each_option_is_taken_both_ways(self) -> None:
        for it in OPTIONS:
            word = it.long if it.kind == "boolean" else f"{it.long}=1"
            self.assertEqual(given_words([word], io.StringIO()), {it.name: "1"})
            self.assertEqual(given_words([], io.StringIO(f"{it.name}=1\n")), {it.name: "1"})

    def test_unknown_ones_are_refused_by_name(self) -> None:
        for words, given in ((["--power-wait=3"], ""), ([], "action=off\npower_wait=3\n"), (["off"], "")):
            done = run(words, given)
            self.assertEqual((done.returncode, done.stdout), (1, ""))
            self.assertRegex(done.stderr, r"^fence_nvme_pr: .*('power_wait'|--power-wait=3|: off).*\n$")
        self.assertEqual(run([], "action=off\ndevices=/dev/nvme0n1\nkey=0\n").returncode, 1)
        done = run([], "fence\n")
        self.assertEqual((done.returncode, done.stderr),
                         (1, "fence_nvme_pr: standard input has 'fence', which is no NAME=VALUE\n"))

    def test_wrong_values(self) -> None:
        for changed, why in WRONG:
            with self.subTest(**changed):
                with self.assertRaisesRegex(Failure, why.replace("(", r"\(")):
                    Asked.of({**GIVEN, **changed})

    def test_validate_all(self) -> None:
        self.assertEqual(run(["-o", "validate-all", "-d", DEVICES, "-k", "1"]).returncode, 0)
        self.assertEqual(run(["-o", "validate-all", "-d", DEVICES, "-k", "0"]).returncode, 1)


class StartTest(unittest.TestCase):
    def test_metadata_imports_little(self) -> None:
        """Pacemaker gives it 10 seconds, which a loaded node once exceeded."""
        words = [sys.executable, "-S", "-X", "importtime", str(AGENT)]
        done = subprocess.run(words, input="action=metadata\n", capture_output=True, text=True, timeout=60)
        self.assertEqual((done.returncode, done.stdout), (0, metadata() + "\n"))
        found = {line.split("|")[-1].strip() for line in done.stderr.splitlines()}
        self.assertIn("nvmefence.metadata", found)
        slow = {"ctypes", "dataclasses", "hashlib", "inspect", "pathlib", "shutil", "traceback", "nvmefence.actions"}
        self.assertEqual(found & slow, set())


class KeysTest(unittest.TestCase):
    def test_the_key_of_a_name(self) -> None:
        wanted = "".join(hashlib.md5(it).hexdigest()[:8] for it in (b"west", b"b2"))
        for name in ({"plug": "b2"}, {"nodename": "b2"}, {"plug": "b2", "nodename": "other"}):
            asked = Asked.of({"action": "off", "devices": DEVICES, "cluster_name": "west", **name})
            self.assertEqual(asked.key, int(wanted, 16))
        asked = Asked.of({**GIVEN, "plug": "b2", "cluster_name": "west"})
        self.assertEqual(asked.key, 0x1B, "a key that is given goes before a name")

    def test_the_name_of_the_cluster(self) -> None:
        with tempfile.TemporaryDirectory() as place, mock.patch.object(keys, "COROSYNC", f"{place}/corosync.conf"):
            given = {"action": "off", "devices": DEVICES, "plug": "b2"}
            with self.assertRaisesRegex(Failure, "corosync.conf can't be read: No such file"):
                Asked.of(given)
            Path(keys.COROSYNC).write_text("totem {\n    version: 2\n}\n", encoding="utf-8")
            with self.assertRaisesRegex(Failure, "has no cluster_name"):
                Asked.of(given)
            Path(keys.COROSYNC).write_text("totem {\n    cluster_name: west\n}\n", encoding="utf-8")
            self.assertEqual(Asked.of(given), Asked.of({**given, "cluster_name": "west"}))


class MetadataTest(unittest.TestCase):
    def test_it_names_each_option_of_the_parser(self) -> None:
        done = run(["-o", "metadata"])
        self.assertEqual((done.returncode, done.stderr, done.stdout), (0, "", metadata() + "\n"))
        agent = xml.fromstring(done.stdout)
        told = {it.get("name"): it for it in agent.iter("parameter")}
        taken = {it.dest: it.option_strings for it in parser_of()._actions}
        self.assertEqual(list(told), list(taken))
        for name, parameter in told.items():
            mixed = (parameter.find("getopt").get("mixed") or "").split("=")[0]  # type: ignore[union-attr]
            self.assertEqual(mixed.split(", "), taken[name])
            self.assertIn(parameter.find("content").get("type"),  # type: ignore[union-attr]
                          ("string", "integer", "second", "boolean"))
            self.assertTrue(parameter.findtext("shortdesc"))

    def test_the_manual_page_has_each_option_and_action(self) -> None:
        page = (AGENT.parents[2] / "man" / "fence_nvme_pr.8").read_text(encoding="utf-8")
        found = re.findall(r"^\.It Li (-\w), (--[a-z-]+)", page.replace("\\-", "-"), re.M)
        self.assertEqual(found, [(it.letter, it.long) for it in OPTIONS])
        for it in ACTIONS:
            self.assertIn(f"\n.It Cm {it}\n", page)

    def test_its_actions_and_unfencing(self) -> None:
        agent = xml.fromstring(metadata())
        self.assertEqual((agent.tag, agent.get("name")), ("resource-agent", "fence_nvme_pr"))
        self.assertEqual([it.tag for it in agent], ["longdesc", "vendor-url", "parameters", "actions"])
        actions = {it.get("name"): it.attrib for it in agent.iter("action")}
        self.assertEqual(tuple(actions), ACTIONS)
        self.assertEqual(actions["on"], {"name": "on", "on_target": "1", "automatic": "1"})

    def test_pcs_accepts_it(self) -> None:
        """pcs 0.11 refuses an agent whose metadata has an element or attribute that its schema lacks."""
        for it in xml.fromstring(metadata()).iter():
            self.assertLessEqual(set(it.attrib), ACCEPTED[it.tag], it.tag)

    def test_help_and_version(self) -> None:
        self.assertIn("--reservation-type", run(["--help"]).stdout)
        self.assertEqual(run(["--version"]).stdout, "fence_nvme_pr 0.1.0\n")


class ReportTest(unittest.TestCase):
    def test_both_formats(self) -> None:
        short = struct.pack("<IBHHB14x", 3, 5, 1, 0, 1) + struct.pack("<HB5x8sQ", 2, 1, b"\xb2" + bytes(7), 0xB)
        long = struct.pack("<IBHHB54x", 3, 5, 1, 0, 1) + struct.pack("<HB5xQ16s32x", 2, 1, 0xB, b"\xb2" + bytes(15))
        wanted = Report(5, (Registrant(2, 0xB2, 0xB),))
        self.assertEqual((Report.of(short, False), Report.of(long, True)), (wanted, wanted))


class TimeLimitTest(unittest.TestCase):
    def test_what_does_not_answer_is_named(self) -> None:
        def hang(progress: command.Progress) -> int:
            progress.state = "; fenced: one; not fenced: two"
            progress.asks("two", "Reservation Report")
            time.sleep(60)
            return 0

        told = io.StringIO()
        with contextlib.redirect_stderr(told):
            self.assertEqual(command.within(0.2, hang, False), 5)
        self.assertEqual(told.getvalue(), "fence_nvme_pr: two has not answered Reservation Report; fenced: one; "
                         "not fenced: two; the time limit is 0.2 seconds (power_timeout)\n")

    def test_a_child_that_is_killed_has_not_succeeded(self) -> None:
        told = io.StringIO()
        with contextlib.redirect_stderr(told):
            self.assertEqual(command.within(5, lambda _: os.kill(os.getpid(), 9) or 0, False), 1)
        self.assertIn("ended by signal 9", told.getvalue())

    def test_an_internal_error_is_reported(self) -> None:
        words = "import sys; from nvmefence.command import within; sys.exit(within(5, lambda _: 1 // 0, False))"
        done = subprocess.run([sys.executable, "-Bc", words], cwd=AGENT.parent, capture_output=True, text=True)
        self.assertEqual(done.returncode, 1)
        self.assertIn("ZeroDivisionError", done.stderr)

    def test_the_child_ends_with_the_agent(self) -> None:
        """An agent that Pacemaker has killed fences nobody later."""
        words = ("import os, sys, time; from nvmefence.command import within\n"
                 "within(60, lambda _: print(os.getpid(), flush=True) or time.sleep(60) or 0, False)")
        agent = subprocess.Popen([sys.executable, "-Bc", words], cwd=AGENT.parent, stdout=subprocess.PIPE, text=True)
        child = int(agent.stdout.readline())  # type: ignore[union-attr]
        agent.kill()
        # The stream ends once no process has it open.
        self.assertEqual(agent.communicate(timeout=20)[0], "")
        self.assertFalse(Path(f"/proc/{child}/exe").exists())


if __name__ == "__main__":
    unittest.main()
