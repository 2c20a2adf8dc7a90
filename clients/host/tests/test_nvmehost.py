"""Tests libnvmehost, the port and the program nvmehost, without a device. `scripts/host --test` runs it."""
import json
import os
import re
import subprocess
import unittest
from pathlib import Path

HERE = Path(__file__).resolve().parent
from support.host import building
from support.library import checks
from support.library.checks import PREFIX, SANITIZERS, TIME
from support.library.header import HOST
from tests.commands import ADDRESS, BAD_WORDS, BLOCK_COMMANDS, OPTION_COMMANDS, OUTCOMES, SESSION, SESSION_ENDS

# The tickets that are issued over a device that writes anything; the completions of a race, its seconds, and the most
# races.
TICKETS, COMPLETIONS, SECONDS, RACES = 1000000, 300000, 1, 8
# What bench prints: a line of the requests, and one of their latencies.
BENCH = re.compile(r"read: (\d+) requests in \d+\.\d s, IOPS \d+, \d+\.\d MiB/s\n"
                   r"latency in microseconds: least [\d.]+, mean [\d.]+, p50 [\d.]+, p90 [\d.]+, p99 [\d.]+, p99\.9 [\d.]+, "
                   r"p99\.99 [\d.]+, most [\d.]+\n")
VARIABLE = re.compile(r"[A-Z_]+=")
LATENCIES = ("least", "p50", "p90", "p99", "p99.9", "p99.99", "most")


class Over(checks.Installed):
    """Tests over the library."""

    def made(self, program, sources, flags=()):
        """Compiles a program over the library; its path."""
        parts = [HERE.parent / it for it in sources]
        return self.compiled(program, *building.FLAGS, *flags, *parts, PREFIX / "lib/libnvmehost.a", "-lpthread")


class TestHeaders(checks.Library):
    interface, crate = HOST, HERE.parent / "rust"


class TestDevices(Over):
    def honest(self, flags):
        for name in ("honest", "reservations"):
            with self.subTest(name):
                self.succeeds([self.made(name, (f"tests/{name}.c", "tests/device.c", "port.c"), flags)], "")

    def test_controllers_in_memory(self):
        self.honest([])

    @unittest.skipUnless(checks.has_sanitizers(), "the compiler has no sanitizers")
    def test_controllers_in_memory_under_the_sanitizers(self):
        self.honest(SANITIZERS)

    def test_a_device_that_writes_anything(self):
        """The test is believed, since it finds a ticket that is counted twice."""
        sources = ("tests/hostile.c", "tests/device.c", "port.c")
        self.succeeds([self.made("hostile", sources), TICKETS, 1], timeout=2 * TIME)
        status, text = self.ran([self.made("planted", sources, ["-DPLANTED"]), 10000, 1])
        self.assertEqual(status, 1, f"a ticket that is delivered twice is not found\n{text}")

    def test_a_device_in_another_thread(self):
        program = self.made("race", ("tests/race.c",))
        # The wrong order has torn completions in nearly every run, unless the machine is busy.
        for _ in range(RACES):
            status, text = self.ran([program, COMPLETIONS, SECONDS])
            if status != 3:
                break
        self.assertEqual(status, 0, text)


def parsed(text):
    """The object that a line of JSON has, or the text if it is none."""
    try:
        return json.loads(text)
    except ValueError:
        return text


class TestProgram(Over):
    def test_words(self):
        """The program reports what is missing, and what to type."""
        for words, wanted, said in BAD_WORDS:
            with self.subTest(words):
                status, text = self.ran([PREFIX / "bin/nvmehost", *words])
                self.assertEqual(status, wanted, text)
                self.assertIn(said, text)

    def over_memory(self):
        """The program over a controller in memory."""
        parts = [it for it in building.PROGRAM if it != "vfio.c"]
        return self.made("memory-nvmehost", (*parts, "tests/memory_vfio.c", "tests/device.c"))

    def printed(self, program, words, given=b""):
        """Runs the program, with the variables of the environment that are among the words: its status and streams."""
        variables = dict(it.split("=") for it in words if VARIABLE.match(it))
        words = [it for it in words if not VARIABLE.match(it)]
        done = subprocess.run([str(program), *words], cwd=self.room, input=given, capture_output=True, timeout=TIME,
                              env={**os.environ, **variables})
        return done.returncode, done.stdout, done.stderr

    def test_commands(self):
        """What the program prints, as text and as JSON, and its status; also for a request whose time is over."""
        program, blocks = self.over_memory(), bytes(range(256)) * 4
        for words, given, wanted, said in BLOCK_COMMANDS:
            with self.subTest(words):
                status, output, _ = self.printed(program, words, blocks[:given])
                self.assertEqual((status, parsed(output) if words[0] == "--json" else output),
                                 (wanted, said(blocks) if callable(said) else said))
        for words, wanted, said, *complaint in (*OPTION_COMMANDS, *OUTCOMES):
            with self.subTest(words):
                status, output, errors = self.printed(program, words)
                printed = parsed(output) if isinstance(said, dict) else output.decode()
                self.assertEqual((status, printed, errors.decode()), (wanted, said, complaint[0] if complaint else ""))

    def test_session(self):
        """What a session prints for each line, and how it ends."""
        program = self.over_memory()
        lines = "".join(f"{line}\n" for line, _ in SESSION)
        status, output, errors = self.printed(program, [ADDRESS, "session"], lines.encode())
        answers = [parsed(it) for it in output.splitlines()]
        self.assertEqual((status, errors, len(answers)), (0, b"", len(SESSION)))
        for (line, wanted), said in zip(SESSION, answers):
            with self.subTest(line[:60]):
                self.assertEqual(said, wanted)
        for words, text, wanted, said, complaint in SESSION_ENDS:
            with self.subTest(words):
                status, output, errors = self.printed(program, words, text.encode())
                self.assertEqual((status, output.decode()), (wanted, said))
                self.assertIn(complaint, (None, errors.decode()))

    def test_open_session(self):
        """A session that waits for a line ends once Linux wants the device, and once nobody reads its output."""
        program = self.over_memory()
        for variables, message in (({"RECALLED": "1"}, "Linux wants to remove the device"),
                                   ({}, "standard output: Broken pipe")):
            with self.subTest(message), subprocess.Popen(
                    [str(program), ADDRESS, "session"], cwd=self.room, stdin=subprocess.PIPE, stdout=subprocess.PIPE,
                    stderr=subprocess.PIPE, env={**os.environ, **variables}) as run:
                run.stdout.close()
                if not variables:
                    run.stdin.write(b"flush 1\n")
                    run.stdin.flush()
                self.assertEqual((run.wait(TIME), run.stderr.read().decode()), (1, f"nvmehost: {ADDRESS}: {message}\n"))

    def test_bench(self):
        """What bench prints of requests to a controller in memory, and that its Writes reach all of the namespace."""
        program = self.over_memory()
        text = self.printed(program, [ADDRESS, "bench", "read", "1", "8", "4", "1"])[1].decode()
        self.assertTrue(BENCH.fullmatch(text), text)
        self.printed(program, [ADDRESS, "write", "1", "2047"], b"x" * 512)
        for what, depth in (("read", 1), ("write", 24)):
            with self.subTest(what):
                words = ["--json", ADDRESS, "bench", what, "1", "8", str(depth), "1"]
                said = json.loads(self.printed(program, words)[1])
                self.assertEqual([said[it] for it in ("command", "request", "nsid", "blocks", "depth")],
                                 ["bench", what, 1, 8, depth])
                times, seconds = [said["latency_ns"][it] for it in LATENCIES], said["seconds"]
                self.assertEqual(times, sorted(times))
                self.assertGreaterEqual(seconds, 1)
                self.assertGreater(said["requests"], 100)
                self.assertLess(abs(said["iops"] - said["requests"] / seconds), said["iops"] / 500)
                self.assertLessEqual(abs(said["bytes_per_second"] - 4096 * said["iops"]), 4096)
        self.assertEqual(self.printed(program, [ADDRESS, "read", "1", "2047", "1"])[1], bytes(512))
        for words, wanted in ((["2", "8"], "no such namespace"), (["1", "256"], "")):
            with self.subTest(words):
                status, _, errors = self.printed(program, [ADDRESS, "bench", "read", *words, "1", "1"])
                self.assertEqual(status, 1 if wanted else 0)
                self.assertIn(wanted, errors.decode())
