"""The simulator: seeds of the gate find nothing, and a seed gives the same events each time."""
import os
import platform
import random
import re
import shutil
import subprocess
import sys
import tempfile
import unittest
from pathlib import Path

HERE = Path(__file__).resolve().parent.parent
sys.path.insert(0, str(HERE / "simulator"))

import coverage

SEEDS, MANY, COVERING = (1, 2), 72, 165
# How many faults are planted.
PLANTED = 3
COMMANDS = 300


def seed_of_commit() -> "int | None":
    """A number that the commit chooses, so that each gate tries other seeds and faults; nothing without git."""
    if not shutil.which("git"):
        return None
    ran = subprocess.run(["git", "-C", HERE, "rev-parse", "HEAD"], stdout=subprocess.PIPE, stderr=subprocess.DEVNULL,
                         text=True)
    return int(ran.stdout[:7], 16) if ran.returncode == 0 else None


def has_libcrypto() -> bool:
    """Whether the linker finds libcrypto."""
    if not shutil.which("cc"):
        return False
    found = subprocess.run(["cc", "-print-file-name=libcrypto.so"], stdout=subprocess.PIPE, text=True)
    return Path(found.stdout.strip()).is_absolute()


def faults_with_seeds() -> "list[str]":
    """The faults of planted.txt that a seed finds."""
    text = (HERE / "simulator/planted.txt").read_text(encoding="utf-8")
    return re.findall(r"^name: (.+)\nseed: \d+$", text, re.M)


class Coverage(unittest.TestCase):
    def test_lines(self) -> None:
        """A line has the count of what begins there, and of the innermost region around it."""
        text = ["fn f() {", "    if a {", "        // nothing", "        b();", "    }", "    c();", "}"]
        places = {(1, 1, 2, 9): 3, (2, 10, 5, 6): 0, (6, 5, 7, 2): 2}
        self.assertEqual(coverage.line_counts(places, text), {1: 3, 2: 3, 4: 0, 6: 2})

    def test_numbers(self) -> None:
        self.assertEqual(coverage.Reader(b"\x05\xe5\x8e\x26").number(), 5)
        self.assertEqual(coverage.count_of(4 << 2 | 1, [], [0, 0, 0, 0, 9]), 9)
        self.assertEqual(coverage.count_of(0 << 2 | 2, [(1, 1 << 2 | 1)], [9, 4]), 5)

    def test_what_is_left_out_exists(self) -> None:
        for entry in coverage.excluded():
            text = (HERE / "src" / entry.file).read_text(encoding="utf-8").splitlines()
            self.assertTrue(entry.lines(text), f"unreached.txt: {entry}: there is no such line")

    def test_what_is_left_out_is_unreached(self) -> None:
        """An entry fails if there is no such line of code, if a line that it names is reached, or all of a function."""
        with tempfile.TemporaryDirectory() as folder:
            path = Path(folder, "some.rs")
            path.write_text("fn f() {\n    a();\n    b();\n}\nfn g() {\n    b();\n}\n", encoding="utf-8")
            counts = {1: 2, 2: 1, 3: 0, 5: 1, 6: 3}
            for function, text, wrong in (("f", "b();", False), ("g", "b();", True), ("", "b();", True), ("", "", False),
                                          ("f", "c();", True), ("g", "", True), ("f", "", False), ("", "a();", True)):
                entry = coverage.Entry("some.rs", function, text)
                self.assertEqual(bool(list(coverage.faults([entry], path, counts))), wrong, entry)
            self.assertEqual(str(coverage.Entry("some.rs", "f", "b();")), "some.rs f `b();`")


@unittest.skipUnless(shutil.which("cargo") and has_libcrypto() and platform.machine() == "x86_64",
                     "the simulator needs cargo, libcrypto and x86-64")
@unittest.skipUnless(os.environ.get("NVMESIM_LIB") or (HERE / "out/library/lib").is_dir(), "nothing was built here")
class Simulate(unittest.TestCase):
    def run_seed(self, seed: int, log: Path) -> str:
        words = [HERE / "simulate", "--seed", str(seed), "--commands", str(COMMANDS), "--no-shrink", "--log", str(log)]
        ran = subprocess.run(words, stdout=subprocess.PIPE, stderr=subprocess.STDOUT, text=True)
        self.assertEqual(ran.returncode, 0, ran.stdout)
        return ran.stdout

    def test_seeds(self) -> None:
        with tempfile.TemporaryDirectory() as folder:
            for seed in SEEDS:
                logs = [Path(folder, f"{seed}-{turn}") for turn in range(2)]
                reports = [self.run_seed(seed, log) for log in logs]
                self.assertEqual(reports[0], reports[1])
                self.assertEqual(logs[0].read_bytes(), logs[1].read_bytes())
                self.assertIn(" replayed", reports[0])

    def test_units(self) -> None:
        places = {"NVMESIM_LIB": os.environ.get("NVMESIM_LIB") or HERE / "out/library/lib",
                  "CARGO_TARGET_DIR": HERE / "out/simulated"}
        environment = {**os.environ, **{name: str(place) for name, place in places.items()}}
        words = ["cargo", "test", "--profile", "simulated", "--package", "simulator", "--offline", "--locked",
                 "--quiet"]
        ran = subprocess.run(words, cwd=HERE, env=environment, stdout=subprocess.PIPE, stderr=subprocess.STDOUT,
                             text=True)
        self.assertEqual(ran.returncode, 0, ran.stdout)
        self.assertRegex(ran.stdout, r"\b[1-9]\d* passed")

    def test_planted(self) -> None:
        """Faults that the commit chooses are planted, and each is found by its seed, or soon by another."""
        names = random.Random(seed_of_commit() or 0).sample(faults_with_seeds(), PLANTED)
        ran = subprocess.run([HERE / "simulator/plant", "--again", *names], stdout=subprocess.PIPE,
                             stderr=subprocess.STDOUT, text=True)
        self.assertEqual(ran.returncode, 0, ran.stdout)
        self.assertIn(f"{PLANTED} of {PLANTED} found", ran.stdout)

    def run_many(self, first: int) -> None:
        """A hundred thousand commands."""
        given = ["--first", str(first), "--seeds", str(MANY)]
        ran = subprocess.run([HERE / "simulate", *given, "--shrink-for", "30s"], stdout=subprocess.PIPE,
                             stderr=subprocess.STDOUT, text=True)
        again = f"again: clients/nvme-tcp/simulate {' '.join(given)}, or one of these with --seed"
        self.assertEqual(ran.returncode, 0, f"{ran.stdout}\n{again}")
        sent = re.search(rf"^{MANY} seeds, (\d+) commands", ran.stdout, re.M)
        self.assertIsNotNone(sent, ran.stdout)
        self.assertGreaterEqual(int(sent[1]), 100_000)

    def test_lines(self) -> None:
        """The seeds reach nearly all lines of the target that a simulation can reach, and none that is said to be out."""
        with tempfile.TemporaryDirectory() as folder:
            ran = subprocess.run([HERE / "simulate", "--coverage", folder, "--seeds", str(COVERING), "--no-shrink"],
                                 stdout=subprocess.PIPE, stderr=subprocess.STDOUT, text=True)
        self.assertEqual(ran.returncode, 0, ran.stdout)
        reached = re.search(r"^\d+ of \d+ lines, ([\d.]+) percent; .* ([\d.]+) percent of all", ran.stdout, re.M)
        self.assertIsNotNone(reached, ran.stdout)
        self.assertGreaterEqual(float(reached[1]), 99.4, ran.stdout)
        self.assertGreaterEqual(float(reached[2]), 99, ran.stdout)

    def test_many_seeds(self) -> None:
        self.run_many(1)

    def test_seeds_of_the_commit(self) -> None:
        first = seed_of_commit()
        if first is None:
            self.skipTest("the commit is not known")
        self.run_many(first)
