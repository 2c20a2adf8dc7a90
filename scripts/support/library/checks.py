"""What the tests of the libraries for C share. They test what is installed in the folder that INSTALLED names."""
import os
import shutil
import subprocess
import tempfile
import unittest
from pathlib import Path

from support import clippy

TOP = Path(__file__).resolve().parents[3]
PREFIX = Path(os.environ["INSTALLED"])
# What a library needs of the C library, and nothing else.
NEEDED = {"malloc", "realloc", "free", "memcpy", "memmove", "memset"}
STRICT = ["-std=c99", "-Wall", "-Wextra", "-Werror", "-pedantic"]
SANITIZERS = ["-fsanitize=address,undefined", "-fno-sanitize-recover=all"]
TIME = 300


def has_sanitizers():
    """Whether the compiler has its sanitizers."""
    with tempfile.TemporaryDirectory() as room:
        words = ["cc", *SANITIZERS, "-x", "c", "-", "-o", f"{room}/empty"]
        return subprocess.run(words, input=b"int main(void) { return 0; }\n", capture_output=True).returncode == 0


class Installed(unittest.TestCase):
    """Tests in a folder of their own."""

    def setUp(self):
        room = tempfile.TemporaryDirectory(prefix="nvmesim-tests-")
        self.addCleanup(room.cleanup)
        self.room = Path(room.name)

    def ran(self, words, **how):
        """Runs a command: its status, and all that it wrote."""
        how = {"stdin": subprocess.DEVNULL, "timeout": TIME, **how}
        done = subprocess.run([str(it) for it in words], cwd=self.room, stdout=subprocess.PIPE,
                              stderr=subprocess.STDOUT, text=True, errors="replace", **how)
        return done.returncode, done.stdout

    def succeeds(self, words, output=None, **how):
        """Runs a command, which must succeed, and write this if it is given; what it wrote."""
        status, text = self.ran(words, **how)
        self.assertEqual(status, 0, text)
        if output is not None:
            self.assertEqual(text, output)
        return text

    def compiled(self, name, *words, compiler="cc"):
        """Compiles a program; its path."""
        self.succeeds([compiler, *words, "-o", name])
        return self.room / name


class Library(Installed):
    """A library: its names, its headers, and its crate for Rust."""

    interface, shared, crate, most_unsafe = None, (), None, None

    @property
    def archive(self):
        return PREFIX / "lib" / f"lib{self.interface.prefix}.a"

    @property
    def headers(self):
        return self.interface.text_of(PREFIX / "include")

    def symbols(self, file, *words):
        text = self.succeeds(["nm", *words, file])
        return {line.split()[-1] for line in text.splitlines() if line.strip() and not line.endswith(":")}

    def test_headers_and_crates(self):
        self.assertEqual([*self.interface.differences(TOP, self.headers)], [])

    def test_names(self):
        """The archive and the shared libraries export exactly what the headers declare."""
        declared = {*self.interface.declarations(self.headers)}
        for file, word in ((self.archive, "-g"), *((PREFIX / "lib" / it, "-D") for it in self.shared)):
            with self.subTest(file.name):
                self.assertEqual(self.symbols(file, word, "--defined-only"), declared)

    def test_what_it_needs(self):
        self.assertLessEqual(self.symbols(self.archive, "-u"), {"_GLOBAL_OFFSET_TABLE_", *NEEDED})

    def test_headers_in_cpp(self):
        (self.room / "header.cc").write_text(f'#include "{self.interface.headers[-1]}"\n', encoding="utf-8")
        self.compiled("header.o", "-std=c++11", *STRICT[1:], f"-I{PREFIX}/include", "-c", "header.cc", compiler="c++")

    @unittest.skipUnless(shutil.which("cargo"), "there is no cargo")
    def test_rust(self):
        """The crate: its tests, those in its documents, clippy, and where it is unsafe: in raw.rs alone."""
        environment = {**os.environ, f"{self.interface.prefix.upper()}_LIB": str(PREFIX / "lib"),
                       "CARGO_TARGET_DIR": str(self.room / "target")}
        with self.subTest("tests"):
            self.cargo("test", env=environment)
        with self.subTest("clippy"):
            if not clippy.is_there():
                self.skipTest("there is no clippy")
            self.assertEqual(clippy.problem(self.crate, environment), "")
        texts = {it.name: it.read_text(encoding="utf-8") for it in (self.crate / "src").glob("*.rs")}
        lines = {name: text.count("\n") for name, text in texts.items() if "unsafe {" in text}
        self.assertEqual([*lines], ["raw.rs"])
        self.assertLessEqual(lines["raw.rs"], self.most_unsafe or lines["raw.rs"])

    def cargo(self, verb, *words, **how):
        return self.succeeds(["cargo", verb, "--offline", "--quiet", "--locked", "--manifest-path",
                              self.crate / "Cargo.toml", *words], **how)
