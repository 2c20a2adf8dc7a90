"""Tests the library for C as it is installed, as a program that uses it would. `scripts/library --test` runs it."""
import fcntl
import os
import resource
import shutil
import subprocess
import sys
import unittest
from pathlib import Path

HERE = Path(__file__).resolve().parent
from support.library import building, checks, unproved
from support.library.checks import PREFIX, SANITIZERS, STRICT, TIME, TOP
from support.library.header import LIBRARY

EXAMPLES = HERE.parent / "examples"
SOURCES = [HERE / f"{it}.c" for it in ("library", "needs", "brought", "pdus", "connections", "transfers", "responses",
                                       "buffers", "journals", "capsules", "placing", "hosts")]
# How many times a subsystem is opened and closed, and how much memory there is meanwhile: each has 8 MiB, and ten times
# as many have 128 KiB.
OPENED, MOST = 1000, 700 << 20
# The random events of hostile hosts.
EVENTS = 50000
# The events and looks during which requests for memory are counted, and what the linker has come by the counter.
COUNTED = 1000000
WRAPPED = "-Wl," + ",".join(f"--wrap={it}" for it in
                            ("malloc", "calloc", "realloc", "aligned_alloc", "posix_memalign", "free"))
INCLUDES = f"-I{PREFIX}/include"
ARCHIVE = PREFIX / "lib/libnvmesim.a"


def live():
    """The program nvmelive, whose results must equal the library's; none if it is not built."""
    built = TOP / "crates/nvmelive/out/nvmelive"
    return built if built.is_file() else os.environ.get("NVMELIVE")


class TestLibrary(checks.Library):
    interface, shared, crate, most_unsafe = LIBRARY, ("libnvmesim.so",), TOP / "clients/rust", 328

    def test_rust(self):
        """The crate, and its example, which finds the library by pkg-config if that is there."""
        super().test_rust()
        places = {"PKG_CONFIG_PATH": str(PREFIX / "lib/pkgconfig")} if shutil.which("pkg-config") else {
            "NVMESIM_LIB": str(PREFIX / "lib")}
        self.cargo("run", "--example", "two_hosts", output=(EXAMPLES / "two_hosts.out").read_text(encoding="utf-8"),
                   env={**os.environ, **places, "CARGO_TARGET_DIR": str(self.room / "target")})

    def example(self, name, flags, *words):
        """An example prints the file next to it."""
        program = self.compiled(name, *STRICT, EXAMPLES / f"{name}.c", *flags)
        self.succeeds([program, *words], (EXAMPLES / f"{name}.out").read_text(encoding="utf-8"),
                      env={**os.environ, "LD_LIBRARY_PATH": str(PREFIX / "lib")})

    def test_two_hosts(self):
        """The example finds the library by pkg-config if that is there."""
        flags = [INCLUDES, f"-L{PREFIX}/lib", "-lnvmesim"]
        if shutil.which("pkg-config"):
            flags = self.succeeds(["pkg-config", "--cflags", "--libs", "nvmesim"],
                                  env={**os.environ, "PKG_CONFIG_PATH": str(PREFIX / "lib/pkgconfig")}).split()
        self.example("two_hosts", flags)

    def test_image(self):
        """The example with an image replaces no other file's bytes, and takes none that another program has locked."""
        self.example("image", [INCLUDES, ARCHIVE], self.room / "disk.img")
        other, held = self.room / "other.img", self.room / "held.img"
        other.write_bytes(b"other" * 20000)
        held.write_bytes(bytes(32768))
        with open(held, "rb") as file:
            fcntl.flock(file, fcntl.LOCK_EX)
            for path, said in (other, "it does not have 32768 bytes"), (held, "Resource temporarily unavailable"):
                before = path.read_bytes()
                self.assertEqual(self.ran([self.room / "image", path]), (1, f"{path}: {said}\n"))
                self.assertEqual(path.read_bytes(), before)

    def in_c(self, flags, before=(), count=3, archive=ARCHIVE, includes=INCLUDES, **how):
        """The tests in C, compiled with these flags and run after these words."""
        program = self.compiled("tests", *STRICT, "-g", *flags, includes, *SOURCES, archive)
        self.succeeds([*before, program, count], "", **how)

    def test_in_c(self):
        self.in_c(["-O2"], count=OPENED, preexec_fn=lambda: resource.setrlimit(resource.RLIMIT_AS, (MOST, MOST)))

    @unittest.skipUnless(shutil.which("valgrind"), "there is no valgrind")
    def test_under_valgrind(self):
        self.in_c(["-O1"], ["valgrind", "-q", "--error-exitcode=9", "--leak-check=full", "--show-leak-kinds=all"])

    @unittest.skipUnless(checks.has_sanitizers(), "the compiler has no sanitizers")
    def test_under_the_sanitizers(self):
        self.in_c(SANITIZERS)

    def test_unproved(self):
        """The library that is built without its proofs passes the tests too, and scripts/install takes the proved one
        if there is one, else that."""
        unproved.build(TOP, self.room)
        self.in_c(["-O1"], archive=self.room / "lib/libnvmesim.a", includes=f"-I{self.room}/include")
        self.assertEqual(building.built_archives(TOP)[1:], [[building.unproved_archive(TOP)]])

    def test_memory(self):
        """No event and no query takes or frees memory; a library whose memcpy takes some is found."""
        # Without the compiler's own knowledge of malloc and memcpy, which would leave out calls of them.
        words = [*STRICT, "-O2", "-fno-builtin", INCLUDES, HERE / "steady.c", ARCHIVE]
        self.succeeds([self.compiled("steady", *words, WRAPPED), COUNTED])
        status, text = self.ran([self.compiled("planted", *words, "-DPLANTED", f"{WRAPPED},--wrap=memcpy"), COUNTED])
        self.assertNotEqual(status, 0, "a memcpy that takes memory is not found")
        self.assertNotIn("not so", text)

    def test_hostile_hosts(self):
        """Random events of hostile hosts give what they give over the program, and leave the same blocks."""
        program = self.compiled("hostile", *STRICT, "-O1", EXAMPLES / "hostile.c", INCLUDES, ARCHIVE)
        image, lines, answers, other = (self.room / it for it in ("one.img", "lines", "answers", "other.img"))
        self.succeeds([program, EVENTS, 1, image, lines, answers], "")
        if not live():
            self.skipTest("nvmelive is not built, so nothing is compared with it")
        other.write_bytes(bytes(image.stat().st_size))
        with open(lines, "rb") as given:
            done = subprocess.run([live(), other], stdin=given, stdout=subprocess.PIPE, timeout=TIME)
        printed, wanted = done.stdout.splitlines(), answers.read_bytes().splitlines()
        at = next((k for k, pair in enumerate(zip(printed, wanted)) if pair[0] != pair[1]), None)
        self.assertEqual((at, len(printed)), (None, len(wanted)), "the first answer that differs, and their number")
        self.assertTrue(image.read_bytes() == other.read_bytes(), "the blocks are others")

    def test_python(self):
        """The package over the library, and over the program."""
        environment = {"NVMESIM_LIBRARY": str(PREFIX / "lib/libnvmesim.so"), "PYTHONPATH": str(TOP / "clients/python"),
                       **({"NVMELIVE": str(live())} if live() else {})}
        self.succeeds([sys.executable, "-m", "unittest", "tests.test_library"], env={**os.environ, **environment})
