"""The sources: what is unsafe is in nine short files, numbers of the standard in one, clippy has no warning, and the
crate's tests pass."""
import os
import re
import shutil
import subprocess
import sys
import unittest
from pathlib import Path

from tests.targets import has_keys

HERE = Path(__file__).resolve().parent.parent
sys.path.insert(0, str(HERE.parent.parent / "scripts"))

from support import clippy

# The calls of the library; the simulator's stacks, its memory and its calls of libcrypto; the target's calls of
# libcrypto, the instruction of the processor, mapped memory, memory that threads borrow, the system calls.
UNSAFE = sorted([HERE.parent / "rust/src/raw.rs",
                 *(HERE / f"simulator/src/{it}.rs" for it in ("fiber", "heap", "libcrypto")),
                 *(HERE / f"src/{it}.rs" for it in ("authentication/libcrypto", "digest/processor", "memory",
                                                    "storage/arena", "system"))])
MOST_LINES = 328
IS_BUILT = shutil.which("cargo") and (HERE / "out/library/lib").is_dir()


def environment() -> "dict[str, str]":
    """What cargo needs to build over the library, in the folder of the program."""
    return {**os.environ, "NVMESIM_LIB": str(HERE / "out/library/lib"), "CARGO_TARGET_DIR": str(HERE / "out/target")}


def features() -> "list[str]":
    """Those that the program is built with."""
    return ["--features", "authentication"] if has_keys() else []


class Sources(unittest.TestCase):
    def test_where_it_is_unsafe(self) -> None:
        sources = [*HERE.glob("src/**/*.rs"), *HERE.glob("examples/*.rs"), *(HERE.parent / "rust/src").glob("**/*.rs"),
                   *HERE.glob("simulator/src/**/*.rs")]
        texts = {it: it.read_text(encoding="utf-8") for it in sources}
        self.assertEqual(sorted(it for it, text in texts.items() if "unsafe {" in text or "unsafe fn" in text), UNSAFE)
        for it in UNSAFE:
            self.assertLessEqual(texts[it].count("\n"), MOST_LINES, it.name)
        for root in (HERE / "src/main.rs", HERE / "simulator/src/lib.rs", *HERE.glob("examples/*.rs"),
                     HERE.parent / "rust/src/lib.rs"):
            self.assertIn("#![deny(unsafe_code)]", texts[root], root.name)

    def test_numbers_of_the_standard(self) -> None:
        """Opcodes, sizes and limits of queues have one definition."""
        texts = {it: it.read_text(encoding="utf-8") for it in HERE.glob("src/**/*.rs")}
        defined = re.findall(r"^pub (const \w+: \w+) =", texts.pop(HERE / "src/nvme.rs"), re.M)
        self.assertIn("const RESERVATION_ACQUIRE: u8", defined)
        for name, text in texts.items():
            self.assertEqual([it for it in defined if it in text], [], name)
            self.assertNotRegex(text, r"\[None; \d+\]", name)

    @unittest.skipUnless(IS_BUILT, "nothing was built here")
    def test_units(self) -> None:
        ran = subprocess.run(["cargo", "test", "--release", "--offline", "--locked", "--quiet", *features()], cwd=HERE,
                             env=environment(), stdout=subprocess.PIPE, stderr=subprocess.STDOUT, text=True)
        self.assertEqual(ran.returncode, 0, ran.stdout)

    @unittest.skipUnless(IS_BUILT and clippy.is_there(), "there is no clippy, or nothing was built here")
    def test_clippy(self) -> None:
        """The lints that main.rs names: the target, its unit tests and its examples; those of the simulator."""
        for given in features(), ["--package", "simulator"]:
            self.assertEqual(clippy.problem(HERE, environment(), ["--release", *given]), "")
