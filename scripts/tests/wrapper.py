"""./nvmesim and ./nvmelive, the scripts at the top, in a checkout where a stand-in for scripts/build builds stand-ins
for the programs.

Both judge words alike: a script is never taken as an image, unless --image is given. The program gets the words,
streams and status as they are. What needs no build is answered without one; a build that fails ends with status 70 and
a reason.
"""
import fcntl
import os
import re
import shutil
import signal
import subprocess
import sys
import time
import unittest
from pathlib import Path
from typing import Any, List, Sequence

from support.proving import Progress
from tests.runs import TOP, WITHIN, new_room, program

WRAPPERS = ("nvmesim", "nvmelive")
# Instead of scripts/build: it writes down what was asked of it, and takes the stand-in for both programs. What nvmelive
# has to judge, a copy with a whole path, the real one does.
BUILD = """#!/usr/bin/env bash
top=$(dirname "$(dirname "$0")")
echo "$*" >>"$top/asked"
case $1 in
    programs)
        [ ! -e "$top/broken" ] || { echo "$NVMESIM_TELLS: could not be built: it is not so" >&2; exit 70; }
        [ ! -e "$top/empty" ] || exit 0
        mkdir -p "$top/out/bin"
        cp "$top/standin" "$top/out/bin/nvmesim"
        { printf '%s\\n' '#!/usr/bin/env bash' '[ $# -ne 1 ] || [[ $1 != /* ]] || exec "$real_nvmelive" "$1"'
            cat "$top/standin"; } >"$top/out/bin/nvmelive"
        chmod +x "$top/out/bin/nvmelive"
        echo "$NVMESIM_TELLS: building" >&2
        ;;
    describe) echo "built as it is" ;;
    prove) echo "$NVMESIM_TELLS: proving" >&2 ;;
esac
"""
# Shows its words and its input.
SHOWS = """#!/usr/bin/env bash
printf '<%s>' "$@"
cat
exit 3
"""
# It names the first line that has another word than those below, then a namespace of more than 1,024 blocks at the line
# `start`; over an image only the latter is another one. What would be an event is written to `events`.
JUDGES = """#!/usr/bin/env bash
echo "$1" >>images
rm -f unwritten
number=0 start=0
while read -r word _ _ blocks _ || [ -n "$word" ]; do
    number=$((number + 1))
    case $word in
        '' | '#'* | namespace | up) ;;
        start) start=$number ;;
        *) printf 'nvmesim: %s\\n' "line $number: not understood" "$2 has such a line" >&2; exit 1 ;;
    esac
    [ "$word" != namespace ] || [ "$1" != - ] || [ "$blocks" -le 1024 ] || large=1
    [ "$word" != up ] || echo up >>unwritten
done <"$2"
[ "$start" -eq 0 ] || [ -z "${large:-}" ] || { echo "nvmesim: line $start: DoesNotFit" >&2; exit 1; }
[ ! -e unwritten ] || mv unwritten events
echo transcript
"""
LENGTHS = """#!/usr/bin/env bash
wc -c <"$1" >>lengths
printf "nvmesim: %s\\n" "line 2: DoesNotFit" "$1: $2" >&2
exit 1
"""
# It takes the lock of its image, and then shows its words and its input; the first run is too late if a file `late`
# is there, and each waits where a file `slow` is.
LOCKS = """#!/usr/bin/env bash
image=$1
[ "$image" != --image ] || image=$2
if [ -e late ] || { [ -f "$image" ] && exec 8<"$image" && ! flock -n 8; }; then
    holder='another program'
    [ ! -s late ] || holder=$(cat late)
    rm -f late
    printf '%s: %s\\n' "${0##*/}" 'file fault' "${0##*/}" \\
        "'$image' is in use: $holder holds its lock; --wait waits for it" >&2
    exit 2
fi
printf '<%s>' "$@"
if [ -e slow ]; then
    echo $$ >runs
    exec sleep 20
fi
cat
echo "$0: message" >&2
exit 3
"""
TOOLS = ("bash", "cat", "dirname", "env", "find", "flock", "head", "make", "mkdir", "mktemp", "realpath", "rm", "sh")
IN_A_TERMINAL = "import os, pty, sys; sys.exit(os.waitstatus_to_exitcode(pty.spawn(['bash', '-c'] + sys.argv[1:])))"
# Texts of a single word, its name, and whether it is taken as a script.
SINGLE = (
    (b"# words\n\n \t\r\n\tcontroller 1 host 1\n", "text", True), (b"start", "text", True),
    (b"poll 1\r\n", "image", True),
    (b"controllers 1\n", "text", False), (b"wri\n", "text", False), (b" * \n", "text", False),
    (b"start\x01\n", "text", True), (b"start\n", "-", False), (b"# words alone\n", "text", False), (b"", "text", False),
    (b"start\n\0", "text", False), (b"\0start\n", "text", False), (b"anything", "some.nvme", True),
)
LONGEST = 4194304


class WrapperTest(unittest.TestCase):
    def setUp(self) -> None:
        self.room = new_room()
        self.checkout = self.room / "checkout"
        self.wrapper, self.output, self.errors = "nvmesim", "", ""
        # The built nvmelive judges whether a text is a script.
        self.environment = {**os.environ, "real_nvmelive": str(program("nvmelive"))}

    def put(self, name: str, text: str) -> None:
        path = self.room / name
        path.parent.mkdir(parents=True, exist_ok=True)
        path.write_text(text)
        path.chmod(0o755)

    def fresh(self, standin: str = SHOWS) -> None:
        """A checkout with one crate, in which nothing is built."""
        shutil.rmtree(self.checkout, ignore_errors=True)
        for name in ("nvmesim", "nvmelive", "CHANGELOG.md", "Makefile", "scripts/support/program.sh",
                     "scripts/support/words.sh"):
            self.put(f"checkout/{name}", (TOP / name).read_text())
        for name, text in (("scripts/build", BUILD), ("standin", standin), ("crates.txt", ""),
                           ("crates/nvmesim/src/main.rt", "")):
            self.put(f"checkout/{name}", text)
        for path in (*self.checkout.rglob("*"), self.checkout):
            os.utime(path, (1, 1))

    def bare(self, *without: str) -> str:
        """A path that has only some tools."""
        folder = new_room()
        for name in {*TOOLS, "python3"} - {*without}:
            (folder / name).symlink_to(sys.executable if name == "python3" else shutil.which(name))
        return str(folder)

    def start(self, words: Sequence[str], **how: Any) -> "subprocess.Popen[str]":
        how = {"stdin": subprocess.PIPE, "stdout": subprocess.PIPE, "stderr": subprocess.PIPE, **how}
        return subprocess.Popen([str(self.checkout / self.wrapper), *words], cwd=self.room, encoding="latin-1", **how)

    def wrapped(self, status: int, *words: str, path: str = "", **environment: str) -> None:
        """Runs the wrapper on words with `input` as its input, which must end with this status."""
        environment = {**self.environment, **environment, **({"PATH": path} if path else {})}
        with self.start(words, env=environment) as child:
            self.output, self.errors = child.communicate("input", timeout=WITHIN)
        self.assertEqual(child.returncode, status, f"{words}: {self.errors}")

    def gives(self, status: int, output: str, *words: str, **how: str) -> None:
        """Runs the wrapper, which must print this."""
        self.wrapped(status, *words, **how)
        self.assertEqual(self.output, output, words)

    def tells(self, pattern: str) -> None:
        """Standard error must have such a line."""
        self.assertRegex(self.errors, re.compile(pattern, re.M))

    def says(self, status: int, pattern: str, *words: str, **how: str) -> None:
        """Runs the wrapper, which must have such a line on standard error."""
        self.wrapped(status, *words, **how)
        self.tells(pattern)

    def asked(self, *wanted: str) -> None:
        """What was asked of scripts/build since the last time."""
        asked = self.checkout / "asked"
        self.assertEqual(asked.read_text().splitlines() if asked.exists() else [], [*wanted])
        asked.unlink(missing_ok=True)

    def test_builds(self) -> None:
        for self.wrapper in WRAPPERS:
            self.fresh()
            self.gives(3, "<image><a script>input", "image", "a script")
            self.assertEqual(self.errors, f"{self.wrapper}: building\n")
            self.asked("programs")
            self.gives(3, "<image><>input", "image", "")
            self.assertEqual(self.errors, "")
            self.asked()
            (self.checkout / "crates/nvmesim/src/main.rt").touch()
            self.wrapped(3)
            self.asked("programs")
            self.gives(0, f"{self.checkout}/out/bin/{self.wrapper}\n", "--where")
            self.wrapped(3, MAKEFLAGS="n", MAKELEVEL="1")
            self.asked()

    def test_builds_that_fail(self) -> None:
        self.fresh()
        (self.checkout / "broken").touch()
        self.says(70, r"^nvmesim: could not be built: it is not so$")
        self.assertEqual(self.errors.count("\n"), 1)
        self.fresh()
        (self.checkout / "empty").touch()
        self.wrapped(70)
        self.says(70, r"^nvmesim: there is no make, which is needed to build$", path=self.bare("make"))

    def test_without_python(self) -> None:
        path = self.bare("python3")
        for self.wrapper in WRAPPERS:
            self.fresh()
            for words in ((), ("--version",), ("--prove",)):
                self.says(70, f"^{self.wrapper}: there is no python3: Python 3.9 or later is needed to build$", *words,
                          path=path)
                self.assertEqual(self.errors.count("\n"), 1)
            self.wrapped(3)
            self.wrapped(3, path=path)
            self.assertEqual(self.errors, "")
        self.wrapper = "nvmesim"
        self.fresh()
        Path(path, "python3").write_text("#!/usr/bin/env bash\nexit 1\n")
        Path(path, "python3").chmod(0o755)
        self.says(70, "^nvmesim: python3 does not run, or is older than Python 3.9, which is needed to build$",
                  path=path)

    def test_bad_words_need_no_build(self) -> None:
        path = self.bare()
        self.fresh()
        for self.wrapper in WRAPPERS:
            for words in ("--bogus", "- -x", "image script third", "- --help", "a --image b", "--image a --image b",
                          "--image", "--image a b c"):
                self.gives(3, "", *words.split(), path=path)
                self.tells(f"^{self.wrapper}: bad command line$")
                self.tells(rf"^{self.wrapper}: word [1-4], '.*; usage: {self.wrapper} \[IMAGE \[SCRIPT\]\]$")
        self.says(3, "word 1, '--check', is not an option", "--check", "text")
        self.says(3, "word 1, '--test', is not an option", "--test", "text")
        self.wrapper = "nvmesim"
        self.says(3, "word 2, '--check', is not an option", "--check", "--check", "text")
        self.asked()

    def test_help_version_and_prove(self) -> None:
        version = re.search("^## (.*)$", (TOP / "CHANGELOG.md").read_text(), re.M)[1]
        self.assertRegex(version, r"^[0-9]+\.[0-9]+\.[0-9]+(,.*)?$")
        for self.wrapper in WRAPPERS:
            self.fresh()
            for word in ("--help", "-h"):
                self.wrapped(0, word, path=self.bare())
                self.assertRegex(self.output, re.compile(rf"^{self.wrapper} \[IMAGE \[SCRIPT\]\] ", re.M))
                self.assertEqual(self.errors, "")
            self.asked()
            self.gives(0, f"{self.wrapper} {version}\nbuilt as it is\n", "--version")
            self.asked("describe")
            (self.checkout / "CHANGELOG.md").write_text("")
            self.says(70, "CHANGELOG.md names no version", "--version", path=self.bare())
            self.says(0, f"^{self.wrapper}: proving$", "--prove")
            self.says(0, f"^{self.wrapper}: proving in the background; out/prove.log and --version have its progress$",
                      "--prove", "--background")
            log = self.checkout / "out/background.log"
            self.until(lambda: log.read_text() == f"{self.wrapper}: proving\n")
            self.asked("prove", "prove")
            self.says(3, f"^{self.wrapper}: 'now' is one word too many", "--prove", "now")

    def until(self, holds) -> None:
        end = time.monotonic() + WITHIN
        while not holds():
            self.assertLess(time.monotonic(), end, "it took too long")
            time.sleep(0.02)

    def test_scripts_as_tests(self) -> None:
        """--test hands all words to the Python package of the checkout, with nvmelive; the status is the package's."""
        self.fresh()
        self.put("checkout/clients/python/nvmesim/__main__.py",
                 "import os, sys\nprint(os.environ['NVMELIVE'], sys.argv[1:])\nsys.exit(5)\n")
        live = self.checkout / "out/bin/nvmelive"
        self.gives(5, f"{live} ['test', 'a script', '--junit', 'page']\n", "--test", "a script", "--junit", "page")
        self.asked("programs")
        self.fresh()
        shutil.copytree(TOP / "clients/python/nvmesim", self.checkout / "clients/python/nvmesim")
        self.says(3, r"^nvmesim: --test takes scripts; usage: nvmesim --test SCRIPT \.\.$", "--test")
        self.wrapped(0, "--test", "--help")
        self.assertIn("--junit FILE", self.output)
        self.says(70, "^nvmesim: there is no python3: Python 3.9 or later is needed for --test$", "--test", "text",
                  path=self.bare("python3"))
        self.asked()

    def single(self, text: bytes, name: str, is_script: bool, meant: str) -> None:
        """A single word that is an image or a script; a script is no image, unless --image is given."""
        (self.room / name).write_bytes(text)
        self.gives(3, f"<-><{name}>input" if is_script else f"<{name}>input", name)
        self.gives(3, f"{meant}<{name}>input", "--image", name)
        if not is_script:
            self.gives(3, f"<{name}><other>input", name, "other")
            return
        self.gives(2, "", name, "other")
        self.tells(f"^{self.wrapper}: file fault$")
        self.tells(f"^{self.wrapper}: '{name}' is a script by its .*; to use it as an image, put --image before it$")
        self.gives(3, f"{meant}<{name}><other>input", "--image", name, "other")
        self.assertEqual((self.room / name).read_bytes(), text)

    def test_scripts_and_images(self) -> None:
        page = (TOP / "docs/USING.md").read_text()
        page = page[page.index("### Lines before"):page.index("### Registers")]
        keywords = [*re.findall(r"^\| `([a-z0-9]*)[` ]", page, re.M), "start"]
        self.assertGreater(len(keywords), 20)
        for self.wrapper in WRAPPERS:
            self.fresh()
            # What the program receives if --image says that the image is meant: nvmelive judges it too.
            meant = "<--image>" if self.wrapper == "nvmelive" else ""
            # --any-size is the first word that the program receives.
            self.put("some.nvme", "start\n")
            self.gives(3, "<--any-size><-><some.nvme>input", "--any-size", "some.nvme")
            self.gives(3, f"<--any-size>{meant}<some.nvme><other>input", "--any-size", "--image", "some.nvme", "other")
            for words in (("some.nvme", "--any-size"), ("--any-size", "--any-size", "some.nvme")):
                self.says(3, f"^{self.wrapper}: word 2, '--any-size', comes too late", *words)
            for text, name, is_script in SINGLE:
                self.single(text, name, is_script, meant)
            for words, output in ((("absent",), "<absent>"), (("absent.nvme",), "<-><absent.nvme>"), ((".",), "<.>"),
                                  (("absent.nvme", "other"), "<absent.nvme><other>"), (("-", "text"), "<-><text>")):
                self.gives(3, f"{output}input", *words)
            for text, output in (("start\n" + "#" * (LONGEST - 5), "<text>"),
                                 ("start\n" + "#" * (LONGEST - 6), "<-><text>"),
                                 *((f"{it}\n", "<-><text>") for it in keywords)):
                self.put("text", text)
                self.gives(3, f"{output}input", "text")

    def checked(self, status: int, text: str, *words: str) -> None:
        """--check of a script after these words, which must end with this status, and have no event happen."""
        self.put("a script", text)
        for name in ("images", "events", "unwritten"):
            (self.room / name).unlink(missing_ok=True)
        self.gives(status, "" if status else "a script: not refused\n", "--check", *words, "a script")
        self.assertFalse((self.room / "events").exists(), "an event happened")

    def test_check(self) -> None:
        self.fresh(JUDGES)
        self.checked(0, "namespace 1 blocks 1024\nstart\nup\n")
        self.checked(0, "#\n \tstart \r\nup")
        self.checked(0, "")
        self.checked(1, "namespace\nstart\nup\nno\nup\n")
        self.tells("^nvmesim: line 4: not understood$")
        self.tells("^nvmesim: a script has such a line$")
        self.checked(1, "namespace\nstart\nup\n?")
        self.tells("^nvmesim: line 4: not understood$")
        self.checked(1, "\nnamespace 1 blocks 1025\nstart\nup\n")
        self.assertEqual(self.errors, "nvmesim: line 3: DoesNotFit\n")
        self.checked(0, "namespace 1 blocks 1025\nstart\nup\n", "an image")
        self.assertEqual(set((self.room / "images").read_text().splitlines()), {"an image"})
        self.checked(1, "namespace 1 blocks 1025\nno\nstart\n")
        self.tells("^nvmesim: line 2: not understood$")
        self.checked(2, "start\n", "a script")
        self.tells("^nvmesim: 'a script' is a script by its first line; to use it as an image")
        self.checked(0, "namespace 1 blocks 1025\nstart\nup\n", "--image", "a script")
        self.says(2, "^nvmesim: file fault$", "--check", "absent")
        self.tells("^nvmesim: absent can't be read$")
        self.put("text", "#" * (LONGEST - 1))
        for words in (("--check",), ("--check", "--image", "text"), ("--check", "-", "text", "text")):
            self.says(3, "^nvmesim: bad command line$", *words)
        for words in (("--check",), ("--check", "--image", "text")):
            self.says(3, r"^nvmesim: .*; usage: nvmesim --check \[IMAGE\] SCRIPT$", *words)
        self.says(70, "can be run but not checked", "--check", "text")
        self.put("text", "#" * (LONGEST - 2))
        self.wrapped(0, "--check", "text")

    def test_check_opens_no_image(self) -> None:
        """An image may be in use: a file of its length takes its place."""
        self.fresh(LENGTHS)
        with open(self.room / "held image", "wb") as image:
            image.truncate(524800)
            fcntl.flock(image, fcntl.LOCK_EX)
            self.checked(1, "namespace 1 blocks 1\nstart\n", "held image")
        self.tells("^nvmesim: held image: a script$")
        self.assertEqual({*(self.room / "lengths").read_text().split()}, {"524800"})

    def test_wait(self) -> None:
        """The program runs once the image's lock is free; one that is too late is refused, and waits again."""
        self.put("held", "")
        self.put("text", "start\n")
        for self.wrapper in WRAPPERS:
            meant = "<--image>" if self.wrapper == "nvmelive" else ""
            self.fresh(LOCKS)
            self.gives(3, "<held><text>input", "--wait", "held", "text")
            self.tells(f"/out/bin/{self.wrapper}: message$")
            for words, output in (("--image text", f"{meant}<text>"), ("text", "<-><text>"), ("", "<>"),
                                  ("absent text", "<absent><text>")):
                self.gives(3, f"{output}input", "--wait", *words.split())
            for holder in ("process 1 (other)", ""):
                self.put("late", holder)
                self.gives(3, "<held><text>input", "held", "text", "--wait")
                self.assertEqual(self.errors.count("\n"), 1, "--wait prints a refusal that it waited for")
            self.put("late", "")
            self.says(2, f"^{self.wrapper}: 'held' is in use: another program holds its lock; --wait waits for it$",
                      "held", "text")
            self.says(3, "word 2, '--where', is not an option", "--wait", "--where")
            self.says(70, f"^{self.wrapper}: there is no flock, of util-linux, which is needed for --wait$", "--wait",
                      "held", "text", path=self.bare("flock"))

    def test_wait_for_a_lock(self) -> None:
        self.put("held", "")
        self.put("text", "start\n")
        for self.wrapper in WRAPPERS:
            self.fresh(LOCKS)
            self.wrapped(3)
            with open(self.room / "held", "rb") as held:
                fcntl.flock(held, fcntl.LOCK_EX)
                child = self.start(["--wait", "held", "text"], env=self.environment, stdin=subprocess.DEVNULL)
                self.assertEqual(child.stderr.readline(), f"{self.wrapper}: 'held' is in use: waiting for its lock\n")
                self.assertIsNone(child.poll())
            output, _ = child.communicate(timeout=WITHIN)
            self.assertEqual((child.returncode, output), (3, "<held><text>"))

    def test_signals(self) -> None:
        """A signal to the wrapper ends the program."""
        self.put("held", "")
        self.put("text", "start\n")
        self.put("slow", "")
        runs = self.room / "runs"
        for self.wrapper in WRAPPERS:
            self.fresh(LOCKS)
            for number in (signal.SIGTERM, signal.SIGHUP, signal.SIGINT):
                child = self.start(["--wait", "held", "text"], env=self.environment, stdin=subprocess.DEVNULL,
                                   preexec_fn=lambda: signal.signal(signal.SIGINT, signal.SIG_DFL))
                self.until(lambda: runs.exists() and runs.read_text().endswith("\n"))
                child.send_signal(number)
                child.communicate(timeout=WITHIN)
                self.assertEqual(child.returncode, 128 + number)
                with self.assertRaises(ProcessLookupError):
                    os.kill(int(runs.read_text()), 0)
                runs.unlink()

    def at_terminal(self, command: str, *words: str, path: str = "") -> int:
        """The status of a command at a terminal, whose reader ends the text at once."""
        environment = {**self.environment, **({"PATH": path} if path else {})}
        return subprocess.run([sys.executable, "-c", IN_A_TERMINAL, command, "-", *words], input=b"\4", cwd=self.room,
                              env=environment, stdout=subprocess.DEVNULL, timeout=WITHIN).returncode

    def test_a_terminal_is_told_that_a_script_is_awaited(self) -> None:
        self.fresh()
        self.wrapped(3)
        self.assertNotIn("waiting", self.errors)
        self.put("image", "")
        self.put("text", "start\n")
        for words, output, is_awaited in (
                ("", "<>", True), ("-", "<->", True), ("image", "<image>", True),
                ("- /dev/null", "<-></dev/null>", False), ("text", "<-><text>", False), ("absent", "<absent>", False), ("--image text", "<text>", True)):
            self.at_terminal('checkout/nvmesim "$@" >output 2>errors', *words.split())
            self.assertEqual((self.room / "output").read_text(), output)
            told = (self.room / "errors").read_text()
            self.assertEqual(told.startswith("nvmesim: waiting for a script from the terminal"), is_awaited, words)
            self.assertTrue(is_awaited or not told, told)

    def prompted(self, status: int, more: str = "", option: str = "", path: str = "") -> List[str]:
        """The words of the prompt of ./nvmelive at a terminal, none if there was no prompt."""
        found = self.room / "prompt"
        found.unlink(missing_ok=True)
        self.assertEqual(self.at_terminal(f"checkout/nvmelive {option} image 'a script' {more}", path=path), status)
        return found.read_text().splitlines() if found.exists() else []

    def with_prompt(self) -> str:
        """A checkout whose Python package keeps the words of the prompt; the path of its nvmelive."""
        self.fresh()
        self.wrapped(3)
        self.put("checkout/clients/python/nvmesim/__main__.py",
                 "import sys\nopen('prompt', 'w').write('\\n'.join(sys.argv[1:]))\nsys.exit(5)\n")
        return str(self.checkout / "out/bin/nvmelive")

    def test_a_prompt_at_a_terminal(self) -> None:
        """A prompt of the Python package, only if both sides are a terminal."""
        live = self.with_prompt()
        self.assertEqual(self.prompted(5), ["shell", "--program", live, "--", "image", "a script"])
        self.assertEqual(self.prompted(5, option="--image"),
                         ["shell", "--program", live, "--image", "--", "image", "a script"])
        self.assertEqual(self.prompted(3, ">output"), [])
        self.assertEqual((self.room / "output").read_text(), "<image><a script>")
        self.assertEqual(self.prompted(3, "</dev/null"), [])
        self.assertEqual(self.prompted(3, path=self.bare("python3")), [])

    def test_rlwrap_edits_lines(self) -> None:
        """Of a Python without readline rlwrap edits the lines, if that is there."""
        live, edited = self.with_prompt(), self.room / "edited"
        path = f"{self.room}/editing:{self.environment['PATH']}"
        self.put("editing/rlwrap", '#!/usr/bin/env bash\nprintf "%s\\n" "$@" >edited\nexec "$@"\n')
        self.put("editing/python3", '#!/usr/bin/env bash\n[ "${2-}" != "import readline" ] || exit 1\n'
                                    f'exec {sys.executable} "$@"\n')
        words = ["shell", "--program", live, "--", "image", "a script"]
        self.assertEqual(self.prompted(5, path=path), words)
        self.assertEqual(edited.read_text().splitlines(), ["python3", "-m", "nvmesim", *words])
        (self.room / "editing/python3").unlink()
        edited.unlink()
        self.assertEqual(self.prompted(5, path=path), words)
        self.assertFalse(edited.exists())


class ProgressTest(unittest.TestCase):
    def test_progress_of_a_proof(self) -> None:
        told: List[str] = []
        progress = Progress(12, told.append)
        progress.begin("nvme_wire")
        progress.end("nvme_wire", "proved")
        self.assertEqual(told, ["nvme_wire: begun, 0 of 12 crates done, 0.0 minutes so far",
                                "nvme_wire: proved, 1 of 12 crates, 0.0 minutes so far"])
