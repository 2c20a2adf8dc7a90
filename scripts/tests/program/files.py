"""The words of the command line, and the files that they name."""
from tests.program.case import HELLO, HELLO_SHOWN, SETUP, Case

USAGE = "usage: nvmesim [--any-size] [IMAGE [SCRIPT]]"
MANY = "is one too many"
OPTION = "is not an option"
ABSENT = "No such file or directory (os error 2)"

# Words that are refused, the number of the one that is at fault, and why.
BAD_WORDS = (
    ("a b c", 3, MANY), ("--help", 1, OPTION), ("-h", 1, OPTION), ("-x", 1, OPTION), ("--", 1, OPTION),
    ("-- a", 1, OPTION), ("- -x", 2, OPTION), ("- --help", 2, OPTION), ("- - --", 3, OPTION),
    ("no-such-image --help", 2, OPTION), ("--any-size --any-size", 2, OPTION), ("- --any-size", 2, OPTION),
    ("--any-size a b c", 4, MANY), ("--any-size -x", 2, OPTION), ("--any-sizes", 1, OPTION),
)

# Files that are refused, and why: those of the image before those of the script.
BAD_FILES = (
    (("no-such-image",), f"'no-such-image' can't be opened as the image, for reading and writing: {ABSENT}"),
    (("/dev/zero",), "'/dev/zero' is no regular file; an image must be one"),
    (("/dev/null", "no-such-script"), "'/dev/null' is no regular file; an image must be one"),
    (("no-such-image", "no-such-script"),
     f"'no-such-image' can't be opened as the image, for reading and writing: {ABSENT}"),
    (("",), f"'' can't be opened as the image, for reading and writing: {ABSENT}"),
    ((".",), "'.' is no regular file; an image must be one"),
    (("-", "no-such-script"), f"'no-such-script' can't be opened as the script, for reading: {ABSENT}"),
    (("-", ""), f"'' can't be opened as the script, for reading: {ABSENT}"),
    (("-", "."), ". can't be read"),
)


def bad_words(text: str, number: int, why: str) -> Case:
    """Words that are refused before anything is opened."""
    words = text.split()
    return Case(f"the words {text}", words, SETUP, status=3,
                errors=f"nvmesim: bad command line\nnvmesim: word {number}, '{words[number - 1]}', {why}; {USAGE}\n")


def bad_files(words: tuple, why: str) -> Case:
    """Files that are refused before the script is judged."""
    return Case(f"the files {words}", words, "not a script", status=2,
                errors=f"nvmesim: file fault\nnvmesim: {why}\n")


ONE_NAMESPACE = "namespace 1 blocks 1 shared\nstart\n"

CASES = (
    *(bad_words(*it) for it in BAD_WORDS),
    *(bad_files(*it) for it in BAD_FILES),
    Case("a script that is taken for an image", ("taken-for-image",), ONE_NAMESPACE,
         {"taken-for-image": ONE_NAMESPACE.encode()}, 1,
         errors="nvmesim: line 2: DoesNotFit\nnvmesim: 'taken-for-image' has no whole block; to run a script over "
                "zeros in memory: ./nvmesim - taken-for-image\n"),
    Case("an image without a block, and a script that is named", ("small.img", "two.nvme"),
         files={"small.img": b"small", "two.nvme": ONE_NAMESPACE.encode()}, status=1,
         errors="nvmesim: line 2: DoesNotFit\nnvmesim: 'small.img' has no whole block; to run a script over zeros in "
                "memory: ./nvmesim - two.nvme\n"),
    Case("an image that is taken for a script", ("-", "taken-for-script"),
         files={"taken-for-script": bytes(1024)}, status=1,
         errors="nvmesim: line 1: not understood\nnvmesim: 'taken-for-script' begins with a byte 00h, so it is no "
                f"script; {USAGE}\n"),
    Case("a script that is called -, and is missing", ("-", "-"), SETUP, status=2,
         errors=f"nvmesim: file fault\nnvmesim: '-' can't be opened as the script, for reading: {ABSENT}\n"),
    Case("a line of a script in a file", ("-", "some.nvme"), files={"some.nvme": b"start\npol 1\n"}, status=1,
         errors="nvmesim: line 2: not understood\nsome.nvme:2:1: there is no line 'pol'; did you mean 'poll'?\n"),
    Case("a namespace of a script in a file", ("-", "some.nvme"),
         files={"some.nvme": b"#\nnamespace 1 blocks 0 shared\nstart\n"}, status=1,
         errors="nvmesim: line 3: BadSize\nsome.nvme:2:1: namespace 1 has no blocks\n"),
    Case("a script that is called -", ("-", "-"), "not a script", {"-": HELLO.encode()}, output=HELLO_SHOWN),
    Case("a script of a byte more than the greatest length, in a file", ("-", "too-long"),
         files={"too-long": b"#" * 4194305}, status=1,
         errors="nvmesim: script too long\nnvmesim: too-long has more than 4194304 bytes; an image is the first word: "
                "nvmesim [--any-size] [IMAGE [SCRIPT]]\n"),
)
