"""The built nvmelive over pipes, for what only a real process shows.

Each answer has to come before the next line is sent, so a program that does not flush fails by its timeout.
"""
import os
import select
import subprocess
from typing import Any, Tuple, Union

from tests.runs import EXAMPLES, Wrong, clip, ended, new_room, program

# Seconds that one answer may take.
PATIENCE = 20
LONGEST = 1_048_576
SETUP = ["controller 1 host 0xa1", "namespace 1 blocks 64 shared", "attached 1 1", "start"]
IS_SCRIPT = (
    "nvmelive: file fault\nnvmelive: '{}' is a script by its first line; to use it as an image, "
    "put --image before it\n"
)
# Texts, and whether they begin as a script does.
TEXTS = (
    ("# words\n\n \t\r\n\tcontroller 1 host 1\n", True), ("start", True), ("poll 1\r\n" + "x" * 5000, True),
    ("controllers 1\n", False), ("wri\n", False), ("# words alone\n", False), ("", False), ("start\n\0", False),
    ("\0start\n", False), ("#\nx\nstart\n", False), ("start\n" + "#" * 4194298, True),
    ("start\n" + "#" * 4194299, False),
)


OPTION = "is not an option; usage: nvmelive [--any-size] [--image] [IMAGE [SCRIPT]]"
ABSENT = "No such file or directory (os error 2)"
# Words that are refused, with the status, and what is said.
REFUSED = (
    (("absent",), 2, f"file fault\nnvmelive: 'absent' can't be opened as the image, for reading and writing: {ABSENT}"),
    (("/dev/null",), 2, "file fault\nnvmelive: '/dev/null' is no regular file; an image must be one"),
    ((".",), 2, "file fault\nnvmelive: '.' is no regular file; an image must be one"),
    (("-", "absent"), 2, f"file fault\nnvmelive: 'absent' can't be opened as the script, for reading: {ABSENT}"),
    (("-", "."), 2, "file fault\nnvmelive: . can't be read"),
    (("--bogus",), 3, f"bad command line\nnvmelive: word 1, '--bogus', {OPTION}"),
    (("--image", "--any-size"), 3, f"bad command line\nnvmelive: word 2, '--any-size', {OPTION}"),
    (("-", "--help"), 3, f"bad command line\nnvmelive: word 2, '--help', {OPTION}"),
)


# Texts, and what `?line` answers to each. One that is no line is refused as the line itself is.
READINGS = (
    ("", "line blank"), (" \t\r", "line blank"), ("# of it", "line blank"), ("start", "line start"),
    ("controller 0x1  host 161 raw\r", "line controller 1 host 0xa1 raw"),
    ("controller 2 host 0xFFFFFFFFFFFFFFFFFFFFFFFFFFFFFFFF", f"line controller 2 host 0x{'f' * 32}"),
    ("namespace 1 blocks 0x40 private", "line namespace 1 blocks 64 private"), ("attached 1 1", "line attached 1 1"),
    ("write 1 1 0 2 hex:48656C6C6F00", "line write 1 1 0 2 hex:48656c6c6f"),
    ("compare 1 1 0 1 fill:00", "line compare 1 1 0 1 hex:00"), ("write 1 1 7 300 fill:5a", "line write 1 1 7 0 hex:00"),
    ("write 65535 4294967295 0xffffffffffffffff 256 fill:fe", "line write 65535 4294967295 18446744073709551615 256 hex:"
     + "fe" * 131072),
    ("store 1 0x1000 hex:00FF00", "line store 1 4096 hex:00ff00"), ("write32 1 0x14 0x460001", "line write32 1 20 4587521"),
    ("register 1 1 0 1 3 0x1 0xffffffffffffffff", "line register 1 1 0 1 3 1 18446744073709551615"),
    ("acquire 1 1 0 1 0xa 0", "line acquire 1 1 0 1 10 0"), ("attach 1 1 0x2 3", "line attach 1 1 2 3"),
    ("fetch 1 65535", "line fetch 1 65535"), ("execute 1 65535", "line execute 1 65535"), ("powercycle", "line powercycle"),
)
UNREAD = ("read 1 1 0", "read 1 1 0 x", "raed 1 1 0 1", " # of it", "write 1 1 0 1 hex:5", "store 1 0 hex:", "up 1 \x01")


class Session:
    """A running nvmelive, whose lines are answered one at a time."""

    def __init__(self, *words: str) -> None:
        self.process = subprocess.Popen([str(program("nvmelive")), *words], stdin=subprocess.PIPE,
                                        stdout=subprocess.PIPE, stderr=subprocess.PIPE)
        self.held = b""

    def send(self, data: bytes) -> None:
        self.process.stdin.write(data)
        self.process.stdin.flush()

    def answer(self) -> bytes:
        """The next line of the output, without more input."""
        out = self.process.stdout.fileno()
        while b"\n" not in self.held:
            if not select.select([out], [], [], PATIENCE)[0]:
                raise Wrong("no answer came before the next line")
            data = os.read(out, 1 << 16)
            if not data:
                raise Wrong("the output ended without an answer")
            self.held += data
        line, _, self.held = self.held.partition(b"\n")
        return line

    def ask(self, line: Union[str, bytes]) -> bytes:
        self.send((line if isinstance(line, bytes) else line.encode()) + b"\n")
        return self.answer()

    def end(self) -> Tuple[int, bytes, bytes]:
        """Closes the input. Returns the status, the output after the last answer, and standard error."""
        status, output, errors = ended(self.process)
        return status, self.held + output, errors


def expect(got: Any, wanted: Any, what: str) -> None:
    if got != wanted:
        raise Wrong(f"{what}: {clip(got)}, not {clip(wanted)}")


def started() -> Session:
    session = Session()
    for line in SETUP:
        expect(session.ask(line), b"started" if line == "start" else b"ok", line)
    return session


def test_examples() -> None:
    """Each example script, a line at a time: its events are answered as in its transcript."""
    scripts = [it for it in sorted(EXAMPLES.glob("*.nvme")) if it.with_suffix(".out").exists()]
    for script in scripts:
        session = Session()
        given = [session.ask(line) for line in script.read_bytes().split(b"\n")]
        expect(session.end(), (0, b"", b""), f"the end of {script.name}")
        shown = b"".join(line + b"\n" for line in given if line not in (b"ok", b"started"))
        expect(shown, script.with_suffix(".out").read_bytes(), script.name)
    if len(scripts) < 20:
        raise Wrong(f"only {len(scripts)} examples were found")


def test_prepared() -> None:
    """A script first: its transcript, and a session that continues from there."""
    transcript = (EXAMPLES / "first-steps.out").read_bytes()
    session = Session("-", str(EXAMPLES / "first-steps.nvme"))
    shown = b"".join(session.answer() + b"\n" for _ in transcript.splitlines())
    expect(shown, transcript, "the transcript of the script")
    expect(session.ask("up 1")[:5], b"up 1 ", "an event after the script")
    expect(session.ask("controller 9 host 1")[:15], b"! line 2 word 1", "a line that comes too late")
    expect(session.end()[0], 0, "the status")


def test_hostile() -> None:
    """Lines of any bytes and of any length are answered by one line each, and nothing is lost."""
    session = started()
    expect(session.ask(bytes(range(10)) + bytes(range(11, 256)))[:2], b"! ", "bytes of any value")
    expect(session.ask(b"#" + bytes(range(11, 256))), b"ok", "a comment of any bytes")
    expect(session.ask(b"#" * LONGEST), b"ok", "the longest line")
    expect(session.ask(b"#" * (LONGEST + 1))[:15], b"! line 8 word 1", "a line that is too long")
    for _ in range(64):
        session.send(b"x" * LONGEST)
    expect(session.ask(b"")[:15], b"! line 9 word 1", "64 MiB of one line")
    expect(session.ask("\r"), b"ok", "a line feed of another system")
    expect(session.ask("up 1"), b"up 1 ok", "an event after them")
    session.send(b"poll 1")
    expect(session.end(), (0, b"poll 1 nothing\n", b""), "a last line without a line feed")


def test_closed() -> None:
    """Streams that close: the status, and the message."""
    session = started()
    session.process.stdout.close()
    session.process.stdin.write(b"up 1\n")
    session.process.stdin.close()
    told = b"nvmelive: file fault\nnvmelive: standard output can't be written\n"
    expect(session.process.stderr.read(), told, "a closed output")
    expect(session.process.wait(), 2, "the status of a closed output")
    session.process.stderr.close()
    expect(Session().end(), (0, b"", b""), "no input")
    session = Session()
    for line in ["# lines that set nothing up have numbers too", "", "controller 2 host 1"]:
        expect(session.ask(line), b"ok", line)
    why = b"this must be controller 1, not 2: controllers are numbered from 1"
    expect(session.ask("start"), b"refused line 4: BadId; line 3: " + why, "a refused configuration")
    expect(session.end(), (1, b"", b"nvmelive: line 4: BadId\n"), "the end of a refused session")


def told(*words: str) -> Tuple[int, bytes, str]:
    """The status, the output and the errors of a session without input."""
    status, output, errors = Session(*words).end()
    return status, output, errors.decode()


def test_guarded() -> None:
    """A script that is given as an image is refused and unchanged, unless --image is given."""
    image, script = new_room() / "some", str(EXAMPLES / "first-steps.nvme")
    path = str(image)
    for text, is_script in TEXTS:
        image.write_bytes(text.encode("ascii"))
        os.utime(path, (0, 0))
        refused = (2, b"", IS_SCRIPT.format(path)) if is_script else (0, b"", "")
        expect(told(path), refused, f"the image {text[:20]!r}")
        expect(told("--image", path), (0, b"", ""), f"the image {text[:20]!r} that is meant")
        if is_script:
            expect(told(path, script), refused, f"the image {text[:20]!r}, and a script")
        expect(image.read_bytes(), text.encode("ascii"), f"{text[:20]!r} stays as it was")
        expect(image.stat().st_mtime, 0, f"the time of {text[:20]!r}")
    expect(told("--image"), (0, b"", ""), "no image that is meant")
    expect(told("--image", "-"), (0, b"", ""), "the blocks in memory, which are meant")
    usage = "usage: nvmelive [--any-size] [--image] [IMAGE [SCRIPT]]"
    for number, options in ((4, ()), (5, ("--any-size",))):
        many = f"nvmelive: bad command line\nnvmelive: word {number}, 'c', is one too many; {usage}\n"
        expect(told(*options, "--image", "a", "b", "c"), (3, b"", many), f"a word too many after {options}")
    late = "nvmelive: bad command line\nnvmelive: word 2, '--image', is not an option; "
    expect(told(path, "--image"), (3, b"", f"{late}{usage}\n"), "an option that comes too late")


def test_refused() -> None:
    """Words and files that can't be used: the status, and the reason."""
    for words, status, said in REFUSED:
        expect(told(*words), (status, b"", f"nvmelive: {said}\n"), f"the words {words}")


def test_looks() -> None:
    """Each query, between events: it changes nothing."""
    words = ["?window 1 0 64", "?register 1 28", "?registers 1", "?queues 1", "?fetched 1", "?driver 1", "?namespaces"]
    words += ["?reservation 1", "?attached", "?blocks 1 0 1", "?help", "?help write"]
    script = ["up 1", "write 1 1 0 1 fill:5a", "ring 1", "fetch 1 1", "execute 1 0", "poll 1"]
    plain, looking = started(), started()
    for line in script:
        for word in words:
            first = looking.ask(word)
            expect(first.split(b" ")[0], word.split(" ")[0][1:].encode(), word)
            expect(looking.ask(word), first, f"{word}, asked twice")
        expect(looking.ask(line), plain.ask(line), f"{line}, after query lines")
    plain.end(), looking.end()


def test_readings() -> None:
    """`?line`: a line has the same normal form before and after `start`, and the normal form has itself."""
    early, late = Session(), started()
    for session in early, late:
        for text, wanted in READINGS:
            expect(session.ask("?line " + text), wanted.encode(), text[:60])
            if wanted != "line blank":
                expect(session.ask("?" + wanted), wanted.encode(), wanted[:60])
        for text in UNREAD:
            reason = session.ask(text).split(b" ", 3)[3]
            expect(session.ask("?line " + text).split(b" ", 3)[3], reason, text)
        expect(session.ask("?line " + "x" * 262208).split(b" ", 3)[3][:30], b"word 1: there is no line 'xxxx", "a long text")
        expect(session.ask("?line " + "x" * 262209).split(b" ", 3)[3][:20], b"word 2: ?line reads ", "one byte more")
    expect(early.ask("up 1")[:2], b"! ", "an event after '?line start'")
    expect(late.ask("up 1"), b"up 1 ok", "an event after texts")
    early.end(), late.end()


def test_completions() -> None:
    """The completions in a driver's I/O queue, at 3000h of its window, after two of the examples."""
    # The 33rd is where the first did: phase tag 0, queue 1, and SQHD 1, since 33 commands went round a ring of 8. The
    # second is from the first round: phase tag 1, queue 1, SQHD 2.
    round_again = "0000000000000000" "01000100" "00000000" "0000000000000000" "02000100" "00000100"
    # The command of the new request has the slot after those of the three that were aborted, as its CID: 3.
    behind_aborted = "0000000000000000" "01000100" "03000100"
    for name, wanted in (("goes-round", round_again), ("aborted-first", behind_aborted)):
        session = Session()
        for line in (EXAMPLES / f"{name}.nvme").read_bytes().split(b"\n"):
            session.ask(line)
        shown = session.ask(f"?window 1 0x3000 {len(wanted) // 2}").split(b" ")[4].decode()
        expect(shown.ljust(len(wanted), "0"), wanted, f"the completions after {name}")
        session.end()
