"""Lines in one form, as the program reads them: the stand-in reads the examples as the program does."""
from __future__ import annotations

import re
import threading
import unittest
from typing import List

from nvmesim.errors import ProgramDied, ProtocolError, ScriptError
from nvmesim.reading import words_of
from nvmesim.script import LineKind, configuration_of, read_lines

from .support import LIVE, PROGRAMS, STANDIN, FolderCase, examples

FORMS = {
    "": (), " \t\r": (), "start": ("start",), "  up\t007 \r": ("up", "7"),
    "controller 0x1 host 0XA1": None, "controller 0x1 host 0xA1 raw": ("controller", "1", "host", "0xa1", "raw"),
    "controller 1 host 128": ("controller", "1", "host", "0x80"), "namespace 1 blocks 8": None,
    "namespace 1 blocks 8 public": None, "controller 1 host 1 RAW": None, "controller 1 hosts 1": None,
    "namespace 1 blocks 0x10 shared": ("namespace", "1", "blocks", "16", "shared"),
    "acquire 1 1 0 1 0x11 0": ("acquire", "1", "1", "0", "1", "17", "0"),
    "write 1 1 0 1 hex:AB00": ("write", "1", "1", "0", "1", "hex:ab"),
    "write 1 1 0 1 hex:0000": ("write", "1", "1", "0", "1", "hex:00"),
    "write 1 1 0 2 fill:AB": ("write", "1", "1", "0", "2", "hex:" + "ab" * 1024),
    "store 1 0x10 hex:AB00": ("store", "1", "16", "hex:ab00"), "attach 1 1 2 0x3": ("attach", "1", "1", "2", "3"),
    "attach 1 1": ("attach", "1", "1"), "detach 1": None, "write32 1 0x14 4294967296": None, "up -1": None,
    "write 1 1 0 1 fill:0": None, "write 1 1 0 1 fill:a b": None, "store 1 0 fill:00": None, "store 1 0 hex:": None,
    "write 1 1 0 1 hex:" + "ab" * 513: None, "Up 1": None, "up 1 # one": None, "?report 1": None, "up 1\x0b": None,
}


class ReadingTest(FolderCase):
    def test_each_line_in_one_form(self) -> None:
        for program in PROGRAMS:
            for text, wanted in FORMS.items():
                with self.subTest(program, text=text[:60]):
                    if wanted is None:
                        with self.assertRaisesRegex(ScriptError, "^line 9: word [0-9]+: "):
                            words_of([text], [9], program)
                    else:
                        self.assertEqual(words_of([text], [9], program), [wanted])

    @unittest.skipUnless(LIVE, "NVMELIVE does not name the program")
    def test_the_examples_are_read_alike(self) -> None:
        for name, script, _ in examples():
            with self.subTest(name):
                self.assertEqual(list(read_lines(script, program=STANDIN)), list(read_lines(script, program=LIVE)))

    def test_what_a_script_says(self) -> None:
        lines = list(read_lines("# c\n\ncontroller 1 host 0x0B2 raw\nnamespace 1 blocks 0x40 private\nstart\n"
                                "store 1 0X0 hex:00\n".replace("0X0", "0x0"), program=PROGRAMS[-1]))
        kinds = [LineKind.COMMENT, LineKind.BLANK, LineKind.CONFIGURATION, LineKind.CONFIGURATION, LineKind.START,
                 LineKind.EVENT]
        self.assertEqual([it.kind for it in lines], kinds)
        told = configuration_of(lines)
        self.assertEqual((told.hosts, told.raw, told.namespaces, told.blocks), ({1: 0xB2}, (1,), {1: 64}, 64))
        self.assertEqual((lines[-1].data(), lines[-1].numbers(), lines[-1].text), (b"\0", [1, 0], "store 1 0x0 hex:00"))
        (line,) = read_lines("write 1 1 0 0x101 hex:ab", True, PROGRAMS[-1])
        self.assertEqual((line.words, line.numbers()), (("write", "1", "1", "0", "257", "hex:00"), [1, 1, 0, 257]))
        for text, number, why in (("start\nnamespace 1 blocks 8 shared", 2, "namespace is not allowed after start"),
                                  ("up 1", 1, "up is not allowed before start"),
                                  ("start\n\nup 1 # c\n", 3, "a comment has a line of its own")):
            with self.assertRaises(ScriptError) as caught:
                list(read_lines(text, program=PROGRAMS[-1]))
            self.assertEqual(caught.exception.number, number)
            self.assertIn(why, caught.exception.why)

    def test_many_lines_and_many_threads(self) -> None:
        texts = [f"write 1 1 {n} 1 fill:{n % 256:02x}" for n in range(3000)]
        wanted = words_of(texts, range(3000), PROGRAMS[-1])
        found: List[object] = []
        threads = [threading.Thread(target=lambda: found.append(words_of(texts, range(3000), PROGRAMS[-1])))
                   for _ in range(4)]
        for it in threads:
            it.start()
        for it in threads:
            it.join()
        self.assertEqual(found, [wanted] * 4)

    def test_programs_that_do_not_read(self) -> None:
        old = ("for n, line in enumerate(sys.stdin, 1):\n"
               "    print(f\"! line {n} word 1: there is no line '?line'\", flush=True)\n")
        for body, fault, why in ((old, ProtocolError, "does not know ?line, so it is older than this package"),
                                 ("sys.exit(3)\n", ProgramDied, "ended with status 3"),
                                 ("for line in sys.stdin: print(line, end='', flush=True)\n", ProtocolError,
                                  "does not answer ?line")):
            program = self.program(body).rename(self.folder / f"program{len(why)}")  # each has a reader of its own
            with self.subTest(why), self.assertRaisesRegex(fault, re.escape(why)):
                words_of(["up 1"], [1], program)


if __name__ == "__main__":
    unittest.main()
