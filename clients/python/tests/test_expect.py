"""Scripts as tests: which comments are expectations, which are refused, and the report of those that do not hold."""
from __future__ import annotations

import contextlib
import io
import json
import xml.etree.ElementTree as xml
from pathlib import Path
from typing import Dict, List, Tuple

from nvmesim import ScriptError
from nvmesim.__main__ import main
from nvmesim.expect import has_marks, read_test, try_script

from .support import LIVE, PACKAGE, PROGRAMS, RACE, READING, FolderCase

FENCING = PACKAGE / "examples" / "fencing-test.nvme"
HEAD = "controller 1 host 0xa1\nnamespace 1 blocks 8 shared\nattached 1 1\nstart\n"
WRITE = "up 1\nwrite 1 1 0 1 hex:48656c6c6f\nring 1\nfetch 1 1\nexecute 1 0\n"

# A comment after `up 1`, and what is said of it.
REFUSED = {
    "# expect": "names no answer",
    "#expect up 1 ok": "nearly is an expectation; did you mean '# expect ..'",
    "# Expect up 1 ok": "nearly is",
    "# EXPECT up 1 ok": "nearly is",
    "# expect: up 1 ok": "nearly is",
    "# expet up 1 ok": "nearly is",
    "# epxect up 1 ok": "nearly is",
    "# expects up 1 ok": "nearly is",
    "# expected up 1 ok": "nearly is",
    "# expect_blocks 1 0 1 -": "did you mean '# expect-blocks ..'",
    "# expect-block 1 0 1 -": "did you mean '# expect-blocks ..'",
    "# expectblocks 1 0 1 -": "did you mean '# expect-blocks ..'",
    "# expect blocks 1 0 1 -": "did you mean '# expect-blocks ..'",
    "# expect up 2 ok": "'up 1' is never answered 'up 2 ok'; its answers begin with 'up 1'",
    "# expect up 1 okay": "is never answered 'up 1 okay'; no answer of it has the word 'okay'; did you mean 'ok'?",
    "# expect up 1 Refused 0:84": "no answer of it has the word '0:84'; its answers begin with 'up 1'",
    "# expect UP 1 ok": "never answered",
    "# expect up 1 ok now": "never answered",
    "# expect poll 1 nothing": "never answered",
    "# expect the host to come up": "never answered",
    "# expect *": "holds of every answer",
    "# expect * *": "holds of every answer",
    "# expect up *": "holds of every answer",
    "# expect up 1 *": "holds of every answer",
    "# expect * 1": "the number 1 after a '*'",
    "# expect * okk": "did you mean 'ok'?",
    "# expect * took": "no answer of 'up 1' has the word 'took'",
    "# expect * 0:84": "no answer of 'up 1' has the word '0:84'",
    "# expect ok *": "no answer of 'up 1' begins with 'ok'",
    "# expect-blocks": "is not '# expect-blocks N SLBA COUNT HEX'",
    "# expect-blocks 1 0 1": "is not '# expect-blocks N SLBA COUNT HEX'",
    "# expect-blocks 1 0 1 - -": "is not '# expect-blocks N SLBA COUNT HEX'",
    "# expect-blocks 1 x 1 -": "is not '# expect-blocks N SLBA COUNT HEX': ",
    "# expect-blocks 1 0 0 -": "COUNT is 1 to 256",
    "# expect-blocks 1 0 257 -": "COUNT is 1 to 256",
    "# expect-blocks 1 0 1 4": "HEX is",
    "# expect-blocks 1 0 1 zz": "HEX is",
    "# expect-blocks 1 0 1 fill:4": "HEX is",
    "# expect-blocks 1 0 1 " + "00" * 513: "that COUNT blocks have room for",
}
OTHER = ("# except this", "# the host is expected to come up", "# inspect", "#", "# exp", "# e x p e c t")

# Whether these hold after the last event of a Write that succeeds.
HOLDS = {
    "execute 1 0 posted 0:00 0": True, "  execute \t1 0  posted 0:00 0 \r": True, "* 0:00": True,
    "* posted 0:00 0": True,
    "execute 1 * 0:00": True, "execute * 0:00 *": True, "* posted *": True, "execute 1 0 * posted": True,
    "execute 1 0 posted 0:83 7": False, "execute 1 0 posted 0:00 7": False, "* 0:83": False, "* posted 0:80 9": False,
    "* none": False, "nodriver 1 *": False, "execute 1 0 none": False, "* 0:00 * 0:00": False,
}
BLOCKS = {
    "1 0 1 48656c6c6f": True, "1 0 1 48656C6C6F00": True, "0x1 00 1 48656c6c6f": True, "1 0 2 48656c6c6f": True,
    "1 1 1 -": True, "1 1 7 fill:00": True, "1 0 1 48656c6c": False, "1 0 1 -": False, "1 0 1 fill:48": False,
    "1 7 2 -": False, "2 0 1 -": False,
}


class ExpectTest(FolderCase):
    def file(self, name: str, text: str) -> Path:
        path = self.folder / name
        path.write_text(text, encoding="utf-8")
        return path

    def tried(self, *words: str) -> Tuple[int, List[str]]:
        """The status of the command `test`, and the lines that it prints."""
        told = io.StringIO()
        with contextlib.redirect_stdout(told):
            status = main(["test", *words])
        return status, told.getvalue().splitlines()

    def test_the_example_holds(self) -> None:
        for program in PROGRAMS:
            with self.subTest(program):
                status, told = self.tried("--program", str(program), str(FENCING))
                self.assertEqual((status, told), (0, [f"{FENCING}: as expected, 10 of 10 expectations hold",
                                                      "nvmesim: 1 script, 10 expectations: 10 hold, 0 failed"]))

    def test_what_is_nearly_an_expectation_is_refused(self) -> None:
        for comment, why in REFUSED.items():
            with self.subTest(comment), self.assertRaises(ScriptError) as caught:
                read_test("script", f"{HEAD}up 1\n{comment}\n")
            self.assertEqual(caught.exception.number, 6, comment)
            self.assertIn(why, str(caught.exception))
            self.assertTrue(has_marks(f"{HEAD}up 1\n{comment}\n"), comment)

    def test_other_comments_are_none(self) -> None:
        for comment in OTHER:
            with self.subTest(comment), self.assertRaises(ScriptError) as caught:
                read_test("script", f"{HEAD}up 1\n{comment}\n")
            self.assertEqual(caught.exception.number, 0)
            self.assertIn("has no expectation", str(caught.exception))
            self.assertFalse(has_marks(f"{HEAD}up 1\n{comment}\n"), comment)

    def test_an_expectation_follows_an_event(self) -> None:
        for text in ("# expect up 1 ok\n" + HEAD, HEAD + "# expect up 1 ok\nup 1\n"):
            with self.assertRaises(ScriptError) as caught:
                read_test("script", text)
            self.assertIn("follows no event", str(caught.exception))
        with self.assertRaises(ScriptError) as caught:
            read_test("script", "# expect-blocks 1 0 1 -\n" + HEAD)
        self.assertIn("is before start", str(caught.exception))
        with self.assertRaises(ScriptError) as caught:
            read_test("script", HEAD + "up 1 # expect up 1 ok\n")
        self.assertIn("a comment has a line of its own", str(caught.exception))
        test = read_test("script", HEAD + "# expect-blocks 1 0 8 -\n")
        self.assertTrue(try_script(test, program=PROGRAMS[-1]).is_good)

    def test_which_answers_are_as_expected(self) -> None:
        script = HEAD + WRITE + "".join(f"# expect {it}\n" for it in HOLDS)
        script += "".join(f"#  expect-blocks  {it}\n" for it in BLOCKS)
        for program in PROGRAMS:
            trial = try_script(read_test("script", script), program=program)
            self.assertEqual(trial.fault, "")
            came = [it.holds for it in trial.judged]
            self.assertEqual(dict(zip([*HOLDS, *BLOCKS], came)), {**HOLDS, **BLOCKS}, program)

    def test_the_report_of_a_failure(self) -> None:
        script = self.file("a.nvme", HEAD + WRITE + "# expect * 0:83\n# expect-blocks 1 0 2 48656c6c70\n"
                                                    "# expect-blocks 1 9 1 -\nflush 1 1\nreset 1\n")
        good = self.file("b.nvme", HEAD + "up 1\n# expect up 1 ok\n")
        for program in PROGRAMS:
            status, told = self.tried("--program", str(program), str(script), str(good))
            self.assertEqual(status, 1)
            self.assertEqual(told[:14], [
                f"{script}:10: FAILED", "    event    execute 1 0", "    wanted   * 0:83",
                "    came     execute 1 0 posted 0:00 0",
                "    that is  controller 1 executes ticket 1 (Write): done",
                f"{script}:11: FAILED", "    event    execute 1 0", "    blocks   2 of namespace 1 from 0 on",
                "    wanted   48656c6c70", "    came     48656c6c6f",
                "    that is  byte 4 of block 0 is the first that differs",
                f"{script}:12: FAILED", "    event    execute 1 0", "    blocks   1 of namespace 1 from 9 on"])
            self.assertTrue(told[15].startswith("    came     nothing: line 12 word "), told[15])
            self.assertEqual(told[16:], [
                f"{script}:6: left without an answer: Write, namespace 1, block 0, ticket 1 of controller 1; "
                "placed, rung, fetched, executed, aborted",
                f"{script}:13: left without an answer: Flush, namespace 1, ticket 2 of controller 1; placed, aborted",
                f"{script}: FAILED, 0 of 3 expectations hold", f"{good}: as expected, 1 of 1 expectations hold",
                "nvmesim: 2 scripts, 4 expectations: 1 hold, 3 failed; 2 requests left without an answer"])

    def test_a_script_that_is_refused(self) -> None:
        good = HEAD + "up 1\n# expect up 1 ok\n"
        texts = {"none": RACE.read_text(encoding="utf-8"), "slip": HEAD + "up 1\n#expect up 1 ok\n",
                 "word": "controler 1\n", "unknown": good.replace("attached 1 1", "attached 1 2"), "good": good}
        words = [str(self.file(f"{name}.nvme", text)) for name, text in texts.items()]
        words.append(str(self.folder / "absent.nvme"))
        status, told = self.tried("--program", str(PROGRAMS[-1]), *words)
        self.assertEqual(status, 2)
        self.assertIn(f"{words[0]}: REFUSED: the script has no expectation", told[0])
        self.assertIn(f"{words[1]}:6: REFUSED: '#expect up 1 ok' nearly is", told[1])
        self.assertIn(f"{words[2]}:1: REFUSED: word 1: there is no line 'controler'", told[2])
        self.assertIn("the configuration is refused: line 4: BadId; line 3: ", told[3])
        self.assertEqual(told[4], f"{words[3]}: FAILED, 0 of 1 expectations hold")
        self.assertEqual(told[5], f"{words[4]}: as expected, 1 of 1 expectations hold")
        self.assertEqual(told[6], f"{words[5]}: REFUSED: No such file or directory")
        self.assertEqual(told[7:], ["nvmesim: 6 scripts, 2 expectations: 1 hold, 0 failed, 1 not reached; "
                                    "4 scripts refused"])

    def test_a_program_that_dies(self) -> None:
        program = self.program(READING + "for n, line in enumerate(lines()):\n    if n > 4: sys.exit(7)\n"
                               "    print(['ok', 'ok', 'ok', 'started', 'up 1 ok'][n], flush=True)\n")
        script = self.file("a.nvme", HEAD + "up 1\n# expect up 1 ok\nup 1\n# expect up 1 AlreadyUp\n")
        page = self.folder / "page.xml"
        status, told = self.tried("--program", str(program), "--junit", str(page), str(script))
        self.assertEqual(status, 2)
        self.assertIn("the program ended with status 7", told[0])
        self.assertEqual(told[-1], "nvmesim: 1 script, 2 expectations: 0 hold, 0 failed, 2 not reached")
        self.assertEqual(xml.parse(page).getroot().get("errors"), "2")

    def test_the_report_of_junit_s_form(self) -> None:
        page = self.folder / "page.xml"
        bad = self.file("bad\x01.nvme", HEAD + "up 1\n# expect up 1 AlreadyUp <&\x02\n")
        script = self.file("a.nvme", HEAD + WRITE + "# expect * 0:83\n# expect * 0:00\n")
        words = [str(it) for it in (script, bad, FENCING)]
        status, _ = self.tried("--program", str(PROGRAMS[-1]), "--junit", str(page), *words)
        self.assertEqual(status, 2)
        root = xml.parse(page).getroot()
        counts = {it: root.get(it) for it in ("tests", "failures", "errors")}
        self.assertEqual(counts, {"tests": "13", "failures": "1", "errors": "1"})
        self.assertEqual([it.get("tests") for it in root], ["2", "10", "1"])
        failures = list(root.iter("failure"))
        self.assertEqual([it.get("message") for it in failures], ["wanted * 0:83, came execute 1 0 posted 0:00 0"])
        cases = {it.get("name"): (it.get("file"), it.get("line"), len(it)) for it in root[0].iter("testcase")}
        self.assertEqual(cases, {"line 10: expect * 0:83": (str(script), "10", 1),
                                 "line 11: expect * 0:00": (str(script), "11", 0)})
        self.assertIn("left without an answer", root[0].findtext("system-out") or "")

    def test_a_transcript_of_json_lines(self) -> None:
        script = HEAD + WRITE + "# expect * 0:00\n# expect-blocks 1 0 1 48656c6c6f\npoll 1\n"
        script += "read 1 1 8 1\nread 1 1 0 0\n"
        status, told = self.tried("--program", str(PROGRAMS[-1]), "--json", str(self.file("a.nvme", script)))
        records: List[Dict[str, object]] = [json.loads(it) for it in told]
        self.assertEqual(status, 0)
        self.assertEqual([it["kind"] for it in records], ["event"] * 5 + ["expectation"] * 2 + ["event"] * 3
                         + ["unanswered", "end"])
        self.assertEqual({it["script"] for it in records}, {str(self.folder / "a.nvme")})
        self.assertEqual({key: it for key, it in records[4].items() if key not in ("script", "kind")},
                         {"line": 9, "event": "execute 1 0", "answer": "execute 1 0 posted 0:00 0", "controller": 1,
                          "status": "0:00", "name": "Successful Completion", "rule": 0,
                          "requests": [{"ticket": 1, "line": 6}]})
        self.assertEqual((records[5]["wanted"], records[5]["holds"], records[6]["blocks"]), ("* 0:00", True, [1, 0, 1]))
        self.assertEqual((records[7]["value"], records[7]["aborted"]), (0, False))
        self.assertEqual(records[9]["refusal"], "BadRequest")
        self.assertEqual((records[10]["line"], records[10]["ticket"]), (13, 2))
        self.assertEqual((records[11]["good"], records[11]["expectations"], records[11]["held"]), (True, 2, 2))
        status, told = self.tried("--program", str(PROGRAMS[-1]), "--json", str(RACE))
        self.assertEqual((status, json.loads(told[0])["kind"], len(told)), (2, "refused", 1))

    def test_an_image_is_never_written(self) -> None:
        if not LIVE:
            self.skipTest("nvmelive is not built")
        image = self.folder / "image"
        image.write_bytes(b"before".ljust(4096, b"\0"))
        script = str(self.file("a.nvme", HEAD + "# expect-blocks 1 0 1 6265666f7265\n" + WRITE
                               + "# expect-blocks 1 0 1 48656c6c6f\n"))
        status, told = self.tried("--program", str(LIVE), "--image", str(image), script, script)
        self.assertEqual((status, told[-1]), (0, "nvmesim: 2 scripts, 4 expectations: 4 hold, 0 failed; "
                                                 "2 requests left without an answer"))
        self.assertEqual(image.read_bytes(), b"before".ljust(4096, b"\0"))
