"""The command `explore`: what it prints, its status, its options, and what it refuses."""
from __future__ import annotations

import contextlib
import io
import json
import re
import unittest
from pathlib import Path
from typing import List, Tuple

from nvmesim.__main__ import main
from nvmesim.explore import Plan

from .support import LIVE, RACE, STANDIN, FolderCase
from .test_explore import HEAD, PROGRAM, RACE_TEXT, SMALL


class CommandTest(FolderCase):
    def run_command(self, *words: str) -> Tuple[int, str, str]:
        told, wrong = io.StringIO(), io.StringIO()
        with contextlib.redirect_stdout(told), contextlib.redirect_stderr(wrong):
            try:
                status = main(words)
            except SystemExit as end:
                status = int(end.code or 0)
        return status, told.getvalue(), wrong.getvalue()

    def explored(self, *words: str) -> Tuple[int, str, str]:
        return self.run_command("explore", "--program", str(PROGRAM), *words)

    def test_each_fault_is_one_sentence(self) -> None:
        text = self.folder / "text"
        text.write_bytes(b"\xff")
        fill = self.folder / "fill"
        fill.write_text("controller 1 host 1\nnamespace 1 blocks 8 shared\nattached 1 1\nstart\nup 1\n"
                        "write 1 1 0 1 fill:0\n", encoding="utf-8")
        parrot = self.program("for line in sys.stdin: print(line, end='', flush=True)")
        for words, said in (
                (["explore", str(RACE), "--bogus"], "unrecognized arguments: --bogus"),
                (["explore", str(RACE), "--jobs", "x"], "invalid int value: 'x'"),
                (["explore", str(RACE), "--jobs", "0"], "--jobs and --memory must be at least 1"),
                (["explore", str(RACE), "--shard", "1/8"], "--shard is gone: parts of one exploration met nearly all "
                 "states each; --jobs N runs on several processors"),
                (["explore", "--merge", "part1", "part2"], "--merge is gone: "),
                (["explore", str(RACE), "--dask", "tcp://127.0.0.1:1", "--shards", "8"], "--shards is gone: "),
                (["explore"], "explore needs a SCRIPT"),
                (["explore", str(RACE), "--fail", "0"], "--fail 0: use K, or K-L such as 1-20, with K from 1 on"),
                (["explore", str(RACE), "--fail", "3-2"], "--fail 3-2: K-L must be from 1 to 10,000 calls"),
                (["explore", str(RACE), str(RACE), "--page", "a.html"], "--page shows one exploration, not several"),
                (["timeline", str(RACE), "--format", "png"], "a PNG file needs a name: -o FILE"),
                (["timeline", str(RACE), "-o", "a.pdf"], "a.pdf ends with .pdf, which is no format that is written "
                 "here: .html or .svg or .png, or no ending"),
                (["timeline", str(RACE), "-o", "a.nvme.txt"], "a.nvme.txt ends with .txt"),
                (["explore", str(RACE), "--page", "a.svg"], "a.svg ends with .svg, which is no format that is written "
                 "here: .html, or no ending"),
                (["conform", "--device", "/dev/null", "--scenes", "0"], "--scenes and --length must be at least 1"),
                (["explore", str(self.folder / "absent")], "/absent: No such file or directory"),
                (["explain", str(fill)], "line 6: word 6: DATA, fill: and two hexadecimal digits, or hex: and pairs of "
                 "them that BLOCKS have room for, not 'fill:0'"),
                (["explain", str(text)], "is no text: its byte 0 is no UTF-8"),
                (["timeline", str(RACE), "-o", "/absent/page"], "/absent/page: No such file or directory"),
                (["explore", str(RACE), "--program", str(parrot)], "does not answer ?line"),
                (["explore", str(RACE), "--always", "a.write1 =="], "'a.write1 ==' is no expression: ")):
            given = [*words[:1], "--program", str(PROGRAM), *words[1:]] if "--program" not in words else words
            status, told, wrong = self.run_command(*given)
            with self.subTest(words):
                self.assertEqual((status, told, wrong.count("\n")), (2, "", 1))
                self.assertIn(said, wrong)

    def test_a_report_and_its_status(self) -> None:
        status, told, _ = self.explored(str(RACE), "--never", "a.write1 == 'unanswered'")
        self.assertEqual(status, 0)
        self.assertIn("252 orders of a 5 events, b 5 events: 3 outcomes", told)
        self.assertIn("holds in all 252 orders", told)
        example = self.folder / "found.nvme"
        status, told, _ = self.explored(str(RACE), "--always", "a.write1.rule == 0", "--counterexample", str(example))
        self.assertEqual(status, 1)
        self.assertIn("fails in 126 of 252 orders", told)
        self.assertIn(example.read_text(encoding="utf-8"), told)

    def test_outcomes_by_what_is_asked_for(self) -> None:
        status, told, _ = self.explored(str(RACE), "--by", "a.write1, block(1,0),reservation(1).holder")
        self.assertEqual(status, 0)
        self.assertIn("3 outcomes", told)
        for row in ("   a.write1               Reservation Conflict (rule 7)\n   block(1, 0)            zeros\n",
                    "   block(1, 0)            a1\n   reservation(1).holder  0xb2\n"):
            self.assertIn(row, told)
        _, told, _ = self.explored(str(RACE), "--by", "block(1, 0) == 'a1'")
        self.assertIn("252 orders of a 5 events, b 5 events: 2 outcomes", told)
        self.assertIn("2. 126 orders, such as", told)
        for words, said in (("a.write2", "there is no answer a.write2"), ("a.write1,,", "is no list of expressions"),
                            ("block(1, 7)", "the script writes no block 1, 7")):
            status, told, wrong = self.explored(str(RACE), "--by", words)
            self.assertEqual((status, told, wrong.count("\n")), (2, "", 1))
            self.assertIn(said, wrong)

    def test_unimportant_events_do_not_distinguish_outcomes(self) -> None:
        script = self.folder / "polls.nvme"
        script.write_text(SMALL.replace("# host b", "poll 1\n# host b").replace("# then", "# host c\npoll 1\n# then"),
                          encoding="utf-8")
        _, few, _ = self.explored(str(script))
        _, many, _ = self.explored(str(script), "--trifles")
        self.assertIn(": 2 outcomes", few)
        self.assertNotIn("poll", few.split("1. ", 1)[1].split("a.write1", 1)[1])
        self.assertIn("c.poll1", many)
        self.assertGreater(int(many.split(": ")[1].split(" ")[0]), 2)
        counts = [sum(int(it.split(" ")[1]) for it in told.splitlines() if "orders, such as" in it)
                  for told in (few, many)]
        self.assertEqual(*counts)
        power = self.folder / "power.nvme"  # an outcome depends on whether a driver comes up
        power.write_text(HEAD + "# host a\nreset 1\npoll 1\n# host b\nup 1\n# host c\nread 1 1 0 1\n", encoding="utf-8")
        self.assertIn("c.read1  refused NotReady\n   b.up1    AlreadyUp", self.explored(str(power))[1])

    def test_long_values_are_shortened_but_compared_whole(self) -> None:
        """Two outcomes whose bytes differ in the last one only are two; no line is longer than a terminal's few."""
        script = self.folder / "long.nvme"
        one, other = "ab" * 511 + "01", "ab" * 511 + "02"
        script.write_text(HEAD + f"# host a\nwrite 1 1 0 1 hex:{one}\nring 1\nfetch 1 1\nexecute 1 0\n# host b\n"
                          f"write 2 1 0 1 hex:{other}\nring 2\nfetch 2 1\nexecute 2 0\n", encoding="utf-8")
        status, told, _ = self.explored(str(script), "--by", "block(1, 0)")
        self.assertEqual(status, 0)
        self.assertIn("2 outcomes", told)
        rows = [it for it in told.splitlines() if it.startswith("   block(1, 0)")]
        self.assertEqual(len(set(rows)), 2)
        self.assertRegex(rows[0], r"ab\.\. \(512 bytes up to the last that is not zero, digest [0-9a-f]{8}\)$")
        self.assertLess(max(map(len, told.splitlines())), 200)

    def test_the_whole_report_as_json(self) -> None:
        status, told, _ = self.explored(str(RACE), "--json", "--never", "a.write1.rule == 7", "--always", "True",
                                        "--by", "a.write1.rule")
        report = json.loads(told)
        self.assertEqual(status, 1)
        self.assertEqual([report[it] for it in ("orders", "judged", "is_whole", "is_good")], [252, 252, True, False])
        self.assertEqual(report["script"], RACE_TEXT)
        self.assertEqual(sorted(it["orders"] for it in report["outcomes"]), [60, 66, 126])
        first = report["outcomes"][0]
        self.assertEqual(first["answers"]["then.read1"]["data"], "a1")
        self.assertEqual(first["blocks"], {"1:0": "a1"})
        self.assertEqual(first["reservations"]["1"]["holder"], 0xb2)
        self.assertEqual([it["rows"]["a.write1.rule"] for it in report["groups"]], ["0", "7", "1"])
        self.assertEqual([(it["is_met"], it["fails_in"]) for it in report["checks"]], [(True, 0), (False, 66)])
        plan = Plan(report["outcomes"][1]["example"].replace("# a", "# host a").replace("# b", "# host b"))
        self.assertEqual(plan.length, Plan(RACE_TEXT).length)
        self.assertEqual(report["checks"][1]["counterexample"], report["outcomes"][1]["example"])

    def test_the_outcomes_as_a_page(self) -> None:
        page = self.folder / "page.html"
        status, _, _ = self.explored(str(RACE), "--page", str(page), "--never", "a.write1.rule == 1", "--always",
                                     "a.write1.rule < 99")
        self.assertEqual(status, 1)
        text = page.read_text(encoding="utf-8")
        for said in ("<h1>preempt-race.nvme</h1>", "<p>252 orders of a 5 events, b 5 events: 3 outcomes.</p>",
                     "fails in 60 of 252 orders", "A counterexample", "The nearest order that is good",
                     '<h2 id="outcome-3">Outcome 3: 60 orders, such as this</h2>',
                     "here it parts from outcome 3, where acquire 2 1 2 1 0x22 0x11 comes next"):
            self.assertIn(said, text)
        pictures = re.findall(r'<svg class="part".*?</svg>', text, re.DOTALL)
        self.assertEqual(len(pictures), 3 + 2)
        for it in pictures:
            events = re.findall(r'data-event="(\d+)"', it)
            self.assertEqual(events, [str(n) for n in range(18, 33)], "from the first mark on")
        self.assertEqual(text.count("here it parts from the other order, where execute 1 0 comes next") // 2, 1)
        self.assertNotRegex(text, r"<link|<img|@import|src=|url\((?!#)")

    def test_a_page_counts_in_one_form(self) -> None:
        """How many orders there are has the same digits in the report and everywhere in the page."""
        script, page = self.folder / "many.nvme", self.folder / "page.html"
        script.write_text(HEAD + "# host a\n" + "ring 1\n" * 7 + "# host b\n" + "ring 2\n" * 7, encoding="utf-8")
        _, told, _ = self.explored(str(script), "--page", str(page))
        for text, times in (told, 2), (page.read_text(encoding="utf-8"), 3):
            self.assertEqual(re.findall(r"\b3,?432\b", text), ["3432"] * times)

    def test_the_red_reasons_of_a_page_are_whole(self) -> None:
        """Texts are not cut, and fit into their pictures with bold letters of 8 pixels, and these into the page."""
        page = self.folder / "page.html"
        self.explored(str(RACE), "--page", str(page), "--never", "a.write1.rule == 1")
        text = page.read_text(encoding="utf-8")
        self.assertIn(".pictures svg.part { max-width: 100%; height: auto; }", text)
        reason = "denied by rule 1: a Preempt and Abort met it, and its host lost its registration"
        found = 0
        for width, body in re.findall(r'<svg class="part"[^>]* width="(\d+)".*?>(.*?)</svg>', text, re.DOTALL):
            for left, line, words in re.findall(r'<g class="event denied[^<]*<title>[^<]*</title>.*?<text x="(\d+)" '
                                                r'y="[^"]*"><tspan class="line">([^<]*)</tspan><tspan[^>]*>([^<]*)<',
                                                body, re.DOTALL):
                found += words.endswith(reason)
                self.assertNotIn("..", words)
                self.assertLess(int(left) + 7 * len(line) + 10 + 8 * len(words), int(width))
        self.assertEqual(found, 2, "the counterexample and its outcome")

    def test_a_page_of_orders_that_are_not_drawn(self) -> None:
        script, page = self.folder / "crash.nvme", self.folder / "page.html"
        script.write_text(SMALL.replace("# then", "# host machine\n# crash\n# then"), encoding="utf-8")
        self.assertEqual(self.explored(str(script), "--page", str(page))[0], 0)
        text = page.read_text(encoding="utf-8")
        self.assertIn("<pre>controller 1 host 0xa1", text)
        self.assertNotIn('<svg class="part"', text)

    def test_one_order_judges_nothing(self) -> None:
        script = self.folder / "alone.nvme"
        for body, why in (("# host a\nring 1\nring 2\n", "The script has one part, a"),
                          ("# host a\nring 1\n# then\n# host b\nring 2\n", "The script's parts have one order")):
            script.write_text(HEAD + body, encoding="utf-8")
            status, told, _ = self.explored(str(script))
            self.assertEqual(status, 0)
            self.assertIn(f"{why}, so nothing was tried in another order.\n", told)
            for words, wanted in ((("--never", "a.ring1 == 'NotUp'"), 2), (("--always", "a.ring1 == 'NotUp'"), 1)):
                status, told, wrong = self.explored(str(script), *words)
                self.assertEqual(status, wanted)
                self.assertEqual(wrong, f"nvmesim: {why}: --always and --never are judged by 2 orders at least\n"
                                 if wanted == 2 else "")

    def test_what_can_not_be_done(self) -> None:
        for words in ((), (str(RACE), "--always", "a.nothing1"), ("absent.nvme",), (str(RACE), "--jobs", "0")):
            with self.subTest(words):
                status, told, wrong = self.explored(*words)
                self.assertEqual((status, told, wrong.count("\n"), wrong[:9]), (2, "", 1, "nvmesim: "))

    def test_explain_and_timeline(self) -> None:
        status, told, _ = self.run_command("explain", str(RACE), "--program", str(STANDIN), "--width", "300")
        self.assertEqual(status, 0)
        self.assertIn("host b2h's driver delivers the answer of ticket 2", told)
        page = self.folder / "page.html"
        status, _, _ = self.run_command("timeline", str(RACE), "--program", str(STANDIN), "-o", str(page))
        self.assertEqual(status, 0)
        self.assertIn("<h1>preempt-race.nvme</h1>", page.read_text(encoding="utf-8"))
        transcript = self.folder / "wrong.out"
        transcript.write_text("up 1 ok\n", encoding="utf-8")
        status, _, wrong = self.run_command("explain", str(RACE), str(transcript))
        self.assertEqual((status, wrong), (2, "nvmesim: the script has 32 events, and the transcript 1 lines\n"))


if __name__ == "__main__":
    unittest.main()
