"""Pictures: one self-contained page, with each event, each command and each denial."""
from __future__ import annotations

import base64
import gzip
import json
import os
import re
import unittest
import xml.etree.ElementTree as xml
from unittest import mock

from nvmesim import Session
from nvmesim.answers import Executed
from nvmesim.looks import fetched
from nvmesim.script import LineKind, read_lines
from nvmesim.history import follow
from nvmesim.timeline import png, svg, timeline, watched
from nvmesim.timeline.bands import bands_of
from nvmesim.timeline.formats import NoFormat
from nvmesim.timeline.layout import ROWS_OF_A_PART, commands_of, lay_out
from nvmesim.script import configuration_of

from .standin import World
from .support import LIVE, PROGRAMS, FolderCase, examples

SPACE = "{http://www.w3.org/2000/svg}"
HEAD = "controller 1 host 0xa1\nnamespace 1 blocks 8 shared\nattached 1 1\nstart\nup 1\n"


def transcript_of(script: str) -> str:
    """What the stand-in answers."""
    world = World()
    told = [(world.started, world.answer(it)) for it in script.splitlines() if not it.startswith("#")]
    return "".join(f"{answer}\n" for is_event, answer in told if is_event)


def pictures(page: str) -> "list[xml.Element]":
    """The SVG pictures of a page, each well-formed."""
    return [xml.fromstring(it) for it in re.findall(r'<svg class="part".*?</svg>', page, re.DOTALL)]


def with_class(parts: "list[xml.Element]", name: str) -> "list[xml.Element]":
    return [it for part in parts for it in part.iter() if name in it.get("class", "").split(" ")]


class TimelineTest(FolderCase):
    def test_each_event_and_command_is_there(self) -> None:
        for name, script, transcript in examples():
            page = timeline(script, transcript, name)
            events = follow(list(read_lines(script)), transcript)
            denied = sum(it.is_denied for it in commands_of(events))
            parts = pictures(page)
            with self.subTest(name):
                rows = with_class(parts, "event")
                self.assertEqual([it.get("tabindex") for it in rows], ["0"] * len(events))
                lists = [it for part in parts for it in part.iter() if it.get("role") == "list"]
                self.assertEqual([it for row in lists for it in row], rows)
                self.assertTrue(all(it.get("aria-label") and it.find(f"{SPACE}title") is not None for it in rows))
                self.assertEqual(len(with_class(parts, "cross")), denied)
                self.assertEqual(page.count("<tr><td>"), denied)

    @unittest.skipUnless(LIVE, "NVMELIVE does not name the program")
    def test_executions_are_drawn_by_what_was_executed(self) -> None:
        """Each execution of every example, of drivers and of raw hosts, by the names that `?fetched` has."""
        touches = {"write": "changes", "write_zeroes": "changes", "read": "looks", "compare": "looks",
                   "flush": "flushes"}
        seen = set()
        for name, script, transcript in examples():
            wanted, hosts = [], configuration_of(read_lines(script)).hosts
            with Session(program=LIVE) as session:
                for line in read_lines(script):
                    if line.kind is not LineKind.EVENT:
                        session.run(line.text) if line.words else None
                        continue
                    number = line.controller if line.verb == "execute" else 0
                    told = fetched(session.look(f"?fetched {number}"), number) if number in hosts else []
                    answer = session.event(line.text).answer
                    if isinstance(answer, Executed) and answer.rule == 0 and answer.status is not None:
                        wanted.append(touches.get(told[answer.place].name, "other"))
            parts = pictures(timeline(script, transcript, name))
            shapes = [it.get("class") for part in parts for mark in with_class([part], "mark") for it in mark
                      if it.get("class") in (*touches.values(), "other")]
            with self.subTest(name):
                self.assertEqual(shapes, wanted)
                self.assertEqual(len(with_class(parts, "reach")), len(wanted) - wanted.count("other"))
            seen |= {(name.startswith("raw"), it) for it in wanted}
        self.assertLessEqual({(is_raw, it) for is_raw in (True, False) for it in ("changes", "looks", "other")}, seen)

    def test_it_is_self_contained(self) -> None:
        script = HEAD + "flush 1 1\n"
        page = timeline(script, transcript_of(script), "<b>&\"'")
        self.assertNotIn("<b>", page)
        links = set(re.findall(r"(?:https?:)?//[^\s\"'<)]+", page))
        self.assertEqual(links, {"http://www.w3.org/2000/svg"})
        self.assertNotRegex(page, r"<link|<img|@import|src=|url\((?!#)")

    def test_resets_and_aborts(self) -> None:
        script = HEAD + "flush 1 1\nflush 1 1\nring 1\nfetch 1 1\nreset 1\npoll 1\n"
        parts = pictures(timeline(script, transcript_of(script)))
        self.assertEqual(len(with_class(parts, "reset")), 2)
        self.assertEqual(len(with_class(parts, "aborted")), 2)

    def test_a_power_cycle_is_a_band_over_each_host(self) -> None:
        script = HEAD.replace("start", "controller 2 host 0xb2\nstart") + "flush 1 1\npowercycle\npoll 1\n"
        parts = pictures(timeline(script, transcript_of(script)))
        self.assertEqual([it.text for it in with_class(parts, "band-text")], ["up", "power", "power"])
        self.assertEqual(len(with_class(parts, "aborted")), 1)

    def test_comments_are_captions(self) -> None:
        script = "# What <it> is\n# about.\n" + HEAD + "# First\n# of all\nflush 1 1\n# host a\nring 1\nring 1\n"
        page = timeline(script, transcript_of(script))
        parts = pictures(page)
        self.assertIn('<p class="head">What &lt;it&gt; is about.</p>', page)
        captions = with_class(parts, "caption")
        self.assertEqual([it.findtext(f"{SPACE}title") for it in captions], ["First of all", "host a"])
        places = [float(it.find(f"{SPACE}rect").get("y", 0))  # type: ignore[union-attr]
                  for it in (*with_class(parts, "event"), *captions)]
        self.assertEqual(len(set(places)), len(places), "no caption covers an event")

    def test_bands_say_who_is_registered_and_who_holds(self) -> None:
        script = HEAD.replace("start", "controller 2 host 0xb2\nattached 2 1\nstart\nup 2")
        for number, line in ((1, "register 1 1 0 0 0 0 0x11"), (2, "register 2 1 0 0 0 0 0x22"),
                             (1, "acquire 1 1 0 1 0x11 0"), (2, "acquire 2 1 2 1 0x22 0x11")):
            script += f"{line}\nring {number}\nfetch {number} 1\nexecute {number} 0\npoll {number}\n"
        script += "powercycle\n"
        with Session(program=PROGRAMS[-1]) as session:
            transcript, told = watched(session, script)
        self.assertEqual(transcript, transcript_of(script))
        bands = [(it.host, it.held, it.begin, it.end) for it in bands_of(told, 23)]
        self.assertEqual(bands, [(0xa1, "", 6, 21), (0xb2, "", 11, 23), (0xa1, "Write Exclusive", 16, 21),
                                 (0xb2, "Write Exclusive", 21, 23)])
        parts = pictures(timeline(script, transcript, "bands", told))
        self.assertEqual(len(with_class(parts, "holds")), 2)
        self.assertEqual(len(with_class(parts, "key")), 2)

    def test_the_first_denied_command_is_shown_first(self) -> None:
        script = HEAD + "read 1 1 8 1\nring 1\nfetch 1 1\nexecute 1 0\npoll 1\n"
        page = timeline(script, transcript_of(script))
        self.assertIn('<p class="first"><a href="#" data-go="5">Event 5</a>', page)
        self.assertLess(page.index("is the first command that is denied"), page.index('<svg class="part"'))
        self.assertNotIn("is the first command", timeline(HEAD, transcript_of(HEAD)))

    def test_twenty_thousand_events_of_sixteen_hosts(self) -> None:
        head = "".join(f"controller {it} host {it}\n" for it in range(1, 17)) + "namespace 1 blocks 8 shared\n"
        head += "".join(f"attached {it} 1\n" for it in range(1, 17)) + "start\n" + "".join(
            f"up {it}\n" for it in range(1, 17))
        script = head + "".join(f"read {n} 1 {8 if n == 7 else 0} 1\nring {n}\nfetch {n} 1\nexecute {n} 0\npoll {n}\n"
                                for n in range(1, 17)) * 250
        page = timeline(script, transcript_of(script), "many")
        self.assertLess(len(page), 4_000_000)
        packed = re.search(r'id="packed">([^<]*)<', page)
        assert packed is not None
        data = json.loads(gzip.decompress(base64.b64decode(packed[1])))
        self.assertEqual((len(data["texts"]), len(data["denied"])), (20016, 250))
        rooms = re.findall(r'<div class="room" data-first="(\d+)" data-last="(\d+)"', page)
        self.assertEqual([int(it[0]) for it in rooms[1:]], [int(it[1]) + 1 for it in rooms[:-1]])
        inline = [it.get("data-event") for it in with_class(pictures(page), "event")]
        later = with_class([xml.fromstring(it) for it in data["parts"] if it], "event")
        self.assertEqual([*inline, *(it.get("data-event") for it in later)], [str(n) for n in range(1, 20017)])
        self.assertIn(' data-go="', page)
        self.assertEqual(page.count("<tr><td>"), 200)

    def test_an_svg_file_is_well_formed_and_has_its_style(self) -> None:
        for name, script, transcript in examples():
            with self.subTest(name):
                picture = xml.fromstring(svg(script, transcript, "<a & b>"))
                self.assertEqual(picture.get("aria-label"), "<a & b>")
                style = picture.findtext(f"{SPACE}style") or ""
                self.assertIn("prefers-color-scheme: dark", style)
                self.assertNotIn("@page", style)
                self.assertEqual(style.count("{"), style.count("}"))
                self.assertEqual(len(with_class([picture], "event")), len(transcript.splitlines()))

    def test_a_png_file(self) -> None:
        script = HEAD + "flush 1 1\n"
        path = mock.patch.dict(os.environ, PATH=str(self.folder))
        with path, self.assertRaisesRegex(NoFormat, "a browser on the path"):
            png(script, transcript_of(script), "none")
        (self.folder / "rsvg-convert").write_text('#!/bin/sh\n/bin/cp "$3" "$2"\n', encoding="utf-8")
        (self.folder / "rsvg-convert").chmod(0o755)
        with path:
            self.assertIn(b"<svg", png(script, transcript_of(script), "one"))  # this converter copies
        (self.folder / "rsvg-convert").write_text("#!/bin/sh\necho no; exit 1\n", encoding="utf-8")
        with path, self.assertRaisesRegex(NoFormat, "makes no PNG.*: no$"):
            png(script, transcript_of(script), "none")
        with self.assertRaisesRegex(NoFormat, "at most"):
            png(HEAD + "ring 1\n" * 1500, transcript_of(HEAD + "ring 1\n" * 1500), "tall")

    def test_five_hundred_events(self) -> None:
        script = HEAD + "write 1 1 0 1 hex:01\nread 1 1 0 1\nring 1\nfetch 1 1\nfetch 1 1\nexecute 1 1\nexecute 1 0\n" \
            "poll 1\npoll 1\nread 1 1 8 1\nring 1\nfetch 1 1\nexecute 1 0\npoll 1\n" * 36
        parts = pictures(timeline(script, transcript_of(script)))
        self.assertEqual(len(with_class(parts, "event")), 505)
        self.assertEqual(len(parts), -(-505 // ROWS_OF_A_PART))
        self.assertEqual(len(with_class(parts, "cross")), 36)

    def test_no_text_covers_another_or_a_span(self) -> None:
        """By letters of 7.3 pixels in the heads, and of 6 in the numbers of rules."""
        hosts = range(1, 17)
        head = "".join(f"controller {it} host 0x{it:x}{'f' * 30}\n" for it in hosts) + "namespace 1 blocks 8 shared\n"
        head += "".join(f"attached {it} 1\n" for it in hosts) + "start\nup 16\n"
        for begin, number in ((HEAD, 1), (head, 16)):
            script = begin + "read N 1 8 1\n".replace("N", str(number)) * 7 + f"ring {number}\n"
            script += f"fetch {number} 1\n" * 7 + f"execute {number} 0\n" * 7
            layout = lay_out(follow(list(read_lines(script)), transcript_of(script)),
                             configuration_of(list(read_lines(script))), ["text"])
            self.assertEqual([it.title for it in layout.lanes if 7.3 * len(it.title) > it.width], [])
            parts = pictures(timeline(script, transcript_of(script)))
            held = max(float(it.get("x", 0)) + 9 for it in with_class(parts, "held"))
            rules = with_class(parts, "rule")
            self.assertEqual(len(rules), 7)
            for it in rules:
                self.assertGreater(float(it.get("x", 0)) - 6 * len(it.text or ""), held)

    def test_requests_that_wait_together_have_slots_of_their_own(self) -> None:
        script = HEAD + "flush 1 1\nflush 1 1\nring 1\nfetch 1 1\nexecute 1 0\npoll 1\nflush 1 1\n"
        lines = list(read_lines(script))
        events = follow(lines, transcript_of(script))
        layout = lay_out(events, configuration_of(lines), ["text"])
        self.assertEqual([layout.slots[it] for it in commands_of(events)], [0, 1, 0])


if __name__ == "__main__":
    unittest.main()
