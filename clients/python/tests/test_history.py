"""Scripts and the states of their commands: over the examples, and over impossible transcripts."""
from __future__ import annotations

import unittest

from nvmesim import ProtocolError, ScriptError, Status
from nvmesim.explain import explain
from nvmesim.history import follow
from nvmesim.script import LineKind, read_lines
from nvmesim.timeline.layout import commands_of
from nvmesim.words import command_words

from .support import examples

HEAD = "controller 1 host 0xa1\nnamespace 1 blocks 8 shared\nattached 1 1\nstart\n"


class ScriptTest(unittest.TestCase):
    def test_kinds_of_lines(self) -> None:
        kinds = [it.kind for it in read_lines("# one\n\n  controller\t1 host 1 raw\nstart\r\n up 1\n")]
        self.assertEqual(kinds, [LineKind.COMMENT, LineKind.BLANK, LineKind.CONFIGURATION, LineKind.START,
                                 LineKind.EVENT])

    def test_what_is_refused_and_where(self) -> None:
        for text, number in (("wirte 1", 1), (HEAD + "wirte 1 1 0 1 hex:00", 5), (HEAD + "read 1 1 0", 5), ("up 1", 1),
                             (HEAD + "start", 5), (HEAD + "attached 1 1", 5), (HEAD + "ring -1", 5),
                             (HEAD + "write 1 1 0 1 hex:0", 5), (HEAD + "write 1 1 0 1 fill:0000", 5),
                             (HEAD + "write 1 1 0 1 what", 5), (HEAD + "powercycle 1", 5), ("powercycle", 1)):
            with self.subTest(text), self.assertRaises(ScriptError) as caught:
                list(read_lines(text))
            self.assertEqual(caught.exception.number, number)

    def test_data_and_numbers(self) -> None:
        line = list(read_lines(HEAD + "write 0x1 1 0X0 2 fill:5A".replace("0X0", "0x0")))[-1]
        self.assertEqual((line.numbers(), line.data()), ([1, 1, 0, 2], b"\x5a" * 1024))


class FollowTest(unittest.TestCase):
    def test_polls_deliver_the_results_of_executions(self) -> None:
        for name, script, transcript in examples():
            events = follow(list(read_lines(script)), transcript)
            for event in events:
                command, words = event.command, event.text.split(" ")
                if words[0] == "poll" and len(words) > 4 and command is not None:
                    with self.subTest(name, line=event.line.number):
                        self.assertEqual(command.status, Status.of(words[3]))
                        steps = (command.placed, command.rung, command.fetched, command.executed, command.polled)
                        self.assertEqual(list(steps), sorted(it for it in steps if it is not None))

    def test_commands_of_raw_hosts_are_read_from_their_stores(self) -> None:
        script, transcript = next((one, two) for name, one, two in examples() if name == "raw-queues")
        told = [command_words(it) for it in commands_of(follow(list(read_lines(script)), transcript)) if it.entry]
        self.assertEqual(told[:4], ["Create I/O Completion Queue, CID 1, queue 1",
                                    "Create I/O Submission Queue, CID 2, queue 1", "Read, CID 7, namespace 1, block 3",
                                    "Write, CID 8, namespace 1, block 4"])

    def test_a_power_cycle_meets_the_requests_of_all_hosts(self) -> None:
        script = (HEAD.replace("start", "controller 2 host 0xb2\nattached 2 1\nstart") + "up 1\nup 2\nflush 2 1\n"
                  "flush 1 1\nring 1\nfetch 1 1\npowercycle\npowercycle\npoll 1\n")
        told = ["up 1 ok", "up 2 ok", "placed 2 1", "placed 1 1", "rung 1", "fetch 1 1 took", "powercycle",
                "powercycle", "poll 1 1 aborted"]
        lines = list(read_lines(script))
        events = follow(lines, "\n".join(told))
        self.assertEqual([(it.controller, it.reset) for it in events[6].commands], [(1, 7), (2, 7)])
        self.assertEqual(events[7].commands, [])
        self.assertIs(events[8].command, events[6].commands[0])
        for text in ("powercycle 1", "nocontroller 0", "reset 1", "wrote32 0"):
            with self.subTest(text), self.assertRaises(ProtocolError):
                follow(lines, "\n".join([*told[:6], text, *told[7:]]))

    def test_a_power_cycle_forgets_what_a_raw_host_had(self) -> None:
        script = ("controller 1 host 1 raw\nstart\nstore 1 0 hex:06\nwrite32 1 0x24 0x10001\nwrite32 1 0x14 1\n"
                  "write32 1 0x1000 1\nfetch 1 0\npowercycle\nwrite32 1 0x14 1\nfetch 1 0\n")
        told = ["stored 1", *["wrote32 1"] * 3, "fetch 1 0 took", "powercycle", "wrote32 1", "fetch 1 0 took"]
        events = follow(list(read_lines(script)), "\n".join(told))
        first, second = events[4].command, events[7].command
        self.assertEqual(events[5].commands, [first])
        self.assertEqual([command_words(it) for it in (first, second) if it], ["Identify, CID 0"] * 2)

    def test_a_queue_that_is_deleted_takes_what_was_fetched_from_it(self) -> None:
        script = next(script for name, script, _ in examples() if name == "raw-create")
        transcript = next(transcript for name, _, transcript in examples() if name == "raw-create")
        lines = script.split("\n")
        second = next(n for n, line in enumerate(lines) if line.startswith("# A second time there is no such queue."))
        event = next(it for it in follow(list(read_lines(script)), transcript)
                     if it.line.number > second and it.line.verb == "execute")
        assert event.command is not None
        self.assertEqual(command_words(event.command), "Delete I/O Submission Queue, CID 7, queue 1")

    def test_transcripts_that_do_not_fit(self) -> None:
        script = HEAD + "up 1\nflush 1 1\nring 1\nfetch 1 1\nexecute 1 0\npoll 1\n"
        right = ["up 1 ok", "placed 1 1", "rung 1", "fetch 1 1 took", "execute 1 0 posted 0:00 0",
                 "poll 1 1 0:00 00000000"]
        lines = list(read_lines(script))
        self.assertEqual(len(follow(lines, "\n".join(right))), 6)
        for place, text in ((0, "up 2 ok"), (1, "rung 1"), (2, "rung 2"), (3, "fetch 1 2 took"), (2, "rung 1 NotUp"),
                            (4, "execute 1 1 posted 0:00 0"), (5, "poll 1 2 0:00 00000000"), (3, "nonsense")):
            wrong = [*right[:place], text, *right[place + 1:]]
            with self.subTest(text), self.assertRaises(ProtocolError):
                follow(lines, "\n".join(wrong))
        for count in (5, 7):
            with self.assertRaises(ScriptError):
                follow(lines, "\n".join((right * 2)[:count]))


class ExplainTest(unittest.TestCase):
    def test_each_event_has_its_line(self) -> None:
        for name, script, transcript in examples():
            told = list(explain(script, transcript, 160, comments=False))
            begins = [it for it in told if it[:6].strip().split(" ")[0].isdigit()]
            wanted = [it for it in read_lines(script) if it.kind not in (LineKind.COMMENT, LineKind.BLANK)]
            with self.subTest(name):
                self.assertEqual(len(begins), len(wanted))

    def test_what_a_power_cycle_says(self) -> None:
        script, transcript = next((one, two) for name, one, two in examples() if name == "power-cycle")
        told = " ".join(" ".join(explain(script, transcript, 400)).split())
        for words in ("powercycle powercycle the whole subsystem loses power and gets it back; all drivers and "
                      "controllers are down; controller 1's ticket 9 will be delivered as aborted",
                      "host a1h's driver delivers ticket 9 (Read) as aborted by event ",
                      "Reservation Register, namespace 1, registers key 11h; all persists through a loss of power from "
                      "now on",
                      "Reservation Register, namespace 2, registers key 11h ",
                      "Set Features, write protection, namespace 1, set until a power cycle",
                      "denied with Feature Not Changeable (1:0e) by rule 6"):
            self.assertIn(words, told)

    def test_what_a_denied_command_says(self) -> None:
        script, transcript = next((one, two) for name, one, two in examples() if name == "preempt-and-abort")
        told = " ".join(" ".join(explain(script, transcript, 400)).split())
        for words in ("controller 2 executes ticket 2 (Read): denied with Command Aborted due to Preempt and Abort "
                      "(0:1b) by rule 1: a Preempt and Abort met it, and its host lost its registration",
                      "host b2h's driver delivers the answer of ticket 4 (Read): Reservation Conflict (0:83), by rule "
                      "7",
                      "host a1h's driver places ticket 3: Reservation Acquire, namespace 1, preempts key 22h and "
                      "aborts, with key 11h, Exclusive Access",
                      "host b2h's driver notifies controller 2 of tickets 2, 3 and 4"):
            self.assertIn(words, told)


if __name__ == "__main__":
    unittest.main()
