"""Sessions: usual calls, refusals, and programs that hang, die or print nonsense."""
from __future__ import annotations

import pickle
import subprocess
import time
import unittest
from pathlib import Path

from nvmesim import (AcquireAction, ConfigurationRefused, ImageInUse, LineError, NotDone, NvmeError, Persistence,
                     PollOutcome, ProgramDied, ProgramHangs, ProgramNotFound, Protection, ProtocolError, Refusal,
                     RequestAborted, RequestRefused, ReservationType, Rule, Session, SessionClosed, Status, Subsystem)
from nvmesim.process import built_program

from .support import LIVE, PROGRAMS, SIM, FolderCase, examples

ANSWERS = "for line in sys.stdin:\n    print({answer}, flush=True)\n"


class UserTest(unittest.TestCase):
    """Each test runs over the stand-in, and over the real program if it was built."""

    def test_one_call_does_all(self) -> None:
        for program in PROGRAMS:
            with self.subTest(program), Subsystem(program=program) as subsystem:
                host = subsystem.controller(host=0xA1)
                disk = subsystem.namespace(blocks=64)
                subsystem.attach(host, disk)
                subsystem.start()
                host.up()
                host.write(disk, 3, b"Hello")
                self.assertEqual(host.read(disk, 3, 2), b"Hello".ljust(1024, b"\0"))
                self.assertEqual(subsystem.blocks(disk, 3), b"Hello".ljust(512, b"\0"))
                host.compare(disk, 3, b"Hello")
                with self.assertRaises(NvmeError) as caught:
                    host.compare(disk, 3, b"hello")
                self.assertEqual((caught.exception.status, caught.exception.rule), (Status.COMPARE_FAILURE, Rule.NONE))
                with self.assertRaises(NvmeError) as caught:
                    host.read(disk, 64)
                self.assertEqual((caught.exception.status, caught.exception.rule),
                                 (Status.LBA_OUT_OF_RANGE, Rule.RANGE))
                self.assertIn("LBA Out of Range (0:80) by rule 9", str(caught.exception))
                host.zeroes(disk, 3, 1)
                host.flush(disk)
                host.protect(disk)
                self.assertTrue(host.protection(disk))
                self.assertEqual(subsystem.close(), 0)

    def test_a_fenced_host(self) -> None:
        for program in PROGRAMS:
            with self.subTest(program), Subsystem(program=program) as subsystem:
                one, two = subsystem.controller(host=0xA1), subsystem.controller(host=0xB2)
                disk = subsystem.namespace(blocks=64)
                for host in (one, two):
                    subsystem.attach(host, disk)
                subsystem.start()
                for host in (one, two):
                    host.up()
                    host.register(disk, new_key=host.host)
                with self.assertRaises(NvmeError) as caught:
                    one.acquire(disk, ReservationType.WRITE_EXCLUSIVE, 0xC3)
                self.assertIs(caught.exception.rule, Rule.ACTION)
                self.assertEqual(caught.exception.cause, "CRKEY is c3h, and host a1h has registered key a1h")
                self.assertTrue(str(caught.exception).endswith(f": {caught.exception.cause}"))
                one.acquire(disk, ReservationType.WRITE_EXCLUSIVE, one.host)
                with self.assertRaises(NvmeError) as caught:
                    two.write(disk, 0, b"b2")
                self.assertEqual((caught.exception.rule, caught.exception.cause), (Rule.RESERVATION, ""))
                told = subsystem.reservation(disk)
                self.assertEqual((told.rtype, told.holder, told.registrants),
                                 (ReservationType.WRITE_EXCLUSIVE, 0xA1, {0xA1: 0xA1, 0xB2: 0xB2}))
                ticket = one.place_write(disk, 0, b"a1")
                one.ring()
                self.assertTrue(one.controller.fetch(1).took)
                two.acquire(disk, ReservationType.WRITE_EXCLUSIVE, two.host, one.host, AcquireAction.PREEMPT_AND_ABORT)
                self.assertEqual([(it.name, it.is_marked) for it in one.controller.fetched()], [("write", True)])
                with self.assertRaises(NvmeError) as caught:
                    one.finish(ticket)
                self.assertIs(caught.exception.status, Status.COMMAND_ABORTED_DUE_TO_PREEMPT_AND_ABORT)

    def test_each_event_alone(self) -> None:
        for program in PROGRAMS:
            with self.subTest(program), Subsystem(program=program) as subsystem:
                host = subsystem.controller(host=0xA1)
                subsystem.attach(host, subsystem.namespace(blocks=8))
                subsystem.start()
                with self.assertRaises(RequestRefused) as caught:
                    host.place_flush(1)
                self.assertIs(caught.exception.refusal, Refusal.NOT_READY)
                host.up()
                with self.assertRaisesRegex(RequestRefused, "BadRequest, .*: BLOCKS is 0, and 1 to 256 are taken$"):
                    host.place_read(1, 0, 0)
                first, second = host.place_flush(1), host.place_read(1, 0)
                host.ring()
                host.controller.fetch(1)
                host.controller.fetch(1)
                host.controller.execute(1)
                host.controller.execute(0)
                self.assertEqual(host.finish(first).ticket, first)
                self.assertEqual(host.answers[second].data, bytes(512))
                self.assertEqual(host.finish(second).data, bytes(512))
                with self.assertRaises(NotDone):
                    host.finish(second)
                third = host.place_flush(1)
                self.assertEqual([it.ticket for it in host.state().tickets], [third])
                host.reset()
                with self.assertRaises(RequestAborted):
                    host.finish(third)
                self.assertIs(host.poll().outcome, PollOutcome.NOT_UP)

    def test_a_power_cycle(self) -> None:
        for program in PROGRAMS:
            with self.subTest(program), Subsystem(program=program) as subsystem:
                one, two = subsystem.controller(host=0xA1), subsystem.controller(host=0xB2)
                kept, lost = subsystem.namespace(blocks=8), subsystem.namespace(blocks=8)
                for host, disk in ((one, kept), (one, lost), (two, kept), (two, lost)):
                    subsystem.attach(host, disk)
                subsystem.start()
                one.up()
                two.up()
                for disk, persist in ((kept, Persistence.SET), (lost, Persistence.CLEAR)):
                    one.register(disk, new_key=0x11, persist=persist)
                    one.acquire(disk, ReservationType.WRITE_EXCLUSIVE, 0x11)
                one.protect(kept, Protection.UNTIL_POWER_CYCLE)
                one.protect(lost)
                with self.assertRaises(NvmeError) as caught:
                    two.protect(kept, Protection.NONE)
                self.assertIs(caught.exception.status, Status.FEATURE_NOT_CHANGEABLE)
                ticket = one.place_flush(kept)
                subsystem.power_cycle()
                with self.assertRaises(RequestAborted):
                    one.finish(ticket)
                told = [subsystem.reservation(it) for it in (kept, lost)]
                self.assertEqual([(it.persists, it.protection, it.registrants) for it in told],
                                 [(True, Protection.NONE, {0xA1: 0x11}), (False, Protection.PROTECTED, {})])
                two.up()
                with self.assertRaises(NvmeError) as caught:
                    two.write(kept, 0, b"b2")
                self.assertIs(caught.exception.rule, Rule.RESERVATION)
                self.assertIs(two.protection(lost), Protection.PROTECTED)
                two.protect(lost, Protection.NONE)
                two.write(lost, 0, b"b2")

    def test_bad_lines_and_configurations(self) -> None:
        for program in PROGRAMS:
            with self.subTest(program), Session(program=program) as session:
                session.configure("controller 1 host 0xa1")
                with self.assertRaises(LineError) as caught:
                    session.configure("namespase 1 blocks 8 shared")
                self.assertEqual(caught.exception.line, "namespase 1 blocks 8 shared")
                session.configure("attached 1 7")
                self.assertEqual(session.script, "controller 1 host 0xa1\nattached 1 7\n")
                why = "^the configuration is refused: line 4: BadId; line 3: namespace 7 is not configured$"
                with self.assertRaisesRegex(ConfigurationRefused, why):
                    session.start()
                with self.assertRaises(SessionClosed):
                    session.ask("up 1")

    def test_a_bad_event_is_no_part_of_the_script(self) -> None:
        for program in PROGRAMS:
            with self.subTest(program), Session(program=program) as session:
                session.run("controller 1 host 0xa1\nstart\nup 1\n")
                before = session.script, session.transcript
                with self.assertRaises(LineError):
                    session.event("wirte 1 1 0 1 hex:00")
                self.assertEqual((session.script, session.transcript), before)
                self.assertEqual(session.event("ring 1").text, "rung 1")

    @unittest.skipUnless(LIVE, "NVMELIVE does not name the program")
    def test_each_example_has_its_transcript(self) -> None:
        for name, script, transcript in examples():
            with self.subTest(name), Session(program=LIVE) as session:
                session.run(script)
                self.assertEqual(session.transcript, transcript)

    @unittest.skipUnless(LIVE and SIM, "NVMELIVE and NVMESIM do not name the programs")
    def test_the_script_is_replayed(self) -> None:
        for name, script, transcript in examples():
            with Session(program=LIVE) as session:
                session.run(script)
            with self.subTest(name):
                done = subprocess.run([str(SIM)], input=session.script, capture_output=True, text=True, timeout=60)
                self.assertEqual((done.returncode, done.stdout), (0, session.transcript))

    @unittest.skipUnless(LIVE, "NVMELIVE does not name the program")
    def test_raw_hosts_and_looks(self) -> None:
        with Subsystem(program=LIVE) as subsystem:
            raw, host = subsystem.raw_controller(host=0xB2), subsystem.controller(host=0xA1)
            disk = subsystem.namespace(blocks=64)
            subsystem.attach(raw, disk)
            subsystem.start()
            raw.write32(0x24, 0x1F0007)
            raw.write32(0x30, 0x1000)
            raw.write32(0x14, 0x460001)
            self.assertEqual(raw.register(0x24), 0x1F0007)
            self.assertEqual(raw.controller.registers()["aqa"], 0x1F0007)
            self.assertTrue(raw.store(64, b"abc").is_inside)
            self.assertFalse(raw.store(4_194_303, b"ab").is_inside)
            self.assertEqual(raw.window(64, 4), b"abc\0")
            self.assertEqual([(it.is_submission, it.number, it.size) for it in raw.controller.queues()],
                             [(True, 0, 8), (False, 0, 32)])
            self.assertEqual([(it.number, it.blocks, it.is_shared) for it in subsystem.namespaces()], [(1, 64, True)])
            self.assertEqual(subsystem.attached(), [(1, 1)])
            with self.assertRaises(LineError):
                subsystem.session.look("?driver 1")
            host.up()
            host.attach(disk, host)
            self.assertEqual(host.identify(2)[:4], b"\1\0\0\0")
            host.detach(disk, [raw, 2])
            self.assertEqual(subsystem.attached(), [])


class BadProgramTest(FolderCase):
    def test_one_that_hangs(self) -> None:
        program = self.program("print('ok', flush=True)\nprint('it thinks', file=sys.stderr, flush=True)\n"
                               "time.sleep(60)\n")
        begun = time.monotonic()
        with Session(program=program, seconds=0.5) as session:
            session.configure("controller 1 host 1")
            with self.assertRaises(ProgramHangs) as caught:
                session.configure("namespace 1 blocks 8 shared")
        self.assertLess(time.monotonic() - begun, 5)
        self.assertEqual((caught.exception.line, caught.exception.told), ("namespace 1 blocks 8 shared", "it thinks\n"))

    def test_one_that_drips_without_an_end(self) -> None:
        program = self.program("while True:\n    sys.stdout.write('o')\n    sys.stdout.flush()\n    time.sleep(0.05)\n")
        begun = time.monotonic()
        with Session(program=program, seconds=0.5) as session, self.assertRaises(ProgramHangs):
            session.ask("up 1")
        self.assertLess(time.monotonic() - begun, 5)

    def test_one_that_dies(self) -> None:
        program = self.program("sys.stdin.readline()\nprint('out of memory', file=sys.stderr)\nsys.exit(4)\n")
        with Session(program=program) as session, self.assertRaises(ProgramDied) as caught:
            session.ask("up 1")
        self.assertEqual((caught.exception.status, caught.exception.line, caught.exception.told),
                         (4, "up 1", "out of memory\n"))
        with self.assertRaises(SessionClosed):
            session.ask("up 1")

    def test_one_whose_image_is_in_use(self) -> None:
        image = self.folder / "disk.img"
        image.write_bytes(bytes(512))
        why = f"'{image}' is in use: process 4711 (nvmesim) holds its lock; --wait waits for it"
        program = self.program(f"print({'nvmelive: ' + why!r}, file=sys.stderr)\nsys.exit(2)\n")
        with Subsystem(image, program=program) as subsystem, self.assertRaises(ImageInUse) as caught:
            subsystem.controller(host=1)
        self.assertEqual((str(caught.exception), caught.exception.why, caught.exception.status), (why, why, 2))
        self.assertIsInstance(pickle.loads(pickle.dumps(caught.exception)), ImageInUse)

    def test_one_that_ends_at_once(self) -> None:
        with Session(program=self.program("sys.exit(3)\n")) as session, self.assertRaises(ProgramDied) as caught:
            session.ask_all(["up 1"] * 100_000)
        self.assertEqual(caught.exception.status, 3)

    def test_one_that_fills_standard_error(self) -> None:
        program = self.program("for line in sys.stdin:\n    sys.stderr.write('x' * 300000)\n"
                               "    print('ok', flush=True)\n")
        with Session(program=program) as session:
            self.assertEqual(session.ask_all(["#"] * 5), ["ok"] * 5)

    def test_many_lines_ahead_of_their_answers(self) -> None:
        program = self.program("for line in sys.stdin:\n    print(line.strip(), flush=True)\n")
        lines = [f"{n} {'x' * 200}" for n in range(5_000)]
        with Session(program=program) as session:
            self.assertEqual(session.ask_all(lines), lines)

    def test_nonsense_raises(self) -> None:
        for answer in ("'what'", "''", "'ok\\nok'", "'started'"):
            with self.subTest(answer), self.assertRaises(ProtocolError):
                with Session(program=self.program(ANSWERS.format(answer=answer))) as session:
                    session.configure("controller 1 host 1")

    def test_an_answer_of_another_line_raises(self) -> None:
        program = self.program("answers = iter(['started', 'rung 2'])\n" + ANSWERS.format(answer="next(answers)"))
        with Session(program=program) as session:
            session.start()
            with self.assertRaises(ProtocolError):
                session.event("ring 1")

    def test_the_program_that_a_repository_builds(self) -> None:
        script = self.folder / "nvmelive"
        script.write_text('#!/bin/sh\n[ "$1" = --where ] && echo "/built/$(echo . >>"$0.asked")nvmelive"\n')
        script.chmod(0o755)
        for _ in range(2):
            self.assertEqual(built_program(script), Path("/built/nvmelive"))
        self.assertEqual((self.folder / "nvmelive.asked").read_text(), ".\n")
        other = self.folder / "other"
        other.write_text("#!/bin/sh\nexit 70\n")
        other.chmod(0o755)
        with self.assertRaisesRegex(ProgramNotFound, "can't build its program"):
            built_program(other)

    def test_no_program(self) -> None:
        for program in (self.folder / "absent", self.folder):
            with self.assertRaises(ProgramNotFound):
                Session(program=program)

    def test_one_that_does_not_end(self) -> None:
        program = self.program("import signal\nsignal.signal(signal.SIGTERM, signal.SIG_IGN)\ntime.sleep(60)\n")
        session = Session(program=program, seconds=0.3)
        with self.assertRaises(ProgramHangs):
            session.close()


if __name__ == "__main__":
    unittest.main()
