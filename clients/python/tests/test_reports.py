"""Reservation Reports parsed, from their bytes and from a subsystem; and hosts of 128 bits."""
from __future__ import annotations

import unittest

from nvmesim import (AcquireAction, ProtocolError, ReportedController, ReservationReport, ReservationType, Session,
                     Subsystem, parse_report)
from nvmesim.explain import explain

from nvmesim.timeline import timeline

from .support import PROGRAMS

# Two hosts that differ above their lower 64 bits alone, and the largest one.
LOW, HIGH, LAST = 0xA1, (1 << 64) + 0xA1, (1 << 128) - 1


def entry(controller: int, rcsts: int, key: int, host: int) -> bytes:
    """An entry of a report, as the standard has it."""
    found = controller.to_bytes(2, "little") + bytes((rcsts,)) + bytes(5) + key.to_bytes(8, "little")
    return found + host.to_bytes(16, "little") + bytes(32)


def header(generation: int, rtype: int, count: int, ptpls: int) -> bytes:
    """The header of a report."""
    found = generation.to_bytes(4, "little") + bytes((rtype,)) + count.to_bytes(2, "little")
    return found + bytes((0, 0, ptpls)) + bytes(54)


class ReportTest(unittest.TestCase):
    def test_bytes_taken_apart(self) -> None:
        one, two = ReportedController(1, False, LOW, 0x11), ReportedController(16, True, LAST, (1 << 64) - 1)
        data = header(3, 1, 2, 1) + entry(1, 0, 0x11, LOW) + entry(16, 1, (1 << 64) - 1, LAST)
        whole = ReservationReport(3, ReservationType.WRITE_EXCLUSIVE, 2, True, (one, two))
        self.assertEqual(parse_report(data), whole)
        self.assertEqual(parse_report(data + bytes(1000)), whole)
        for size, controllers in ((64, ()), (127, ()), (128, (one,)), (191, (one,)), (192, (one, two))):
            self.assertEqual(parse_report(data[:size]), ReservationReport(3, whole.rtype, 2, True, controllers))
        self.assertEqual(parse_report(bytes(64)), ReservationReport(0, ReservationType.NONE, 0, False, ()))

    def test_what_is_no_report(self) -> None:
        for data in (b"", bytes(24), bytes(63), header(0, 7, 0, 0), header(0, 0, 0, 2)):
            with self.subTest(data), self.assertRaises(ProtocolError):
                parse_report(data)

    def test_hosts_of_128_bits(self) -> None:
        for program in PROGRAMS:
            with self.subTest(program), Subsystem(program=program) as subsystem:
                hosts = [subsystem.controller(host=it) for it in (LOW, HIGH, LAST)]
                disk = subsystem.namespace(blocks=8)
                for host in hosts:
                    subsystem.attach(host, disk)
                subsystem.start()
                for number, host in enumerate(hosts, 1):
                    host.up()
                    host.register(disk, new_key=number)
                hosts[1].acquire(disk, ReservationType.WRITE_EXCLUSIVE, 2)
                told = hosts[0].report(disk)
                self.assertEqual([(it.number, it.host, it.key, it.is_holder) for it in told.controllers],
                                 [(1, LOW, 1, False), (2, HIGH, 2, True), (3, LAST, 3, False)])
                self.assertEqual((told.generation, told.count, told.persists), (3, 3, False))
                self.assertEqual(len(hosts[0].report(disk, 16).controllers), 0)
                state = subsystem.reservation(disk)
                self.assertEqual((state.holder, state.registrants), (HIGH, {LOW: 1, HIGH: 2, LAST: 3}))
                hosts[2].acquire(disk, ReservationType.WRITE_EXCLUSIVE, 3, 2, AcquireAction.PREEMPT)
                self.assertEqual([it.host for it in hosts[0].report(disk).controllers], [LOW, LAST])

    def test_a_report_in_words(self) -> None:
        script = (f"controller 1 host {LOW:#x}\ncontroller 2 host {HIGH:#x}\nnamespace 1 blocks 8 shared\n"
                  "attached 1 1\nattached 2 1\nstart\nup 1\nregister 1 1 0 0 3 0 0x11\nacquire 1 1 0 1 0x11 0\n"
                  "report 1 1 32\nreport 1 1 16\nreport 1 1 12\nring 1\n" + "fetch 1 1\nexecute 1 0\npoll 1\n" * 5)
        with Session(program=PROGRAMS[-1]) as session:
            session.run(script)
            told = " ".join(" ".join(explain(script, session.transcript, 500, True)).split())
        page = timeline(script, session.transcript, "wide")
        self.assertIn("<title>host 100000000000000a1h</title>1000..00a1h<", page)
        self.assertIn("<title>controller 1 of host a1h</title>controller 1<", page)
        for words in (f"controller 1 belongs to host {LOW:x}h, with a driver",
                      f"controller 2 belongs to host {HIGH:x}h, with a driver",
                      "Successful Completion (0:00); generation 1, Write Exclusive, persists, 1 registered controller; "
                      f"controller 1 of host {LOW:x}h with key 11h, a holder",
                      "generation 1, Write Exclusive, persists, 1 registered controller; and 1 that the report cuts "
                      "off",
                      "48 bytes, 0100000001"):
            with self.subTest(words):
                self.assertIn(words, told)


if __name__ == "__main__":
    unittest.main()
