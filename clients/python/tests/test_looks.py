"""The answers of queries, in the forms that nvmelive gives."""
from __future__ import annotations

import unittest
from typing import Callable, Tuple

from nvmesim import Protection, ProtocolError, ReservationType, looks

REGISTERS = ("registers 1 cap 0x000000200101003f vs 0x00020000 cc 0x00460001 csts 0x00000001 aqa 0x001f0007 "
             "asq 0x0000000000000000 acq 0x0000000000001000")
QUEUES = "queues 1 sq 1 place 8192 size 8 head 0 tail 1 to 1 cq 1 place 12288 size 32 head 0 tail 0 phase 1"
FETCHED = "fetched 1 command 0 queue 1 cid 3 opcode 1 name write nsid 1 marked 1"
DRIVER = "driver 1 state up next 4 ticket 2 lane io is aborted ticket 3 lane admin is live"
RESERVATION = ("reservation 1 type 1 holder 0xa1 generation 3 persists 1 protected 2 registrant 0xa1 key 0x11 "
               "registrant 0xb2 key 0x22")
NAMESPACES = ("namespaces namespace 1 first 0 blocks 64 shared 1 protected 0 namespace 2 first 64 blocks 8 shared 0 "
              "protected 1 namespace 3 first 72 blocks 8 shared 0 protected 2")

Parse = Callable[[str], object]


class LooksTest(unittest.TestCase):
    def test_what_they_say(self) -> None:
        self.assertEqual(looks.registers(REGISTERS, 1)["cap"], 0x200101003F)
        self.assertEqual(list(looks.registers(REGISTERS, 1)), ["cap", "vs", "cc", "csts", "aqa", "asq", "acq"])
        self.assertEqual(looks.queues(QUEUES, 1), [looks.Queue(True, 1, 8192, 8, 0, 1, completion_queue=1),
                                                   looks.Queue(False, 1, 12288, 32, 0, 0, phase=1)])
        self.assertEqual(looks.queues("queues 2", 2), [])
        self.assertEqual(looks.fetched(FETCHED, 1), [looks.FetchedCommand(0, 1, 3, 1, "write", 1, True)])
        self.assertEqual(looks.driver(DRIVER, 1), looks.DriverState("up", 4, (
            looks.TicketState(2, False, True), looks.TicketState(3, True, False))))
        self.assertIsNone(looks.driver("driver 1 state failed next none", 1).next_ticket)
        told = looks.reservation(RESERVATION, 1)
        self.assertEqual((told.rtype, told.holder, told.is_held_by_all, told.generation, told.registrants),
                         (ReservationType.WRITE_EXCLUSIVE, 0xA1, False, 3, {0xA1: 0x11, 0xB2: 0x22}))
        self.assertEqual((told.persists, told.protection, told.is_protected),
                         (True, Protection.UNTIL_POWER_CYCLE, True))
        told = looks.reservation("reservation 1 type 6 holder all generation 0 persists 0 protected 1", 1)
        self.assertEqual((told.is_held_by_all, told.persists, told.protection), (True, False, Protection.PROTECTED))
        self.assertEqual([it.is_protected for it in looks.namespaces(NAMESPACES)], [False, True, True])
        self.assertEqual([it.protection for it in looks.namespaces(NAMESPACES)], list(Protection))
        self.assertEqual(looks.attached("attached controller 1 namespace 2 controller 3 namespace 1"), [(1, 2), (3, 1)])
        self.assertEqual(looks.blocks("blocks 1 3 2 aabb", 1, 3, 2), b"\xaa\xbb".ljust(1024, b"\0"))
        self.assertEqual(looks.window("window 1 0 4 -", 1, 0, 4), bytes(4))
        self.assertEqual(looks.register("register 1 20 0x00460001", 1, 20), 0x460001)

    def test_what_is_no_answer_raises(self) -> None:
        forms: Tuple[Tuple[str, Parse], ...] = (
            (REGISTERS, lambda it: looks.registers(it, 1)), (QUEUES, lambda it: looks.queues(it, 1)),
            (FETCHED, lambda it: looks.fetched(it, 1)), (DRIVER, lambda it: looks.driver(it, 1)),
            (RESERVATION, lambda it: looks.reservation(it, 1)), (NAMESPACES, looks.namespaces),
            ("attached controller 1 namespace 2", looks.attached),
            ("window 1 0 4 ff", lambda it: looks.window(it, 1, 0, 4)),
            ("blocks 1 3 2 aa", lambda it: looks.blocks(it, 1, 3, 2)),
            ("register 1 20 0x01", lambda it: looks.register(it, 1, 20)))
        for right, parse in forms:
            parse(right)
            words = right.split(" ")
            wrong = [words[:-1], [*words, "more"], ["other", *words[1:]], [*words[:-1], "zz"], [*words[:-1], ""]]
            if right[:8] not in ("namespac", "attached"):
                wrong.append([words[0], "7", *words[2:]])
            for it in wrong:
                with self.subTest(" ".join(it)), self.assertRaises(ProtocolError):
                    parse(" ".join(it))


if __name__ == "__main__":
    unittest.main()
