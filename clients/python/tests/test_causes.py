"""Why commands are denied: each row of rules 6 and 11 is met once, of drivers' requests and of raw hosts' entries."""
from __future__ import annotations

import struct
import unittest
from typing import Dict, List, Optional, Tuple

from nvmesim import Rule, Session
from nvmesim.causes import event_cause
from nvmesim.explain import causes_of, explain, run_script
from nvmesim.script import configuration_of, read_lines
from nvmesim.words import meaning

from .support import LIVE, STANDIN, FolderCase, examples

SETUP = ["controller 1 host 0xa1", "controller 2 host 0xb2", "controller 3 host 0xc3 raw",
         "namespace 1 blocks 64 shared", "namespace 2 blocks 8 private", "attached 1 1", "attached 2 1", "attached 3 1", "attached 1 2"]
SQ, CQ, DATA, IO_SQ, IO_CQ = 0x1000, 0x2000, 0x3000, 0x4000, 0x5000

# A request that the driver refuses, and why.
BAD_REQUESTS = [
    ("read 1 1 0 0", "BLOCKS is 0, and 1 to 256 are taken"),
    ("read 1 1 0 257", "BLOCKS is 257, and 1 to 256 are taken"),
    ("write 1 1 0 257 fill:01", "BLOCKS is 257, and 1 to 256 are taken"),
    ("compare 1 1 0 0 fill:01", "BLOCKS is 0, and 1 to 256 are taken"),
    ("zeroes 1 1 0 65537", "BLOCKS is 65,537, and 1 to 65,536 are taken"),
    ("register 1 1 8 0 0 0 0x11", "ACTION is 8, and 0 to 7 are taken"),
    ("register 1 1 0 0 4 0 0x11", "CPTPL is 4, and 0 to 3 are taken"),
    ("acquire 1 1 8 1 0x11 0", "ACTION is 8, and 0 to 7 are taken"),
    ("release 1 1 9 1 0x11", "ACTION is 9, and 0 to 7 are taken"),
    ("report 1 1 0", "DWORDS is 0, and 1 to 32,768 are taken"),
    ("protect 1 1 8", "STATE is 8, and 0 to 7 are taken"),
    ("attach 1 1" + " 1" * 2048, "the list has 2,048 controllers; at most 2,047 are allowed"),
]

# A request, and why it is denied; None if it is executed.
REQUESTS: List[Tuple[str, Optional[str]]] = [
    ("register 1 1 3 0 0 0 0x11", "RREGA (ACTION) is 3; at most 2 is allowed"),
    ("register 1 1 3 0 1 0 0x11", "RREGA (ACTION) is 3; at most 2 is allowed"),
    ("register 1 1 0 0 1 0 0x11", "CPTPL is 01b, which is reserved"),
    ("acquire 1 1 7 1 0x11 0", "RACQA (ACTION) is 7; at most 2 is allowed"),
    ("acquire 1 1 0 0 0x11 0", "RTYPE is 0, and types are 1 to 6"),
    ("acquire 1 1 0 7 0x11 0", "RTYPE is 7, and types are 1 to 6"),
    ("release 1 1 2 1 0x11", "RRELA (ACTION) is 2; at most 1 is allowed"),
    ("identify 1 3 1", "CNS is 3; at most 2 is allowed"),
    ("protect 1 1 3", "WPS (STATE) is 3; at most 2 is allowed"),
    ("attach 1 7 1", "NSID is 7, and that namespace is not configured"),
    ("detach 1 7 1", "NSID is 7, and that namespace is not configured"),
    ("acquire 1 1 0 1 0x11 0", "host a1h has registered no key"),
    ("register 1 1 1 0 0 0x11 0", "host a1h has registered no key"),
    ("register 1 1 1 1 0 0x11 0", "host a1h has registered no key"),
    ("register 1 1 2 0 0 0x11 0x12", "host a1h has registered no key"),
    ("register 1 1 0 0 0 0 0x11", None),
    ("register 2 1 0 0 0 0 0x22", None),
    ("register 1 1 0 0 0 0 0x12", "NRKEY is 12h, and host a1h has registered key 11h"),
    ("register 1 1 1 0 0 0x12 0", "CRKEY is 12h, and host a1h has registered key 11h"),
    ("register 1 1 2 0 0 0x12 0x13", "CRKEY is 12h, and host a1h has registered key 11h"),
    ("acquire 1 1 0 1 0x12 0", "CRKEY is 12h, and host a1h has registered key 11h"),
    ("acquire 1 1 1 1 0x11 0", "PRKEY is 0, and there is no reservation of all registrants: nobody holds it"),
    ("acquire 1 1 1 1 0x11 0x99", "PRKEY is 99h, which no host has registered"),
    ("acquire 1 1 0 3 0x11 0", None),
    ("acquire 1 1 0 1 0x11 0", "RTYPE is 1, and host a1h holds it as Write Exclusive, Registrants Only (3)"),
    ("acquire 2 1 0 3 0x22 0", "RTYPE is 3, and host a1h holds it as Write Exclusive, Registrants Only (3)"),
    ("acquire 2 1 2 3 0x22 0", "PRKEY is 0, and there is no reservation of all registrants: host a1h holds it as Write "
                               "Exclusive, Registrants Only (3)"),
    ("release 1 1 0 1 0x11", "RTYPE is 1, and host a1h holds it as Write Exclusive, Registrants Only (3)"),
    ("release 1 1 0 3 0x12", "CRKEY is 12h, and host a1h has registered key 11h"),
    ("release 1 1 0 3 0x11", None),
    ("acquire 1 1 0 6 0x11 0", None),
    ("acquire 2 1 0 5 0x22 0", "RTYPE is 5, and all registrants hold it as Exclusive Access, All Registrants (6)"),
    ("release 2 1 1 6 0x22", None),
    ("attach 1 1", "the list of controllers is empty"),
    ("attach 1 1 5", "controller 5 is not configured"),
    ("attach 1 1 0", "controller 0 is not configured"),
    ("detach 1 1 2 1", "controller 1 comes after controller 2 in the list"),
    ("attach 1 1 1 1", "controller 1 comes after controller 1 in the list"),
    ("attach 1 1 2", "controller 2 is attached to namespace 1 already"),
    ("attach 1 2 2", "namespace 2 is private, but controller 1 has it"),
    ("detach 1 2 2", "controller 2 is not attached to namespace 2"),
    ("detach 1 2 1 2", "controller 2 is not attached to namespace 2"),
    ("detach 1 2 1", None),
    ("attach 1 2 1 2", "namespace 2 is private, but controller 1 has it"),
    ("protect 1 1 2", None),
    ("protect 1 1 0", "namespace 1 is write protected until a power cycle (WPS 2)"),
]
ADMIN = ("identify", "protect", "protection", "attach", "detach")


def entry(opcode: int, nsid: int = 0, cdw10: int = 0, cdw11: int = 0, cdw12: int = 0, prp1: int = DATA) -> bytes:
    """An entry of a raw host."""
    return struct.pack("<B3xI16xQQIII12x", opcode, nsid, prp1, 0, cdw10, cdw11, cdw12)


# The entry of a raw host, on the admin queue or not, the data at its place, and why it is denied.
ENTRIES: List[Tuple[bool, bytes, bytes, Optional[str]]] = [
    (True, entry(0x09, 0, 0x07, 0xFFFF), b"", "NSQR is FFFFh"),
    (True, entry(0x09, 0, 0x07, 0xFFFF0000), b"", "NCQR is FFFFh"),
    (True, entry(0x09, 0, 0x06), b"", "FID is 6h, neither 07h nor 84h"),
    (True, entry(0x09, 1, 1 << 31 | 0x84), b"", "SV is 1, and no feature is saveable"),
    (True, entry(0x09, 1, 0x84, 5), b"", "WPS (STATE) is 5; at most 2 is allowed"),
    (True, entry(0x0A, 0, 0x02), b"", "FID is 2h, none of 07h, 81h and 84h"),
    (True, entry(0x0A, 0, 0x81), b"", "EXHID is 0, and hosts have identifiers of 128 bits"),
    (True, entry(0x06, 1, 0x13), b"", "CNS is 19; at most 2 is allowed"),
    (True, entry(0x15, 1, 2), b"", "SEL is 2; at most 1 is allowed"),
    (True, entry(0x15, 5, 0), b"", "NSID is 5, and that namespace is not configured"),
    (True, entry(0x15, 2, 0), struct.pack("<3H", 2, 3, 1), "controller 1 comes after controller 3 in the list"),
    (True, entry(0x15, 2, 1), struct.pack("<2H", 1, 3), "controller 3 is not attached to namespace 2"),
    (True, entry(0x15, 2, 0), struct.pack("<2H", 1, 3), "namespace 2 is private, but controller 1 has it"),
    (True, entry(0x05, 0, 7 << 16 | 1, 0), b"", "PC is 0, but queues must be contiguous"),
    (True, entry(0x05, 0, 7 << 16 | 5, 1), b"", "QID is 5, and I/O queues are 1 to 4"),
    (True, entry(0x05, 0, 1, 1), b"", "QSIZE is 0, 1 entries, and 2 to 64 are taken"),
    (True, entry(0x05, 0, 64 << 16 | 1, 1), b"", "QSIZE is 64, 65 entries, and 2 to 64 are taken"),
    (True, entry(0x05, 0, 7 << 16 | 1, 1, prp1=DATA + 4), b"", "PRP1 is 3004h, no multiple of 4,096"),
    (True, entry(0x05, 0, 7 << 16 | 1, 1, prp1=0x400000), b"", "PRP1 is 400000h, and the queue would end past the "
                                                              "window"),
    (True, entry(0x01, 0, 7 << 16 | 1, 1), b"", "CQID is 0, and I/O queues are 1 to 4"),
    (True, entry(0x01, 0, 7 << 16 | 1, 2 << 16 | 1), b"", "CQID is 2, and no such completion queue exists"),
    (True, entry(0x00, 0, 1), b"", "QID is 1, and no I/O submission queue 1 exists"),
    (True, entry(0x04, 0, 0), b"", "QID is 0, and no I/O completion queue 0 exists"),
    (True, entry(0x05, 0, 7 << 16 | 1, 1, prp1=IO_CQ), b"", None),
    (True, entry(0x05, 0, 7 << 16 | 1, 1), b"", "QID is 1, and completion queue 1 exists"),
    (True, entry(0x01, 0, 7 << 16 | 1, 1 << 16 | 1, prp1=IO_SQ), b"", None),
    (True, entry(0x04, 0, 1), b"", "QID is 1, and submission queue 1 uses it"),
    (True, entry(0x09, 0, 0x07, 0x10001), b"", "an I/O queue exists: submission queue 1, completion queue 1"),
    (False, entry(0x02, 1, 0, 0, 256), b"", "NLB is 256, 257 blocks; at most 256 are allowed"),
    (False, entry(0x0D, 1, 3), b"", "RREGA (ACTION) is 3; at most 2 is allowed"),
    (False, entry(0x11, 1, 0x108), b"", "IEKEY is 1, and only 0 is taken"),
    (False, entry(0x15, 1, 0x108), b"", "IEKEY is 1, and only 0 is taken"),
    (False, entry(0x0E, 1, 15), b"", "EDS is 0, and hosts have identifiers of 128 bits"),
    (False, entry(0x0E, 1, 32768, 1), b"", "NUMD is 8000h, 131,076 bytes; at most 131,072 are allowed"),
    (False, entry(0x11, 1, 0x100), struct.pack("<QQ", 5, 0), "host c3h has registered no key"),
    (False, entry(0x0D, 1, 0), struct.pack("<QQ", 0, 5), None),
    (False, entry(0x11, 1, 0x100), struct.pack("<QQ", 6, 0), "CRKEY is 6h, and host c3h has registered key 5h"),
    (False, entry(0x11, 1, 0x101), struct.pack("<QQ", 5, 9), "PRKEY is 9h, which no host has registered"),
    (False, entry(0x0D, 1, 0), struct.pack("<QQ", 0, 7), "NRKEY is 7h, and host c3h has registered key 5h"),
]


@unittest.skipUnless(LIVE, "nvmelive is not built")
class CausesTest(FolderCase):
    def causes(self, script: str) -> Dict[int, str]:
        """By the numbers of lines why they denied a command by rule 6 or 11; each such line has to be there."""
        lines = list(read_lines(script))
        configuration, found = configuration_of(lines), {}
        with Session(program=LIVE) as session:
            for line in lines:
                if not session.is_started:
                    session.run(line.text)
                    continue
                for event in session.run(line.text):
                    words = event_cause(event, configuration, session.look)
                    denied = event.command is not None and event.text.startswith("execute") and (
                        event.command.rule in (Rule.FIELD, Rule.ACTION))
                    self.assertEqual(bool(words), denied, f"{line.number}: {event.text}")
                    found.update({line.number: words} if denied else {})
        return found

    def test_each_denied_command_of_the_examples_has_a_cause(self) -> None:
        count = sum(len(self.causes(script)) for _, script, _ in examples())
        self.assertGreater(count, 40)

    def test_requests(self) -> None:
        lines = [*SETUP, "start", "up 1", "up 2"]
        wanted: Dict[int, str] = {}
        for request, why in REQUESTS:
            c, queue = request.split()[1], 0 if request.split()[0] in ADMIN else 1
            lines += [request, f"ring {c}", f"fetch {c} {queue}", f"execute {c} 0", f"poll {c}"]
            wanted.update({len(lines) - 1: why} if why is not None else {})
        self.assertEqual(self.causes("\n".join(lines) + "\n"), wanted)

    def test_entries(self) -> None:
        lines = [*SETUP, "start", "write32 3 0x24 0x3f003f", f"write32 3 0x28 {SQ}", f"write32 3 0x30 {CQ}",
                 "write32 3 0x14 0x460001"]
        wanted: Dict[int, str] = {}
        tails = {True: 0, False: 0}
        for is_admin, command, data, why in ENTRIES:
            base, slots = (SQ, 64) if is_admin else (IO_SQ, 8)
            place, bell, queue = base + 64 * tails[is_admin], 0x1000 if is_admin else 0x1008, 0 if is_admin else 1
            tails[is_admin] = (tails[is_admin] + 1) % slots
            lines += [f"store 3 {DATA} hex:{data.hex()}"] if data else []
            lines += [f"store 3 {place} hex:{command.hex()}", f"write32 3 {bell} {tails[is_admin]}",
                      f"write32 3 {bell + 4} {(tails[is_admin] - 1) % slots}", f"fetch 3 {queue}", "execute 3 0"]
            wanted.update({len(lines): why} if why is not None else {})
        self.assertEqual(self.causes("\n".join(lines) + "\n"), wanted)

    def test_requests_that_no_command_can_say(self) -> None:
        configuration = configuration_of(list(read_lines("\n".join([*SETUP, "start"]))))
        with Session(program=LIVE) as session:
            session.run("\n".join([*SETUP, "start", "up 1"]) + "\n")
            for line, why in BAD_REQUESTS:
                with self.subTest(line=line):
                    words = meaning(session.event(line), configuration)
                    self.assertTrue(words.endswith(f": no command can express this: {why}"), words)
            idle = meaning(session.event("fetch 1 1"), configuration)
            self.assertEqual(idle, "controller 1 finds nothing to fetch in queue 1: nothing is rung there that it has not "
                                   "fetched")

    def test_where_they_are_reported(self) -> None:
        script = "\n".join([*SETUP, "start", "up 1", "identify 1 9 0", "ring 1", "fetch 1 0", "execute 1 0"]) + "\n"
        transcript, causes = run_script(script, LIVE)
        self.assertEqual(causes, {5: "CNS is 9; at most 2 is allowed"})
        told = "\n".join(explain(script, transcript, 400, causes=causes))
        self.assertIn("the command does not take: CNS is 9; at most 2 is allowed", told)
        self.assertEqual(causes_of(script, transcript, LIVE), causes)
        # With a transcript that the program does not print, and without a program, there is none.
        self.assertEqual(causes_of(script, transcript.replace("0:02 6", "0:0b 4"), LIVE), {})
        self.assertEqual(causes_of(script, transcript, self.folder / "absent"), {})
        self.assertEqual(causes_of(script, transcript, STANDIN), {})
