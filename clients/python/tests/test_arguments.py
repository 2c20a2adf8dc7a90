"""What calls are given: each argument that is empty, out of range or of a wrong type is refused by its name."""
from __future__ import annotations

import os
import unittest
from typing import Any, Callable, Dict

from nvmesim import ArgumentError, NvmesimError, RequestRefused, Session, Subsystem

from .support import LIVE, PROGRAMS

Calls = Dict[str, Callable[[], Any]]


class ArgumentTest(unittest.TestCase):
    def refused(self, calls: Calls) -> None:
        """Each call is refused with a reason that holds its key."""
        for why, call in calls.items():
            with self.subTest(why), self.assertRaises(ArgumentError) as caught:
                call()
            self.assertIn(why, str(caught.exception))
            self.assertIsInstance(caught.exception, NvmesimError)

    def test_hosts_with_drivers(self) -> None:
        for program in PROGRAMS:
            with Subsystem(program=program) as s:
                host = s.controller(host=0xA1)
                disk = s.namespace(blocks=8)
                s.attach(host, disk)
                s.start()
                host.up()
                host.write(disk, 0, b"kept")
                before = s.script
                self.refused({
                    "data must have at least one byte": lambda: host.write(disk, 0, b""),
                    "must have at least one byte": lambda: host.compare(disk, 0, b"", 1),
                    "data is bytes, not 'text'": lambda: host.write(disk, 0, "text"),  # type: ignore[arg-type]
                    "data is bytes, not 5": lambda: host.write(disk, 0, 5),  # type: ignore[arg-type]
                    "new_key is a whole number from 0 to 2^64 - 1, not 'k'":
                        lambda: host.register(disk, "k"),  # type: ignore[arg-type]
                    "new_key is a whole number from 0 to 2^64 - 1, not 18446744073709551616":
                        lambda: host.register(disk, 2**64),
                    "current_key is a whole": lambda: host.register(disk, 1, -1),
                    "ignore_existing_key is True or False, not 'no'":
                        lambda: host.register(disk, ignore_existing_key="no"),  # type: ignore[arg-type]
                    "persist is a whole number": lambda: host.register(disk, 1, persist=None),  # type: ignore[arg-type]
                    "rtype is a whole number from 0 to 255": lambda: host.acquire(disk, 256, 1),  # type: ignore
                    "key is a whole number": lambda: host.release(disk, 1, 1.5),  # type: ignore[arg-type]
                    "slba is a whole number from 0 to 2^64 - 1, not True": lambda: host.read(disk, True),
                    "blocks is a whole number from 0 to 4294967295, not '1 # '":
                        lambda: host.read(disk, 0, "1 # "),  # type: ignore[arg-type]
                    "blocks is a whole number from 0 to 4294967295, not None":
                        lambda: host.zeroes(disk, 0, None),  # type: ignore[arg-type]
                    "namespace is a whole number": lambda: host.flush("disk"),  # type: ignore[arg-type]
                    "dwords is a whole number from 16 to": lambda: host.report(disk, 15),
                    "cns is a whole number": lambda: host.identify("x"),  # type: ignore[arg-type]
                    "state is a whole number": lambda: host.protect(disk, "on"),  # type: ignore[arg-type]
                    "controller is a whole number from 0 to 65535, not '12'":
                        lambda: host.attach(disk, "12"),  # type: ignore[arg-type]
                    "controller is a whole number from 0 to 65535, not 65536": lambda: host.detach(disk, [65536]),
                    "ticket is a whole number": lambda: host.finish([]),  # type: ignore[arg-type]
                    "queue is a whole number": lambda: host.controller.fetch(-1),
                    "place is a whole number": lambda: host.controller.execute("0"),  # type: ignore[arg-type]
                    "offset is a whole number": lambda: host.controller.register("cc"),  # type: ignore[arg-type]
                    "address is a whole number": lambda: host.controller.window(None, 1),  # type: ignore[arg-type]
                    "a line is a text, not 5": lambda: host.place(5),  # type: ignore[arg-type]
                    "a line has no line feed": lambda: host.place("read 1 1 0 1\nread 1 1 0 1"),
                    "slba is a whole": lambda: s.blocks(disk, 0.5),  # type: ignore[arg-type]
                    "namespace is a": lambda: s.reservation("1"),  # type: ignore[arg-type]
                })
                self.assertEqual(s.script, before)
                self.assertRaises(RequestRefused, lambda: host.read(disk, 0, 257))  # no command can express it
                self.assertEqual(host.read(disk, 0)[:4], b"kept")

    @unittest.skipUnless(LIVE, "NVMELIVE does not name the program")
    def test_descriptions_and_raw_hosts(self) -> None:
        for program in (LIVE,):
            with Subsystem(program=program) as s:
                raw = s.raw_controller(host=0xB2)
                self.refused({
                    "host is a whole number from 0 to 2^128 - 1": lambda: s.controller(2**128),
                    "host is a whole number": lambda: s.raw_controller("b2"),  # type: ignore[arg-type]
                    "blocks is a whole number from 0 to 2^64 - 1": lambda: s.namespace(-1),
                    "shared is True or False, not 'private'":
                        lambda: s.namespace(8, "private"),  # type: ignore[arg-type]
                    "number is a whole number": lambda: s.namespace(8, number="1"),  # type: ignore[arg-type]
                    "controller is a whole": lambda: s.attach(None, 1),  # type: ignore[arg-type]
                    "line describes the subsystem": lambda: s.session.configure(" "),
                    "script is a text": lambda: s.session.run(b"start"),  # type: ignore[arg-type]
                    "lines is a list of texts, not 'up 1'": lambda: s.session.ask_all("up 1"),
                    "lines is a list of texts, not None": lambda: s.session.ask_all(None),  # type: ignore[arg-type]
                    "lines is a list of texts, not b''": lambda: s.session.ask_all(b""),  # type: ignore[arg-type]
                    "a query begins with '?', and 'up 1' does not": lambda: s.session.look("up 1"),
                })
                self.assertEqual(list(s.hosts), [1])
                s.start()
                self.refused({
                    "data must have at least one byte": lambda: raw.store(0, b""), "address is a": lambda: raw.store(-1, b"x"),
                    "data is bytes": lambda: raw.store(0, 3),  # type: ignore[arg-type]
                    "value is a whole number from 0 to 4294967295": lambda: raw.write32(0x14, 2**32),
                    "offset is a whole number": lambda: raw.register(None),  # type: ignore[arg-type]
                    "length is a whole number": lambda: raw.window(0, -1),
                })

    def test_sessions(self) -> None:
        program = PROGRAMS[0]
        self.refused({
            "image is the name of a file, not 5": lambda: Session(5, program),  # type: ignore[arg-type]
            "image is the name of a file, not ''": lambda: Session("", program),
            "program is the name of a file": lambda: Session(program=5),  # type: ignore[arg-type]
            "seconds is a number greater than 0, not 0": lambda: Session(program=program, seconds=0),
            "seconds is a number greater than 0, not nan": lambda: Session(program=program, seconds=float("nan")),
            "seconds is a number greater than 0, not '1'":
                lambda: Session(program=program, seconds="1"),  # type: ignore[arg-type]
            "backend is 'program' or 'library', not 'l'": lambda: Subsystem(backend="l"),
            "the library takes no image": lambda: Subsystem("disk.img", backend="library"),
        })

    @unittest.skipUnless(os.environ.get("NVMESIM_LIBRARY"), "NVMESIM_LIBRARY does not name the library")
    def test_the_library(self) -> None:
        with Subsystem(backend="library") as s:
            host, disk = s.raw_controller(1), s.namespace(64)
            self.refused({
                "host is a whole": lambda: s.raw_controller(-1), "shared is": lambda: s.namespace(8, "yes"),
                "blocks is a whole": lambda: s.namespace("8"), "number is a": lambda: s.namespace(8, number="1"),
                "controller is a": lambda: s.attach("1", disk), "namespace is a": lambda: s.attach(host, "1"),
            })
            s.attach(host, disk)
            s.start()
            self.refused({
                "data must have at least one byte": lambda: host.store(0, b""), "data is bytes": lambda: host.store(0, 5),
                "address is a whole": lambda: host.store(None, b"x"), "value is a": lambda: host.write32(0, "x"),
                "queue is a": lambda: host.controller.fetch(2**16), "place is a": lambda: host.controller.execute(0.5),
                "has 64 bytes, not 5": lambda: host.submit(1, b"short"), "entry is bytes": lambda: host.submit(1, 64),
                "offset is a": lambda: host.register("cc"), "length is a": lambda: host.window(0, -1),
                "count is a": lambda: s.blocks(disk, 0, 2**17), "slba is a": lambda: s.blocks(disk, None),
            })


if __name__ == "__main__":
    unittest.main()
