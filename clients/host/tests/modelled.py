"""Controllers of the proved subsystem, for tests of nvmehost: their registers and windows are files, which shared_vfio.c
maps.

usage: modelled.py FOLDER [FAULT]

FOLDER gets a folder for each address. They are raw controllers of one subsystem over nvmelive. This process plays the
bus: it carries doorbells, commands and data to them, and data and completions back. It takes the Host Identifier, of which
the subsystem's controllers have a constant one, if it is that. It prints a line once all is there, and ends with
standard input, after a line of JSON: the number of commands of each opcode, by address.

With the fault `write` the last byte of a Write's data is lost, with `conflict` a Reservation Conflict is answered as
success, with `host` the Host Identifier is refused.
"""
import json
import mmap
import os
import select
import struct
import sys
import time
from collections import Counter
from pathlib import Path

sys.path.insert(0, str(Path(__file__).resolve().parents[2] / "python"))

from nvmesim import Subsystem
from nvmesim.conform.nvmehost import host_of

ADDRESSES = ("0000:00:04.0", "0000:00:05.0")
BLOCKS, WINDOW, REGISTERS, PAGE = 1024, 4194304, 0x2000, 4096
CAP, VS, CC, AQA, CSTS, DOORBELLS = 0x00, 0x08, 0x14, 0x24, 0x1C, 0x1000
QUEUES = (0, 1)
FLUSH, WRITE, READ, COMPARE, REGISTER, REPORT, ACQUIRE, RELEASE = 0, 1, 2, 5, 0x0D, 0x0E, 0x11, 0x15
IDENTIFY, SET_FEATURES, HOST_IDENTIFIER, HOST_BYTES = 6, 9, 0x81, 16
# CAP.TO: this process may have to wait for a processor.
LONGEST_TIMEOUT = 0xFF << 24
CONFLICT, STATUS = 0x83 << 17, 0xFFFE0000
REST_SECONDS = 0.00002


def length_of(is_admin, opcode, dwords):
    """The number of bytes that a command transfers, of its 16 double words."""
    if is_admin:
        is_host = opcode == SET_FEATURES and dwords[10] & 0xFF == HOST_IDENTIFIER
        return PAGE if opcode == IDENTIFY else HOST_BYTES if is_host else 0
    if opcode in (WRITE, READ, COMPARE):
        return 512 * ((dwords[12] & 0xFFFF) + 1)
    return {REGISTER: 16, ACQUIRE: 16, RELEASE: 8, REPORT: 4 * (dwords[10] + 1)}.get(opcode, 0)


class Shared:
    """A file of a number of bytes that another process maps too. A double word is written by one store: pack_into writes
    zeros first, which the other process may take for a completion whose phase tag is 0."""

    def __init__(self, path, size):
        path.write_bytes(bytes(size))
        with open(path, "r+b") as file:
            self.bytes = mmap.mmap(file.fileno(), size)
        self.dwords = memoryview(self.bytes).cast("I")

    def load(self, address, size):
        return self.bytes[address:address + size]

    def store(self, address, data):
        self.bytes[address:address + len(data)] = data

    def __getitem__(self, address):
        return self.dwords[address // 4]

    def __setitem__(self, address, value):
        self.dwords[address // 4] = value


class Controller:
    """A raw controller, and what a program sees of it."""

    def __init__(self, raw, folder, host, fault):
        folder.mkdir()
        self.raw, self.host, self.fault = raw, host, fault
        self.memory, self.registers = Shared(folder / "memory", WINDOW), Shared(folder / "registers", REGISTERS)
        self.executed = Counter()
        self.configuration, self.doorbells = 0, {}
        for place in (CAP, CAP + 4, VS):
            self.registers[place] = raw.register(place)
        self.registers[CAP] |= LONGEST_TIMEOUT

    def turn(self):
        """Follows the registers; whether anything was written."""
        if self.registers[CC] != self.configuration:
            self.configure(self.registers[CC])
            return True
        written = [place for place, known in self.doorbells.items() if self.registers[place] != known]
        for place in written:
            self.ring(place, self.registers[place])
        return bool(written)

    def configure(self, value):
        """CC is written: before the controller is enabled, the places of its admin queues are known."""
        was_enabled, self.configuration = self.configuration & 1, value
        if value & 1 > was_enabled:
            for place in range(AQA, AQA + 20, 4):
                self.raw.write32(place, self.registers[place])
        if value & 1 != was_enabled:
            self.doorbells = {DOORBELLS + 4 * nth: 0 for nth in range(2 * len(QUEUES))}
            for place in self.doorbells:
                self.registers[place] = 0
        self.raw.write32(CC, value)
        self.registers[CSTS] = self.raw.register(CSTS)

    def ring(self, place, value):
        """A doorbell is written: a tail, after which all commands are executed, or a head."""
        was, self.doorbells[place] = self.doorbells[place], value
        nth = (place - DOORBELLS) // 4
        if nth % 2 == 1:
            self.raw.write32(place, value)
            return
        queues = {(it.is_submission, it.number): it for it in self.raw.controller.queues()}
        queue = queues[True, nth // 2]
        while was != value:
            self.execute(place, queue, was)
            was = (was + 1) % queue.size

    def execute(self, place, queue, slot):
        """Executes the command of a slot: carries it and its data there, and its data and its completion back."""
        entry = self.memory.load(queue.place + 64 * slot, 64)
        dwords = struct.unpack("<16I", entry)
        opcode, is_admin = entry[0], queue.number == 0
        pieces = list(self.pieces(entry, length_of(is_admin, opcode, dwords)))
        self.executed[f"{'admin' if is_admin else 'io'} {opcode:02x}"] += 1
        self.raw.store(queue.place + 64 * slot, entry)
        for address, size in pieces:
            self.raw.store(address, self.memory.load(address, size))
        if self.fault == "write" and (is_admin, opcode) == (False, WRITE):
            self.raw.store(sum(pieces[-1]) - 1, b"\xff")
        self.raw.write32(place, (slot + 1) % queue.size)
        completions = next(it for it in self.raw.controller.queues() if not it.is_submission and it.number == queue.completion_queue)
        assert self.raw.controller.fetch(queue.number).took
        self.raw.controller.execute(0)
        for address, size in pieces:
            self.memory.store(address, self.raw.window(address, size))
        self.complete(completions.place + 16 * completions.tail, is_admin, dwords, pieces)

    def pieces(self, entry, length):
        """The pieces of memory of a command's data: address and bytes. A list of them is stored in the window."""
        first, second = struct.unpack_from("<QQ", entry, 24)
        count = -(-length // PAGE)
        if count > 2:
            listed = self.memory.load(second, 8 * (count - 1))
            self.raw.store(second, listed)
            pages = [first, *struct.unpack(f"<{count - 1}Q", listed)]
        else:
            pages = [first, second][:count]
        for nth, page in enumerate(pages):
            yield page, min(PAGE, length - PAGE * nth)

    def complete(self, address, is_admin, dwords, pieces):
        """Carries the completion at an address back, its last double word last."""
        value, reserved, queue, last = struct.unpack("<4I", self.raw.window(address, 16))
        is_host = is_admin and dwords[0] & 0xFF == SET_FEATURES and dwords[10] & 0xFF == HOST_IDENTIFIER
        if is_host and self.fault != "host" and self.memory.load(*pieces[0]) == self.host:
            last &= ~STATUS
        if self.fault == "conflict" and last & STATUS == CONFLICT:
            last &= ~STATUS
        self.memory.store(address, struct.pack("<3I", value, reserved, queue))
        self.memory[address + 12] = last


def main(folder, fault=""):
    with Subsystem() as subsystem:
        raws = [subsystem.raw_controller(host=int.from_bytes(host_of(nth), "little"))
                for nth, _ in enumerate(ADDRESSES, 1)]
        namespace = subsystem.namespace(blocks=BLOCKS)
        for raw in raws:
            subsystem.attach(raw, namespace)
        subsystem.start()
        controllers = [Controller(raw, Path(folder, address), host_of(nth), fault)
                       for nth, (raw, address) in enumerate(zip(raws, ADDRESSES), 1)]
        print("ready", flush=True)
        while not select.select([sys.stdin], [], [], 0)[0]:
            if not any([it.turn() for it in controllers]):
                time.sleep(REST_SECONDS)
        print(json.dumps({address: it.executed for address, it in zip(ADDRESSES, controllers)}), flush=True)


if __name__ == "__main__":
    if len(sys.argv) not in (2, 3):
        sys.exit(__doc__)
    main(*sys.argv[1:])
