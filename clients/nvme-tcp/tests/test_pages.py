"""Log pages, the structures of Identify, and Abort: what Linux and nvme-cli ask a controller for."""
import struct

from tests.host import BLOCK, CC, ENABLE, Host
from tests.targets import BLOCKS, TargetTest

DNR = 0x4000
INVALID_FIELD, DATA_TRANSFER, INVALID_PAGE = 0x002 | DNR, 0x004 | DNR, 0x109 | DNR
# The pages that there are, with their sizes.
PAGES = {0x00: 1024, 0x01: 4096, 0x02: 512, 0x03: 512, 0x04: 4096, 0x05: 4096, 0x0c: 52, 0x12: 1024, 0x80: 64}


class Pages(TargetTest):
    def test_which_there_are(self) -> None:
        host = self.host()
        supported = struct.unpack("<256I", host.log_page(0x00, 1024).data)
        self.assertEqual([page for page, value in enumerate(supported) if value], list(PAGES))
        for page in range(256):
            status = host.log_page(page, 4, asked=4096).status
            self.assertEqual(status, 0 if page in PAGES else INVALID_PAGE, page)

    def test_offsets_and_lengths(self) -> None:
        host = self.host()
        for page, size in PAGES.items():
            with self.subTest(page):
                whole = host.log_page(page, size)
                self.assertEqual((whole.status, len(whole.data)), (0, size))
                for offset, length in ((0, 4), (size - 4, 4), (4, size - 4), (size // 2 & ~3, 16)):
                    self.assertEqual(host.log_page(page, length, offset).data,
                                     whole.data[offset:offset + length].ljust(length, b"\0"), (offset, length))
                self.assertEqual(host.log_page(page, 8, size - 4).data, whole.data[-4:] + bytes(4), "then zeros")
                self.assertEqual(host.log_page(page, 8, size).data, bytes(8))
                for offset in (size + 4, 1, 2, 3, 1 << 32, (1 << 64) - 4):
                    self.assertEqual(host.log_page(page, 4, offset).status, INVALID_FIELD, offset)

    def test_room_of_the_host(self) -> None:
        host = self.host()
        for page, size in PAGES.items():
            for length, asked in ((8, 4), (size, 0), (size, size - 4), (131072 + 4, 4), (1 << 32, 131072)):
                self.assertEqual(host.log_page(page, length, asked=asked).status, DATA_TRANSFER, (page, length))
            longer = host.log_page(page, 4, asked=64)
            self.assertEqual((longer.status, longer.data[4:]), (0, bytes(60)))
        # Sixteen more bits of the number of double words.
        self.assertEqual(host.log_page(0x02, 131072).status, 0)

    def test_selectors(self) -> None:
        host = self.host()
        for page in PAGES:
            self.assertEqual(host.log_page(page, 4, nsid=0).status, 0)
            for nsid in (1, 2, 9, 0xfffffffe):
                self.assertEqual(host.log_page(page, 4, nsid=nsid).status, INVALID_FIELD, (page, nsid))
            self.assertEqual(host.log_page(page, 4, dw14=1 << 23).status, INVALID_FIELD, "an offset by index")
        self.assertEqual(host.log_page(0x05, 4, dw14=2 << 24).status, INVALID_FIELD, "another command set")

    def test_errors(self) -> None:
        a, b = self.host(), self.host(0xb2)
        self.assertEqual(a.log_page(0x01, 4096).data, bytes(4096))
        self.assertEqual(a.read(BLOCKS + 7, 1).status, 0x080 | DNR)
        self.assertEqual(a.identify(0xff, 3).status, INVALID_FIELD)
        page = a.log_page(0x01, 4096).data
        first, second = (struct.unpack_from("<QHHHHQIBB", page, at) for at in (0, 64))
        self.assertEqual(first[:2] + first[3:], (2, 0, 0x8004, 0xffff, 0, 3, 0, 3))
        self.assertEqual(second[:2] + second[3:], (1, 1, 0x8100, 0xffff, BLOCKS + 7, 1, 0, 3))
        self.assertEqual(page[128:], bytes(3968))
        self.assertEqual(b.log_page(0x01, 4096).data, bytes(4096), "each controller has its own")
        for _ in range(70):
            a.read(BLOCKS, 1)
        numbers = [it[0] for it in struct.iter_unpack("<Q56x", a.log_page(0x01, 4096).data)]
        self.assertEqual(numbers, list(range(72, 8, -1)))
        self.assertEqual(struct.unpack_from("<Q", a.log_page(0x02, 512).data, 176)[0], 72)

    def test_health(self) -> None:
        host = self.host()
        self.assertEqual(self.health(host), {"spare": 100, "power_cycles": 1})
        for _ in range(5):
            host.write(0, bytes(256 * BLOCK))
        host.read(0, 256), host.read(BLOCKS, 1)
        host.queues[0].call(0x05, 1, struct.pack("<QI", 0, 0), bytes(BLOCK))
        host.queues[0].call(0x08, 1, struct.pack("<QI", 0, 255))
        wanted = {"spare": 100, "power_cycles": 1, "written": 2, "writes": 5, "read": 1, "reads": 3, "errors": 1}
        self.assertEqual(self.health(host), wanted)
        self.assertEqual(self.health(self.host(0xb2)), {"spare": 100, "power_cycles": 1})
        self.target.ask("powercycle")
        host = self.host()
        self.assertEqual(self.health(host), {**wanted, "power_cycles": 2, "unsafe_shutdowns": 1})
        self.assertEqual(host.admin.set_property(CC, ENABLE | 1 << 14).status, 0)
        self.target.ask("powercycle")
        self.assertEqual(self.health(self.host()), {**wanted, "power_cycles": 3, "unsafe_shutdowns": 1})

    def health(self, host: Host) -> dict:
        """The fields of SMART / Health Information that are not 0."""
        page = host.log_page(0x02, 512).data
        fields = {"warning": page[0], "temperature": page[1] | page[2] << 8, "spare": page[3], "used": page[5]}
        names = ("read", "written", "reads", "writes", "busy", "power_cycles", "hours", "unsafe_shutdowns", "media",
                 "errors")
        fields.update({name: int.from_bytes(page[at:at + 16], "little") for name, at in zip(names, range(32, 192, 16))})
        self.assertEqual(page[192:], bytes(320))
        return {name: value for name, value in fields.items() if value}

    def test_firmware(self) -> None:
        host = self.host()
        page, told = host.log_page(0x03, 512).data, host.identify(1).data
        self.assertEqual((page[0], page[8:16], page[16:]), (1, told[64:72], bytes(496)))
        self.assertEqual(told[260], 3, "one slot, which is read-only")

    def test_effects(self) -> None:
        """A command is supported if it is not answered Invalid Command Opcode."""
        host = self.host()
        effects = struct.unpack("<1024I", host.log_page(0x05, 4096).data)
        for opcode in range(256):
            if opcode not in (0x0c, 0x7f):
                is_known = self.status(host, 0, opcode) != 0x001 | DNR
                self.assertEqual(effects[opcode] & 1, is_known, opcode)
                is_known = self.status(host, 1, opcode) != 0x001 | DNR
                self.assertEqual(effects[256 + opcode] & 1, is_known, opcode)
        self.assertEqual(effects[0x0c], 1)
        self.assertEqual([effects[at] for at in (0x15, 256, 257, 264, 265)], [9, 1, 3, 3, 3])

    def status(self, host: Host, qid: int, opcode: int) -> int:
        queue = host.queues[0] if qid else host.admin
        has_data = opcode & 3 == 1
        return queue.call(opcode, 1, b"", bytes(16) if has_data else b"", length=4096 if opcode & 3 == 2 else 0).status


class Identifies(TargetTest):
    config = f"""controller 1 host 0xa1
controller 2 host 0xb2
controller 3 host 0xa1
namespace 1 blocks {BLOCKS} shared
namespace 5 blocks 64 private
namespace 3 blocks 64 shared
attached 1 1
attached 3 1
attached 3 5
"""

    def test_namespaces(self) -> None:
        host = self.host()
        told = host.identify(0, 1).data
        self.assertEqual((told[33], told[92:96]), (1, struct.pack("<I", 1)))
        self.assertEqual(host.identify(0x11, 1).data, told, "what is allocated is what is attached")
        self.assertEqual(host.identify(0, 3).data, bytes(4096))
        third = host.identify(0x11, 3).data
        self.assertEqual((third[:8], third[30], third[130]), (struct.pack("<Q", 64), 1, 9))
        fifth = host.identify(0x11, 5).data
        self.assertEqual(fifth[30], 0)
        self.assertEqual(host.identify(0x11, 2).data, bytes(4096))
        self.assertEqual({host.identify(0x11, nsid).status for nsid in (0, 9, 0xffffffff)}, {0x00b | DNR})
        self.assertEqual(host.set_feature(0x84, 1, nsid=1), 0)
        self.assertEqual((host.identify(0x11, 1).data, host.identify(0, 1).data[99]), (host.identify(0, 1).data, 1))

    def test_what_is_independent_of_the_command_set(self) -> None:
        host = self.host()
        structure = host.identify(8, 1)
        self.assertEqual((structure.status, structure.data[:16]),
                         (0, bytes([0, 1, 0xff, 0, 1, 0, 0, 0, 0, 0, 0, 0, 0, 0, 1, 0])))
        self.assertEqual([host.identify(8, nsid).status for nsid in (3, 2, 0, 9)], [0x00b | DNR] * 4)

    def test_the_nvm_command_set(self) -> None:
        host = self.host()
        limits = host.identify(6).data
        self.assertEqual(struct.unpack_from("<BBBBIQ", limits), (0, 13, 0, 0, 65536, 65536))
        self.assertEqual(limits[16:], bytes(4080))
        self.assertEqual((host.identify(5, 1).status, host.identify(5, 1).data), (0, bytes(4096)))
        self.assertEqual(host.identify(5, 3).status, 0x00b | DNR)
        self.assertEqual(host.identify(7).data, host.identify(2).data)
        for cns in (5, 6, 7):
            answer = host.admin.call(0x06, 1, struct.pack("<II", cns, 2 << 24), length=4096)
            self.assertEqual(answer.status, INVALID_FIELD, cns)

    def test_lists(self) -> None:
        host = self.host()
        allocated = [struct.unpack_from("<4I", host.identify(0x10, nsid).data) for nsid in (0, 1, 3, 5, 0xfffffffd)]
        self.assertEqual(allocated, [(1, 3, 5, 0), (3, 5, 0, 0), (5, 0, 0, 0), (0, 0, 0, 0), (0, 0, 0, 0)])
        self.assertEqual({host.identify(0x10, nsid).status for nsid in (0xfffffffe, 0xffffffff)}, {0x00b | DNR})
        self.assertEqual([self.controllers(host, 0x13, first) for first in (0, 2, 3, 4)],
                         [[1, 2, 3], [2, 3], [3], []])
        self.assertEqual([self.controllers(host, 0x12, first, 1) for first in (0, 2, 4)], [[1, 3], [3], []])
        self.assertEqual([self.controllers(host, 0x12, 0, nsid) for nsid in (5, 3, 2)], [[3], [], []])
        self.assertEqual(host.identify(0x12, 0).status, 0x00b | DNR)

    def controllers(self, host: Host, cns: int, first: int, nsid: int = 0) -> list:
        """The controllers of a list, from one on."""
        data = host.identify(cns | first << 16, nsid).data
        count = struct.unpack_from("<H", data)[0]
        self.assertEqual(data[2 + 2 * count:], bytes(4094 - 2 * count))
        return list(struct.unpack_from(f"<{count}H", data, 2))

    def test_room_of_the_host(self) -> None:
        host = self.host()
        for cns in (0, 1, 2, 3, 5, 6, 7, 8, 0x10, 0x11, 0x12, 0x13):
            self.assertEqual(host.identify(cns, 1, length=4092).status, DATA_TRANSFER, cns)
            self.assertEqual(len(host.identify(cns, 1, length=8192).data), 8192)


class Aborts(TargetTest):
    def test_nothing_is_aborted(self) -> None:
        host = self.host()
        for words in (0, 1, 0x00070001, 0xffffffff):
            answer = host.admin.call(0x08, 0, struct.pack("<I", words))
            self.assertEqual((answer.status, answer.value), (0, 1))


class Paths(TargetTest):
    def test_states(self) -> None:
        a, b = self.host(), self.host(0xb2)
        self.assertEqual(self.page(a), (0, 1, 1, 1, 0, 1, 1))
        for word, state in (("non-optimized", 2), ("inaccessible", 3), ("optimized", 1)):
            self.assertEqual(self.target.ask(f"ana 1 {word}"), f"ana 1 {word}")
            self.assertEqual(self.page(a)[5], state)
            self.assertEqual(self.page(b)[5], 1)
            self.assertEqual(a.write(0, bytes(512)), 0x302 if state == 3 else 0)
            self.assertEqual(b.write(0, bytes(512)), 0)
        self.assertEqual(a.log_page(0x0c, 52, dw10=1 << 8).data[20:24], bytes(4), "groups alone")
        self.assertEqual(self.page(a)[0], 3)
        for line in ("ana", "ana 1", "ana 3 optimized", "ana 1 change", "ana 1 optimized now"):
            self.assertEqual(self.target.ask(line), f"! {line}")

    def page(self, host: Host) -> tuple:
        """Changes; groups; the group, its namespaces, changes, its state; the first namespace."""
        data = host.log_page(0x0c, 52).data
        group = struct.unpack_from("<IIQB", data, 16)
        return struct.unpack_from("<QH", data) + group + struct.unpack_from("<I", data, 48)

    def test_a_notice(self) -> None:
        host = self.host()
        self.assertEqual(host.set_feature(0x0b, 0x800), 0)
        cids = [host.admin.send_command(0x0c, cid=cid) for cid in (100, 101)]
        self.target.ask("ana 1 non-optimized"), self.target.ask("ana 1 inaccessible")
        notice = host.admin.completion()
        self.assertEqual((notice.status, notice.value, notice.cid), (0, 0x000c0302, cids[0]))
        self.assertEqual(host.log_page(0x0c, 52, dw10=1 << 15).data[32], 3, "it is read, and the event retained")
        self.target.ask("ana 1 optimized")
        self.assertEqual(host.admin.call(0x18).status, 0, "no second notice")
        self.assertEqual(host.log_page(0x0c, 52).data[32], 1)
        self.target.ask("ana 1 non-optimized")
        self.assertEqual(host.admin.completion().cid, cids[1])

    def test_a_reset_forgets_requests(self) -> None:
        host = self.host()
        host.set_feature(0x0b, 0x800)
        host.admin.send_command(0x0c, cid=100)
        self.assertEqual(host.admin.set_property(CC, 0).status, 0)
        self.assertEqual(host.admin.set_property(CC, ENABLE).status, 0)
        self.assertEqual(host.get_feature(0x0b).value, 0)
        host.set_feature(0x0b, 0x800)
        self.target.ask("ana 1 non-optimized")
        host.admin.send_command(0x0c, cid=101)
        self.assertEqual(host.admin.completion().cid, 101)
