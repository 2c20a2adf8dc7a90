"""Linux's pr_ops: the reservation commands that Linux 6.12 sends for them, as the guests' scene `pr-ops` recorded, and
their answers."""
import struct
from typing import List, NamedTuple, Optional, Tuple

from tests.host import Host
from tests.targets import BLOCKS, TargetTest

DNR = 0x4000
INVALID_FIELD, CONFLICT, WRONG_FORMAT, NO_ROOM = 0x002 | DNR, 0x083 | DNR, 0x018 | DNR, 0x004 | DNR
REGISTER, REPORT, ACQUIRE, RELEASE = 0x0d, 0x0e, 0x11, 0x15
IGNORE_KEY, EXTENDED = 1 << 3, 1
# PR_WRITE_EXCLUSIVE_REG_ONLY, as the type of a command.
REGISTRANTS = 3
# The head of a report, and each registrant in it: struct nvme_reservation_status_ext and nvme_registered_ctrl_ext.
HEAD, REGISTRANT = struct.Struct("<IBHxxB54x"), struct.Struct("<HB5xQ16s32x")


class Entry(NamedTuple):
    """A registrant of a report."""
    cntlid: int
    is_holder: int
    key: int
    host: int


def register(host: Host, old: int, new: int, ignore: bool = False) -> int:
    return host.reserve(REGISTER, (2 if old else 0) | (IGNORE_KEY if ignore else 0) | 3 << 30, old, new)


def reserve(host: Host, key: int, ignore: bool = False) -> int:
    return host.reserve(ACQUIRE, REGISTRANTS << 8 | (IGNORE_KEY if ignore else 0), key, 0)


def preempt(host: Host, old: int, new: int, abort: bool = False) -> int:
    return host.reserve(ACQUIRE, REGISTRANTS << 8 | (2 if abort else 1), old, new)


def release(host: Host, key: int) -> int:
    return host.reserve(RELEASE, REGISTRANTS << 8 | (0 if key else IGNORE_KEY), key, 0)


def clear(host: Host, key: int) -> int:
    return host.reserve(RELEASE, 1 | (0 if key else IGNORE_KEY), key, 0)


def report(host: Host, length: int, form: int = EXTENDED, room: Optional[int] = None) -> Tuple[int, bytes]:
    """The status and the data of a Reservation Report of `length` bytes, for which the host has a buffer of `room`."""
    words = struct.pack("<II", length // 4 - 1, form)
    completion = host.queues[0].call(REPORT, 1, words, length=length if room is None else room)
    return completion.status, completion.data


def read_keys(host: Host, room: int) -> Tuple[int, int, List[int]]:
    """The generation, the number of registrants, and at most `room` of their keys."""
    status, data = report(host, HEAD.size + REGISTRANT.size * room)
    generation, _, count, _ = HEAD.unpack_from(data)
    places = [HEAD.size + REGISTRANT.size * n for n in range(min(room, count))]
    return status or generation, count, [REGISTRANT.unpack_from(data, place)[2] for place in places]


def read_reservation(host: Host) -> Tuple[int, int]:
    """The type and the key of the holder. Linux first asks how many registrants there are, then for all of them."""
    count = HEAD.unpack(report(host, HEAD.size)[1])[2]
    if not count:
        return 0, 0
    data = report(host, HEAD.size + REGISTRANT.size * count)[1]
    entries = [REGISTRANT.unpack_from(data, HEAD.size + REGISTRANT.size * n) for n in range(count)]
    return HEAD.unpack_from(data)[1], next((key for _, holds, key, _ in entries if holds & 1), 0)


class PrOps(TargetTest):
    config = f"""controller 1 host 0xa1
controller 2 host 0xb2
controller 3 host 0xc3
namespace 1 blocks {BLOCKS} shared
attached 1 1
attached 2 1
attached 3 1
"""

    def setUp(self) -> None:
        super().setUp()
        self.a, self.b = self.host(), self.host(0xb2)

    def register_both(self) -> None:
        self.assertEqual([register(self.a, 0, 0xa), register(self.b, 0, 0xb)], [0, 0])

    def test_register(self) -> None:
        """With PR_FL_IGNORE_KEY, with an old key, and with a wrong one."""
        a = self.a
        self.assertEqual(register(a, 0, 0xa, ignore=True), 0)
        self.assertEqual(register(a, 0x77, 0xa1, ignore=True), 0)
        self.assertEqual(register(a, 0x77, 0xa2), CONFLICT)
        self.assertEqual(register(a, 0, 0xa2), CONFLICT)
        self.assertEqual(register(a, 0, 0xa1), 0)
        self.assertEqual(register(a, 0xa1, 0xa2), 0)
        self.assertEqual(read_keys(a, 4), (4, 1, [0xa2]))

    def test_ignored_keys(self) -> None:
        """With Acquire and Release IEKEY is an invalid field, and nothing changes."""
        a, b = self.a, self.b
        self.register_both()
        self.assertEqual([reserve(a, key, ignore=True) for key in (0, 0xa)], [INVALID_FIELD] * 2)
        self.assertEqual(read_reservation(b), (0, 0))
        self.assertEqual(reserve(a, 0xa), 0)
        before = report(b, 4096)
        self.assertEqual([release(a, 0), clear(a, 0)], [INVALID_FIELD] * 2)
        self.assertEqual(a.reserve(RELEASE, REGISTRANTS << 8 | IGNORE_KEY, 0xa, 0), INVALID_FIELD)
        for action in (1, 2):
            self.assertEqual(b.reserve(ACQUIRE, REGISTRANTS << 8 | IGNORE_KEY | action, 0xb, 0xa), INVALID_FIELD)
        self.assertEqual(report(b, 4096), before)

    def test_reservations(self) -> None:
        """Reserve, preempt, release and clear, and which key holds after each."""
        a, b = self.a, self.b
        self.register_both()
        self.assertEqual([reserve(a, 0xa), reserve(a, 0xa), reserve(b, 0xb), reserve(b, 0xa)], [0, 0] + [CONFLICT] * 2)
        self.assertEqual(read_reservation(b), (REGISTRANTS, 0xa))
        self.assertEqual([release(b, 0xb), release(b, 0xa)], [0, CONFLICT])
        self.assertEqual(read_reservation(a), (REGISTRANTS, 0xa))
        self.assertEqual(preempt(b, 0xb, 0xa), 0)
        self.assertEqual((read_keys(a, 4), read_reservation(a)), ((3, 1, [0xb]), (REGISTRANTS, 0xb)))
        self.assertEqual([reserve(a, 0xa), preempt(a, 0xa, 0xb), release(a, 0xa), clear(a, 0xa)], [CONFLICT] * 4)
        self.assertEqual(register(a, 0, 0xa, ignore=True), 0)
        self.assertEqual(preempt(a, 0xa, 0xb, abort=True), 0)
        self.assertEqual(read_reservation(b), (REGISTRANTS, 0xa))
        self.assertEqual(release(a, 0xa), 0)
        self.assertEqual(read_reservation(b), (0, 0))
        self.assertEqual((clear(a, 0xa), read_keys(b, 4)[1:]), (0, (0, [])))

    def test_the_layout(self) -> None:
        """The bytes of a report in the extended format, in each length that Linux may ask for."""
        a, b, c = self.a, self.b, self.host(0xc3)
        for host, key in ((a, 0xa), (b, 0xb), (c, 0x123456789abcdef0)):
            self.assertEqual(register(host, 0, key), 0)
        self.assertEqual(reserve(b, 0xb), 0)
        wanted = HEAD.pack(3, REGISTRANTS, 3, 1)
        for entry in (Entry(1, 0, 0xa, 0xa1), Entry(2, 1, 0xb, 0xb2), Entry(3, 0, 0x123456789abcdef0, 0xc3)):
            wanted += REGISTRANT.pack(*entry[:3], entry.host.to_bytes(16, "little"))
        for length in (4, 8, 24, 64, 68, 128, 192, 256, 320, 1088, 4096, 8192):
            with self.subTest(length=length):
                self.assertEqual(report(a, length), (0, wanted[:length].ljust(length, b"\0")))
        self.assertEqual([read_keys(a, room) for room in (0, 1, 3, 9)],
                         [(3, 3, [0xa, 0xb, 0x123456789abcdef0][:room]) for room in (0, 1, 3, 9)])

    def test_the_short_format(self) -> None:
        """It has no room for HOSTIDs of 128 bits, so EDS = 0 is refused in each length, and Linux asks with 1."""
        self.register_both()
        for length in (4, 24, 48, 64, 4096):
            self.assertEqual(report(self.b, length, 0), (WRONG_FORMAT, b""))

    def test_lengths_that_do_not_fit(self) -> None:
        """A buffer that is shorter than the command says, and a command of more than 128 KiB (MDTS)."""
        self.register_both()
        for length, room in ((4, 0), (64, 0), (64, 32), (128, 64)):
            self.assertEqual(report(self.a, length, room=room), (NO_ROOM, b""))
        self.assertEqual(report(self.a, 1 << 17)[0], 0)
        for length in ((1 << 17) + 4, 1 << 34):
            self.assertEqual(report(self.a, length, room=1 << 17), (INVALID_FIELD, b""))

    def test_nobody_is_registered(self) -> None:
        self.assertEqual(report(self.a, 64), (0, bytes(64)))
        self.assertEqual((read_keys(self.a, 2), read_reservation(self.a)), ((0, 0, []), (0, 0)))
        self.assertEqual([release(self.a, 0xa), clear(self.a, 0xa), reserve(self.a, 0xa)], [CONFLICT] * 3)
