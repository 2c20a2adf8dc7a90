"""Reservation notifications: who is notified of which command, the log page, its event, and the mask."""
import signal
import struct
import time
from typing import List, Tuple

from tests.host import CC, ENABLE, Host
from tests.targets import BLOCKS, TargetTest

DNR = 0x4000
INVALID_FIELD, NOT_SAVEABLE, CONFLICT = 0x002 | DNR, 0x10d | DNR, 0x083
PAGE, MASK, RETAIN = 0x80, 0x82, 1 << 15
# Double word 0 of Reservation Log Page Available.
AVAILABLE = 0x800006
PREEMPTED, RELEASED, CLEARED = 1, 2, 3
REGISTER, ACQUIRE, RELEASE = 0x0d, 0x11, 0x15


class NoticesTest(TargetTest):
    def page(self, host: Host, **how: int) -> Tuple[int, int, int, int]:
        """The Log Page Count, type, number of available pages, and namespace."""
        data = host.log_page(PAGE, 64, **how).data
        self.assertEqual((data[10:12], data[16:]), (bytes(2), bytes(48)))
        count, kind, available, nsid = struct.unpack_from("<QBBxxI", data)
        return count, kind, available, nsid

    def none(self, *hosts: Host) -> None:
        for host in hosts:
            self.assertEqual(self.page(host), (0, 0, 0, 0))

    def request(self, host: Host, cid: int) -> None:
        """An Asynchronous Event Request."""
        host.admin.send_command(0x0c, cid=cid)

    def comes(self, host: Host, cid: int) -> None:
        completion = host.admin.completion()
        self.assertEqual((completion.cid, completion.status, completion.value), (cid, 0, AVAILABLE))

    def release(self, host: Host, key: int, kind: int = 0, action: int = 0, nsid: int = 1) -> int:
        return host.reserve(RELEASE, action | kind << 8, key, nsid=nsid)

    def registered(self, *identifiers: int) -> List[Host]:
        hosts = [self.host(it) for it in identifiers]
        for host, identifier in zip(hosts, identifiers):
            self.assertEqual(host.register(0, identifier), 0)
        return hosts


class Notices(NoticesTest):
    config = f"""controller 1 host 0xa1
controller 2 host 0xb2
controller 3 host 0xc3
controller 4 host 0xb2
controller 5 host 0xd4
namespace 1 blocks {BLOCKS} shared
namespace 2 blocks 64 shared
attached 1 1
attached 2 1
attached 3 1
attached 4 1
attached 1 2
attached 3 2
"""

    def test_preempt(self) -> None:
        a, b, c = self.registered(0xa1, 0xb2, 0xc3)
        other, stranger = self.host(0xb2), self.host(0xd4)
        self.assertEqual(b.acquire(0xb2), 0)
        self.none(a, b, c, other, stranger)
        self.request(b, 100), self.request(other, 100)
        self.assertEqual(a.acquire(0xa1, 0xb2, action=1), 0)
        self.comes(b, 100), self.comes(other, 100)
        for host in (b, other):
            self.assertEqual(self.page(host), (1, PREEMPTED, 0, 1))
        self.none(a, b, c, other, stranger)

    def test_a_reset_drops_an_event(self) -> None:
        """The request and the reset come at once. After the answer of the reset the request's identifier is free."""
        a, b = self.registered(0xa1, 0xb2)
        self.assertEqual([b.acquire(0xb2), b.acquire(0xb2, 0xa1, action=1)], [0, 0])
        self.target.process.send_signal(signal.SIGSTOP)
        self.request(a, 100)
        reset = a.admin.send_command(0x7f, 0, struct.pack("<BxxxIQ", 0, CC, 0))
        time.sleep(0.1)
        self.target.process.send_signal(signal.SIGCONT)
        self.assertEqual(a.admin.completion().cid, reset)
        time.sleep(0.1)
        self.assertEqual(a.admin.property(CC).value, 0)

    def test_a_preempt_that_changes_the_type(self) -> None:
        a, b, c = self.registered(0xa1, 0xb2, 0xc3)
        self.assertEqual(b.acquire(0xb2), 0)
        self.assertEqual(a.acquire(0xa1, 0xb2, action=2, kind=3), 0)
        self.assertEqual((self.page(b), self.page(c)), ((1, PREEMPTED, 0, 1), (1, RELEASED, 0, 1)))
        self.none(a, b, c)

    def test_release_and_unregister(self) -> None:
        a, b, c = self.registered(0xa1, 0xb2, 0xc3)
        for kind in (1, 2):
            self.assertEqual([a.acquire(0xa1, kind=kind), self.release(a, 0xa1, kind)], [0, 0])
        self.none(a, b, c)
        for count, kind in enumerate((3, 4, 5, 6), 1):
            self.assertEqual([a.acquire(0xa1, kind=kind), self.release(a, 0xa1, kind)], [0, 0])
            self.assertEqual((self.page(b), self.page(c)), ((count, RELEASED, 0, 1),) * 2)
        self.assertEqual([a.acquire(0xa1, kind=4), a.register(0xa1, 0, action=1)], [0, 0])
        self.assertEqual((self.page(b), self.page(c)), ((5, RELEASED, 0, 1),) * 2)
        self.none(a, b, c)

    def test_clear(self) -> None:
        a, b, c = self.registered(0xa1, 0xb2, 0xc3)
        self.assertEqual(b.acquire(0xb2), 0)
        self.assertEqual(self.release(c, 0xc3, action=1), 0)
        self.assertEqual((self.page(a), self.page(b)), ((1, CLEARED, 0, 1),) * 2)
        self.none(a, b, c)

    def test_what_fails_is_no_notice(self) -> None:
        a, b = self.registered(0xa1, 0xb2)
        self.assertEqual(a.acquire(0xa1, kind=3), 0)
        for status in (b.acquire(0xb2, kind=3), b.acquire(7, 0xa1, action=1), self.release(b, 7, 3)):
            self.assertEqual(status & ~DNR, CONFLICT)
        self.none(a, b)

    def test_namespaces_that_are_not_attached(self) -> None:
        """Host b2h registers with namespace 2 and loses the attachment: it hears nothing of it."""
        a, c = self.host(0xa1), self.host(0xc3)
        for host, key in ((a, 0xa1), (c, 0xc3)):
            self.assertEqual(host.reserve(REGISTER, 3 << 30, 0, key, nsid=2), 0)
        controllers = struct.pack("<HH", 1, c.cntlid).ljust(4096, b"\0")
        self.assertEqual(a.admin.call(0x15, 2, struct.pack("<I", 1), controllers).status, 0)
        c.log_page(0x04, 4096)
        self.assertEqual(a.reserve(ACQUIRE, 1 << 8, 0xa1, 0, nsid=2), 0)
        self.assertEqual(self.release(a, 0xa1, action=1, nsid=2), 0)
        self.none(a, c)

    def test_order_and_events(self) -> None:
        a, b = self.registered(0xa1, 0xb2)
        self.assertEqual(a.reserve(REGISTER, 3 << 30, 0, 0xa1, nsid=2), 0)
        for kind in (3, 4, 5):
            self.assertEqual([a.acquire(0xa1, kind=kind), self.release(a, 0xa1, kind)], [0, 0])
        self.request(b, 100)
        self.comes(b, 100)
        self.request(b, 101)
        self.assertEqual(self.page(b, dw10=RETAIN), (1, RELEASED, 2, 1), "it is read, and retained")
        self.assertEqual(self.page(b, dw10=RETAIN), (1, RELEASED, 2, 1))
        self.assertEqual(b.admin.send_command(0x02, 0xffffffff, struct.pack("<II", PAGE | 15 << 16, 0), length=64,
                                              cid=200), 200)
        told = {it.cid: it for it in (b.admin.completion(), b.admin.completion())}
        self.assertEqual((told[101].value, told[200].data[:10]), (AVAILABLE, bytes([1, 0, 0, 0, 0, 0, 0, 0, 2, 2])))
        self.assertEqual(self.page(b), (2, RELEASED, 1, 1))
        self.assertEqual(self.page(b), (3, RELEASED, 0, 1))
        self.none(a, b)
        self.request(b, 102)
        self.assertEqual(self.release(b, 0xb2, action=1), 0, "its own command is no event")
        self.none(b)

    def test_overflow(self) -> None:
        """70 notices: the last six are lost, and the count of the 64th shows that."""
        a, b = self.registered(0xa1, 0xb2)
        for _ in range(70):
            self.assertEqual([a.acquire(0xa1, kind=3), self.release(a, 0xa1, 3)], [0, 0])
        pages = [self.page(b) for _ in range(64)]
        self.assertEqual(pages, [(count if count < 64 else 70, RELEASED, 64 - count, 1) for count in range(1, 65)])
        self.none(b)
        self.assertEqual([a.acquire(0xa1, kind=3), self.release(a, 0xa1, 3)], [0, 0])
        self.assertEqual(self.page(b), (71, RELEASED, 0, 1))

    def test_masks(self) -> None:
        a, b, c = self.registered(0xa1, 0xb2, 0xc3)
        self.assertEqual([b.get_feature(MASK, select, nsid=1).value for select in range(4)], [0, 0, 0, 6])
        self.assertEqual(b.set_feature(MASK, 0xffffffff, nsid=1), 0)
        self.assertEqual(b.get_feature(MASK, nsid=1).value, 0xe)
        self.assertEqual(b.set_feature(MASK, 1 << RELEASED, nsid=1), 0)
        self.assertEqual([a.acquire(0xa1, kind=3), self.release(a, 0xa1, 3)], [0, 0])
        self.none(b)
        self.assertEqual(self.page(c), (1, RELEASED, 0, 1))
        self.assertEqual(a.acquire(0xa1, 0xb2, action=1), 0)
        self.assertEqual(self.page(b), (1, PREEMPTED, 0, 1), "what is masked is not counted")
        self.assertEqual(c.set_feature(MASK, 1 << CLEARED, nsid=0xffffffff), 0)
        self.assertEqual([c.get_feature(MASK, nsid=nsid).value for nsid in (1, 2)], [8, 8])
        self.assertEqual(self.release(a, 0xa1, action=1), 0)
        self.none(a, b, c)

    def test_what_a_mask_refuses(self) -> None:
        host = self.host(0xb2)
        for nsid in (0, 2, 3, 9):
            self.assertEqual(host.set_feature(MASK, 2, nsid=nsid), INVALID_FIELD, nsid)
        for nsid in (0, 2, 3, 9, 0xffffffff):
            for select in range(4):
                self.assertEqual(host.get_feature(MASK, select, nsid=nsid).status, INVALID_FIELD, nsid)
        self.assertEqual(host.set_feature(MASK, 2, nsid=1, save=True), NOT_SAVEABLE)

    def test_a_reset_forgets_all(self) -> None:
        a, b = self.registered(0xa1, 0xb2)
        for _ in range(2):
            self.assertEqual([a.acquire(0xa1, kind=3), self.release(a, 0xa1, 3)], [0, 0])
        self.assertEqual(b.set_feature(MASK, 0xe, nsid=1), 0)
        self.assertEqual(b.admin.set_property(CC, 0).status, 0)
        self.assertEqual(b.admin.set_property(CC, ENABLE).status, 0)
        self.none(b)
        self.assertEqual(b.get_feature(MASK, nsid=1).value, 0)
        self.assertEqual([a.acquire(0xa1, kind=3), self.release(a, 0xa1, 3)], [0, 0])
        self.assertEqual(self.page(b), (1, RELEASED, 0, 1), "the count begins again")

    def test_a_held_command(self) -> None:
        """A Preempt is held: its notice comes when it is executed."""
        a, b = self.registered(0xa1, 0xb2)
        self.assertEqual(b.acquire(0xb2), 0)
        self.target.ask(f"hold {a.cntlid}")
        cid = a.queues[0].send_command(ACQUIRE, 1, struct.pack("<I", 1 | 1 << 8), struct.pack("<QQ", 0xa1, 0xb2))
        self.wait_for(lambda: self.target.ask(f"held {a.cntlid}") == f"held {a.cntlid} 1")
        self.none(b)
        self.target.ask(f"go {a.cntlid}")
        completion = a.queues[0].completion()
        self.assertEqual((completion.cid, completion.status), (cid, 0))
        self.assertEqual(self.page(b), (1, PREEMPTED, 0, 1))
