"""Fabrics: Connect, Disconnect, properties, discovery, Keep Alive, events, and many hosts at once."""
import os
import random
import struct
import subprocess
import threading
import time
from pathlib import Path

from tests.host import CAP, CC, CSTS, DISCOVERY, ENABLE, SUBSYSTEM, VS, Ended, Host, Queue
from tests.targets import BLOCKS, PROGRAM, TargetTest

DNR = 0x4000


class Connects(TargetTest):
    config = TargetTest.config + "controller 3 host 0xa1\n"

    def connected(self, *words, **how):
        queue = Queue(self.target.port)
        self.addCleanup(queue.close)
        return queue.connect(*words, **how)

    def test_refusals(self) -> None:
        for status, value, how in (
                (0x184, 0, {"host": 0xc3}), (0x184, 0, {"host": 0}),
                (0x182, 1 << 16 | 256, {"name": SUBSYSTEM + "x"}), (0x182, 1 << 16 | 256, {"name": ""}),
                (0x182, 1 << 16 | 256, {"name": "n" * 256}), (0x182, 1 << 16 | 512, {"host_name": "n" * 256}),
                (0x182, 1 << 16 | 16, {"cntlid": 2}), (0x182, 1 << 16 | 16, {"cntlid": 0}),
                (0x182, 44, {"size": 1}), (0x182, 44, {"size": 65}), (0x182, 44, {"size": 65536}),
                (0x182, 44, {"size": 0}), (0x180, 0, {"form": 1})):
            answer = self.connected(0, **{"host": 0xa1, **how})
            self.assertEqual((answer.status, answer.value), (status | DNR, value), how)
        self.assertEqual(self.target.hosts(), [])

    def test_controllers_of_one_host_are_its_paths(self) -> None:
        first, second = self.connected(0, 0xa1), self.connected(0, 0xa1)
        self.assertEqual((first.value, second.value), (1, 3))
        self.assertEqual(self.connected(0, 0xa1).status, 0x181, "none is free, and a repeat may help")
        self.assertEqual([it["controller"] for it in self.target.hosts()], [1, 3])

    def test_a_controller_by_its_identifier(self) -> None:
        self.assertEqual(self.connected(0, 0xa1, cntlid=3).value, 3)
        self.assertEqual(self.connected(0, 0xa1, cntlid=3).status, 0x181)

    def test_io_queues(self) -> None:
        host = self.host(queues=2)
        for status, value, how in (
                (0x182 | DNR, 1 << 16 | 16, {"cntlid": 2}), (0x182 | DNR, 1 << 16 | 16, {"cntlid": 0xffff}),
                (0x182 | DNR, 1 << 16, {"host": 0xb2}), (0x182 | DNR, 1 << 16 | 512, {"host_name": "nqn.other"}),
                (0x182 | DNR, 42, {"qid": 5}), (0x182 | DNR, 42, {"qid": 0xffff}), (0x00c, 0, {"qid": 2})):
            answer = self.connected(**{"qid": 3, "host": 0xa1, "cntlid": host.cntlid, **how})
            self.assertEqual((answer.status, answer.value), (status, value), how)
        self.assertEqual(self.connected(3, 0xa1, host.cntlid, size=2).status, 0)
        self.assertEqual(self.target.hosts()[0]["io_queues"], 3)

    def test_commands_out_of_turn(self) -> None:
        queue = Queue(self.target.port)
        self.addCleanup(queue.close)
        self.assertEqual(queue.call(0x06, 0, struct.pack("<I", 1), length=4096).status, 0x00c)
        self.assertEqual(queue.property(CAP, 8).status, 0x00c)
        self.assertEqual(queue.connect(0, 0xa1).status, 0)
        self.assertEqual(queue.connect(0, 0xa1).status, 0x00c)
        self.assertEqual(queue.call(0x06, 0, struct.pack("<I", 1), length=4096).status, 0x00c, "it is not enabled")
        self.assertEqual(queue.call(0x7f, 0x05).status, 0x001 | DNR)
        self.assertEqual(queue.call(0x7f, 0x08).status, 0x185 | DNR, "Disconnect of the admin queue")

    def test_disconnect(self) -> None:
        host = self.host(queues=2)
        self.assertEqual(host.queues[1].call(0x7f, 0x08).status, 0)
        self.assertRaises(Ended, host.queues[1].unit)
        again = self.connected(2, 0xa1, host.cntlid)
        self.assertEqual(again.status, 0)
        self.assertEqual(host.read(0, 1).status, 0)

    def test_the_end_of_the_admin_queue_is_that_of_all(self) -> None:
        host = self.host(queues=2)
        host.admin.close()
        for queue in host.queues:
            self.assertRaises(Ended, queue.unit)
        self.assertEqual(self.target.hosts(), [])
        self.assertEqual(self.target.ask("?register 1 0x14"), "register 1 20 0x00000000")

    def test_an_io_queue_that_is_lost(self) -> None:
        host = self.host(queues=2)
        host.queues[1].close()
        self.wait_for(lambda: self.target.hosts()[0]["io_queues"] == 1)
        self.assertEqual(host.read(0, 1).status, 0)
        self.assertEqual(self.connected(2, 0xa1, host.cntlid).status, 0)


class Properties(TargetTest):
    def test_values(self) -> None:
        admin = self.host().admin
        self.assertEqual(admin.property(VS).value, 0x20000)
        self.assertEqual(admin.property(CC).value, ENABLE)
        self.assertEqual(admin.property(CAP, 8).value & 0xffff, 63)
        for offset, size in ((CAP, 4), (VS, 8), (CC, 8), (0x24, 4), (0x28, 8), (0x1000, 4), (0xffffffff, 4)):
            self.assertEqual(admin.property(offset, size).status, 0x002 | DNR, offset)
            self.assertEqual(admin.set_property(offset, 1, size).status, 0x002 | DNR, offset)
        self.assertEqual(admin.set_property(CSTS, 1).status, 0x002 | DNR)
        self.assertEqual(self.target.ask("?register 1 0x28"), "register 1 40 0x00001000")

    def test_a_reset_ends_the_io_queues(self) -> None:
        host = self.host(queues=2)
        self.assertEqual(host.admin.set_property(CC, 0).status, 0)
        self.assertEqual(host.admin.property(CSTS).value, 0)
        for queue in host.queues:
            self.assertRaises(Ended, queue.unit)
        self.assertEqual(host.admin.set_property(CC, ENABLE).status, 0)
        self.assertEqual(host.identify(1).status, 0)

    def test_a_shutdown(self) -> None:
        host = self.host()
        self.assertEqual(host.admin.set_property(CC, ENABLE | 1 << 14).status, 0)
        self.assertEqual(host.admin.property(CSTS).value & 0xc, 8)
        self.assertEqual(host.read(0, 1).status, 0x00c)
        self.assertEqual(host.identify(1).status, 0x00c)

    def test_a_configuration_that_the_controller_refuses(self) -> None:
        host = self.host()
        host.admin.set_property(CC, 0)
        self.assertEqual(host.admin.set_property(CC, 1).status, 0)
        self.assertEqual(host.admin.property(CSTS).value & 2, 2, "a fatal status")
        self.assertEqual(host.identify(1).status, 0x00c)


class Discovers(TargetTest):
    def test_the_log_page(self) -> None:
        queue = Queue(self.target.port)
        self.addCleanup(queue.close)
        connected = queue.connect(0, 0xdead, name=DISCOVERY)
        self.assertEqual(connected.status, 0)
        self.assertEqual(queue.property(VS).value, 0x20000)
        self.assertEqual(queue.set_property(CC, ENABLE).status, 0)
        self.assertEqual(queue.property(CSTS).value, 1)
        told = queue.call(0x06, 0, struct.pack("<I", 1), length=4096).data
        self.assertEqual((struct.unpack_from("<H", told, 78)[0], told[111]), (connected.value & 0xffff, 2))
        page = b"".join(self.part(queue, at, 512) for at in range(0, 2048, 512))
        self.assertEqual(struct.unpack_from("<QQ", page), (1, 1))
        self.assertEqual(page[1024:1028], bytes([3, 1, 2, 4]))
        self.assertEqual(page[1056:1088].decode().strip(), str(self.target.port))
        self.assertEqual(page[1280:1536].rstrip(b"\0").decode(), SUBSYSTEM)
        self.assertEqual(page[1536:1792].decode().strip(), "127.0.0.1")
        self.assertEqual(queue.call(0x18).status, 0)
        self.assertEqual(self.target.hosts(), [])

    def part(self, queue: Queue, offset: int, length: int) -> bytes:
        words = struct.pack("<HHIQ", 0x70, length // 4 - 1, 0, offset)
        return queue.call(0x02, 0, words, length=length).data

    def test_what_it_has_not(self) -> None:
        queue = Queue(self.target.port)
        self.addCleanup(queue.close)
        queue.connect(0, 0xdead, name=DISCOVERY)
        self.assertEqual(queue.call(0x06, 0, struct.pack("<I", 1), length=4096).status, 0x00c)
        queue.set_property(CC, ENABLE)
        for opcode, words, status in ((0x06, struct.pack("<I", 0), 0x002), (0x02, struct.pack("<I", 1), 0x109),
                                      (0x0a, b"", 0x001), (0x00, b"", 0x001), (0x0c, b"", 0x001)):
            self.assertEqual(queue.call(opcode, 0, words, length=4096).status, status | DNR)
        self.assertEqual(queue.call(0x02, 0, struct.pack("<IIQ", 0x70, 0, 1 << 40), length=4).status, 0x002 | DNR)
        again = Queue(self.target.port)
        self.addCleanup(again.close)
        self.assertEqual(again.connect(1, 0xdead, name=DISCOVERY).value, 42)


class Advertises(TargetTest):
    options = ["--advertise", "[2001:db8::1]:4421"]

    def test_another_address(self) -> None:
        queue = Queue(self.target.port)
        self.addCleanup(queue.close)
        queue.connect(0, 0xdead, name=DISCOVERY)
        queue.set_property(CC, ENABLE)
        page = queue.call(0x02, 0, struct.pack("<HH", 0x70, 511), length=2048).data
        self.assertEqual((page[1025], page[1056:1060], page[1536:1547]), (2, b"4421", b"2001:db8::1"))


class Lives(TargetTest):
    def test_a_host_that_vanishes(self) -> None:
        """TCP keepalive: the kernel probes a silent host, so that a dead one without a Keep Alive Timeout does not keep
        its controller. Each connection has such a timer, of at most 30 seconds."""
        host = self.host(keep_alive=0)
        for queue in (host.admin, *host.queues):
            ends = [f"0100007F:{port:04X}" for port in (self.target.port, queue.socket.getsockname()[1])]
            self.wait_for(lambda: self.timer(ends)[0] == "02")
            self.assertLessEqual(int(self.timer(ends)[1], 16), 30 * os.sysconf("SC_CLK_TCK"))

    def timer(self, ends: list) -> list:
        """The kind of the timer that a connection has, and when it is over: 02 is that of such a question."""
        rows = [line.split() for line in Path("/proc/net/tcp").read_text(encoding="ascii").splitlines()]
        return next(row[5].split(":") for row in rows if row[1:3] == ends)

    def test_keep_alive(self) -> None:
        host = self.host(keep_alive=1000)
        for _ in range(5):
            self.assertEqual(host.admin.call(0x18).status, 0)
            time.sleep(0.5)
        begun = time.monotonic()
        self.assertRaises(Ended, host.queues[0].unit)
        self.assertTrue(1.0 < time.monotonic() - begun < 2.5)
        self.assertEqual(self.target.hosts(), [])

    def test_events(self) -> None:
        a, b = self.host(), self.host(0xb2)
        self.assertEqual(b.admin.call(0x09, 0, struct.pack("<II", 0x0b, 0x100)).status, 0)
        self.assertEqual(b.admin.call(0x0a, 0, struct.pack("<I", 0x0b)).value, 0x100)
        for cid in range(100, 104):
            b.admin.send_command(0x0c, cid=cid)
        self.assertEqual(b.admin.call(0x0c).status, 0x105 | DNR)
        b.admin.send_command(0x18, cid=101)
        self.assertEqual(b.admin.completion()[:1], (0x003 | DNR,))
        self.assertEqual(self.attach(a, 1), 0)
        notice = b.admin.completion()
        self.assertEqual((notice.status, notice.value, notice.cid), (0, 0x00040002, 100))
        self.assertEqual(b.read(0, 1).status, 0x002 | DNR)
        self.assertEqual(self.attach(a, 0), 0)
        changed = b.admin.call(0x02, 0xffffffff, struct.pack("<HH", 0x04, 1023), length=4096)
        self.assertEqual((changed.status, changed.data[:8]), (0, struct.pack("<II", 1, 0)))
        self.assertEqual(b.read(0, 1).status, 0)
        self.assertEqual(a.read(0, 1).status, 0)


    def attach(self, host: Host, selection: int) -> int:
        """Has a host attach (0) or detach (1) controller 2."""
        controllers = struct.pack("<HH", 1, 2).ljust(4096, b"\0")
        return host.admin.call(0x15, 1, struct.pack("<I", selection), controllers).status


class Allowed(TargetTest):
    options = ["--allow", "a1000000-0000-0000-0000-000000000000=127.0.0.2"]

    def test_a_host_from_another_address(self) -> None:
        queue = Queue(self.target.port)
        self.addCleanup(queue.close)
        self.assertEqual(queue.connect(0, 0xa1).status, 0x184 | DNR)
        self.host(0xb2)

    def test_a_host_that_no_controller_is_of(self) -> None:
        """A typo would leave the intended host unrestricted."""
        slip = "1a000000-0000-0000-0000-000000000000"
        words = [PROGRAM, "--listen", "127.0.0.1:0", *self.options, "--allow", f"{slip}=127.0.0.2",
                 str(self.folder / "config.nvme")]
        ran = subprocess.run(words, stdout=subprocess.PIPE, stderr=subprocess.PIPE, text=True, timeout=10)
        self.assertEqual((ran.returncode, ran.stdout), (3, ""))
        self.assertEqual(ran.stderr, f"nvmetcp: --allow {slip}: no controller is of this host; there are those of "
                                     "a1000000-0000-0000-0000-000000000000 and b2000000-0000-0000-0000-000000000000\n")


class Many(TargetTest):
    config = "".join(f"controller {n} host {n + 0x100}\n" for n in range(1, 17)) + \
        f"namespace 1 blocks {BLOCKS} shared\n" + "".join(f"attached {n} 1\n" for n in range(1, 17))

    def test_sixteen_hosts_with_five_queues(self) -> None:
        hosts = [self.host(0x100 + number, queues=4) for number in range(1, 17)]
        faults = []

        def work(number: int, host: Host) -> None:
            rng = random.Random(number)
            for turn in range(40):
                data, place = rng.randbytes(512 * rng.randint(1, 32)), number * 100
                status = host.write(place, data, queue=turn % 4)
                if status or host.read(place, len(data) // 512, queue=turn // 4 % 4).data != data:
                    faults.append((number, turn))

        threads = [threading.Thread(target=work, args=pair) for pair in enumerate(hosts)]
        for thread in threads:
            thread.start()
        for thread in threads:
            thread.join()
        self.assertEqual(faults, [])
        self.assertEqual([it["io_queues"] for it in self.target.hosts()], [4] * 16)
