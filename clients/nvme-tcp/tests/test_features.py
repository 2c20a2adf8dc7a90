"""Features: those that Linux and nvme-cli get and set, their Select field, and what is refused."""
import struct
import time

from tests.host import BLOCK, CC, ENABLE, Ended
from tests.targets import BLOCKS, TargetTest

DNR = 0x4000
INVALID_FIELD, NOT_SAVEABLE, OF_NO_NAMESPACE = 0x002 | DNR, 0x10d | DNR, 0x10f | DNR
SEQUENCE = 0x00c
# Features of a controller: the default, a value that is set, and what it is then.
VALUES = {0x01: (0, 0x1ff, 7), 0x02: (0, 0xe0, 0xe0), 0x04: (0xffff, 0x157, 0x157), 0x0a: (0, 3, 1),
          0x0b: (0, 0x900, 0x900), 0x0f: (120000, 2500, 3000)}


class Features(TargetTest):
    def test_values(self) -> None:
        host, other = self.host(keep_alive=4500), self.host(0xb2)
        for fid, (default, value, then) in VALUES.items():
            with self.subTest(fid):
                self.assertEqual(host.get_feature(fid).value, 5000 if fid == 0x0f else default)
                self.assertEqual(host.set_feature(fid, value), 0)
                self.assertEqual([host.get_feature(fid, select).value for select in range(4)],
                                 [then, default, default, 4])
                self.assertEqual(host.set_feature(fid, value, save=True), NOT_SAVEABLE)
                self.assertEqual(host.set_feature(fid, value, nsid=1), OF_NO_NAMESPACE)
                self.assertEqual(host.set_feature(fid, value, nsid=0xffffffff), 0)
                self.assertEqual(other.get_feature(fid).value, 0 if fid == 0x0f else default)
                for select in range(4, 8):
                    self.assertEqual(host.get_feature(fid, select).status, INVALID_FIELD)

    def test_a_reset_forgets_them(self) -> None:
        host = self.host(keep_alive=60000)
        for fid, (_, value, _) in VALUES.items():
            self.assertEqual(host.set_feature(fid, value), 0)
        self.assertEqual(host.admin.set_property(CC, 0).status, 0)
        self.assertEqual(host.admin.set_property(CC, ENABLE).status, 0)
        for fid, (default, _, then) in VALUES.items():
            self.assertEqual(host.get_feature(fid).value, then if fid == 0x0f else default)

    def test_what_is_refused(self) -> None:
        host = self.host()
        for fid in (0x00, 0x03, 0x06, 0x08, 0x09, 0x0c, 0x0d, 0x0e, 0x10, 0x11, 0x16, 0x17, 0x80, 0x83, 0xc0, 0xff):
            for select in range(4):
                self.assertEqual(host.get_feature(fid, select).status, INVALID_FIELD, fid)
            self.assertEqual(host.set_feature(fid, 0), INVALID_FIELD, fid)
            self.assertEqual(host.set_feature(fid, 0, save=True), INVALID_FIELD, fid)
        for fid, value in ((0x02, 1), (0x04, 0x10000), (0x04, 0x200000), (0x04, 0xe0000)):
            self.assertEqual(host.set_feature(fid, value), INVALID_FIELD, fid)
        self.assertEqual(host.get_feature(0x04, dw11=0xf0000).status, INVALID_FIELD)

    def test_temperatures(self) -> None:
        host = self.host()
        self.assertEqual(host.set_feature(0x04, 0x100020), 0)
        self.assertEqual([host.get_feature(0x04, dw11=kind << 20).value for kind in (0, 1)], [0xffff, 0x20])
        self.assertEqual(host.set_feature(0x04, 0xf0030), 0, "all sensors")
        self.assertEqual(host.get_feature(0x04).value, 0x30)

    def test_queues_and_the_host(self) -> None:
        host = self.host()
        self.assertEqual([host.get_feature(0x07, select).value for select in range(4)], [0x30003] * 3 + [4])
        self.assertEqual(host.set_feature(0x07, 0, save=True), NOT_SAVEABLE)
        for select in range(3):
            told = host.get_feature(0x81, select, dw11=1, length=16)
            self.assertEqual((told.status, told.data), (0, (0xa1).to_bytes(16, "little")))
            self.assertEqual(host.get_feature(0x81, select, length=16).status, INVALID_FIELD, "EXHID 0")
        self.assertEqual((host.get_feature(0x81, 3).status, host.get_feature(0x81, 3).value), (0, 0))
        self.assertEqual(host.admin.call(0x09, 0, struct.pack("<II", 0x81, 1), bytes(16)).status, SEQUENCE)

    def test_write_protection(self) -> None:
        host = self.host()
        self.assertEqual(host.set_feature(0x84, 1, nsid=1), 0)
        self.assertEqual([host.get_feature(0x84, select, nsid=1).value for select in range(4)], [1, 0, 0, 6])
        for select in range(4):
            self.assertEqual(host.get_feature(0x84, select, nsid=2).status, INVALID_FIELD)
            self.assertEqual(host.get_feature(0x84, select, nsid=9).status, 0x00b | DNR)

    def test_error_recovery(self) -> None:
        a, b = self.host(), self.host(0xb2)
        self.assertEqual([a.get_feature(0x05, select, nsid=1).value for select in range(4)], [0, 0, 0, 6])
        self.assertEqual(a.set_feature(0x05, 0x123, nsid=1), 0)
        self.assertEqual(b.get_feature(0x05, nsid=1).value, 0x123, "it is the namespace's")
        self.assertEqual(b.set_feature(0x05, 0x45, nsid=0xffffffff), 0)
        self.assertEqual(a.get_feature(0x05, nsid=1).value, 0x45)
        self.assertEqual(a.set_feature(0x05, 0x10000, nsid=1), INVALID_FIELD, "there is no such error")
        for nsid, status in ((0, 0x00b | DNR), (9, 0x00b | DNR), (2, INVALID_FIELD)):
            self.assertEqual(a.set_feature(0x05, 1, nsid=nsid), status)
            self.assertEqual(a.get_feature(0x05, nsid=nsid).status, status)

    def test_keep_alive(self) -> None:
        host = self.host()
        self.assertEqual(host.get_feature(0x0f).value, 0)
        self.assertEqual(host.set_feature(0x0f, 500), 0)
        self.assertEqual(host.get_feature(0x0f).value, 1000)
        begun = time.monotonic()
        self.assertRaises(Ended, host.queues[0].unit)
        self.assertTrue(1.5 < time.monotonic() - begun < 3.5)
        host = self.host(keep_alive=1000)
        self.assertEqual(host.set_feature(0x0f, 0), 0)
        time.sleep(2.5)
        self.assertEqual(host.read(0, 1).status, 0, "it asks for none any more")

    def test_which_there_are(self) -> None:
        host = self.host()
        told = struct.unpack("<256I", host.log_page(0x12, 1024).data)
        known = [fid for fid in range(256) if told[fid]]
        self.assertEqual(known, [0x01, 0x02, 0x04, 0x05, 0x07, 0x0a, 0x0b, 0x0f, 0x81, 0x82, 0x84])
        self.assertEqual([fid for fid in known if told[fid] == 0x100001], [0x05, 0x82, 0x84], "those of namespaces")
        answered = [fid for fid in range(256) if host.get_feature(fid, nsid=1, dw11=fid == 0x81, length=16).status == 0]
        self.assertEqual(answered, known)


class Caches(TargetTest):
    image = BLOCKS

    def test_a_write_cache(self) -> None:
        host = self.host()
        self.assertEqual(host.identify(1).data[525] & 1, 1)
        self.assertEqual([host.get_feature(0x06, select).value for select in range(4)], [1, 1, 1, 4])
        self.assertEqual(host.set_feature(0x06, 0), 0)
        self.assertEqual(host.get_feature(0x06).value, 0)
        self.assertEqual(host.set_feature(0x06, 1), 0)
        self.assertTrue(struct.unpack("<256I", host.log_page(0x12, 1024).data)[0x06])
