"""Volumes: how they are formatted, served and copied, and what is refused."""
import os
import random
import struct
import subprocess
import time

from tests.host import BLOCK, digest_of
from tests.targets import PROGRAM, Target
from tests.volumes import BLOCKS_AT, COPIES, FENCED, JOURNAL, SEGMENT, VolumeTest

PAGE = 4096


class Formats(VolumeTest):
    def test_what_is_not_overwritten(self) -> None:
        for content, text in ((b"x" + bytes(4 << 20), "there is something at byte 0"),
                              (bytes(4 << 20) + b"x", "there is something at byte 4194304"),
                              (bytes(100), "it has 100 bytes, and 3145728 are needed")):
            self.volume.write_bytes(content)
            self.refused(text, "format", self.volume, "--config", self.config)
        self.volume.write_bytes(bytes(4 << 20))
        self.format()
        self.assertEqual(self.volume.stat().st_size, 4 << 20)
        self.refused("it is a volume already; --force", "format", self.volume, "--config", self.config)
        before = self.passes("dump", self.volume).splitlines()
        self.passes("format", self.volume, "--force", "--config", self.config)
        after = self.passes("dump", self.volume).splitlines()
        self.assertEqual([line for line in before if line not in after], [before[0]], "it has another UUID")
        self.refused("the copy would be the volume itself", "copy", self.volume, self.volume, "--force")

    def test_sizes(self) -> None:
        self.refused("it has 4096 bytes, and 3145728 are needed", "format", self.volume, "--config", self.config,
                     "--size", "4K")
        self.assertFalse(self.volume.exists())
        self.passes("format", self.volume, "--config", self.config, "--size", "64M")
        self.assertEqual(self.volume.stat().st_size, 64 << 20)
        self.assertIn("\nblocks 126976\n", self.passes("dump", self.volume))

    def test_bad_words(self) -> None:
        for words in (("format", self.volume), ("format", "--config", self.config), ("check",), ("dump", "a", "b"),
                      ("copy", self.volume), ("check", self.volume, "--force"), ("copy", "a", "b", "--size", "8K"),
                      ("format", self.volume, "--config", self.config, "--size", "5")):
            self.refused("see --help", *words, status=3)
        self.refused("No such file", "check", self.room / "none", status=2)
        bad = self.room / "bad.nvme"
        bad.write_text("controller one\n")
        self.refused("bad.nvme:1:1: controller takes", "format", self.volume, "--config", bad)
        self.format()
        for option in (("--image", self.config), ("--state", self.room / "state"), ("--image", self.config, "--size", "8K")):
            self.refused("a volume has its blocks and its state", self.volume, *option, status=3)

    def test_what_is_no_volume(self) -> None:
        for command in ("check", "dump"):
            self.refused("it is no volume; `nvmetcp format`", command, self.config)
        self.refused("it is no volume", "copy", self.config, self.room / "copy")


class Serves(VolumeTest):
    def setUp(self) -> None:
        super().setUp()
        self.format()

    def test_what_persists(self) -> None:
        """Reservations, attachments, write protection and blocks are there on the next machine, and the identity."""
        target = self.target()
        self.fence(target)
        a, b = self.host(target), self.host(target, 0xb2)
        data = random.Random(1).randbytes(100 * BLOCK)
        self.assertEqual([a.write(100, data), b.write(100, data)], [FENCED, 0])
        identity = a.identify(1).data[4:24]
        target.close()
        self.assertIn("owner nobody", self.passes("dump", self.volume))
        self.assertEqual(self.volume.read_bytes()[BLOCKS_AT + 100 * BLOCK:][:len(data)], data)
        begun = time.monotonic()
        other = self.target("there", self.elsewhere())
        self.assertLess(time.monotonic() - begun, 3, "nobody had it")
        self.is_fenced(other)
        a, b = self.host(other), self.host(other, 0xb2)
        self.assertEqual((a.identify(1).data[4:24], b.read(100, 100).data), (identity, data))
        controllers = struct.pack("<HH", 1, 1).ljust(4096, b"\0")
        self.assertEqual(b.admin.call(0x15, 1, struct.pack("<I", 1), controllers).status, 0)
        self.assertEqual(b.admin.call(0x09, 1, struct.pack("<II", 0x84, 1)).status, 0)
        other.kill()
        dump = self.passes("dump", self.volume)
        for line in ("registrant of namespace 1: host 0xb2, key 0xb", "protection of namespace 1: 1",
                     "attached to namespace 1: 2", "reservation of namespace 1: type 3 of host 0xb2"):
            self.assertIn(line, dump)
        again = self.target()
        self.assertEqual([self.host(again).read(0, 1).status, self.host(again, 0xb2).write(0, bytes(BLOCK))],
                         [0x4002, 0x4020])

    def test_what_does_not_persist_is_gone(self) -> None:
        """A start is a power cycle: registrants without PTPL are gone, and so is a protection until then."""
        target = self.target()
        a = self.host(target)
        self.assertEqual([a.register(0, 0xa, persist=2), a.acquire(0xa)], [0, 0])
        self.assertEqual(a.admin.call(0x09, 1, struct.pack("<II", 0x84, 2)).status, 0)
        self.assertEqual([a.write(0, bytes(BLOCK)), self.host(target, 0xb2).write(0, bytes(BLOCK))], [0x4020, FENCED])
        target.kill()
        target.start()
        self.assertEqual(self.host(target, 0xb2).write(0, bytes(BLOCK)), 0)
        self.assertIn("none, generation 0, ends", self.passes("dump", self.volume))

    def test_a_lock(self) -> None:
        target = self.target()
        self.refused(f"process {target.process.pid} (nvmetcp) has it locked", self.volume, status=2)
        self.refused("has it locked", "copy", self.volume, self.room / "copy", status=2)
        self.assertIn("(nvmetcp) of machine", self.passes("check", self.volume))
        self.is_served(target)

    def is_served(self, target: Target) -> None:
        self.assertEqual(self.host(target).write(0, bytes(BLOCK)), 0)

    def test_there_is_no_write_cache(self) -> None:
        target = self.target()
        self.assertEqual(self.host(target).identify(1).data[525] & 1, 0)

    def test_a_journal_that_wraps(self) -> None:
        target = self.target()
        host = self.host(target)
        for key in range(1, 301):
            self.assertEqual(host.reserve(0x0d, 2 | 8 | 3 << 30, 0, key), 0)
        self.assertEqual(host.acquire(300), 0)
        size = self.volume.stat().st_size
        target.kill()
        self.assertIn("host 0xa1, key 0x12c", self.passes("dump", self.volume))
        target.start()
        self.assertEqual(self.host(target, 0xb2).write(0, bytes(BLOCK)), FENCED)
        self.assertEqual(self.volume.stat().st_size, size)

    def test_copies(self) -> None:
        target, copy = self.target(), self.room / "copy"
        self.fence(target)
        self.assertEqual(self.host(target, 0xb2).write(1000, b"\7" * BLOCK), 0)
        target.kill()
        self.refused("has it, or has not ended in order", "copy", self.volume, copy)
        self.assertFalse(copy.exists())
        target.start()
        target.close()
        self.passes("copy", self.volume, copy)
        self.assertEqual(self.passes("dump", copy), self.passes("dump", self.volume))
        self.assertEqual(copy.read_bytes()[BLOCKS_AT:], self.volume.read_bytes()[BLOCKS_AT:])
        self.refused("it is a volume already; --force", "copy", self.volume, copy)
        copy.write_bytes(b"x" * (8 << 20))
        self.refused("there is something at byte 0; --force", "copy", self.volume, copy)
        self.passes("copy", self.volume, copy, "--force")
        # A copy that was killed leaves an empty file, or one that is half a volume and still short.
        half = b"nvmetcp halfway\n".ljust(JOURNAL, b"\0")
        for begun, words in ((b"", ()), (half, ("--force",))):
            copy.write_bytes(begun)
            self.passes("copy", self.volume, copy, *words)
            self.assertEqual(self.passes("dump", copy), self.passes("dump", self.volume))
        copy.write_bytes(half)
        self.refused("it has 131072 bytes, and 3145728 are needed", "copy", self.volume, copy)
        self.passes("copy", self.volume, copy, "--force")
        self.volume = copy
        self.is_fenced(self.target("copy-target"))


class Refusals(VolumeTest):
    """A volume with a reservation, in which something is wrong."""

    def setUp(self) -> None:
        super().setUp()
        self.format()
        target = self.target()
        self.fence(target)
        target.kill()

    def test_one_copy_of_the_superblock(self) -> None:
        """Either copy may be torn: the other is taken, and the next start writes both."""
        for number, copy in enumerate(COPIES, 1):
            for at, torn in ((512, b"\xff" * 512), (0, b"\xff" * PAGE), (0, bytes(PAGE))):
                self.change(copy + at, torn)
                self.assertIn(f"copy {number} of the superblock is damaged", self.passes("check", self.volume))
                target = self.target()
                self.assertIn("one copy of its superblock is damaged or older", self.errors(target))
                self.is_fenced(target)
                target.close()
                self.assertNotIn("damaged", self.passes("check", self.volume))

    def test_both_copies(self) -> None:
        for copy in COPIES:
            self.flip(copy + 300)
        self.every_command("both copies of its superblock are damaged")

    def every_command(self, text: str) -> None:
        self.refused(text, self.volume)
        self.refused(text, "check", self.volume)
        self.refused(text, "dump", self.volume)
        self.refused(text, "copy", self.volume, self.room / "copy")

    def test_a_newer_version(self) -> None:
        page = bytearray(self.volume.read_bytes()[:PAGE])
        page[16:24] = struct.pack("<II", 2, 0)
        page[20:24] = digest_of(bytes(page))
        self.change(0, bytes(page))
        self.every_command("it is a volume of version 2, and this program reads version 1")

    def test_a_device_that_shrank(self) -> None:
        size = self.volume.stat().st_size
        for shorter in (size - 512, BLOCKS_AT, JOURNAL + 4 * SEGMENT):
            os.truncate(self.volume, shorter)
            self.every_command(f"it has {shorter} bytes, and its volume {size}")

    def test_half_a_copy(self) -> None:
        for copy in COPIES:
            self.change(copy, b"nvmetcp halfway\n")
            self.every_command("it is half a volume")
        os.truncate(self.volume, PAGE)
        self.refused("it is no volume", "check", self.volume)

    def test_a_copy_that_is_killed(self) -> None:
        large, copy = self.room / "large", self.room / "copy"
        self.passes("format", large, "--config", self.config, "--size", "256M")
        with open(large, "r+b") as file:
            file.seek(BLOCKS_AT)
            file.write(b"\5" * (250 << 20))
        for seconds in (0.02, 0.05, 0.1):
            process = subprocess.Popen([PROGRAM, "copy", large, copy, "--force"], stdout=subprocess.DEVNULL)
            time.sleep(seconds)
            process.kill()
            process.wait(10)
            ran = self.run_with("check", copy)
            self.assertIn(ran.returncode, (0, 1, 2))
            self.assertTrue(ran.returncode == 0 or "half a volume" in ran.stderr or "no volume" in ran.stderr
                            or "No such file" in ran.stderr, ran.stderr)
        self.passes("copy", large, copy, "--force")
        self.assertEqual(copy.read_bytes()[BLOCKS_AT:], large.read_bytes()[BLOCKS_AT:])

    def pages(self) -> list:
        """The pages of the journal's newest segment that have batches, and their places in the volume."""
        content = self.volume.read_bytes()
        found = []
        for at in range(JOURNAL, JOURNAL + 4 * SEGMENT, PAGE):
            if content[at:at + 8] == b"nvmetcpj":
                found.append((struct.unpack_from("<QQ", content, at + 16), at))
        newest = max(segment for (segment, _), _ in found)
        return [at for (segment, number), at in sorted(found) if segment == newest]

    def test_a_torn_journal(self) -> None:
        """The last batch is dropped: it may not have been answered. It was the preemption."""
        *_, last = self.pages()
        self.flip(last + 100)
        self.assertIn("of the journal were never answered", self.passes("check", self.volume))
        target = self.target()
        self.assertIn("incomplete records that were never answered", self.errors(target))
        self.assertEqual(self.host(target).write(7, bytes(BLOCK)), 0)

    def test_what_a_host_sends_is_no_batch(self) -> None:
        """A page of a host's data looks like a batch of a newer segment, alone in a batch that is whole or torn."""
        page = b"nvmetcpj" + bytes(8) + struct.pack("<QQ", 1 << 60, 1)
        page = page[:8] + digest_of(page.ljust(PAGE, b"\0")) + page[12:]
        for is_torn in (False, True):
            target = self.target()
            # A record's data begin 121 bytes after its batch.
            controllers = struct.pack("<HH", 1, 2).ljust(PAGE - 121, b"\0") + page.ljust(121, b"\0")
            detach = struct.pack("<I", 1 - is_torn)
            self.assertEqual(self.host(target, 0xb2).admin.call(0x15, 1, detach, controllers).status, 0)
            target.kill()
            if is_torn:
                self.flip(self.pages()[-1] + 100)
            self.passes("check", self.volume)

    def test_a_damaged_journal(self) -> None:
        checkpoint, second, first, *_ = self.pages()
        self.flip(first + 100)
        self.every_command("is damaged, and others follow it")
        self.flip(first + 100)
        self.flip(checkpoint + 40)
        target = self.target()
        self.is_fenced(target)
        target.kill()
        for page in self.pages()[:2]:
            self.flip(page + 40)
        self.fence_again_is_refused()

    def fence_again_is_refused(self) -> None:
        """Both pages of a checkpoint are damaged: nothing was answered after it, so the segment before counts."""
        target = self.target()
        self.is_fenced(target)
        self.assertEqual(self.host(target, 0xb2).register(0xb, 0xc, action=2), 0)
        target.kill()
        for page in self.pages()[:2]:
            self.flip(page + 40)
        self.every_command("has no checkpoint")


del VolumeTest
