"""Namespaces of more blocks than a script has by itself."""
import struct
import subprocess
import tempfile
import unittest
from pathlib import Path

from tests.host import BLOCK
from tests.targets import SIM, TWO_HOSTS, TargetTest

LARGE = 100_000
OUT_OF_RANGE = 0x4080


class Sizes(TargetTest):
    config, image = TWO_HOSTS.replace("2048", str(LARGE)), LARGE

    def setUp(self) -> None:
        kept = tempfile.TemporaryDirectory()
        self.addCleanup(kept.cleanup)
        self.script = Path(kept.name, "run.nvme")
        self.options = ["--script", str(self.script)]
        super().setUp()

    def test_identify_and_ranges(self) -> None:
        host = self.host()
        sizes = struct.unpack_from("<QQQ", host.identify(0, 1).data)
        self.assertEqual(sizes, (LARGE, LARGE, LARGE))
        self.assertEqual(host.write(LARGE - 1, b"\7" * BLOCK), 0)
        self.assertEqual(host.read(LARGE - 1, 1).data, b"\7" * BLOCK)
        for slba, blocks in ((LARGE - 1, 2), (LARGE, 1), ((1 << 64) - 1, 1)):
            self.assertEqual(host.read(slba, blocks).status, OUT_OF_RANGE)

    @unittest.skipUnless(SIM, "NVMESIM names no program")
    def test_its_script_names_the_option(self) -> None:
        self.host().write(LARGE - 8, b"\5" * 8 * BLOCK)
        with open(self.script, encoding="ascii") as lines:
            self.assertEqual(lines.readline(), "# nvmesim --any-size\n")
        again = self.folder / "again.img"
        with open(again, "wb") as file:
            file.truncate(LARGE * BLOCK)
        refused = subprocess.run([SIM, str(again), str(self.script)], stdout=subprocess.PIPE, stderr=subprocess.PIPE)
        self.assertEqual((refused.returncode, refused.stdout), (1, b""))
        ran = subprocess.run([SIM, "--any-size", str(again), str(self.script)], stdout=subprocess.PIPE, check=True)
        self.assertEqual(ran.stdout, Path(f"{self.script}.out").read_bytes())
        self.assertEqual(again.read_bytes(), self.target.image.read_bytes())
