"""CONFIG: each refusal has its line and its reason, and has no other effect."""
import os
import subprocess
import tempfile
import unittest
from pathlib import Path

from tests.host import Host
from tests.targets import PROGRAM, SIM, TWO_HOSTS, Target

UUID = "a1b2c3d4-0102-0304-0506-0708090a0bfe"
# Its lowest byte comes first.
HOST = int.from_bytes(bytes.fromhex(UUID.replace("-", "")), "little")


@unittest.skipUnless(PROGRAM, "NVMETCP names no program")
class Configurations(unittest.TestCase):
    def setUp(self) -> None:
        room = tempfile.TemporaryDirectory()
        self.addCleanup(room.cleanup)
        self.config = Path(room.name, "config.nvme")

    def run_over(self, config: bytes, *options: str) -> subprocess.CompletedProcess:
        """The program over this CONFIG, which ends by itself."""
        self.config.write_bytes(config)
        return subprocess.run([PROGRAM, *options, str(self.config)], stdout=subprocess.PIPE, stderr=subprocess.PIPE,
                              text=True, timeout=10)

    def test_sizes_have_limits(self) -> None:
        for blocks in (1 << 50, 18446744073709551615):
            lines = f"controller 1 host 0xa1\nnamespace 1 blocks {blocks} shared\n"
            ran = self.run_over(lines.encode(), "--listen", "127.0.0.1:0")
            self.assertEqual((ran.returncode, ran.stdout), (2, ""), blocks)
            self.assertEqual(ran.stderr, f"nvmetcp: there is no memory for {blocks} blocks\n")
        lines = TWO_HOSTS + f"namespace 7 blocks {(1 << 64) - 64} shared\n"
        ran = self.run_over(lines.encode(), "--listen", "127.0.0.1:0")
        self.assertEqual((ran.returncode, ran.stdout), (1, ""))
        self.assertIn("namespace 7 ends after the 18446744073709551615 blocks of the medium", ran.stderr)

    def test_where_and_why(self) -> None:
        for lines, told in (
                (b"", "1:1: there is no controller; add a line 'controller 1 host 1'"),
                (TWO_HOSTS.encode() + b"start\n\n# after\nup 1\n",
                 "9:1: this line is an event; a configuration has none"),
                (TWO_HOSTS.encode() + b"start\nnothing\n", "7:1: there is no line 'nothing'"),
                (b"controler 1 host 1\n", "1:1: there is no line 'controler'; did you mean 'controller'?")):
            ran = self.run_over(lines, "--listen", "127.0.0.1:0")
            self.assertEqual((ran.returncode, ran.stdout, ran.stderr), (1, "", f"nvmetcp: {self.config}:{told}\n"))

    @unittest.skipUnless(SIM, "NVMESIM names no program")
    def test_as_nvmesim_says(self) -> None:
        """Every line is judged as nvmesim judges it, at the same place and with the same reason."""
        first = b"controller 1 host 0xa1\n"
        for lines in (b"controller\v2 host 1\n", b"controller\f2 host 1\n", b"controller\xc2\xa02 host 1\n",
                      "controller\u20032 host 1\n".encode(), b"controller 2 host 1\v\n", b"\xff\n", b"# \xff\n", b" \t\r\n",
                      b"namespace 1 blocks 18446744073709551616 shared\n",
                      b"namespace 1 blocks 0 shared\n", b"namespace 9 blocks 4 shared\n", b"attached 1 1\n",
                      b"controller 3 host 1\n", b"controller 2 host 0\n", b"controller 2 host 0x\n", b"start\nstop\n",
                      b"up 1\n", b"namespace 1 blocks 8 shared\n" * 2, b"controller 2 host +1\n", b"start\n# \xff\n",
                      b"namespace 1 blocks 8 private\nattached 1 1\nattached 1 1\n", b"controller 2 host 1", b"\0\n"):
            ends = b"" if b"start" in lines else b"\nstart\n"
            ran = self.run_over(first + lines + ends, "--check")
            sim = subprocess.run([SIM, "-", str(self.config)], stdout=subprocess.PIPE, stderr=subprocess.PIPE, text=True,
                                 env={**os.environ, "NVMESIM_UNPROVED": "1"})
            place = f"{self.config}:"
            wanted = [it for it in sim.stderr.splitlines() if it.startswith(place)]
            told = [it[len("nvmetcp: "):] for it in ran.stderr.splitlines()]
            self.assertEqual((told, ran.returncode), (wanted, sim.returncode), lines)

    def test_a_host_as_a_uuid(self) -> None:
        """The hint has the number of that very host."""
        for word in (UUID, UUID.upper()):
            ran = self.run_over(f"controller 1 host 0xa1\ncontroller 2 host {word} raw\n".encode())
            self.assertEqual((ran.returncode, ran.stdout), (1, ""))
            number = ran.stderr.rsplit(" ", 1)[1].strip()
            self.assertEqual(number, f"0x{HOST:032x}", ran.stderr)
        with tempfile.TemporaryDirectory() as room:
            target = Target(Path(room), TWO_HOSTS.replace("0xb2", number))
            host = Host(target.port, HOST)
            self.assertEqual(target.hosts()[0]["host"], UUID.replace("-", ""))
            host.close()
            target.close()

    def test_a_check(self) -> None:
        """It prints the message that serving would print, and opens nothing else."""
        ran = self.run_over(TWO_HOSTS.encode(), "--check")
        self.assertEqual((ran.returncode, ran.stdout, ran.stderr), (0, f"{self.config}: not refused\n", ""))
        for lines in ("controller\n", "controller 2 host 0xa1\n", "controller 1 host 0\n", "", "start\n",
                      "controller 1 host 1\nnamespace 9 blocks 4 shared\n",
                      "controller 1 host 1\nnamespace 1 blocks 0 shared\n",
                      "controller 1 host 1\nattached 1 1\n"):
            checked = self.run_over(lines.encode(), "--check")
            served = self.run_over(lines.encode(), "--listen", "127.0.0.1:0")
            told = (checked.returncode, checked.stdout, checked.stderr)
            self.assertEqual(told, (1, "", served.stderr), lines)
            self.assertEqual(served.returncode, 1)
        self.assertEqual([it.name for it in self.config.parent.iterdir()], [self.config.name])
        image = self.config.with_name("disk.img")
        with open(image, "wb") as file:
            file.truncate(512 * 70_000)
        for blocks, status in ((70_000, 0), (70_001, 1)):
            lines = f"controller 1 host 1\nnamespace 1 blocks {blocks} shared\n"
            self.assertEqual(self.run_over(lines.encode(), "--check", "--image", str(image)).returncode, status)
        image.unlink()
        self.config.unlink()
        for words, status in (([str(self.config)], 2), ([], 3), ([str(self.config), "--trace"], 3)):
            ran = subprocess.run([PROGRAM, "--check", *words], stdout=subprocess.PIPE, stderr=subprocess.PIPE)
            self.assertEqual((ran.returncode, ran.stdout), (status, b""))

    def test_what_it_says_of_itself(self) -> None:
        told = [subprocess.run([PROGRAM, word], stdout=subprocess.PIPE, text=True, check=True).stdout
                for word in ("--where", "--version")]
        self.assertEqual(told[0], f"{os.path.realpath(PROGRAM)}\n")
        self.assertRegex(told[1], r"\Anvmetcp \d+\.\d+\.\d+\nover libnvmesim built with(out)? its proofs\b.*\nbuilt with(out)? --keys\b.*\n\Z")
