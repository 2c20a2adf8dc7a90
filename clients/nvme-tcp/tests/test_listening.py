"""Listening: at several addresses, without descriptors, and with a client that reads answers of control slowly."""
import os
import resource
import socket
import struct
import subprocess
import tempfile
import threading
import time
import unittest
from pathlib import Path

from tests.host import BLOCK, CC, CSTS, DISCOVERY, ENABLE, Connection, Host, Queue
from tests.targets import PROGRAM, TWO_HOSTS, TargetTest

# The descriptors that a target may have.
DESCRIPTORS = 24


def seconds_of(process: int) -> float:
    """The processor's time that a process has taken."""
    fields = Path(f"/proc/{process}/stat").read_text(encoding="ascii").rsplit(") ", 1)[1].split()
    return (int(fields[11]) + int(fields[12])) / os.sysconf("SC_CLK_TCK")


@unittest.skipUnless(PROGRAM, "NVMETCP names no program")
class Addresses(unittest.TestCase):
    def start(self, *options: str, lines: int = 1, **how) -> list:
        """Starts a target with these options. Returns the addresses and ports that it prints."""
        room = tempfile.TemporaryDirectory()
        self.addCleanup(room.cleanup)
        config, self.errors = Path(room.name, "config.nvme"), Path(room.name, "errors")
        config.write_text(TWO_HOSTS)
        with open(self.errors, "w", encoding="utf-8") as errors:
            self.process = subprocess.Popen([PROGRAM, *options, str(config)], stdout=subprocess.PIPE, stderr=errors,
                                            text=True, **how)
        self.addCleanup(self.process.stdout.close)
        self.addCleanup(self.process.wait, 10)
        self.addCleanup(self.process.kill)
        places = [self.process.stdout.readline().rsplit(" at ", 1)[1].strip() for _ in range(lines)]
        return [(address.strip("[]"), int(port)) for address, port in (it.rsplit(":", 1) for it in places)]

    def host(self, place, host: int = 0xa1) -> Host:
        made = Host(place, host)
        self.addCleanup(made.close)
        return made

    def discovered(self, place) -> tuple:
        """The family, the address and the port that discovery returns there."""
        queue = Queue(place)
        self.addCleanup(queue.close)
        queue.connect(0, 0xdead, name=DISCOVERY)
        queue.set_property(CC, ENABLE)
        words = struct.pack("<HHIQ", 0x70, 511, 0, 0)
        page = queue.call(0x02, 0, words, length=2048).data
        return page[1025], page[1536:1792].decode().strip(), int(page[1056:1088].decode())

    def test_all_are_served(self) -> None:
        options = [it for address in ("127.0.0.1", "127.0.0.2", "[::1]") for it in ("--listen", f"{address}:0")]
        places = self.start(*options, lines=3)
        self.assertEqual([address for address, _ in places], ["127.0.0.1", "127.0.0.2", "::1"])
        for place, host in ((places[0], 0xa1), (places[2], 0xb2)):
            self.assertEqual(self.host(place, host).read(0, 1).status, 0)
        for family, place in zip((1, 1, 2), places):
            self.assertEqual(self.discovered(place), (family, *place))

    def test_ipv4_by_ipv6(self) -> None:
        """A host that comes by IPv4 to [::] has its own address, which --allow names, and hears of one that it
        knows."""
        allows = [it for host in ("a1", "b2") for it in ("--allow", f"{host}000000-0000-0000-0000-000000000000=127.0.0.1")]
        port = self.start("--listen", "[::]:0", *allows)[0][1]
        self.assertEqual(self.host(("127.0.0.1", port)).read(0, 1).status, 0)
        self.assertRaises(ConnectionError, Host, ("::1", port), 0xa1)
        self.assertEqual(self.discovered(("127.0.0.1", port)), (1, "127.0.0.1", port))

    def test_a_network_that_is_not_trusted(self) -> None:
        """It listens beyond loopback only with an option that binds addresses or keys to hosts."""
        allow = "a1000000-0000-0000-0000-000000000000=127.0.0.1"
        with socket.create_server(("127.0.0.1", 0)) as taken, tempfile.TemporaryDirectory() as room:
            config, port = Path(room, "config.nvme"), taken.getsockname()[1]
            config.write_text(TWO_HOSTS)
            for options, hosts in ([], 2), (["--allow", allow], 1):
                # The port is taken, which it does not come to notice.
                words = [PROGRAM, "--listen", f"127.0.0.1:{port}", "--listen", "0.0.0.0:0", *options, str(config)]
                ran = subprocess.run(words, stdout=subprocess.PIPE, stderr=subprocess.PIPE, text=True, timeout=10)
                self.assertEqual((ran.returncode, ran.stdout), (3, ""))
                self.assertRegex(ran.stderr, r"\Anvmetcp: --listen 0.0.0.0:0: any machine that reaches it could claim to be ")
                self.assertEqual(ran.stderr.count("-0000-000000000000"), hosts)
                for word in ("--keys FILE", "--allow HOSTID=ADDRESS", "--trust-network"):
                    self.assertIn(word, ran.stderr)
        place = self.start("--listen", "0.0.0.0:0", "--trust-network")[0]
        self.assertEqual(self.host(("127.0.0.1", place[1])).read(0, 1).status, 0)
        self.assertIn("is trusted: --trust-network", self.errors.read_text())

    def test_an_address_that_is_taken(self) -> None:
        place = self.start("--listen", "127.0.0.1:0")[0]
        with tempfile.TemporaryDirectory() as room:
            config = Path(room, "config.nvme")
            config.write_text(TWO_HOSTS)
            taken, free = ["--listen", f"127.0.0.1:{place[1]}"], ["--listen", "127.0.0.1:0"]
            for words in (taken + free, free + taken):
                ran = subprocess.run([PROGRAM, *words, str(config)], stdout=subprocess.PIPE, stderr=subprocess.PIPE,
                                     text=True, timeout=10)
                self.assertEqual((ran.returncode, ran.stdout), (2, ""))
                self.assertIn(f"nvmetcp: 127.0.0.1:{place[1]}: ", ran.stderr)

    def test_no_descriptors(self) -> None:
        """It logs that once, waits idle, and continues when there are some."""
        place = self.start("--listen", "127.0.0.1:0", preexec_fn=lambda: resource.setrlimit(
            resource.RLIMIT_NOFILE, (DESCRIPTORS, DESCRIPTORS)))[0]
        host = self.host(place)
        idle = [Connection(place, opens=False) for _ in range(2 * DESCRIPTORS)]
        time.sleep(0.2)
        before = seconds_of(self.process.pid)
        time.sleep(1.5)
        self.assertLess(seconds_of(self.process.pid) - before, 0.3)
        self.assertEqual(host.read(0, 1).status, 0)
        self.assertEqual(self.errors.read_text().count("can't be accepted"), 1, self.errors.read_text())
        for connection in idle:
            connection.close()
        time.sleep(1.5)
        self.assertEqual(self.host(place, 0xb2).read(0, 1).status, 0)


class Paths(TargetTest):
    """Two paths of one host, by two addresses."""

    config = TWO_HOSTS + "controller 3 host 0xa1\nattached 3 1\n"
    options = ["--listen", "127.0.0.2:0"]

    def test_hosts_shows_which_is_which(self) -> None:
        second = int(self.target.process.stdout.readline().rsplit(":", 1)[1])
        places = [("127.0.0.2", second), ("127.0.0.1", self.target.port)]
        for _ in range(2):
            paths = [Host(place, 0xa1) for place in places]
            told = {it["controller"]: it for it in self.target.hosts()}
            for place, path in zip(places, paths):
                shown = told[path.cntlid]
                self.assertEqual(shown["target"], f"{place[0]}:{place[1]}")
                self.assertEqual((shown["address"], shown["port"]), path.admin.socket.getsockname())
                path.close()
            self.wait_for(lambda: self.target.hosts() == [])
            places.reverse()


class Consoles(TargetTest):
    def asking(self, line: str, count: int) -> socket.socket:
        """A client that asks a line `count` times."""
        asking = socket.socket(socket.AF_UNIX)
        self.addCleanup(asking.close)
        asking.connect(str(self.folder / "control/socket"))
        asking.sendall(f"{line}\n".encode() * count)
        return asking

    def trickle(self, asking: socket.socket, until: float) -> None:
        """Reads slowly."""
        while time.monotonic() < until and asking.recv(4096):
            time.sleep(0.02)

    def test_a_slow_reader(self) -> None:
        host = self.host()
        host.write(0, b"\xff" * BLOCK * 256)
        asking = self.asking("?blocks 1 0 256", 8)
        thread = threading.Thread(target=self.trickle, args=(asking, time.monotonic() + 1.5))
        thread.start()
        time.sleep(0.2)
        begun = time.monotonic()
        for _ in range(50):
            self.assertEqual(host.read(0, 1).status, 0)
        self.assertLess(time.monotonic() - begun, 0.7)
        thread.join()

    def test_who_never_reads_is_dropped(self) -> None:
        host = self.host()
        host.write(0, b"\xff" * BLOCK * 256)
        silent = [self.asking("?blocks 1 0 256", 8) for _ in range(8)]
        self.wait_for(lambda: self.target.ask("hosts") != "", 8)
        time.sleep(1)
        for asking in silent:
            asking.settimeout(5)
            while asking.recv(1 << 20):
                pass

    def test_all_lines_are_answered(self) -> None:
        """A client that sends many lines at once, and reads slowly, gets every answer."""
        asking, wanted = self.asking("?blocks 1 0 256", 300), b"blocks 1 0 256 -\n"
        asking.shutdown(socket.SHUT_WR)
        told = b""
        while True:
            piece = asking.recv(1000)
            if not piece:
                break
            told += piece
        self.assertEqual(told, wanted * 300)
