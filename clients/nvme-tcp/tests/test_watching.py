"""What operators see: metrics in Prometheus' text form, and the log of what happens to hosts."""
import json
import re
import socket
import subprocess
import time
from datetime import datetime, timedelta, timezone
from typing import Dict

from tests.host import BLOCK, DISCOVERY, CAPSULE, Host, Queue
from tests.targets import BLOCKS, PROGRAM, Target, TargetTest

A1, B2 = "a1000000-0000-0000-0000-000000000000", "b2000000-0000-0000-0000-000000000000"
FIRST, SECOND = f'{{controller="1",host="{A1}"}}', f'{{controller="2",host="{B2}"}}'
NAME = re.compile(r"[a-zA-Z_:][a-zA-Z0-9_:]*")
SAMPLE = re.compile(r'(\S+?)(?:\{((?:[a-z_]+="[^"\\\n]*",?)*)\})? (\d+)')
FIELDS = r'((?: [a-z]+=(?:"(?:[^"\\]|\\.)*"|[^ "]+))*)'
LINE = re.compile(r"(\d{4}-\d\d-\d\dT\d\d:\d\d:\d\d\.\d{3}Z) nvmetcp: ([a-z-]+)" + FIELDS)


def samples_of(text: str) -> Dict[str, int]:
    """The samples of a text, by name and labels, as Prometheus' tools want them: each metric is described once, before
    its samples, which are together; a counter's name ends in _total; no sample is there twice."""
    kinds, samples, current = {}, {}, ""
    lines = text.split("\n")
    assert lines.pop() == "# EOF", text
    for at, line in enumerate(lines):
        if line.startswith("# HELP "):
            _, _, current, told = line.split(" ", 3)
            assert NAME.fullmatch(current) and current not in kinds and told.endswith("."), line
            assert lines[at + 1].split(" ")[:3] == ["#", "TYPE", current], lines[at + 1]
        elif line.startswith("# TYPE "):
            kinds[current] = line.split(" ", 3)[3]
            assert kinds[current] in ("counter", "gauge"), line
            assert (kinds[current] == "counter") == current.endswith("_total"), line
        else:
            name, labels, value = SAMPLE.fullmatch(line).groups()
            assert name == current, line
            key = f"{name}{{{labels}}}" if labels else name
            assert key not in samples, line
            samples[key] = int(value)
    return samples


class Metrics(TargetTest):
    image = BLOCKS

    def metrics(self) -> Dict[str, int]:
        return samples_of(self.target.ask("metrics"))

    def test_prometheus_reads_them(self) -> None:
        """By the parser of Debian's python3-prometheus-client, if that is installed."""
        try:
            from prometheus_client.parser import text_string_to_metric_families
        except ImportError:
            self.skipTest("python3-prometheus-client is not installed")
        self.host().read(BLOCKS, 1)
        text = self.target.ask("metrics")
        read = {}
        for family in text_string_to_metric_families(text + "\n"):
            self.assertTrue(family.documentation)
            for it in family.samples:
                labels = ",".join(f'{name}="{value}"' for name, value in it.labels.items())
                read[f"{it.name}{{{labels}}}" if labels else it.name] = int(it.value)
        own = samples_of(text)
        moving = "nvmetcp_start_time_seconds"
        self.assertEqual({**read, moving: 0}, {**own, moving: 0})

    def test_commands(self) -> None:
        before = self.metrics()
        self.assertEqual(before["nvmetcp_connections"], 0)
        self.assertLess(abs(before["nvmetcp_start_time_seconds"] - time.time()), 60)
        a, b = self.host(queues=2), self.host(0xb2)
        a.write(0, bytes(8 * BLOCK)), a.read(0, 2), a.read(BLOCKS, 1), a.flush(), a.discard((0, 4), (9, 1))
        a.register(0, 0xa), a.acquire(0xa), b.write(0, bytes(BLOCK)), b.flush(), b.register(5, 6, action=1)
        a.queues[0].call(0x05, 1, bytes(12), bytes(BLOCK))
        a.queues[0].call(0x08, 1, bytes(8) + b"\1"), a.queues[0].call(0xfc, 1), a.queues[0].call(0xf8, 1)
        now = self.metrics()
        for queue, command, status, count in (
                ("io", "write", "0:00", 1), ("io", "read", "0:00", 1), ("io", "read", "0:80", 1),
                ("io", "flush", "0:00", 1), ("io", "dataset_management", "0:00", 1), ("io", "write", "0:83", 1),
                ("io", "flush", "0:83", 1), ("io", "reservation_register", "0:83", 1),
                ("io", "write_zeroes", "0:00", 1), ("io", "compare", "0:00", 1), ("io", "unknown", "0:01", 2),
                ("fabrics", "connect", "0:00", 5), ("fabrics", "property_set", "0:00", 2)):
            name = f'nvmetcp_commands_total{{queue="{queue}",command="{command}",status="{status}"}}'
            self.assertEqual(now[name], count, name)
        for name, each in (("written_bytes_total", (8 * BLOCK, 0)), ("read_bytes_total", (3 * BLOCK, 0)),
                           ("zeroed_bytes_total", (7 * BLOCK, 0)), ("reservation_conflicts_total", (0, 3)),
                           ("command_errors_total", (3, 3)), ("io_queues", (2, 1)), ("controller_in_use", (1, 1))):
            self.assertEqual(tuple(now[f"nvmetcp_{name}{it}"] for it in (FIRST, SECOND)), each, name)
        self.assertEqual((now["nvmetcp_controllers"], now["nvmetcp_controllers_in_use"]), (2, 2))

    def test_connections(self) -> None:
        a = self.host(queues=2)
        broken = Queue(self.target.port)
        broken.send(CAPSULE, b"", b"")
        self.wait_for(lambda: self.metrics()['nvmetcp_connections_closed_total{reason="protocol"}'] == 1)
        broken.close()
        self.assertEqual(self.metrics()["nvmetcp_connections"], 3)
        a.close()
        self.wait_for(lambda: self.metrics()["nvmetcp_connections"] == 0)
        now = self.metrics()
        self.assertEqual(now["nvmetcp_connections_accepted_total"], 4)
        closed = {name: count for name, count in now.items() if "closed" in name and count}
        self.assertEqual(sum(closed.values()), 4)
        self.assertEqual(closed['nvmetcp_connections_closed_total{reason="protocol"}'], 1)

    def test_held_commands_and_paths(self) -> None:
        a = self.host()
        self.target.ask("hold 1"), self.target.ask("ana 1 non-optimized")
        a.queues[0].send_command(0x00, 1)
        self.wait_for(lambda: self.metrics()[f"nvmetcp_held_commands{FIRST}"] == 1)
        self.assertEqual(self.metrics()[f"nvmetcp_ana_state{FIRST}"], 2)
        self.target.ask("go 1"), self.target.ask("powercycle")
        now = self.metrics()
        self.assertEqual((now["nvmetcp_power_cycles_total"], now[f"nvmetcp_held_commands{FIRST}"]), (1, 0))
        self.assertEqual(now["nvmetcp_controllers_in_use"], 0)

    def test_a_socket_that_stays(self) -> None:
        """The text ends with a line by which someone who asks more knows that it has ended."""
        with socket.socket(socket.AF_UNIX) as asking:
            asking.connect(str(self.folder / "control/socket"))
            for _ in range(3):
                asking.sendall(b"metrics\n")
                came = b""
                while not came.endswith(b"# EOF\n"):
                    came += asking.recv(65536)
                samples_of(came.decode()[:-1])


class LogTest(TargetTest):
    """A target whose log is read."""

    def lines(self) -> list:
        """The lines of the log, each its event and its fields."""
        lines = []
        for line in (self.folder / "errors").read_text().splitlines():
            time_text, event, fields = LINE.fullmatch(line).groups()
            at = datetime.strptime(time_text, "%Y-%m-%dT%H:%M:%S.%fZ").replace(tzinfo=timezone.utc)
            self.assertLess(abs(datetime.now(timezone.utc) - at), timedelta(minutes=1))
            words = re.findall(r' ([a-z]+)=("(?:[^"\\]|\\.)*"|[^ "]+)', fields)
            lines.append((event, {name: json.loads(it) if it.startswith('"') else it for name, it in words}))
        return lines

    def events(self, event: str) -> list:
        return [fields for name, fields in self.lines() if name == event]


class Logs(LogTest):
    def test_a_host(self) -> None:
        self.assertEqual(self.events("started")[0]["addresses"], f"127.0.0.1:{self.target.port}")
        a = self.host(queues=3)
        address = "{}:{}".format(*a.admin.socket.getsockname())
        self.assertEqual(self.events("connected"), [{"host": A1, "address": address, "controller": "1",
                                                     "nqn": "nqn.2024-01.example:a1"}])
        a.close()
        self.wait_for(lambda: self.events("disconnected") != [])
        self.assertEqual(self.events("disconnected"), [{"host": A1, "address": address, "controller": "1",
                                                        "reason": "the host has ended its connection"}])
        self.assertEqual(len(self.lines()), 3)

    def test_ends(self) -> None:
        a, _ = self.host(), self.host(0xb2, keep_alive=1000)
        self.wait_for(lambda: self.events("disconnected") != [])
        self.assertEqual([(it["host"], it["reason"]) for it in self.events("disconnected")],
                         [(B2, "Keep Alive Timeout")])
        a.admin.send(CAPSULE, b"", b"")
        self.wait_for(lambda: len(self.events("disconnected")) == 2)
        self.host(), self.target.ask("powercycle")
        self.assertEqual(self.events("powercycle"), [{"reason": "ctl"}])
        self.assertEqual([(it["host"], it["reason"]) for it in self.events("disconnected")[1:]],
                         [(A1, "the host has broken the rules of the transport"), (A1, "power cycle")])

    def test_refusals(self) -> None:
        wanted = []
        a = self.host()
        for reason, status, how in (
                ("no controller is of this host", "1:84", {"host": 0xc3}),
                ("all controllers of this host are in use", "1:81", {"host": 0xa1}),
                ("there is no subsystem of this name", "1:82", {"host": 0xb2, "name": "nqn.other"}),
                ("this host has no such controller", "1:82", {"host": 0xb2, "cntlid": 1}),
                ("the name of the host is wrong", "1:82", {"host": 0xb2, "host_name": "n" * 256}),
                ("a parameter of Connect is wrong", "1:82", {"host": 0xb2, "size": 1}),
                ("the command can't be executed", "0:0c", {"host": 0xa1, "qid": 1, "cntlid": a.cntlid})):
            queue = Queue(self.target.port)
            queue.connect(**{"qid": 0, **how})
            host = f"{how['host']:02x}000000-0000-0000-0000-000000000000"
            address = "{}:{}".format(*queue.socket.getsockname())
            wanted.append({"host": host, "address": address, "status": status, "reason": reason})
            queue.close()
        self.assertEqual(self.events("refused"), wanted)
        queue = Queue(self.target.port)
        queue.connect(0, 0xdead, name=DISCOVERY)
        self.assertEqual(self.events("discovery")[0]["host"], "ad" + "de0000-0000-0000-0000-000000000000")
        queue.close()

    def test_a_name_that_a_host_makes_up(self) -> None:
        """Names from hosts can't break a log line."""
        queue = Queue(self.target.port)
        self.addCleanup(queue.close)
        name = 'nqn" \\\n\x1b[31m reason=none \u20ac'
        self.assertEqual(queue.connect(0, 0xa1, host_name=name).status, 0)
        self.assertEqual(self.events("connected")[0]["nqn"], name)

    def test_a_fenced_host(self) -> None:
        """The first command is logged at once, and then how many more there were."""
        a, b = self.host(), self.host(0xb2)
        a.register(0, 0xa), a.acquire(0xa)
        for _ in range(500):
            b.write(7, bytes(BLOCK))
        self.assertEqual(b.acquire(0xb), 0x4083, "that is no fence")
        address = "{}:{}".format(*b.queues[0].socket.getsockname())
        self.assertEqual(self.events("fenced"),
                         [{"host": B2, "address": address, "controller": "2", "namespace": "1", "command": "write",
                           "status": "0:83", "reason": "Reservation Conflict"}])
        b.register(0, 0xb), b.acquire(0xb, 0xa, action=1)
        self.assertEqual(a.flush(), 0x4083)
        self.assertEqual([(it["host"], it["command"]) for it in self.events("fenced")], [(B2, "write"), (A1, "flush")])
        self.assertEqual(samples_of(self.target.ask("metrics"))["nvmetcp_log_lines_left_out_total"], 499)
        self.wait_for(lambda: self.events("left-out") != [], 15)
        self.assertEqual(self.events("left-out"), [{"topic": "fenced", "lines": "499", "controller": "2"}])

    def test_a_flood_of_refused_hosts(self) -> None:
        """It keeps the log short, and hides nothing else."""
        for host in range(0x1000, 0x1000 + 2000):
            queue = Queue(self.target.port)
            self.assertEqual(queue.connect(0, host).status, 0x4184)
            queue.close()
        self.host()
        self.assertEqual(len(self.events("connected")), 1)
        self.assertLessEqual(len(self.lines()), 30)
        left_out = samples_of(self.target.ask("metrics"))["nvmetcp_log_lines_left_out_total"]
        self.assertEqual(left_out + len(self.events("refused")), 2000)
        self.wait_for(lambda: sum(int(it["lines"]) for it in self.events("left-out")) == left_out, 15)

    def test_connections_that_say_nothing(self) -> None:
        idle = Queue(self.target.port)
        self.addCleanup(idle.close)
        self.wait_for(lambda: self.events("closed") != [], 10)
        self.assertEqual(self.events("closed")[0]["reason"], "there was no command in time")

    def test_the_end(self) -> None:
        self.host()
        self.target.close()
        self.assertEqual([it[0] for it in self.lines()], ["started", "connected", "ending", "disconnected"])
        self.target.start()


class Restarts(LogTest):
    def test_restarts(self) -> None:
        """A restart over a state folder is logged with its epoch."""
        self.target.close()
        self.target.options = ["--state", str(self.folder / "state")]
        for _ in range(2):
            self.target.start()
            self.target.kill()
        self.target.start()
        self.assertEqual([it.get("epoch") for it in self.events("started")], [None, "1", "2", "3"])


del LogTest


class Forms(TargetTest):
    options = ["--log", "json"]

    def test_json(self) -> None:
        queue = Queue(self.target.port)
        self.addCleanup(queue.close)
        name = 'nqn "\\\n\u20ac'
        self.assertEqual(queue.connect(0, 0xa1, host_name=name).status, 0)
        lines = [json.loads(line) for line in (self.folder / "errors").read_text().splitlines()]
        self.assertEqual([it["event"] for it in lines], ["started", "connected"])
        self.assertEqual((list(lines[1])[:2], lines[1]["host"], lines[1]["nqn"]), (["time", "event"], A1, name))
        datetime.strptime(lines[1]["time"], "%Y-%m-%dT%H:%M:%S.%fZ")

    def test_a_fault(self) -> None:
        """A fault is a line like the others."""
        image = self.folder / "other.img"
        image.write_bytes(bytes(BLOCK * BLOCKS))
        words = [PROGRAM, "--listen", "127.0.0.1:0", "--log", "json", "--image", str(image),
                 str(self.folder / "config.nvme")]
        with subprocess.Popen(words, stdout=subprocess.PIPE, stderr=subprocess.PIPE, text=True) as process:
            process.stdout.readline()
            image.unlink()
            told = [json.loads(line) for line in process.communicate(timeout=10)[1].splitlines()]
        self.assertEqual((process.returncode, [it["event"] for it in told]), (2, ["started", "fault"]))
        self.assertIn("was removed or renamed", told[1]["reason"])
        ran = subprocess.run([PROGRAM, "--log", "json", str(self.folder / "none")], stderr=subprocess.PIPE, text=True)
        self.assertEqual((ran.returncode, json.loads(ran.stderr)["event"]), (2, "fault"), "before it serves too")

    def test_none(self) -> None:
        self.target.close()
        (self.folder / "errors").unlink()
        self.target.options = ["--log", "none"]
        self.target.start()
        self.host().read(0, 1)
        self.assertEqual((self.folder / "errors").read_text(), "")

    def test_a_form_that_is_none(self) -> None:
        ran = subprocess.run([PROGRAM, "--log", "xml", "x"], stdout=subprocess.PIPE, stderr=subprocess.PIPE, text=True)
        self.assertEqual((ran.returncode, ran.stdout), (3, ""))
        self.assertIn("--log xml: not understood", ran.stderr)
