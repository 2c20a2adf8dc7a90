"""The helpers of the scenes in which a target moves: the power switch of guests, and hosts that write and connect again
by themselves."""
import socket
import threading
import time
import unittest
from typing import Callable, List

from linux.fencer import Fencer
from linux.machines import SLOW
from linux.pairs import HERE, TOKEN, adapted
from linux.steps import clock, steps
from linux.writers import Expected, Watch, Writer, turns
from tests.host import BLOCK
from tests.targets import BLOCKS, PROGRAM, TargetTest

OLD, NEW = b"\1" * BLOCK, b"\2" * BLOCK


class Blocks(unittest.TestCase):
    def test_answered(self) -> None:
        expected = Expected()
        expected.asks(1, OLD)
        self.assertEqual([expected.faults(it) for it in (bytes(2 * BLOCK), bytes(BLOCK) + OLD)], [[], []])
        self.assertEqual(expected.unsure(), [1])
        expected.answered(1, OLD)
        self.assertEqual(expected.faults(bytes(2 * BLOCK)), ["block 1 has lost what was answered"])
        expected.asks(1, NEW)
        self.assertEqual([expected.faults(bytes(BLOCK) + it) for it in (OLD, NEW)], [[], []])
        self.assertEqual(expected.faults(bytes(BLOCK) + OLD[1:] + b"\2"), ["block 1 has lost what was answered"])

    def test_found(self) -> None:
        """A host that connects again reads either content of a write without an answer. It must keep that one."""
        expected = Expected()
        for place in (0, 1):
            expected.asks(place, OLD)
            expected.answered(place, OLD)
        expected.asks(1, NEW)
        self.assertEqual((expected.found(2 * OLD), expected.unsure()), (1, [1]))
        self.assertEqual(expected.faults(OLD + NEW), ["block 1 has lost what was answered"])
        expected.asks(1, NEW)
        expected.answered(1, NEW)
        self.assertEqual((expected.found(OLD + NEW), expected.unsure()), (2, []))

    def test_turns(self) -> None:
        """A machine that answers what it was asked after the other's first answer has a turn again."""
        self.assertEqual(turns({"t2": [(3, 4)], "t1": [(1, 2), (2, 3)]}), ["t1", "t2"])
        self.assertEqual(turns({"t1": [(1, 2), (5, 6)], "t2": [(3, 4), (6, 7)]}), ["t1", "t2", "t1"])
        # Whether t2 has answered before t1, which was asked while t2 waited for its turn, nobody knows.
        self.assertEqual(turns({"t1": [(1, 2), (4, 6)], "t2": [(3, 5)]}), ["t1", "t2"])
        self.assertEqual(turns({"t1": [(1, 2)], "t2": []}), ["t1"])


class Settings(unittest.TestCase):
    def test_times(self) -> None:
        """Each time of the cluster is multiplied, and each word that the scene replaces is."""
        self.assertEqual(adapted("op start timeout=60s op monitor interval=2s\nping-timeout 10;\n"),
                         f"op start timeout={int(60 * SLOW)}s op monitor interval={int(2 * SLOW)}s\n"
                         f"ping-timeout {int(10 * SLOW)};\n")
        text = "".join(adapted((HERE / it).read_text()) for it in ("drbd.crm", "targets.crm", "targets.corosync.conf"))
        self.assertIn(f"token: {TOKEN}\n", text)
        # A link that is given up before the token is lost would lose it.
        self.assertIn(f"knet_ping_timeout: {2 * TOKEN}\n", text)
        self.assertNotRegex(text, r": (TOKEN|CONSENSUS|INTERVAL|TIMEOUT)")
        self.assertEqual(text.count("--script"), 2)
        # Else Pacemaker does one action at a time on a busy machine.
        self.assertEqual(text.count("property load-threshold="), 2)


class Steps(unittest.TestCase):
    def test_steps(self) -> None:
        """Steps of one name are joined; checks, and what came before, are left out."""
        log = "".join(f"Nov 30 23:59:{at} t2 pacemaker-controld  [2] (do_it) \tnotice: {text}\n" for at, text in (
            ("55.900", "Requesting local execution of start operation for other on t2 | transition_key=1"),
            ("57.500", "Cluster node t1 is now lost (was member)"),
            ("58.000", "Requesting fencing (reboot) of node t1 | action=1 timeout=60000"),
            ("58.100", "Requesting local execution of notify operation for mirror on t2 | transition_key=2"),
            ("58.400", "Result of notify operation for mirror on t2: ok | graph action confirmed; call=2 rc=0"),
            ("58.500", "Requesting local execution of notify operation for mirror on t2 | transition_key=3"),
            ("58.900", "Peer t1 was terminated (reboot) by t2 on behalf of pacemaker-controld.2@t2: OK | event=4"),
            ("59.100", "Result of notify operation for mirror on t2: ok | graph action confirmed; call=3 rc=0"),
            ("59.200", "Requesting local execution of monitor operation for mirror on t2 | transition_key=5"),
            ("59.400", "Result of monitor operation for mirror on t2: promoted | CIB update 57, call=5 rc=0")))
        self.assertEqual(steps(log, clock("Nov 30 23:59:56.000")),
                         ["t1 is lost 1.5", "fencing t1 2.0 to 2.9", "notify mirror 2.1 to 3.1"])


class Power(unittest.TestCase):
    def ask(self, kill: Callable[[str], bool], line: str) -> str:
        fencer = Fencer(kill, 0)
        fencer.start()
        self.addCleanup(fencer.close)
        with socket.create_connection(("127.0.0.1", fencer.port), 5) as connection:
            connection.sendall(f"{line}\n".encode())
            answer = connection.makefile().read().strip()
        self.fenced, self.times = fencer.fenced, fencer.times
        return answer

    def test_lines(self) -> None:
        killed: List[str] = []
        for line, answer in (("reboot t1", "done"), ("off t1", "done"), ("monitor", "done"), ("list", "done"),
                             ("reboot", "refused"), ("", "refused"), ("burn t1", "refused"), ("off t1 t2", "refused")):
            self.assertEqual(self.ask(lambda name: not killed.append(name), line), answer, line)
        self.assertEqual(killed, ["t1", "t1"])

    def test_a_guest_that_is_not_there(self) -> None:
        self.assertEqual((self.ask(lambda name: False, "reboot t3"), self.fenced), ("refused", []))

    def test_it_answers_after_the_end(self) -> None:
        may_end, ended = threading.Event(), []

        def kill(name: str) -> bool:
            may_end.wait(5)
            ended.append(time.monotonic())
            return True
        threading.Timer(0.2, may_end.set).start()
        self.assertEqual((self.ask(kill, "reboot t1"), self.fenced), ("done", ["t1"]))
        self.assertTrue(ended[0] <= self.times[0] <= time.monotonic())


@unittest.skipUnless(PROGRAM, "NVMETCP names no program")
class Writers(TargetTest):
    image = BLOCKS

    def writer(self, host: int = 0xa1, **how: bool) -> Writer:
        writer = Writer(self.target.port, host, range(8), **how)
        self.addCleanup(writer.close)
        writer.start()
        return writer

    def restart(self, writer: Writer, loses: bool = False) -> None:
        """The target is killed while a host writes, and started again, over blocks that may be lost."""
        self.wait_for(lambda: len(writer.answers) > 20)
        begun = time.monotonic()
        self.target.kill()
        if loses:
            self.target.image.write_bytes(bytes(BLOCK * BLOCKS))
        self.target.start(self.target.port)
        self.assertFalse(writer.is_answered(time.monotonic()))
        self.wait_for(lambda: writer.is_answered(begun, 5))
        writer.close()

    def test_it_connects_again(self) -> None:
        """It reads what it has written before it writes again."""
        writer = self.writer()
        self.restart(writer)
        self.assertEqual((writer.faults, writer.expected.faults(self.target.image.read_bytes())), ([], []))
        self.assertGreater(max(writer.read_back), 1)

    def test_lost_blocks(self) -> None:
        """What it has written is lost: that is a fault, even if it writes the same blocks again."""
        writer = self.writer()
        self.restart(writer, loses=True)
        self.assertRegex(writer.faults[0], "block . has lost what was answered, when host a1 connects again")

    def test_answers_since(self) -> None:
        writer = Writer(self.target.port, 0xa1, range(8))
        writer.answers = [(0, 1), (2, 3), (4, 5)]
        self.assertEqual([writer.is_answered(1, it) for it in (1, 2, 3)], [True, True, False])

    def test_an_outage(self) -> None:
        """The longest time without an answer: its end, from the given moment, and how long it is."""
        writer = Writer(self.target.port, 0xa1, range(8))
        writer.answers = [(0, 1), (2, 3), (8, 9), (9, 9.5)]
        self.assertEqual([writer.outage(it) for it in (0, 3.5, 9.25, 20)], [(9, 6), (5.5, 5.5), (0.25, 0.25), (0, 0)])

    def test_a_fenced_host(self) -> None:
        """Each answer must be a conflict: one that is not is a fault, and so is a conflict of one that is not fenced."""
        holder = self.host(0xb2)
        self.assertEqual([holder.register(0, 0xb), holder.acquire(0xb, kind=3)], [0, 0])
        fenced = self.writer(is_fenced=True)
        self.wait_for(lambda: len(fenced.answers) > 3)
        self.assertEqual((fenced.faults, fenced.expected.may), ([], {}))
        fenced.close()
        other = self.writer()
        self.wait_for(lambda: other.faults)
        self.assertIn("of a1 is answered 0x4083", other.faults[0])
        other.close()
        self.assertEqual(holder.reserve(0x15, 3 << 8, 0xb), 0)
        fenced = self.writer(is_fenced=True)
        self.wait_for(lambda: fenced.faults)
        self.assertIn("of a1 is answered 0x0", fenced.faults[0])

    def test_watch(self) -> None:
        watch = Watch({"t1": self.target.port, "t2": 1})
        watch.start()
        self.wait_for(lambda: len(watch.seen["t1"]) > 3)
        watch.close()
        self.assertEqual(turns(watch.seen), ["t1"])
        self.assertEqual((watch.has_seen("t1"), watch.has_seen("t2")), (True, False))
        self.assertEqual((watch.first_answer("t1"), watch.silent["t1"]), (watch.seen["t1"][0][1], []))
        self.assertGreater(len(watch.silent["t2"]), 3)
        self.assertGreater(watch.first_answer("t2"), time.monotonic())

