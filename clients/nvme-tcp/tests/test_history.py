"""Histories that some order explains, and histories that none does."""
import random
import unittest

from tests.history import BLOCK, NEVER, History, Register, Span, Wrong, block_of, number_of


def register(*events: tuple, first: int = 0) -> Register:
    """Events are `w` or `r`, a number, start and end."""
    made = Register(first)
    for kind, number, start, end in events:
        if kind == "w":
            made.write(number, Span(start, end))
        else:
            made.reads.append((number, Span(start, end)))
    return made


def has_order(held: int, events: tuple) -> bool:
    """Whether the events have an order, when the block has this number first."""
    for at, (kind, number, start, _) in enumerate(events):
        rest = events[:at] + events[at + 1:]
        if (kind == "w" or number == held) and not any(end < start for _, _, _, end in rest):
            if has_order(number, rest):
                return True
    return not events


class Histories(unittest.TestCase):
    GOOD = (
        ("an unanswered write that is read", (("w", 5, 0, NEVER), ("r", 5, 10, 20))),
        ("an unanswered write that is not", (("w", 5, 0, NEVER), ("r", 0, 10, 20))),
        ("writes that overlap", (("w", 5, 0, 10), ("w", 6, 5, 15), ("r", 5, 20, 25), ("r", 5, 30, 35))),
        ("reads while a write is in progress", (("w", 5, 0, 100), ("r", 0, 10, 20), ("r", 5, 30, 40))),
        ("zeros", (("w", 5, 0, 1), ("w", 0, 2, 3), ("r", 0, 4, 5), ("w", 6, 6, 7), ("w", 0, 8, 9), ("r", 0, 10, 11))),
    )
    WRONG = (
        ("a lost write", (("w", 5, 0, 1), ("r", 0, 2, 3))),
        ("an older number", (("w", 5, 0, 1), ("w", 6, 2, 3), ("r", 5, 4, 5))),
        ("a number that comes back", (("w", 5, 0, 100), ("r", 5, 10, 20), ("r", 0, 30, 40))),
        ("another host sees less", (("w", 5, 0, 50), ("w", 6, 0, 50), ("r", 5, 10, 20), ("r", 6, 30, 40),
                                    ("r", 5, 60, 70))),
        ("a number before it is written", (("r", 5, 0, 1), ("w", 5, 2, 3))),
        ("a number of nobody", (("r", 5, 0, 1),)),
        ("zeros that were written over", (("w", 0, 0, 1), ("w", 5, 2, 3), ("r", 0, 4, 5))),
        ("a number after zeros", (("w", 5, 0, 1), ("w", 0, 2, 3), ("r", 5, 4, 5))),
    )

    def test_good(self) -> None:
        for name, events in self.GOOD:
            with self.subTest(name):
                register(*events).check()

    def test_wrong(self) -> None:
        for name, events in self.WRONG:
            with self.subTest(name), self.assertRaises(Wrong):
                register(*events).check()
        with self.assertRaises(Wrong):
            register(("r", 7, 0, 1), ("w", 8, 2, 3), ("r", 7, 4, 5), first=7).check()

    def test_random(self) -> None:
        """The judgement of each history is what trying all orders gives."""
        rng, counts = random.Random(3), [0, 0]
        for _ in range(3000):
            times = rng.sample(range(40), 12)
            spans = [Span(*sorted(times[2 * it:2 * it + 2])) for it in range(6)]
            events = [("w", 10 + at, *spans[at]) for at in range(3)]
            events += [("r", rng.choice((9, 10, 11, 12)), *span) for span in spans[3:]]
            try:
                register(*events, first=9).check()
                is_good = True
            except Wrong:
                is_good = False
            self.assertEqual(is_good, has_order(9, tuple(events)), events)
            counts[is_good] += 1
        self.assertGreater(min(counts), 300)

    def test_differences(self) -> None:
        made = register(("w", 5, 0, 1), ("w", 6, 10, 11))
        self.assertEqual([made.is_surely(5, Span(*it)) for it in ((2, 3), (2, 12), (12, 13))], [True, False, False])
        self.assertTrue(made.is_surely(6, Span(12, 13)))

    def test_blocks(self) -> None:
        whole = block_of(3, 9)
        self.assertEqual((number_of(3, whole), number_of(3, bytes(BLOCK))), (9, 0))
        for torn in (whole[:256] + block_of(3, 8)[256:], whole[:256] + bytes(256), block_of(4, 9)):
            with self.assertRaises(Wrong):
                number_of(3, torn)

    def test_power_cuts(self) -> None:
        history = History({0: 0})
        for number, start, end in ((5, 0, 1), (6, 10, 11), (7, 20, 21)):
            history.blocks[0].write(number, Span(start, end))
        history.flushes.append(Span(12, 13))
        for number, is_write_through, forced, is_kept in ((6, False, (), True), (7, False, (), True),
                                                          (5, False, (), False), (0, False, (), False),
                                                          (6, True, (), False), (6, False, (7,), False)):
            history.forced = set(forced)
            with self.subTest(number):
                if is_kept:
                    history.check_lost({0: number}, is_write_through)
                else:
                    with self.assertRaises(Wrong):
                        history.check_lost({0: number}, is_write_through)
