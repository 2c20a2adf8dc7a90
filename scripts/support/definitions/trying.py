"""Tries wrong definitions: by copies and in batches, over their own crate and the crates above, then in whole checks.

Copies are tried next to the crate as it is, hundreds in a check. A batch is one check of one copy of the crate: there a
definition counts as noticed only if an item is refused that sees no other wrong one. What neither settles is tried in a
whole check of its crate, and then of each crate above, several at once as long as these are proved, and in halves, down
to one alone, if not.
"""
import random
import re
from concurrent.futures import ThreadPoolExecutor
from itertools import count, islice

from support.definitions.batches import Witnesses, batches_of
from support.definitions.closed_copies import ClosedCopy
from support.definitions.code_copies import CodeCopy
from support.definitions.copies import Copy, Seeing, verdicts_on
from support.definitions.places import LONG, Place, unfinished
from support.definitions.refusals import Outcome, Reading, is_whole
from support.definitions.ordering import Ordering, is_definition
from support.proving import say

# The most wrong definitions that share a check, how many witnesses of each are asked, and how often in one crate.
MOST, FEW, ROUNDS = 24, 2, 2
# The most copies that share a check, how many of what is wrong are worth one, since a check takes as long as some twenty
# copies before it proves any; how many controls are many; how many of what is wrong are tried before any is recorded;
# how many witnesses are tried by copies, and the processor seconds of a check.
COPIES, WORTH, MANY, PART, TIMES, CODE_TIMES, COPIES_LIMIT = 300, 40, 80, 200, 6, 3, 1500
# How a witness is copied: a clause as what is computed, or else as a function.
WAYS = {"clause": (ClosedCopy, Copy), "proofs": (Copy,), "function": (CodeCopy,)}
UNREAD = re.compile(r"\bsrc/(?:\S+/)?(c\d+)\.rt:\d+:\d+: error")


def spread(mutants):
    """The same ones in an order that mixes files: those of one file rarely have witnesses that see them alone."""
    return random.Random("0").sample(mutants, len(mutants))


class Asking:
    """One crate that is asked about the wrong definitions of one crate."""

    def __init__(self, place, sources, mutants, past=0):
        self.place, self.sources, self.name, self.past = place, sources, place.asker.name, past
        self.witnesses = Witnesses(sources, self.name, [*dict.fromkeys(it.item for it in mutants)])
        # Copies of what is right, by definition; those that wrong definitions were tried by; which of them are proved.
        self.tried, self.copied, self.asked, self.sound = {}, {}, {}, {}
        self.seeing = {it: Seeing(sources, it) for it in (False, True)}
        self.numbers, self.ordering = count(), Ordering(sources)

    def batches(self, mutants):
        return batches_of(mutants, self.witnesses, self.tried, MOST)

    def mark(self, mutant, items):
        self.tried[mutant] = self.tried.get(mutant, frozenset()) | set(items)

    def try_batch(self, batch):
        """Tries a batch; gives what came of some of them."""
        only, shown = self.witnesses.asked(batch, self.tried, FEW)
        said = self.place.check(batch, only)
        read = Reading(said, self.sources, self.name, batch)
        say(f"  {self.name}: {len(read.outcomes)} of {len(batch)} settled in {said.seconds:.0f} processor seconds")
        if read.is_lost:
            return self.try_rest(batch, said, only, shown)
        for it in batch:
            if it not in read.outcomes:
                self.mark(it, [one for one in shown[it] if read.tells(one)])
        return read.outcomes

    def try_rest(self, batch, said, only, shown):
        """After a check that came to nothing: those whose functions it had ended with, or each half."""
        slow = set(unfinished(said, only))
        rest = [it for it in batch if not any(name in slow for one in shown[it] for name in self.witnesses.asks[one])]
        for it in batch:
            if it not in rest and (rest or len(batch) == 1):
                self.mark(it, shown[it])
        if rest and len(rest) < len(batch):
            return self.try_batch(rest)
        if len(batch) == 1:
            return {}
        half = len(batch) // 2
        return {**self.try_batch(batch[:half]), **self.try_batch(batch[half:])}

    def candidates(self, mutant, is_code):
        """Copies of the witnesses of a wrong definition's definition, the likeliest first: functions of code, or
        what is none."""
        items = (it.item for it in self.witnesses.copied.get(mutant.item, ()) if (it.item.kind == "function") == is_code)
        some = sorted(items, key=lambda it: self.ordering.order(it, mutant))
        found = (next(filter(None, (self.copy_of(it, mutant.item, way) for way in WAYS[it.kind])), None) for it in some)
        return islice(filter(None, found), self.past, None)

    def copy_of(self, item, definition, way):
        """A copy of a witness with the definition as it is; nothing if none can be made, or it is refused."""
        if (item, definition, way) not in self.copied:
            made = way(self.sources, self.name, item, definition)
            can_be = not is_definition(item) and made.collect(self.seeing[way.is_of_text].of(definition))
            self.copied[item, definition, way] = made if can_be else None
        made = self.copied[item, definition, way]
        return made if self.sound.get(made, True) else None

    def try_copies(self, mutants, is_code=False):
        """Tries wrong definitions by a copy of one witness each, or of more if these are few; gives what came of some of
        them."""
        made, controls = [], []
        for it in mutants:
            asked = self.asked.setdefault(it, set())
            lacking = (one for one in self.candidates(it, is_code) if one not in asked)
            for control in [*islice(lacking, 1 if is_code else max(1, WORTH // len(mutants)))]:
                asked.add(control)
                made.append((control, control.with_wrong(it)))
                controls += [] if control in self.sound or control in controls else [control]
        said = self.check_with(controls, made)
        found = {}
        for control, it in made:
            if self.sound.get(control, True) and said.get(it):
                self.mark(it.mutant, [it.witness])
                found.update({} if said[it].kind == "proved" else {it.mutant: said[it]})
        sound = sum(self.sound[it] for it in controls if it in self.sound)
        say(f"  {self.name}: {sound} of {len(controls)} proved as they are, {len(found)} of {len(mutants)} settled")
        return found

    def check_with(self, controls, made):
        """Checks wrong copies, each given with its control, and the controls. If these are many, only those whose wrong
        copies are refused, in a check of their own."""
        said = self.check_copies([*(controls if len(controls) <= MANY else ()), *(it for _, it in made)])
        if len(controls) > MANY:
            refused = {control for control, it in made if said.get(it) and said[it].kind != "proved"}
            controls = [it for it in controls if it in refused]
            said |= self.check_copies(controls)
        self.sound.update((it, said.get(it) is not None and said[it].kind == "proved") for it in controls)
        return said

    def check_copies(self, copies):
        """What checks say of copies; nothing of those that can't be read."""
        found = {}
        for start in range(0, len(copies), COPIES):
            found.update(self.check_some(copies[start:start + COPIES]))
        return found

    def check_some(self, copies):
        # No name is used again: what was saved of a module is of its only text.
        for it in copies:
            it.name = f"c{next(self.numbers)}"
        said = self.place.check_copies(copies, COPIES_LIMIT)
        say(f"  {self.name}: {len(copies)} copies in {said.seconds:.0f} processor seconds, status {said.status}")
        if is_whole(said):
            verdicts = verdicts_on(copies, said.lines, self.place.saved())
            return {it: it.outcome(said.lines, verdicts[it]) for it in copies}
        if said.status == 2:
            say(f"  {self.name}: {said.text.strip()[-200:]}")
            return {}
        bad = set(UNREAD.findall(said.text))
        rest = [it for it in copies if it.name not in bad]
        if len(copies) == 1 or not rest:
            return {}
        if len(rest) < len(copies):
            return self.check_some(rest)
        half = len(copies) // 2
        return {**self.check_some(copies[:half]), **self.check_some(copies[half:])}

    def try_again(self, mutant, item):
        """Tries one alone by an item that noticed it, and then by its whole crate; gives what came of it. If what is
        refused seems to rest on each other, the crate is still not proved."""
        seeing = [it.item for it in self.witnesses.of.get(mutant.item, ())[:1]]
        only = [it for one in [item, *seeing] for it in self.witnesses.asks.get(one, ())[:1]][:1]
        for functions in dict.fromkeys((tuple(only), ())):
            said = self.place.check([mutant], functions, LONG)
            read = Reading(said, self.sources, self.name, [mutant])
            if read.outcomes:
                return read.outcomes[mutant]
        return self.by_words(said, read) if read.refused and not read.is_lost else None

    def functions(self, mutants):
        """All functions that see one of these."""
        bits = 0
        for it in mutants:
            bits |= self.witnesses.bit[it.item]
        return [*dict.fromkeys(name for it in self.witnesses.all if it.bits & bits for name in it.asks[:1])]

    def try_group(self, group):
        """Tries several at once in a whole check of their own crate, or of all in a crate above that sees them; gives
        what came of each, and nothing for those with which it is proved."""
        only = [] if self.place.asker is self.place.wrong else self.functions(group)
        if not only and self.place.asker is not self.place.wrong:
            return {}
        said = self.place.check(group, only, LONG)
        say(f"  {self.name}: {len(group)} in {said.seconds:.0f} processor seconds, status {said.status}")
        if said.status == 0:
            return {}
        read = Reading(said, self.sources, self.name, group)
        left = [it for it in group if it not in read.outcomes]
        if len(group) == 1:
            return read.outcomes or {group[0]: self.by_words(said, read)}
        half = (len(left) + 1) // 2
        parts = [it for it in (left[:half], left[half:]) if it]
        return {**read.outcomes, **{one: it for part in parts for one, it in self.try_group(part).items()}}

    def by_words(self, said, read):
        """What came of one that is alone, where no item is named that sees it."""
        words = " ".join(next((it for it in said.lines if "error" in it), "not proved").split())[:160]
        if said.status != 1 or read.is_lost and not read.refused:
            return Outcome("unsettled", self.name, None, f"its check ended with status {said.status}: {words}")
        kind = "unread" if any(it.kind == "specs" for it in read.refused) else "noticed"
        return Outcome(kind, self.name, None, words)


class Trying:
    """All tries of the wrong definitions of one crate."""

    def __init__(self, rt, sources, wrong, mutants, above, jobs=1, times=(0, TIMES)):
        self.rt, self.sources, self.wrong, self.mutants = rt, sources, wrong, mutants
        self.jobs, (self.past, self.times) = jobs, times
        self.above, self.askings, self.spent = above, {}, 0.0

    def asking(self, asker):
        if asker.name not in self.askings:
            self.askings[asker.name] = Asking(Place(self.rt, asker, self.wrong), self.sources, self.mutants, self.past)
        return self.askings[asker.name]

    def close(self):
        for it in self.askings.values():
            it.place.close()

    @property
    def seconds(self):
        return sum(it.place.seconds for it in self.askings.values())

    def settle(self, first, is_quick=False, copies_alone=""):
        """Tries all; gives each with what came of it. `first` are the crates that are asked in batches; a quick run ends
        there, and gives the rest as unsettled. Of copies alone, these are of `text`, of `code` or of both."""
        left = spread(self.mutants)
        kinds = [False] * self.times * (copies_alone != "code")
        kinds += [True] * min(self.times, CODE_TIMES) * (copies_alone != "text")
        for asker in first:
            asking = self.asking(asker)
            for is_code in kinds:
                for some in [left[at:at + PART] for at in range(0, len(left), PART)]:
                    for one, outcome in asking.try_copies(some, is_code).items():
                        left.remove(one)
                        yield one, outcome
            for _ in range(0 if copies_alone else ROUNDS):
                for one, outcome in self.in_batches(asking, left):
                    left.remove(one)
                    yield one, outcome
        if is_quick:
            yield from ((it, Outcome("unsettled", "", None, "no batch settles it")) for it in left)
            return
        for asker in [*first, *(it for it in [self.wrong, *self.above] if it not in first)]:
            asking = self.asking(asker)
            for group in self.groups(left):
                for one, outcome in asking.try_group(group).items():
                    left.remove(one)
                    yield one, outcome
        yield from ((it, Outcome("unnoticed", "", None, "by no proof, law or example")) for it in left)

    def groups(self, mutants):
        """Groups of which none sees another's definition."""
        found = []
        for one in mutants:
            sees = self.sources.basis(one.item)[1] if one.item else set()
            room = next((it for it in found if len(it) < MOST and one.item and not any(
                other.item in sees or one.item in self.sources.basis(other.item)[1] for other in it)), None)
            if room is None:
                found.append([one])
            else:
                room.append(one)
        return found

    def in_batches(self, asking, mutants):
        with ThreadPoolExecutor(self.jobs) as workers:
            for found in workers.map(asking.try_batch, asking.batches(mutants)):
                yield from found.items()
