"""Which wrong definitions can share a check, and what notices each.

A witness of a definition is a lemma, a function or a clause of a law or an example that sees it. Several definitions
share a check only if each has a witness there that sees none of the others: what such a witness says is of that one.
"""
import os.path
from dataclasses import dataclass

from support.definitions.rules import with_words

KINDS = {"clause": 0, "proofs": 1, "function": 2}


def difference(old, new):
    """What a text has instead of another: where that begins and ends in the other, and the words."""
    start = len(os.path.commonprefix([old, new]))
    end = len(os.path.commonprefix([old[start:][::-1], new[start:][::-1]]))
    return start, len(old) - end, new[start:len(new) - end]


def merged(text, wrongs):
    """The text with several wrong definitions in it."""
    for start, end, words in sorted((difference(text, it) for it in wrongs), reverse=True):
        text = text[:start] + words + text[end:]
    return with_words(text)


@dataclass(eq=False)
class Witness:
    """An item that can notice, the wrong definitions' definitions that it sees, as bits, and the functions to ask."""
    item: object
    bits: int
    asks: tuple


class Witnesses:
    """The witnesses in a crate of some definitions."""

    def __init__(self, sources, crate, definitions):
        self.sources, self.crate, self.definitions = sources, crate, definitions
        self.bit = {it: 1 << at for at, it in enumerate(definitions)}
        self.files = {path: it for (name, path), it in sources.files.items() if name == crate}
        self.imported = imports_of(sources, crate)
        self.importers = importers_of(self.imported)
        # A lemma that no function's proof imports can be copied, but not asked for.
        found = [it for file in self.files.values() for it in map(self.witness, file.items) if it]
        found.sort(key=lambda it: (bin(it.bits).count("1"), KINDS[it.item.kind]))
        self.copied = {one: [it for it in found if it.bits & bit] for one, bit in self.bit.items()}
        self.all = [it for it in found if it.asks]
        self.of = {one: [it for it in self.all if it.bits & bit] for one, bit in self.bit.items()}
        self.asks = {it.item: it.asks for it in self.all}

    def seen(self, item):
        """The definitions that an item sees."""
        return sum(self.bit.get(it, 0) for it in self.sources.basis(item)[1])

    def witness(self, item):
        if item.kind not in KINDS:
            return None
        bits = self.seen(item)
        asks = (item.function.name,) if item.function else self.importers.get(item.path, ())
        return Witness(item, bits, asks) if bits else None

    def own(self, definition, batch_bits, tried=frozenset()):
        """The witnesses of a definition that see no other one of a batch, the most special first."""
        bit = self.bit[definition]
        return [it for it in self.of[definition] if it.bits & batch_bits == bit and it.item not in tried]

    def asked(self, batch, tried, few):
        """The functions to ask for a batch, so that for each a few of its own witnesses are checked that are in
        different files, and all its own witnesses that are checked then."""
        bits, functions, files = sum(self.bit[it.item] for it in batch), {}, set()
        for mutant in batch:
            new = [it for it in self.own(mutant.item, bits, tried.get(mutant, frozenset()))
                   if not self.is_checked(it, functions, files)]
            for _ in range(few):
                if new:
                    functions[new[0].asks[0]] = True
                    files |= self.imported[new[0].asks[0]]
                    new = [it for it in new if not self.is_checked(it, functions, files)]
        shown = {it: {one.item for one in self.own(it.item, bits) if self.is_checked(one, functions, files)}
                 for it in batch}
        return [*functions], shown

    @staticmethod
    def is_checked(witness, functions, files):
        item = witness.item
        return item.path in files or not item.path.startswith("proofs/") and witness.asks[0] in functions


def imports_of(sources, crate):
    """For each function the files of lemmas that its proof imports, through others too."""
    files, direct, found = [it for (name, _), it in sources.files.items() if name == crate], {}, {}
    for file in files:
        direct[file.path] = {it.path for item in file.items for it in item.shown | item.inner if it.crate == crate}
    for item in [it for file in files for it in file.items if it.kind == "function"]:
        reached, waiting = set(), [it.path for it in item.inner | item.shown if it.crate == crate]
        while waiting:
            path = waiting.pop()
            if path.startswith("proofs/") and path not in reached:
                reached.add(path)
                waiting += direct[path]
        found[item.function.name] = reached
    return found


def importers_of(imported):
    """For each file of lemmas the functions whose proofs import it: the one with the least first."""
    found = {}
    for name, paths in sorted(imported.items(), key=lambda it: (len(it[1]), it[0])):
        for path in paths:
            found[path] = (*found.get(path, ()), name)
    return found


def batches_of(mutants, witnesses, tried, most):
    """Batches of wrong definitions, no two of one definition, in which each has a witness that sees it alone. Those
    that no witness sees, or none that was not asked before, are in no batch."""
    batches = []
    for mutant in mutants:
        if not witnesses.own(mutant.item, witnesses.bit[mutant.item], tried.get(mutant, frozenset())):
            continue
        room = next((it for it in batches if len(it) < most and fits(mutant, it, witnesses, tried)), None)
        if room is None:
            batches.append([mutant])
        else:
            room.append(mutant)
    return batches


def fits(mutant, batch, witnesses, tried):
    if any(it.item is mutant.item for it in batch):
        return False
    bits = sum(witnesses.bit[it.item] for it in [*batch, mutant])
    return all(witnesses.own(it.item, bits, tried.get(it, frozenset())) for it in [mutant, *batch])
