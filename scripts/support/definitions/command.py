"""The command `scripts/wrong-definitions`."""
import argparse
import random
import re

from support import record, toolchain
from support.definitions.book import BadRecord, Book, mutants_of
from support.definitions.citing import Sources
from support.definitions.trying import Trying
from support.proving import say

USAGE = """Makes definitions wrong by rule, and shows which of them no proof, law or example notices.

The rules, for each definition in crates/NAME/specs: a case made true, made false, or made what the next case says; a
conjunct dropped; one assignment of a record's update left out; a number one more; a field that says something made to
say nothing. A wrong definition is noticed if a crate that sees it is not proved any more, with its proofs as they are.
First hundreds share a check of the crate: each is in a copy of what leads from one lemma, clause or function to the
definition, and counts only if the same copy is proved with the definition as it is. A function is copied only if no
contract of what it calls sees the definition. The rest replace the crate's own definitions: several share a check, if
each has a lemma, a function or a clause that sees none of the others, and are then tried alone. What is no definition at all is recorded as such. Without names it tries those of all crates. It begins with what
`rt check` kept, so prove the crates first (`scripts/prove`); for copies the built libraries are enough. The last line
is `N noticed, M unnoticed, K no definitions, U unsettled`; the status is 1 if one is unnoticed that
crates/NAME/same-definitions does not list with its reason, and 2 if nothing could be tried."""


def words_of(given):
    parser = argparse.ArgumentParser(prog="scripts/wrong-definitions", description=USAGE,
                                     formatter_class=argparse.RawDescriptionHelpFormatter)
    parser.add_argument("names", nargs="*", metavar="NAME", help="a crate")
    parser.add_argument("--only", default="", metavar="PATTERN",
                        help="those in whose name this is found: file, definition and rule")
    parser.add_argument("--sample", type=int, default=0, metavar="N", help="N of them, chosen by the seed")
    parser.add_argument("--seed", default="0", metavar="WORD", help="what chooses the sample")
    parser.add_argument("--first", default="own,nvme_premises,nvme_theorem_runs", metavar="NAMES",
                        help="the crates that are asked first, in this order; `own` is that of the definition")
    parser.add_argument("--jobs", type=int, default=1, metavar="N", help="N checks at once")
    parser.add_argument("--quick", action="store_true", help="batches alone: what they don't settle stays unsettled")
    parser.add_argument("--copies", nargs="?", const="both", choices=("both", "text", "code"),
                        help="copies alone: what they don't settle stays unsettled; `text` are those of lemmas and "
                        "clauses, which are cheap, and `code` those of functions")
    parser.add_argument("--witnesses", type=int, default=6, metavar="N",
                        help="copies of N witnesses of each kind are tried of each")
    parser.add_argument("--past", type=int, default=0, metavar="N",
                        help="the first N of them are left out, since an earlier run tried these")
    parser.add_argument("--again", type=int, default=0, metavar="N",
                        help="N recorded ones alone, each by what noticed it, and no others")
    parser.add_argument("--list", action="store_true", help="print them, and try none")
    parser.add_argument("--complete", action="store_true",
                        help="try none; print those with neither a record nor a reason in same-definitions, with status 1")
    return parser.parse_args(given)


class Run:
    """One run: the records, and how many were noticed."""

    def __init__(self, rt, crates, sources, words):
        self.rt, self.crates, self.sources, self.words = rt, crates, sources, words
        self.counts = {"noticed": 0, "unnoticed": 0, "unread": 0, "unsettled": 0}
        self.open, self.seconds = [], 0.0

    def try_crate(self, crate, book, mutants):
        """Tries the wrong definitions of one crate, and keeps its record as it goes."""
        above = [it for it in self.crates.values() if crate in it.below()]
        names = [crate.name if it == "own" else it for it in self.words.first.split(",")]
        first = [it for name in names for it in [crate, *above] if it.name == name]
        times = (self.words.past, self.words.witnesses)
        trying = Trying(self.rt, self.sources, crate, mutants, above, self.words.jobs, times)
        try:
            for mutant, outcome in trying.settle(first, self.words.quick or self.words.copies, self.words.copies):
                self.take(book, mutant, outcome)
        finally:
            book.write()
            trying.close()
        self.seconds += trying.seconds
        say(f"{crate.name}: {len(mutants)} tried, {trying.seconds:.0f} processor seconds, "
            f"{trying.seconds / max(len(mutants), 1):.1f} each")

    def try_again(self, book, crate, mutants):
        """Tries recorded ones alone, each by what noticed it."""
        trying = Trying(self.rt, self.sources, crate, mutants, [])
        for it in mutants:
            line = book.lines[it.label]
            outcome = trying.asking(self.crates[line.crate]).try_again(it, book.item_of(line))
            kind = outcome.kind if outcome else "unsettled"
            self.counts[kind] += 1
            say(f"{crate.name} {it.label}: {kind}{'' if kind == line.kind else ', its record is FALSE'}")
            self.open += [] if kind == line.kind else [it]
        trying.close()

    def take(self, book, mutant, outcome):
        book.take(mutant, outcome)
        book.write()
        self.counts[outcome.kind] += 1
        reason = book.same.get(mutant.label)
        if outcome.kind == "unnoticed" and not reason:
            self.open.append(mutant)
        by = f"{outcome.crate} {outcome.item.name if outcome.item else ''}".strip()
        say(f"{mutant.crate} {mutant.label}: {outcome.kind} {by}: {reason or outcome.words}")


def read_all(root, words):
    """The toolchain, the crates, what their sources name, and the records of those that are asked for."""
    rt = toolchain.load(root)
    crates = toolchain.crates_of(rt, root)
    unknown = [it for it in words.names if it not in crates]
    if unknown:
        raise BadRecord(f"crates.txt has no crate {unknown[0]}")
    sources = Sources(crates)
    digests = record.Digests(toolchain.logic(), sources)
    books = {it: Book(crates[it], crates, digests, sources) for it in words.names or crates}
    return rt, crates, sources, books


def incomplete(books, lacking):
    """The wrong definitions with neither a record nor a reason, and reasons of what has a record or is not made."""
    for it in lacking:
        if it.label not in books[it.crate].same:
            yield f"{it.crate} {it.label}: it has neither a record nor a reason"
    labels = {(it.crate, it.label) for it in lacking}
    for name, book in books.items():
        for label in book.same:
            if (name, label) not in labels:
                yield f"{name} {label}: same-definitions has a reason, but it was noticed, or is not made"


def main(root, given):
    words = words_of(given)
    try:
        rt, crates, sources, books = read_all(root, words)
    except (toolchain.NoToolchain, BadRecord) as error:
        say(f"wrong-definitions: {error}")
        return 2
    found = [it for name in books for it in mutants_of(crates[name], sources) if re.search(words.only, it.label)]
    known, lacking = [], []
    for it in found:
        (known if books[it.crate].is_recorded(it) else lacking).append(it)
    say(f"{len(found)} wrong definitions, {len(known)} of them recorded")
    if words.complete:
        faults = [*incomplete(books, lacking)]
        print(*faults, sep="\n", end="\n" if faults else "")
        say(f"{sum(len(it.same) for it in books.values())} have a reason; {len(faults)} faults")
        return 1 if faults else 0
    some, count = (known, words.again) if words.again else (lacking, words.sample)
    chosen = random.Random(words.seed).sample(some, min(count, len(some))) if count else some
    if words.list:
        print(*(f"{it.crate} {it.label}" for it in chosen), sep="\n")
        return 0
    run = Run(rt, crates, sources, words)
    for name, book in books.items():
        mutants = [it for it in chosen if it.crate == name]
        if mutants and words.again:
            run.try_again(book, crates[name], mutants)
        elif mutants:
            run.try_crate(crates[name], book, mutants)
    for it in run.open:
        say(f"unnoticed: {it.crate} {it.label}")
    say("{noticed} noticed, {unnoticed} unnoticed, {unread} no definitions, {unsettled} unsettled".format(**run.counts))
    return 1 if run.open else 0
