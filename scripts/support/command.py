"""The command `scripts/wrong-bodies`."""
import argparse
import os
import threading
import time
from dataclasses import dataclass, field

from support import choosing, edits, proving, record, toolchain, trial
from support.proving import say

MOST = 60
USAGE = """Tries mutants, over earlier results if there are any: the prover must refuse each.

A mutant is a file NAME.edit in crates/CRATE/must-fail or crates/CRATE/wrong-bodies. Without names, it tries those
that crates/CRATE/wrong-bodies.record does not show as refused with their present text; with --all, or with names of
crates, all of them. It writes to the records what was refused. The last line is `N passed, M failed`; the
status is 1 if one failed, and 2 if nothing could be tried."""


def words_of(given):
    """Parses the command line."""
    parser = argparse.ArgumentParser(prog="scripts/wrong-bodies", description=USAGE,
                                     formatter_class=argparse.RawDescriptionHelpFormatter)
    parser.add_argument("names", nargs="*", metavar="NAME", help="a crate")
    parser.add_argument("--all", action="store_true", help="all mutants of all crates")
    parser.add_argument("--lacking", action="store_true", help="of the named crates, only what their records lack")
    parser.add_argument("--jobs", type=int, default=0, metavar="N", help="run N checks side by side; without it one a core")
    parser.add_argument("--gate", metavar="COMMIT", help="for the merge gate: those of wrong-bodies/ that the records "
                        "don't show, and a tenth of the rest, which the commit chooses; no record is written")
    return parser.parse_args(given)


@dataclass
class Run:
    """One run of the command: the mutants that it tries, and the results."""
    rt: object
    book: choosing.Book
    is_kept: bool
    results: list = field(default_factory=list)
    unsound: set = field(default_factory=set)
    spent: dict = field(default_factory=dict)
    lock: threading.Lock = field(default_factory=threading.Lock)

    def take(self, result):
        """Prints and records one result."""
        with self.lock:
            self.results.append(result)
            what = f"refused {result.how} by" if result.is_refused else f"FAILED {result.how}:"
            say(f"{result.edit.label}: {what} {result.goal}")
            self.keep_record(result.edit.crate)

    def keep_record(self, name):
        """Writes a crate's record: what was refused so far, and the lines on what was not tried."""
        if not self.is_kept:
            return
        tried, lines = {it.edit.name: it for it in self.results if it.edit.crate == name}, []
        for edit in self.book.edits[name]:
            result, line = tried.get(edit.name), self.book.lines[name].get(edit.name)
            if result and result.is_refused and name not in self.unsound:
                lines.append(record.Line(edit.name, self.book.digests[edit.label], result.goal))
            elif line and not result:
                lines.append(line)
        record.write(self.book.crates[name], lines)

    def close(self, bench):
        """Finishes a crate."""
        name, is_sound = bench.crate.name, bench.is_sound()
        bench.close()
        with self.lock:
            self.spent[name] = self.spent.get(name, 0) + bench.spent
            if not is_sound:
                self.unsound.add(name)
                self.keep_record(name)

    def try_part(self, name, checks):
        """Tries mutants of a crate, one check after the other over the same folder."""
        bench = trial.Bench(self.rt, self.book.crates[name])
        for batch in checks:
            try:
                for result in self.results_of(bench, batch):
                    self.take(result)
            except Exception as error:
                missing = {it.name for it in batch} - {it.edit.name for it in self.results if it.edit.crate == name}
                for edit in (it for it in batch if it.name in missing):
                    self.take(trial.Result(edit, False, "not at all", repr(error)))
        self.close(bench)

    def results_of(self, bench, batch):
        """The results of mutants that share a check, or of one that belongs to no function."""
        if batch[0].function:
            return bench.try_batch(batch)
        line = self.book.lines[batch[0].crate].get(batch[0].name)
        return [bench.try_by_witnesses(batch[0], line.goal if line else "")]


def chosen_of(words, book):
    """The mutants that this run tries, by crate."""
    if words.gate:
        return choosing.of_gate(book, words.gate)
    named = {name for name in book.edits if not words.names or name in words.names}
    found = book.edits if words.all or words.names and not words.lacking else choosing.lacking(book)
    return {name: edits for name, edits in found.items() if name in named}


def build_below(rt, crates, jobs):
    """Builds the libraries that the crates depend on, unless `rt ci` has just built them. Each check proves what it
    needs of the crates themselves."""
    below = [it for it in proving.cone_of(crates) if any(it in other.below() for other in crates)]
    if all(map(proving.is_left_by_ci, below)):
        return True
    with open(os.devnull, "w", encoding="utf-8") as log:
        return proving.prove(rt, below, jobs, say, log)


def parts_of(found, count):
    """A crate's mutants in at most `count` parts, each with the checks of one worker."""
    batches, alone = edits.batches_of(found, min(MOST, -(-len(found) // count)))
    checks = [*batches, *([it] for it in alone)]
    return [checks[at::count] for at in range(min(count, len(checks)))]


def try_all(run, chosen, jobs):
    """Tries them in parallel, as many as memory holds, the longest first. The checks of a crate run one after the
    other, so that later ones reuse the proofs of the first. A crate with more than a processor's share of the work is
    divided."""
    if jobs:
        run.rt.processors = lambda: jobs
    weights = {name: len(found) * run.rt.need(run.book.crates[name]) for name, found in chosen.items()}
    tasks = {}
    for name, found in chosen.items():
        count = max(1, round(run.rt.processors() * weights[name] / sum(weights.values())))
        for number, checks in enumerate(parts_of(found, count)):
            tasks[name, number] = ([], weights[name] // count, run.rt.need(run.book.crates[name]),
                                   lambda _given, _jobs, name=name, checks=checks: run.try_part(name, checks))
    run.rt.in_lanes(tasks)


def end(run, book, count):
    """The last lines: the time of each crate's mutants, the faults, and the number of mutants that were refused."""
    for name, seconds in run.spent.items():
        tried = sum(it.edit.crate == name for it in run.results)
        say(f"{name}: {tried} mutants, {seconds:.0f} processor seconds, {seconds / max(tried, 1):.1f} each")
    for name in sorted(run.unsound):
        say(f"{name}: it is not proved over the earlier results: remove crates/{name}/out, and try again")
    for fault in book.faults:
        say(f"FAILED {fault}")
    passed = sum(it.is_refused and it.edit.crate not in run.unsound for it in run.results)
    failed = count - passed + len(book.faults)
    say(f"{passed} passed, {failed} failed")
    return 1 if failed else 0


def main(root, given):
    words, begun = words_of(given), time.monotonic()
    try:
        rt = toolchain.load(root)
    except toolchain.NoToolchain as error:
        say(f"wrong-bodies: {error}")
        return 2
    crates = toolchain.crates_of(rt, root)
    for name in words.names:
        if name not in crates:
            say(f"wrong-bodies: crates.txt has no crate {name}")
            return 2
    trial.lend(rt)
    book = choosing.read_book(rt, root, crates, toolchain.logic())
    chosen = {name: found for name, found in chosen_of(words, book).items() if found}
    count = sum(map(len, chosen.values()))
    say(f"{count} of {book.tally()} mutants are tried, of {len(chosen)} crates: {' '.join(chosen)}")
    run = Run(rt, book, not words.gate)
    if count and build_below(rt, [crates[it] for it in chosen], words.jobs):
        try_all(run, chosen, words.jobs)
    say(f"{(time.monotonic() - begun) / 60:.1f} minutes")
    return end(run, book, count)
