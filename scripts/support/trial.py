"""Tries mutants of one crate over a copy of its earlier results, or over none."""
import os
import re
import shutil
import subprocess
import tempfile
import threading
from dataclasses import dataclass, field, replace
from pathlib import Path
from types import SimpleNamespace

from support import proving
from support.placing import texts_of
from support.witnesses import witnesses_of

NOTE = re.compile(r"note: (?:\./)?(src/\S+):(\d+):\d+: it is not proved that (.*?) ?\(`([^`]+)`\)")
ANSWER = re.compile(r"(?:note: )?(?:\./)?proofs/(\S+)/\w+\.antt:\d+:\d+: (?:error: )?`([^`]+)`: (.*)")
CLAUSE = re.compile(r"^ +ensures\*? (?:([\w-]+) )?(\{.*?\});?$(?=\n +(?:requires|ensures|ghost)|\s*\Z)", re.M | re.S)
OPEN = re.compile(r"did not prove ((?:`[^`]+`(?:, | and )?)+)")
# How the check of some functions ends where it is finished.
SOME = re.compile(r"^only=\d+ proved=\d+\n*\Z", re.M)
# What `rt` says of a mutant that is refused for what it says: with the first goal, rather than for a name alone.
BY_A_GOAL = re.compile(r"refused, as it must be: \S")
NOT_PROVED = ("not proved", "no proof: expected")


@dataclass(frozen=True)
class Result:
    """The result of a mutant: whether it was refused, how it was tried, and by which goal or why not."""
    edit: object
    is_refused: bool
    how: str
    goal: str


@dataclass
class Said:
    """The output of a check, and the processor seconds that it took."""
    status: int
    text: str
    seconds: float
    lines: list = field(init=False)

    def __post_init__(self):
        self.lines = self.text.split("\n")

    def verdicts(self, crate, name):
        """The prover's own lines on a function."""
        head = re.compile(rf"fn {crate}::(?:\w+::)*{re.escape(name)}: (.*)")
        return [it[1] for it in map(head.match, self.lines) if it]

    def is_not_proved(self, crate, name):
        return any(it.startswith(NOT_PROVED) for it in self.verdicts(crate, name))

    def own_goals(self, edit):
        """The goals of the edited function that stayed open, each with what it says."""
        function, found = edit.function, {}
        for note in filter(None, map(NOTE.match, self.lines)):
            if note[1] == edit.path and function.first <= int(note[2]) - 1 <= function.last:
                found.setdefault(note[4], note[3])
        of_file = function.name.replace("::", "/")
        for answer in filter(None, map(ANSWER.match, self.lines)):
            if f"/{answer[1]}/".endswith(f"/{of_file}/"):
                found.setdefault(answer[2], answer[3])
        for line in self.verdicts(edit.crate, function.name):
            for name in re.findall(r"`([^`]+)`", "".join(it[0] for it in OPEN.finditer(line))):
                found.setdefault(name, "")
        found.pop("search", None)
        return found

    def proves(self, crate, functions):
        """Whether each of these functions is proved."""
        return all(self.verdicts(crate, it.name) == ["proved"] for it in functions)

    def refuses(self, edit):
        """Whether the edited function is refused, for the sake of a goal of its own."""
        return self.is_not_proved(edit.crate, edit.function.name) and bool(self.own_goals(edit))


def told(goals, clauses=None):
    """Goals in a line: the clauses of the contract that stayed open, else the first three and what the first says."""
    names = [clause_of(it, clauses or {}) for it in goals]
    if clauses and all(names):
        return " ".join("; ".join(dict.fromkeys(names)).split())[:200]
    more = f" and {len(goals) - 3} more" if len(goals) > 3 else ""
    words = next((it for it in goals.values() if it), "")
    return " ".join(f"{', '.join([*goals][:3])}{more}{': ' + words if words else ''}".split())[:200]


def clause_of(goal, clauses):
    """The clause of the contract that a goal at the function's return is of."""
    if not goal.startswith("returns"):
        return ""
    name = goal.rpartition("-clause-")[2] if "-clause-" in goal else ""
    found = clauses.get(name) or (next(iter(clauses.values())) if len(clauses) == 1 else "")
    return f"ensures {name + ' ' if name else ''}{found}" if found else ""


def clauses_of(text, function):
    """The clauses that a function ensures, by their names."""
    head = "\n".join(text.split("\n")[function.first:function.body])
    return dict(CLAUSE.findall(head))


def linked(folder, to):
    """Copies earlier results: what was proved by links, if these can be made, since a check replaces such a file and
    changes none."""
    def copy(one, other):
        try:
            if one.endswith(".oantt"):
                return os.link(one, other)
        except OSError:
            pass
        return shutil.copy2(one, other)

    shutil.copytree(folder, to, copy_function=copy)


def plain_copy(batch):
    """Of the functions that copies in a check are of, the shortest, to be copied unchanged."""
    copied = [it for it in batch if it.is_copied]
    shortest = min(copied, key=lambda it: (it.function.last - it.function.first, it.label), default=None)
    return [replace(shortest, changes=())] if shortest else []


class Bench:
    """A crate, and the folder that the checks of its mutants keep their work in. It begins with a copy of the crate's
    earlier results, or with nothing: then the first check proves what it asks for, with the lemmas that this cites, and
    the next checks take that. If `rt ci` has just proved the crate as it is, a check does not prove again the
    functions that its copies are of, but a copy of one that is unchanged."""

    def __init__(self, rt, crate):
        self.rt, self.crate = rt, crate
        self.is_proved = proving.is_left_by_ci(crate)
        self.folder = Path(crate.folder)
        self.room = tempfile.mkdtemp(prefix="wrong-bodies-")
        self.kept = f"{self.room}/kept"
        self.tried, self.spent, self.said = set(), 0.0, None
        self.begins_anew = not (self.folder / "out/incremental").is_dir()
        if self.begins_anew:
            os.mkdir(self.kept)
        else:
            linked(self.folder / "out/incremental", self.kept)

    def close(self):
        shutil.rmtree(self.room, ignore_errors=True)

    def check(self, texts, only, kept):
        """One check of the crate with these texts instead of its own, of these functions alone or in full."""
        with tempfile.TemporaryDirectory(dir=self.room) as room:
            for part in self.rt.rtlib.PARTS:
                if (self.folder / part).is_dir():
                    shutil.copytree(self.folder / part, f"{room}/{part}")
            for path, text in texts.items():
                Path(room, path).parent.mkdir(parents=True, exist_ok=True)
                Path(room, path).write_text(text)
            words = [*self.rt.rtlib.guarded(), self.rt.rtlib.RATTLE, "check"]
            words += self.crate.words(["--jobs", "1"], keeps=False)
            words += ["--incremental", kept] if kept else []
            said = run([*words, *(word for it in only for word in ("--only", it))], room)
        self.spent, self.said = self.spent + said.seconds, said
        return said

    def is_spoiled(self, said, texts):
        """Whether the text could not be read, or no check came of it."""
        # What a proof names and an edit took away is refused, as it is where the proof is in its own place.
        changed = [it for it in texts if not it.startswith("proofs/")]
        is_unread = any(self.rt.unread(line, changed) for line in said.lines)
        return is_unread or said.status != 1 or not any(it.startswith("only=") for it in said.lines)

    def placed(self, batch):
        """The text of a check of these mutants, and where each of them is in it, with what that check has to
        prove for its sake: the function that it is a copy of, or one copy that is unchanged, for all of them."""
        is_shared = len(batch) > 1
        plain = plain_copy(batch) if is_shared and self.is_proved else []
        texts, found = texts_of(self.folder, [*batch, *plain], lambda it: is_shared and it.is_copied)
        right = [it.function for it in found if it.edit in plain]
        wrong = [it for it in found if it.edit not in plain]
        return texts, {it: right or [it.copied] if it.copied else [] for it in wrong}

    def try_batch(self, batch):
        """Tries mutants in one check, and each that is not refused there for its own sake alone; if the check
        comes to nothing, as by one that can't be read, each half of them."""
        texts, placed = self.placed(batch)
        only = [*(function for right in placed.values() for function in right), *(it.function for it in placed)]
        said = self.check(texts, dict.fromkeys(it.name for it in only), self.kept)
        is_shared = len(batch) > 1
        how = f"with {len(batch) - 1} others" if is_shared else "alone"
        is_spoiled = self.is_spoiled(said, texts)
        if is_spoiled and is_shared:
            yield from self.try_batch(batch[:len(batch) // 2])
            yield from self.try_batch(batch[len(batch) // 2:])
            return
        for it, right in placed.items():
            if not is_spoiled and said.proves(it.crate, right) and said.refuses(it):
                self.tried |= set() if it.copied else {it.function.name}
                yield Result(it.edit, True, how, told(said.own_goals(it), self.clauses(it.edit)))
            elif is_shared:
                yield from self.try_batch([it.edit])
            else:
                yield self.try_in_full(it.edit)

    def asked(self, edit, *kept, only=()):
        """What `rt` makes of a mutant, checked in full or by some functions: whether the prover refuses it, and in
        which words. Some kits of the toolchain tell it by the name of an outcome, others by a truth value."""
        HERE.bench, HERE.only = self, only
        outcome, words = self.rt.must_fail(self.crate, str(edit.file), ["--jobs", "1"], *kept)
        return outcome == getattr(self.rt, "REFUSED", True), words.split(f"{edit.name}: ", 1)[-1]

    def try_by_witnesses(self, edit, goal=""):
        """Tries a mutant that is no function's by a check of the functions in which it is likely to show, and in
        full if none of them is refused; `goal` is what refused it once."""
        only = witnesses_of(self.folder, edit.name, goal)
        is_refused, words = self.asked(edit, self.kept, only=only) if only else (False, "")
        refused = [it for it in only if self.said.is_not_proved(edit.crate, it)] if is_refused else []
        if not refused or not BY_A_GOAL.match(words):
            return self.try_in_full(edit)
        self.tried |= set(refused)
        return Result(edit, True, f"in {refused[0]}", self.first_goals(edit, words))

    def try_in_full(self, edit):
        """Tries a mutant as `rt` does: over the earlier results, and from nothing if it is not refused so; but what
        is proved over work that this run began itself is proved."""
        is_refused, words = self.asked(edit, self.kept)
        is_proved = self.begins_anew and "NOT REFUSED" in words
        if not is_refused and "BAD EDIT" not in words and not is_proved:
            is_refused, words = self.asked(edit)
        return Result(edit, is_refused, "in full", self.first_goals(edit, words) if is_refused else words)

    def first_goals(self, edit, words):
        """The goals that the last check left open, or what `rt` said of the first."""
        goals = {it[4]: it[3] for it in map(NOTE.match, self.said.lines) if it}
        first = re.sub(r"^refused, as it must be(?:: )?", "", words) or "not proved"
        told_goals = told(goals, self.clauses(edit) if edit.function else None) if goals else first
        return " ".join(told_goals.split())

    def clauses(self, edit):
        """The clauses of the edited function's contract."""
        return clauses_of((self.folder / edit.path).read_text(), edit.function)

    def is_sound(self):
        """Whether the functions whose mutants were refused are proved as they are over the same earlier results."""
        return not self.tried or self.check({}, sorted(self.tried), self.kept).status == 0


# The bench that a worker's check by `rt` is made on, and the functions that it asks for, if these are some.
HERE = threading.local()


def lend(rt):
    """Makes `rt` run its checks of mutants on the worker's bench, which counts their time. `rt` knows only how a failed
    check of a whole crate ends, so a failed check of some functions ends in that way here."""
    def checked(_crate, texts, _flags, kept):
        said = HERE.bench.check(texts, HERE.only, kept)
        text = SOME.sub("logic=not-proved", said.text) if HERE.only and said.status == 1 else said.text
        return SimpleNamespace(returncode=said.status, stdout=text)

    rt.checked = checked


def run(words, folder):
    """Runs a command, and reports its processor seconds too."""
    with tempfile.TemporaryFile("w+", errors="replace") as out:
        how = {"cwd": folder, "stdin": subprocess.DEVNULL, "stdout": out, "stderr": subprocess.STDOUT}
        started = subprocess.Popen(words, **how)
        _, status, spent = os.wait4(started.pid, 0)
        started.returncode = os.waitstatus_to_exitcode(status)
        out.seek(0)
        return Said(started.returncode, out.read(), spent.ru_utime + spent.ru_stime)
