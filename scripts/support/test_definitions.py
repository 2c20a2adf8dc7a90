"""Tests of the rules by which scripts/wrong-definitions makes definitions wrong, and of its batches."""
import tempfile
import unittest
from pathlib import Path
from types import SimpleNamespace

from support.definitions.batches import Witnesses, batches_of, merged
from support.definitions.book import Book, mutants_of
from support.definitions.citing import Sources
from support.definitions.command import incomplete
from support.definitions.reading import definitions_of
from support.definitions.refusals import Outcome, Reading
from support.definitions.rules import wrong_definitions
from support.definitions.trying import Asking, Trying
from support.trial import Said

TEXT = """-- A module.
use Rattle.std.specs.Prelude.{◌≡◌, ◌&&◌, ℕ, Bool, Option, None, Some}
use Rattle.low.specs.State.{State}

-- Whether a number waits.
pub record Waits (s : State) (n : ℕ) : Type 0 where
  pub place : ℕ
  pub found : s.first ≡ n

-- Who may come in.
abbrev pub may : Option ℕ → State → Bool
may None s = s.open && s.ready
may (Some n) s = nat_le n 7

-- as it was left
unfoldable pub left : ℕ → State → State
left n s = record s { first = n; open = 0x10 }

-- A law.
abbrev pub Stays : Type 0
Stays =
    (s : State) → (n : ℕ) → Waits s n
    → left n s ≡ s

abbrev pub Either : Option ℕ → Type 0
Either None = ⊥
Either (Some n) = (n ≡ 1) × Waits s
    n × Even n

abbrev pub Both : ℕ → Type 0
Both n =
    (n ≡ 1)
    × Even n
"""


def changed(name, rule):
    """The lines that a wrong definition has and the text has not."""
    found = [it for it in wrong_definitions(TEXT) if (it.name, it.rule) == (name, rule)]
    assert len(found) == 1, (name, rule, [(it.name, it.rule) for it in wrong_definitions(TEXT)])
    return [it for it in found[0].text.split("\n") if it not in TEXT.split("\n")]


class Parts(unittest.TestCase):
    def test_definitions(self):
        read = [(it.name, it.gives, it.is_record, len(it.cases)) for it in definitions_of(TEXT)]
        self.assertEqual(read, [("Waits", "", True, 2), ("may", "Bool", False, 2), ("left", "", False, 1),
                                ("Stays", "Type 0", False, 1), ("Either", "Type 0", False, 2),
                                ("Both", "Type 0", False, 1)])


class Rules(unittest.TestCase):
    def test_cases(self):
        words = "use Rattle.std.specs.Prelude.{◌≡◌, ◌&&◌, ℕ, Bool, Option, None, Some, true}"
        self.assertEqual(changed("may", "case 1 is true"), [words, "may None s = true"])
        self.assertEqual(changed("may", "case 2 is false")[1], "may (Some n) s = false")
        self.assertEqual(changed("Either", "case 1 is Unit"), ["Either None = Unit {0}"])

    def test_neighbours(self):
        # What the next case says is taken only if it speaks of nothing that this one lacks.
        rules = [(it.name, it.rule) for it in wrong_definitions(TEXT)]
        self.assertNotIn(("may", "case 1 is the next case"), rules)
        self.assertNotIn(("Either", "case 1 is the next case"), rules)

    def test_conjuncts(self):
        self.assertEqual(changed("may", "case 1 lacks conjunct 1")[-1], "may None s = true && s.ready")
        self.assertEqual(changed("may", "case 1 lacks conjunct 2")[-1], "may None s = s.open && true")
        self.assertEqual(changed("Either", "case 2 lacks conjunct 1"), ["Either (Some n) = Unit {0} × Waits s"])
        self.assertEqual(changed("Either", "case 2 lacks conjunct 3"), ["    n × Unit {0}"])
        self.assertEqual(changed("Both", "lacks conjunct 1"), ["Both n = Unit {0} × Even n"])
        self.assertEqual(changed("Both", "lacks conjunct 2"), ["    × Unit {0}"])

    def test_records(self):
        self.assertEqual(changed("Waits", "field found says nothing"), ["  pub found : Unit {0}"])
        self.assertNotIn("field place says nothing", [it.rule for it in wrong_definitions(TEXT)])

    def test_updates(self):
        self.assertEqual(changed("left", "leaves first"), ["left n s = record s { open = 0x10 }"])
        self.assertEqual(changed("left", "leaves open"), ["left n s = record s { first = n;}"])

    def test_names(self):
        text = TEXT.replace("record s { first = n; open = 0x10 }", "twice (record s { open = n }) (record s { open = 3 })")
        found = [it.rule for it in wrong_definitions(text) if it.name == "left"]
        self.assertEqual(found, ["leaves open", "leaves open, 2", "number 1 is 4"])

    def test_numbers(self):
        self.assertEqual(changed("left", "number 1 is 17"), ["left n s = record s { first = n; open = 17 }"])
        self.assertEqual(changed("may", "case 2 number 1 is 8"), ["may (Some n) s = nat_le n 8"])
        self.assertEqual(changed("Either", "case 2 number 1 is 2"), ["Either (Some n) = (n ≡ 2) × Waits s"])

    def test_laws(self):
        # What a law says is not made true: nothing would be left to notice it.
        self.assertEqual([it.rule for it in wrong_definitions(TEXT) if it.name == "Stays"], [])


# A crate with four definitions, of which `high` rests on `low`, and `shut` is shut; a lemma that opens it and one that
# does not; and laws.
CRATE = {
    "specs/Low.antt": """-- A module.
use Rattle.std.specs.Prelude.{ℕ}

abbrev pub low : ℕ → ℕ
low n = 1

abbrev pub side : ℕ → ℕ
side n = 2

abbrev pub same : ℕ → ℕ
same n = 3

unfoldable pub shut : ℕ → ℕ
shut n = 4
""",
    "specs/High.antt": """use Rattle.one.specs.Low.{low}

abbrev pub high : ℕ → ℕ
high n = low 5
""",
    "proofs/Shut.antt": """use Rattle.one.specs.Low.{shut}

pub named : shut 0 ≡ shut 0
named = refl

pub opened : shut 0 ≡ 4
unfolding shut
opened = refl
""",
    "proofs/each/Answers.antt": """use Rattle.one.proofs.each.Goals as goal

pub returns-clause-high : goal.returns-clause-high
returns-clause-high c = refl
""",
    "src/lib.rt": """//! Laws.
ghost use Rattle.one.specs.Low.{low, side, same, shut};
ghost use Rattle.one.specs.High.{high};

/// What each is.
fn each()
    ensures low { low 0 ≡ 1 }
    ensures side { side 0 ≡ 2 }
    ensures same { same 0 ≡ same 1 }
    ensures high { high 0 ≡ 1 }
    ensures both { low 0 ≡ side 0 }
{}

/// By lemmas.
#[tactic(auto, using(crate::proofs::Shut::named, crate::proofs::Shut::opened))]
fn opening()
    ensures shut { shut 0 ≡ 4 }
{}
""",
}
PROVED = "only=1 proved=1\n"


def goal(clause, line=6):
    return f"note: src/lib.rt:{line}:1: it is not proved that what it ensures holds (`returns-clause-{clause}`)\n"


class Complete(unittest.TestCase):
    def test_record_or_reason(self):
        books = {"low": SimpleNamespace(same={"one": "why"}), "high": SimpleNamespace(same={"gone": "why"})}
        lacking = [SimpleNamespace(crate="low", label="one"), SimpleNamespace(crate="low", label="two")]
        self.assertEqual([it.partition(":")[0] for it in incomplete(books, lacking)], ["low two", "high gone"])


class Prover:
    """A place whose prover has its output given: the text for the definitions of a batch, by their names."""

    def __init__(self, crate, says):
        self.asker = self.wrong = crate
        self.says, self.asked, self.modules = says, [], set()

    def saved(self):
        return self.modules

    def check(self, batch, only, *_):
        names = " ".join(sorted(it.item.name for it in batch))
        self.asked.append(names if only else f"{names} in full")
        text = self.says.get(self.asked[-1], "")
        return Said(1 if text else 0, text + PROVED, 1.0)

    def check_copies(self, _copies, _seconds):
        return Said(1, PROVED, 1.0)


class OneCrate(unittest.TestCase):
    def setUp(self):
        self.room = tempfile.TemporaryDirectory()
        self.addCleanup(self.room.cleanup)
        self.write(CRATE)
        self.crate = SimpleNamespace(name="one", folder=self.room.name, below=lambda: [], of_kit=["std"])
        self.read()

    def write(self, files):
        for path, text in files.items():
            Path(self.room.name, path).parent.mkdir(parents=True, exist_ok=True)
            Path(self.room.name, path).write_text(text)

    def read(self):
        self.sources = Sources({"one": self.crate})
        found = list(mutants_of(self.crate, self.sources))
        self.mutants = {name: [it for it in found if it.item.name == name][0]
                        for name in ("low", "side", "same", "shut", "high")}

    def some(self, *names):
        return [self.mutants[it] for it in names]

    def witnesses(self, *names):
        return Witnesses(self.sources, "one", [it.item for it in self.some(*names)])

    def asking(self, says, *names):
        return Asking(Prover(self.crate, says), self.sources, self.some(*names))

    def reading(self, text, *names):
        return {one.item.name: it.kind for one, it in
                Reading(Said(1, text + PROVED, 1.0), self.sources, "one", self.some(*names)).outcomes.items()}


# A trait, a type that is one, and a function that calls it.
TRAIT = """//! A medium.

pub trait Medium {
    fn count(&self) -> u8
        ensures { result ≡ 1 };
}

pub struct Memory;

impl Memory {
    ghost use Rattle.one.specs.Low.{low};
    ghost use Rattle.one.specs.High.{
      high,
    };

    fn own(&self) -> u8
        ensures { result ≡ 2 }
    {
        2
    }
}

impl Medium for Memory {
    fn count(&self) -> u8 {
        1
    }
}

pub fn asks(memory: &Memory) -> u8
    ensures { result ≡ 1 }
{
    memory.count()
}
"""


class RestsOn(OneCrate):
    def texts(self, *changes):
        text = TRAIT
        for old, new in changes:
            self.assertIn(old, text)
            text = text.replace(old, new, 1)
        self.write({"src/trait.rt": text})
        self.read()
        asks = [it for it in self.sources.files["one", "src/trait.rt"].items if it.name.endswith("asks")]
        return self.sources.basis_texts(asks)

    def test_a_method_that_promises_what_its_trait_says(self):
        self.assertTrue(any(name == "Medium::count" for _, _, name, *_ in self.texts()))
        self.assertFalse(any(name == "MemoryMedium::count" for _, _, name, *_ in self.texts()))
        gone = "impl Medium for Memory {\n    fn count(&self) -> u8 {\n        1\n    }\n}\n\n"
        self.assertEqual(self.texts((gone, "impl Medium for Memory {\n}\n\n")), self.texts())

    def test_a_method_with_clauses_of_its_own(self):
        clause = ("fn count(&self) -> u8 {", "fn count(&self) -> u8\n        ensures { result ≡ 1 }\n    {")
        self.assertTrue(any(name == "MemoryMedium::count" for _, _, name, *_ in self.texts(clause)))
        self.assertNotEqual(self.texts(("ensures { result ≡ 1 };", "ensures { result ≡ 3 };")), self.texts())

    def test_an_import(self):
        other = self.texts(("    ghost use Rattle.one.specs.High.{\n      high,\n    };\n", ""))
        self.assertEqual(other, self.texts())


class Batches(OneCrate):
    def test_dependent_ones_are_apart(self):
        names = ("high", "low", "side", "same", "shut")
        found = [sorted(it.item.name for it in batch)
                 for batch in batches_of(self.some(*names), self.witnesses(*names), {}, 8)]
        self.assertEqual(found, [["high", "same", "shut", "side"], ["low"]])
        twice = [self.mutants["side"], self.mutants["side"]]
        self.assertEqual(len(batches_of(twice, self.witnesses("side"), {}, 8)), 2)

    def test_shut_definitions(self):
        seen = {it.item.name for it in self.witnesses("shut").all}
        self.assertEqual(seen, {"opened"})

    def test_texts(self):
        text = merged(CRATE["specs/Low.antt"], [it.bare for it in self.some("low", "same")])
        changed = [it for it in text.split("\n") if it not in CRATE["specs/Low.antt"].split("\n")]
        self.assertEqual(changed, ["low n = 2", "same n = 4"])

    def test_each_by_its_own(self):
        self.assertEqual(self.reading(goal("low") + goal("same"), "low", "side", "same"),
                         {"low": "noticed", "same": "noticed"})

    def test_one_that_means_the_same(self):
        # It stays unnoticed next to one that is noticed, and alone.
        trying = Trying(None, self.sources, self.crate, self.some("low", "same"), [])
        trying.askings["one"] = self.asking({"low same": goal("low")}, "low", "same")
        found = {one.item.name: it.kind for one, it in trying.settle([trying.wrong])}
        self.assertEqual(found, {"low": "noticed", "same": "unnoticed"})
        self.assertEqual(trying.askings["one"].place.asked, ["low same", "same", "same in full"])

    def test_one_that_is_no_definition(self):
        error = "specs/Low.antt:5:1: error: `low`: expected type `ℕ`\n"
        lost = "proofs/each/Answers.antt:4:5: error: 1 declaration that depends on `low`, which was not admitted, " \
               "was not checked: returns-clause-high\n"
        self.assertEqual(self.reading(error + lost + goal("side"), "low", "side", "same"),
                         {"low": "unread", "side": "noticed"})
        missing = "specs/Low.antt:5:1: error: `low`: `m` is not in scope\n"
        self.assertEqual(self.reading(missing, "low", "side"), {"low": "unread"})
        self.assertEqual(self.reading(missing.replace("specs/Low", "proofs/Shut"), "low", "shut"), {})
        # What rests on it says nothing of another, and is asked again.
        self.assertEqual(self.reading(error + goal("both"), "low", "side"), {"low": "unread"})
        asking = self.asking({"high side": error + goal("high")}, "high", "side")
        self.assertEqual(asking.try_batch(self.some("high", "side")), {})
        self.assertEqual({it.item.name: len(tried) for it, tried in asking.tried.items()}, {"high": 0, "side": 1})

    def test_what_seems_to_rest_on_each_other(self):
        names = ("low", "high", "opened")
        low, high, opened = (next(it for it in self.sources.items if it.name == name) for name in names)
        low.shown |= {high, opened}
        opened.shown.add(low)
        first = "specs/Low.antt:5:1: error: `low`: expected type `ℕ`\n"
        second = "specs/High.antt:4:1: error: `high`: expected type `ℕ`\n"
        self.assertEqual(self.reading(first + second, "low"), {"low": "unread"})
        # One alone is tried again: its crate is not proved.
        lemma = "proofs/Shut.antt:7:1: error: `opened`: the two values differ\n"
        asking = self.asking({"low": second + lemma, "low in full": second + lemma}, "low")
        high.shown.add(opened)
        self.assertEqual(asking.try_again(self.mutants["low"], None).kind, "unread")
        self.assertIsNone(self.asking({}, "low").try_again(self.mutants["low"], None))

    def test_a_refusal_that_sees_two(self):
        self.assertEqual(self.reading(goal("both"), "low", "side"), {})
        trying = Trying(None, self.sources, self.crate, self.some("same", "side"), [])
        says = {"same side": goal("both"), "side": goal("both")}
        trying.askings["one"] = self.asking(says, "same", "side")
        found = {one.item.name: it.kind for one, it in trying.settle([trying.wrong])}
        self.assertEqual(found, {"side": "noticed", "same": "unnoticed"})
        asking = self.asking({"low side in full": goal("both")}, "low", "side")
        self.assertEqual(asking.try_group(self.some("low", "side")), {})
        self.assertEqual(asking.place.asked, ["low side in full", "low in full", "side in full"])

    def test_what_says_nothing(self):
        text = ("note: src/lib.rt:6:1: `search` gave up\nsrc/lib.rt:6:1: warning: (`returns-clause-low`)\n"
                "fn one::each: not proved\nfn one::opening: no proof: it calls `one::each`, which is not proved\n")
        self.assertEqual(self.reading(text, "low", "side"), {})
        self.assertEqual(self.reading(goal("low"), "side"), {})
        # A file is that of the copy, of the crate that is asked, or of the one that its folder names.
        error = "specs/Low.antt:5:1: error: `low`: expected type `ℕ`\n"
        for folder, found in (("a/wrong/", {"low": "unread"}), ("a/crates/one/", {"low": "unread"}),
                              ("a/crates/two/", {})):
            self.assertEqual(self.reading(folder + error, "low", "side"), found, folder)
        # A check that did not end is not believed.
        lost = Reading(Said(-9, goal("low"), 1.0), self.sources, "one", self.some("low"))
        self.assertEqual((lost.is_lost, lost.outcomes), (True, {}))

    def test_records(self):
        def book():
            digests = SimpleNamespace(logic="logic", of_crate=lambda crate: "crate")
            return Book(self.crate, {"one": self.crate}, digests, self.sources)

        mine = book()
        clause = next(it for it in self.sources.items if it.name == "each#low")
        mine.take(self.mutants["low"], Outcome("noticed", "one", clause, "returns-clause-low: it holds"))
        mine.take(self.mutants["same"], Outcome("unnoticed", "one", None, ""))
        mine.write()
        self.assertEqual([book().is_recorded(it) for it in self.some("low", "same")], [True, False])
        for old, new, stays in [("side n = 2", "side n = 7", True), ("low n = 1", "low n = 6", False)]:
            self.write({"specs/Low.antt": CRATE["specs/Low.antt"].replace(old, new)})
            self.read()
            self.assertEqual(book().is_recorded(self.mutants["low"]), stays, new)


if __name__ == "__main__":
    unittest.main()
