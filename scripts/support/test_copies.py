"""Tests of the copies by which scripts/wrong-definitions tries what is wrong."""
import unittest
from pathlib import Path
from types import SimpleNamespace
from unittest import mock

from support.definitions.closed_copies import ClosedCopy
from support.definitions.code_copies import CodeCopy
from support.definitions.copies import Copy, Seeing, texts_of, verdicts_on
from support.definitions.places import declare
from support.definitions.ordering import Ordering, is_definition
from support.definitions.trying import Asking
from support.test_definitions import CRATE, PROVED, OneCrate, Prover
from support.trial import Said


class CopyProver(Prover):
    """A place that is given what the prover says of each copy: of a control, or of what is wrong, by its witness."""

    def check_copies(self, copies, _seconds):
        texts_of(copies)
        self.asked.append([f"{it.witness.name}{' wrong' if it.mutant else ''}" for it in copies])
        told = [(it, self.says.get(one, "fn one::NAME::w: proved\n")) for one, it in zip(self.asked[-1], copies)]
        self.modules |= {it.saved_as for it, text in told if it.is_lemma and " proved" in text}
        return Said(1, "".join(text.replace("NAME", it.name) for it, text in told) + PROVED, 1.0)


def copied(crate, way, called, name, witness, is_wrong=True):
    """A copy of a witness with a wrong definition, or with the one as it is; nothing if none can be made."""
    mutant = crate.mutants[name]
    item = next(it for it in crate.sources.items if it.name == witness)
    made = way(crate.sources, "one", item, mutant.item, mutant if is_wrong else None)
    made.name = called
    return made if made.collect(Seeing(crate.sources, made.is_of_text).of(mutant.item)) else None


REFUSED = ("note: src/NAME.rt:6:1: it is not proved that what it ensures holds (`returns`)\n"
           "fn one::NAME::w: no proof: expected answers in ./proofs/NAME/w/Answers.antt\n")
BROKEN = "./proofs/C1OneShut.antt:6:1: error: `witness`: the two values differ\n"


@mock.patch.dict("support.definitions.trying.WAYS", clause=(Copy,))
class Copies(OneCrate):
    def copy(self, *given):
        return copied(self, Copy, "c0", *given)

    def outcomes(self, says, name):
        """What two rounds make of a wrong definition, and what they ask."""
        asking = Asking(CopyProver(self.crate, says), self.sources, self.some(name))
        found = {}
        for _ in range(2):
            found.update(asking.try_copies([it for it in self.some(name) if it not in found]))
        return [(it.kind, it.item.name) for it in found.values()], asking.place.asked

    def test_a_clause(self):
        texts = self.copy("low", "each#low").texts()
        self.assertEqual(sorted(texts), ["specs/C0OneLow.antt", "src/c0.rt"])
        self.assertIn("low n = 2", texts["specs/C0OneLow.antt"])
        self.assertNotIn("side", texts["specs/C0OneLow.antt"])
        code = texts["src/c0.rt"].split("\n")
        self.assertIn("ghost use Rattle.one.specs.C0OneLow.{low};", code)
        self.assertIn("ghost use Rattle.one.specs.Low.{side, same, shut};", code)
        self.assertEqual(code[-4:], ["fn w()", "    ensures low { low 0 ≡ 1 }", "{}", ""])

    def test_what_is_between(self):
        texts = self.copy("low", "each#both", False).texts()
        self.assertIn("low n = 1", texts["specs/C0OneLow.antt"])

    def test_its_own_answer(self):
        other = "\npub returns-clause-both : goal.returns-clause-both\nreturns-clause-both c = by_hand\n"
        answers = CRATE["proofs/each/Answers.antt"].replace("c = refl", "c = opened")
        self.write({"proofs/each/Answers.antt": f"use Rattle.one.proofs.Shut.{{opened}}\n{answers}{other}",
                    "proofs/Shut.antt": CRATE["proofs/Shut.antt"].replace("opened : shut 0", "opened : shut (low 0)"),
                    "specs/Low.antt": CRATE["specs/Low.antt"].replace("shut n = 4", "shut n = low 4")})
        self.read()
        copy = self.copy("low", "each#high")
        texts = copy.texts()
        self.assertEqual(sorted(texts), ["proofs/C0OneShut.antt", "proofs/c0/w/Answers.antt", "specs/C0OneHigh.antt",
                                         "specs/C0OneLow.antt", "src/c0.rt"])
        text = texts["proofs/c0/w/Answers.antt"]
        self.assertIn("use Rattle.one.proofs.C0OneShut.{opened}\nuse Rattle.one.proofs.c0.w.Goals as goal\n", text)
        self.assertIn("pub returns : goal.returns\nreturns c = record { high = (opened) }\n", text)
        self.assertNotIn("both", text)
        self.assertEqual(copy.alone("returns-clause-high c q r =\n    of q\n"),
                         "returns c = record { high = (λ q r. \n    of q) }")
        # One answer may be to all clauses.
        joint = "pub returns : goal.returns\nreturns c =\n    let a = 1 in\n    record { high = of (b; c); both = d }\n"
        self.assertEqual(copy.alone(joint), joint.replace("; both = d }", "}"))
        found = copy.outcome(["./proofs/c0/w/Answers.antt:5:1: error: `returns`: the two types differ"], "no proof")
        self.assertEqual((found.kind, str(found.item)), ("noticed", "one proofs/each/Answers.antt returns-clause-high"))
        # What leads into another function's proof is left to a check of that.
        self.write({"src/lib.rt": CRATE["src/lib.rt"].replace("{}\n\n///", "{}\n\n/// Other.\n#[tactic(auto, using("
                    "crate::proofs::each::Answers::returns-clause-high))]\nfn other()\n"
                    "    ensures low { low 0 ≡ 1 }\n{}\n\n///")})
        self.read()
        self.assertIsNone(self.copy("low", "other#low"))

    def test_variants_of_what_is_left(self):
        new = "pub data Side : Type 0 where\n  Left : Side\n  Right : Side\n\nabbrev pub low : Side → ℕ\nlow Left = 1\n"
        self.write({"specs/Low.antt": CRATE["specs/Low.antt"].replace("abbrev pub low : ℕ → ℕ\nlow n = 1\n", new)})
        self.read()
        self.assertIn("use Rattle.one.specs.Low.{Side, Left, Right}", self.copy("low", "each#low").texts()[
            "specs/C0OneLow.antt"])

    def test_a_lemma(self):
        texts = self.copy("shut", "opened").texts()
        self.assertEqual(sorted(texts), ["proofs/C0OneShut.antt", "specs/C0OneLow.antt"])
        self.assertIn("shut n = 5", texts["specs/C0OneLow.antt"])
        self.assertIn("pub opened : shut 0 ≡ 4\nunfolding shut\nopened = refl", texts["proofs/C0OneShut.antt"])
        self.assertIn("use Rattle.one.specs.C0OneLow.{shut}", texts["proofs/C0OneShut.antt"])
        self.assertNotIn("named", texts["proofs/C0OneShut.antt"])
        files, functions = texts_of([self.copy("low", "each#low"), self.copy("shut", "opened")])
        first = files["proofs/AllCopies.antt"].split("\n")[0]
        self.assertEqual(first, "use Rattle.one.proofs.C0OneShut.{opened as c0}")
        self.assertEqual(functions, ["all_copies::w", "c0::w"])

    def test_a_definition_for_proofs(self):
        # The original of one would be of the definition as it is.
        more = "\nabbrev pub all_shut : ℕ\nall_shut = shut 0\n\npub by_all : all_shut ≡ 4\nunfolding shut\nby_all = refl\n"
        self.write({"proofs/Shut.antt": CRATE["proofs/Shut.antt"] + more})
        self.read()
        texts = self.copy("shut", "by_all").texts()
        self.assertIn("abbrev pub all_shut : ℕ\nall_shut = shut 0\n", texts["proofs/C0OneShut.antt"])

    def test_a_block_without_a_name(self):
        block = ("\nmodule _ (n : ℕ) where\n  abbrev none : ℕ\n  none = 3\n\n  pub held : shut n ≡ 4\n  unfolding shut\n"
                 "  held = refl\n")
        users = ("\npub guessed : shut 0 ≡ shut _\nguessed = refl\n\nafter : shut 1 ≡ 4\nafter = held 1\n"
                 "\npub last : shut 1 ≡ 4\nlast = after\n")
        self.write({"proofs/Shut.antt": CRATE["proofs/Shut.antt"] + block + users})
        self.read()
        copy = self.copy("shut", "_")
        self.assertIn("module _ (n : ℕ) where\n  abbrev pub none : ℕ\n  none = 3\n\n  pub held", copy.texts()[
            "proofs/C0OneShut.antt"])
        self.assertEqual(copy.import_line, "use Rattle.one.proofs.C0OneShut.{none as c0}")
        # A `_` is not the block.
        self.assertNotIn("module", self.copy("shut", "guessed").texts()["proofs/C0OneShut.antt"])
        # A lemma keeps its name, by which others may name it.
        text = self.copy("shut", "last").texts()["proofs/C0OneShut.antt"]
        self.assertIn("module _ (n : ℕ) where\n  abbrev none", text)
        self.assertIn("pub after : shut 1 ≡ 4\nafter = held 1\n", text)

    def test_a_type_of_code(self):
        # A lemma that names a type does not see the contracts of its functions, nor of those that have its name.
        part = ("//! Parts.\nghost use Rattle.one.specs.Low.{low, same};\n\n/// A part.\npub struct Part {\n"
                "    pub n: u64,\n}\n\nimpl Shows for Part {\n    fn shown(&self) -> u64\n        ensures { result ≡ low 0 }\n    {\n"
                "        1\n    }\n}\n\n/// One.\nfn part() -> u64\n    ensures { result ≡ low 0 }\n{\n    1\n}\n")
        lemma = ("use Rattle.one.specs.declared.part.Part.{Part}\nuse Rattle.one.specs.Low.{low}\n\n"
                 "pub of-part : (p : Part) → low 0 ≡ 1\nof-part p = refl\n")
        whole = "    pub n: u64,\n    ghost whole: { low n ≡ 1 },\n"
        trait = "/// A part.\npub trait Part {\n    fn shown(&self) -> u64\n        ensures { result ≡ low 0 };\n}\n"
        for text, can_be in ((part, True), (part.replace("    pub n: u64,\n", whole), False),
                             (f"{part[:part.index('/// A')]}{trait}", False)):
            self.write({"src/part.rt": text, "proofs/Parts.antt": lemma})
            self.read()
            self.assertEqual(bool(self.copy("low", "of-part")), can_be)
        # Contracts are imported by their own path.
        line = "use Rattle.one.specs.contracts.part.Part\n"
        self.write({"src/part.rt": part, "proofs/Parts.antt": f"{line}{lemma}"})
        self.read()
        self.assertIsNone(self.copy("low", "of-part"))

    def test_code_that_is_not_named(self):
        copy = self.copy("low", "each#low")
        code = "use Rattle.two.specs.declared.fault.Fault.{Fault, Other}"
        other = "use Rattle.two.specs.Low.{one}"
        self.assertEqual(copy.uses(f"{code}\n{other}\n"), [code, other])
        self.assertEqual(copy.uses(f"{code}\n{other}\n", {"Other"}), [code.replace("Fault, ", ""), other])
        self.assertEqual(copy.uses(f"{code}\n{other}\n", {"two"}), [other])

    def test_what_is_handed_on(self):
        # A module that hands a definition on has it as it is.
        words = "pub use Rattle.one.specs.Low.{low, shut as closed}\n"
        lemma = ("use Rattle.one.proofs.Words.{refl, low, closed as c}\n\npub handed : c 0 ≡ 4\nunfolding c\n"
                 "handed = refl\n")
        self.write({"proofs/Words.antt": words, "proofs/Handed.antt": lemma})
        self.read()
        text = self.copy("shut", "handed").texts()["proofs/C0OneHanded.antt"]
        self.assertIn("use Rattle.one.specs.C0OneLow.{shut as c}\n", text)
        self.assertIn("use Rattle.one.proofs.Words.{refl, low}\n", text)
        # By the module's other name it would be found there.
        aliased = "use Rattle.one.proofs.Words as words\n\npub aliased : words.closed 0 ≡ 4\naliased = refl\n"
        self.write({"proofs/Aliased.antt": aliased})
        self.read()
        self.assertIsNone(self.copy("shut", "aliased"))

    def test_a_lemma_that_no_function_imports(self):
        self.write({"src/lib.rt": CRATE["src/lib.rt"][:CRATE["src/lib.rt"].index("/// By lemmas")]})
        self.read()
        asking = Asking(CopyProver(self.crate, {}), self.sources, self.some("shut"))
        self.assertEqual([it.witness.name for it in asking.candidates(self.mutants["shut"], False)], ["opened"])
        self.assertEqual(asking.batches(self.some("shut")), [])

    def test_noticed(self):
        self.assertEqual(self.outcomes({"each#same wrong": REFUSED}, "same"),
                         ([("noticed", "each#same")], [["each#same", "each#same wrong"]]))
        self.assertEqual(self.outcomes({"opened wrong": BROKEN}, "shut")[0], [("noticed", "opened")])

    def test_many_controls(self):
        # Only the controls of what is refused are checked.
        says = {"each#same wrong": REFUSED}
        with mock.patch("support.definitions.trying.MANY", 0):
            asking = Asking(CopyProver(self.crate, says), self.sources, self.some("same", "side"))
            found = asking.try_copies(self.some("same", "side"))
        self.assertEqual([it.item.name for it in found], ["same"])
        first, second = asking.place.asked
        self.assertEqual((len(first), all("wrong" in it for it in first)), (3, True))
        self.assertEqual(second, ["each#same"])
        with mock.patch("support.definitions.trying.MANY", 0):
            says = {"each#same wrong": REFUSED, "each#same": REFUSED}
            asking = Asking(CopyProver(self.crate, says), self.sources, self.some("same", "side"))
            self.assertEqual(asking.try_copies(self.some("same", "side")), {})

    def test_what_is_proved_is_not_noticed(self):
        self.assertEqual(self.outcomes({}, "same")[0], [])
        self.assertEqual(self.outcomes({}, "shut")[0], [])

    def test_a_copy_that_is_refused_as_it_is(self):
        says = {"each#same": REFUSED, "each#same wrong": REFUSED}
        self.assertEqual(self.outcomes(says, "same"), ([], [["each#same", "each#same wrong"]]))
        # Of a lemma that no check read nothing is saved.
        self.assertEqual(self.outcomes({"opened": "\n", "opened wrong": BROKEN}, "shut")[0], [])
        lost = "proofs/C0OneShut.antt:6:1: error: `witness`: `shut` is not in scope\n"
        self.assertEqual(self.outcomes({"opened": f"{lost} proved\n", "opened wrong": BROKEN}, "shut")[0], [])
        # What is refused in one copy says nothing of another.
        self.assertEqual(self.outcomes({"opened": BROKEN.replace("C1", "C7")}, "shut")[0], [])

    def test_no_definition(self):
        error = "specs/C1OneLow.antt:4:1: error: `same`: expected type `ℕ`\nfn one::NAME::w: not proved\n"
        self.assertEqual(self.outcomes({"each#same wrong": error}, "same")[0], [("unread", "same")])


CODE = """//! Parts.
ghost use Rattle.one.specs.Low as def;
ghost use Rattle.one.specs.Low.{low};

use crate::other::Other;

/// A part.
pub struct Part {
    pub n: u64,
    ghost whole: { def.same n ≡ 3 },
}

impl Part {
    /// Its first.
    pub fn first(&self) -> u64
        ensures { result ≡ def.side 0 }
    {
        own()
    }

    /// What its invariant speaks of too.
    pub fn second(&self) -> u64
        ensures { result ≡ def.same 0 }
    {
        self.n
    }
}

/// A number.
fn own() -> u64
    ensures { result ≡ 2 }
{
    2
}

/// Has the name of what it sees.
fn low() -> u64
    ensures { result ≡ low 1 }
{
    1
}

/// Calls one that sees it.
fn calls() -> u64
    ensures { result ≡ low 0 }
{
    low()
}

/// Calls itself.
fn again(n: u64) -> u64
    ensures { result ≡ low n }
{
    again(n)
}
"""
OPEN = "note: src/part/c1.rt:9:5: it is not proved that what it ensures holds (`returns`)\n"


class ClosedCopies(OneCrate):
    def copy(self, *given):
        return copied(self, ClosedCopy, "c1", *given)

    def test_a_lemma_of_it(self):
        copy = self.copy("low", "each#low")
        texts = copy.texts()
        self.assertEqual(sorted(texts), ["proofs/C1OneLib.antt", "specs/C1OneLow.antt"])
        lemma = texts["proofs/C1OneLib.antt"]
        self.assertIn("use Rattle.one.specs.C1OneLow.{low}\n", lemma)
        self.assertIn("\npub witness :\n    low 0 ≡ 1\nwitness = refl\n", lemma)
        self.assertEqual(copy.import_line, "use Rattle.one.proofs.C1OneLib.{witness as c1}")

    def test_what_is_opened(self):
        text = CRATE["src/lib.rt"].replace("fn each", "#[tactic(auto, unfolding(crate::specs::Low::shut))]\nfn each")
        self.write({"src/lib.rt": text.replace("low 0 ≡ 1", "shut 0 ≡ 4")})
        self.read()
        lemma = self.copy("shut", "each#low").lemma()
        self.assertIn("use Rattle.one.specs.C1OneLow.{shut as opened-0}", lemma)
        self.assertIn("shut 0 ≡ 4\nunfolding opened-0\nwitness = refl", lemma)

    def test_what_a_module_around_it_opens(self):
        advice = "#![tactic(auto, unfolding(crate::specs::Low::shut, crate::specs::Low::same))]\n"
        laws = CRATE["src/lib.rt"].replace("low 0 ≡ 1", "shut 0 ≡ 4")
        self.write({"src/examples.rt": f"//! Examples.\n{advice}\nmod some;\n", "src/examples/some.rt": laws,
                    "src/lib.rt": "//! All.\n#![tactic(auto, unfolding(crate::specs::Low::same))]\n\nmod examples;\n",
                    "src/other.rt": "//! Other.\n#![tactic(none)]\n"})
        self.read()
        copy = self.copy("shut", "examples::some::each#low")
        self.assertIn("use Rattle.one.specs.Low.{same as opened-0}\nuse Rattle.one.specs.C1OneLow.{shut as opened-1}\n",
                      copy.lemma())
        self.assertIn("unfolding opened-0 opened-1\n", copy.lemma())
        line = "#![tactic(auto, unfolding(crate::specs::Low::same, crate::specs::C1OneLow::shut))]"
        self.assertEqual([it for it in copy.code().split("\n") if it.startswith("#!")], [line])
        self.assertNotIn("none", copy.code())

    def test_what_is_not_closed(self):
        for new in ("low 0 ≡ 1 → low 0 ≡ 2", "low 0 < 3"):
            self.write({"src/lib.rt": CRATE["src/lib.rt"].replace("low 0 ≡ 1", new)})
            self.read()
            self.assertIsNone(self.copy("low", "each#low"))
        self.assertIsNone(self.copy("shut", "opening#shut"))

    def test_variants(self):
        self.write({"src/lib.rt": CRATE["src/lib.rt"].replace("low 0 ≡ 1", "Kind.One ≡ low 0"),
                    "src/a/kind.rt": "//! Kinds.\n\n/// A kind.\npub enum Kind {\n    One,\n}\n"})
        self.read()
        line = "use Rattle.one.specs.declared.a.kind.Kind.TheVariants as Kind\n"
        self.assertIn(line, self.copy("low", "each#low").lemma())

    def test_a_function_instead(self):
        # What is not computed as it is, is searched for.
        asking = Asking(Prover(self.crate, {}), self.sources, self.some("low"))
        first = next(asking.candidates(self.mutants["low"], False))
        asking.sound[first] = False
        self.assertEqual([type(it).__name__ for it in (first, next(asking.candidates(self.mutants["low"], False)))],
                         ["ClosedCopy", "Copy"])

    def test_refused(self):
        copy = self.copy("low", "each#low")
        said = ["./proofs/C1OneLib.antt:5:1: error: `witness`: the two values differ"]
        found = copy.outcome(said, "")
        self.assertEqual((found.kind, found.item.name), ("noticed", "each#low"))
        self.assertEqual(copy.outcome([], "proved").kind, "proved")
        self.assertIsNone(copy.outcome([], ""))
        self.assertIsNone(copy.outcome([said[0].replace("the two values differ", "it takes too many steps")], ""))


class CodeCopies(OneCrate):
    def setUp(self):
        super().setUp()
        self.write({"src/part.rt": CODE})
        self.read()

    def copy(self, *given):
        return copied(self, CodeCopy, "c1", *given)

    def test_a_method(self):
        copy = self.copy("side", "Part::first")
        texts = copy.texts()
        self.assertEqual(sorted(texts), ["specs/C1OneLow.antt", "src/part/c1.rt"])
        self.assertIn("side n = 3", texts["specs/C1OneLow.antt"])
        code = texts["src/part/c1.rt"]
        for line in ("ghost use Rattle.one.specs.C1OneLow as copied_def;", "use crate::other::Other;",
                     "use super::{Part, own};", "impl Part {\n    /// Its first.\n    pub fn c1_w(&self) -> u64",
                     "ensures { result ≡ copied_def.side 0 }"):
            self.assertIn(line, code)
        self.assertEqual(copy.asked_as, "Part::c1_w")

    def test_a_free_function(self):
        copy = self.copy("low", "part::low")
        self.assertIn("fn c1_w() -> u64\n    ensures { result ≡ low 1 }", copy.texts()["src/part/c1.rt"])
        self.assertIn("ghost use Rattle.one.specs.C1OneLow.{low};", copy.texts()["src/part/c1.rt"])
        self.assertEqual(copy.asked_as, "part::c1::c1_w")

    def test_functions_of_the_same_name(self):
        # Only what is called in a body is called.
        named = "impl Part {\n    /// As the other.\n    pub fn low(&self) -> u64\n        ensures { result ≡ def.low 0 }\n"
        self.write({"src/part.rt": CODE.replace("impl Part {\n", f"{named}    {{\n        1\n    }}\n\n", 1)})
        self.read()
        self.assertIsNotNone(self.copy("low", "part::low"))
        self.assertIsNone(self.copy("low", "part::calls"))
        item = next(it for it in self.sources.items if it.name == "each#low")
        clause = Copy(self.sources, "one", item, self.mutants["low"].item)
        self.assertTrue(clause.collect(Seeing(self.sources, True).of(clause.definition)))

    def test_its_own_proof(self):
        # That of a function in its folder is another's.
        whole = "use Rattle.one.proofs.part.Part.first.Goals as goal\n\npub returns : goal.returns\nreturns c = refl\n"
        self.write({"proofs/part/Part/first/Answers.antt": whole, "src/part/Part.rt": "//! Not it.\n",
                    "src/part/Part/first.rt": "//! Not it.\n\n/// Deeper.\nfn deep()\n{}\n",
                    "proofs/part/Part/first/deep/Answers.antt": whole.replace("first", "first.deep")})
        self.read()
        copy = self.copy("side", "Part::first")
        texts = copy.texts()
        self.assertEqual(sorted(texts), ["proofs/part/c1/Part/c1_w/Answers.antt", "specs/C1OneLow.antt", "src/part/c1.rt"])
        self.assertIn("use Rattle.one.proofs.part.c1.Part.c1_w.Goals as goal\n",
                      texts["proofs/part/c1/Part/c1_w/Answers.antt"])

    def test_what_else_would_have_to_be_wrong(self):
        self.assertIsNone(self.copy("low", "part::calls"))
        self.assertIsNone(self.copy("low", "part::again"))
        self.assertIsNone(self.copy("same", "Part::second"))

    def test_its_module_is_declared(self):
        declare(self.room.name, "src/part/c1.rt", False)
        declare(self.room.name, "src/c2.rt", False)
        for path, last in (("src/part.rt", "mod c1;"), ("src/lib.rt", "mod c2;")):
            self.assertEqual(Path(self.room.name, path).read_text().split("\n")[-2], last)

    def test_noticed(self):
        copy = self.copy("side", "Part::first")
        for verdict, text, kind in (("not proved", OPEN, "noticed"), ("proved", "", "proved")):
            said = f"{text}fn one::part::c1::Part::c1_w: {verdict}\n".split("\n")
            found = copy.outcome(said, verdicts_on([copy], said, set())[copy])
            self.assertEqual((found.kind, found.item.name), (kind, "Part::first"))
        self.assertIsNone(copy.outcome(["fn one::Part::c1_w: not proved"], "not proved"))


class Choosing(OneCrate):
    def test_what_says_nothing_that_can_be_refused(self):
        self.write({"proofs/Shut.antt": "pub Is : ℕ → Type 0\nIs n = n ≡ 4\n\nrecord Is (n : ℕ) : Type 0 where\n  a : ℕ\n"
                    "\nholds : (n : ℕ) → Is n → n ≡ 4\nholds n e = e\n"})
        self.read()
        found = {it.name: is_definition(it) for it in self.sources.items if it.path == "proofs/Shut.antt"}
        self.assertEqual(found, {"Is": True, "holds": False})

    def test_the_likeliest_first(self):
        def order(rule, body):
            item = SimpleNamespace(head="a", body=body, shown={shut.item}, inner=set(), opens=set(), kind="proofs")
            wrong = SimpleNamespace(item=shut.item, label=f"Low shut: {rule}", crate="one", path="specs/Low.antt")
            return Ordering(self.sources).order(item, wrong)

        shut = self.mutants["shut"]
        self.assertLess(order("leaves place", "b = c.place"), order("leaves place", "b = refl"))
        self.assertLess(order("leaves place", "b = refl"), order("leaves place", "b = c.placed"))
        self.write({"specs/Low.antt": CRATE["specs/Low.antt"].replace("shut n = 4", "shut (Some n) = 4\nshut None = 5")})
        self.read()
        shut = self.mutants["shut"]
        self.assertLess(order("case 2 number 1 is 6", "b = None"), order("case 2 number 1 is 6", "b = Some n"))


if __name__ == "__main__":
    unittest.main()
