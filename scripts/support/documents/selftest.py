"""Tries the checks on a copy of the repository with faults in it: each must be found, and nothing else."""
import shutil
import tempfile
from pathlib import Path
from typing import Callable, Iterator, List

from support.documents import spellings, wording
from support.documents.names import PICTURE
from support.documents.texts import FOLDERS, TOP_TEXTS, Finding

# Appended to README.md, each with what must be told of it.
APPENDED = (
    ("[a link](docs/GONE.md)", "a link to docs/GONE.md, which is missing"),
    ("[a link](docs/USING.md#gone)", "a link to #gone, which docs/USING.md has not"),
    ("[`sq_tail`](crates/nvme_gone/src/lib.rt)", "a link to crates/nvme_gone/src/lib.rt, which is missing"),
    ("[`run_is_determined`](crates/nvme_ring/src/lib.rt)",
     "a link to run_is_determined, which nvme_ring/src/lib.rt does not define"),
    ("`docs/GONE.md`", "docs/GONE.md is missing"),
    ("`nvme_spec/specs/Gone`", "nvme_spec/specs/Gone is missing"),
    ("words, and `scripts/gone\n--all`", "scripts/gone is missing"),
    ("`gone.nvme`", "no file is called gone.nvme"),
    ("`nvme_gone`", "crates.txt has no crate nvme_gone"),
    ("`GoneDefinition`", "no definition or function is called GoneDefinition"),
    ("`Step M.tells gone_state`", "no definition or function is called gone_state"),
    ("`Fleet::gone_call`", "no definition or function is called gone_call"),
    ("Carried by `run_is_determined` and `apply`.", "no law is called apply"),
    ("| a | b |\n|---|---|\n| c | d | e |", "3 cells in the row of a table of 2"),
    ("| a | b |\n|---|---|\n| c |" + " word" * 41 + " |", "a cell of 41 words; at most 40 are allowed"),
    ("    Step tells old = new", "code in an indented block"),
    ("```\nabbrev pub one : ℕ\n```", "code without a mark"),
    ("<!-- excerpt: crates/gone.antt -->\n```\none\n```", "an excerpt of crates/gone.antt, which is missing"),
    ("words " * 20 + "words", "125 columns; at most 120 are allowed"),
    ("words\n" * 40, "lines; at most 120 are allowed"),
    ("blanks ", "blanks at the end of the line"),
    ("it is in /" + "work/there", "a path of a machine: /" + "work"),
)
# A file, a text in it, what is put in its place, and what must be told of it; {line} is the line of the text.
CHANGED = (
    ("docs/PROVED.md", "seen new = Reacts old k (after_fetch q)", "seen new = Reacts old q (after_fetch q)",
     "not so in crates/nvme_machine/specs/Subsystems.antt"),
    # A premise is left out, a last clause is, and an elision stands for another premise.
    ("docs/THEOREMS.md", "    → DifferIn n old.world old.device medium\n", "",
     "Secrecy.antt: abbrev pub FencedReading "),
    ("docs/THEOREMS.md", "Run tells old (event ∷ events) [] new = ⊥\n", "", "Subsystems.antt: abbrev pub Run "),
    ("docs/THEOREMS.md", "FencingHolds =\n    (old new : Subsystem)",
     "FencingHolds =\n    ..\n    (old mid : Subsystem)", "Fencing.antt: abbrev pub FencingHolds"),
    ("docs/THEOREMS.md", "[`OpeningIsLaidOut`](", "[`Places`](",
     "a link to Places, which nvme_spec/specs/Layout.antt does not define"),
    ("docs/PROVED.md", "### nvme_mem\n", "### nvme_memory\n", "nvme_memory is no crate, or is not here exactly once"),
    ("docs/PROVED.md", "`nvme_refusals`, `nvme_bench`, `controller_tests`", "`nvme_refusals`, `controller_tests`",
     "nvme_bench is no crate, or is not here exactly once"),
    ("docs/PROVED.md", "| `Statuses`, `Limits` |", "| `Statuses` |", "no table has the module Limits"),
    ("docs/CONTRIBUTING.md", "`nvme_exec/specs/Carrying.antt`", "`nvme_exec/specs`",
     "no list has crates/nvme_exec/specs/Carrying.antt, which names Compare"),
    ("docs/ARCHITECTURE.md", "| `nvme_ring` |", "| `nvme_wire` |", "no table has the crate nvme_ring"),
    # The table of calls, the list of those that take memory, and one spelling of each rule; spellings.py has the others.
    ("docs/ARCHITECTURE.md", "| `Window::new`, `MemMedium", "| `Window::store`, `MemMedium", "no public call Window::store takes memory"),
    ("crates/nvme_medium/src/file.rt", "\nimpl<F: RawFile> FileMedium<F> {",
     "\nimpl<F: RawFile> Drop /* as it goes */ for FileMedium<F> { fn drop(self) {} }\n\nimpl<F: RawFile> FileMedium<F> {",
     "file.rt:13: FileMedium has its own Drop"),
    ("crates/nvme_subsys/src/power.rt", "controllers[i].power_cycle();",
     "mem :: forget(&controllers[i]); controllers[i].power_cycle();", "or a leak: mem::forget"),
    ("crates/nvme_live/src/session.rt", "\nuse ", "\nuse std::mem::*;\nuse ", "std::mem::* is not known to take no memory"),
    ("crates/nvme_medium/src/lanes.rt", "\nfn ", "\nmacro_rules! grow { () => {} }\n\nfn ", "a macro, whose uses no check reads"),
    ("crates/nvme_medium/src/memory.rt", "        let at = 512 * i as usize;\n        self.",
     "        let at = 512 * i as usize;\n        let _more = Vec::reserve(&mut self.bytes, 1 << 30);\n        self.",
     "MemMedium::write has Vec::reserve 1 times, and 0 are listed"),
    ("crates/nvme_library/src/events.rt", "    apply_event(alloc, sim, Event::PowerCycle)",
     "    let _ = nvme_medium::MemMedium::new(alloc, &[]);\n    apply_event(alloc, sim, Event::PowerCycle)",
     "nvmesim_power_cycle has MemMedium::new 1 times, and 0 are listed"),
    ("crates/nvme_medium/src/host.rt", "//! A file", "//!\n//! A file", "crates/nvme_medium/src/host.rt has"),
    ("crates/nvme_ring/src/cq_head.rt", "\nuse ", "\nuse std::fs::File;\nuse ", "cq_head.rt calls the system, and no row"),
    ("docs/PROVED.md", "| `crates/nvmelive/src/main.rt` |", "| `crates/nvme_mem/src/window.rt` |",
     "window.rt does not call the system"),
    ("crates/nvme_live/src/reading.rt", "line.extend_from_slice(&bytes[..room])", "line.is_empty()",
     "keep has .extend_from_slice 0 times, and 1 are listed"),
    ("crates/nvme_ring/src/sq_tail.rt", "    pub fn ",
     "    pub fn long() {\n" + "        let _one = 1;\n" * 38 + "    }\n\n    pub fn ",
     "long has 40 lines; at most 39 are allowed"),
    ("crates/nvme_ring/src/cq_head.rt", "    pub fn ",
     "    pub fn wide(&mut self, a: (u8, u8), b: [u8; 2], c: Result<u8, u8>, d: u8, e: u8, f: u8,\n        g: u8) {}\n\n"
     "    pub fn ", "wide has 7 parameters; at most 6 are allowed"),
    ("crates/nvme_ring/src/lib.rt", "//! ", "//! \n" * 500 + "//! ", "lines; at most 499 are allowed"),
    ("crates/controller_tests/src/tests/ns.rt", "        nsid: 3,\n        blocks: 0,\n", "        nsid: 3, blocks: 0,\n",
     "tests::ns::faults_are_named') has 42, and 43 are allowed"),
    ("crates/nvme_ring/proofs/Turns.antt", "\npub next_within :", "\npub next_within" + " " * 110 + ":",
     "columns; at most 120 are allowed"),
    # A word that has a better form; wording.py has a sentence for each.
    ("bench/FIGURES.md", "The gate measures none", "The gate\nmeasures behind none",
     "FIGURES.md:4: 'behind': write after"),
    # Comments of each language: of a crate and its proofs, a docstring, whole lines of a script, of Rust and of C.
    ("crates/nvme_ring/src/cq_tail.rt", "for which there must be room.", "for a ring with so many slots.",
     "cq_tail.rt:{line}: 'so many': write the quantity's name"),
    ("crates/nvme_ring/proofs/Turns.antt", "by cases, the", "by cases, in place of the",
     "Turns.antt:{line}: 'in place of': write instead of"),
    ("clients/python/nvmesim/looks.py", "The next word, after its label", "The next word, behind its label",
     "looks.py:{line}: 'behind': write after"),
    ("scripts/first-run", "# ", "# It stands\n# on others. ", "first-run:{line}: 'stands': write is"),
    ("clients/nvme-tcp/src/transport/output.rs", "/// Number of bytes sent.", "/// So many bytes were sent.",
     "output.rs:{line}: 'So many': write the quantity's name"),
    ("clients/c/nvmesim.h", "Borrowed bytes are yours again", "Lent bytes are yours again", "'Lent': write borrowed"),
    # Words of clients and scripts alone: a docstring, messages of each language, trailing comments, a help text.
    ("clients/fence/nvmefence/keys.py", "Keys of nodes, made from names.", "Keys of nodes, or an empty text.",
     "keys.py:{line}: 'empty text': write empty string"),
    ("clients/python/nvmesim/session.py", '"the session was not started"', '"the session is under way"',
     "session.py:{line}: 'under way': write in progress"),
    ("clients/rust/src/refusal.rs", '"the bytes are not a whole number of blocks"', '"the bytes are what came of a Read"',
     "'what came of': write result"),
    ("clients/nvme-cli/tests/client/support.c", "instead of %#llx", "in place of %#llx", "support.c:{line}: 'in place of'"),
    ("scripts/clients", "there is no pytest;", "it goes on without pytest;", "clients:{line}: 'goes on': write continue"),
    ("clients/python/examples/fencing.py", "what it has fetched in any order", "its commands where there are some",
     "fencing.py:{line}: 'where there are': write if"),
    ("clients/c/nvmesim.h", "/* there was no command to fetch */", "/* blocks, one at least */",
     "nvmesim.h:{line}: 'one at least'"),
    ("clients/python/nvmesim/conform/command.py", "the number of the first scene", "the scene that shall be first",
     "command.py:{line}: 'shall': write must"),
    (PICTURE, ">nvme_ring<", ">nvme_rings<", "nvme_rings is there twice, or is no crate"),
    (PICTURE, 'x="433" y="120">controller_tests', 'x="311" y="120">controller_tests',
     "controller_tests covers another crate"),
    ("man/nvmesim.1", "\nfetch C Q\n", "\nfetch C\n", "no line fetch C Q"),
    ("man/nvmelive.1", "\n?queues C\n", "\n?queue C\n", "no line ?queues C"),
    ("nvmesim", "print the path of the program", "show the path of the program", "man/nvmesim.1:1: its options are not"),
    ("clients/nvme-tcp/src/options.rs", "print the path of the program", "show the path of the program",
     "man/nvmetcp.1:1: its options are not"),
    ("README.md", "docs/pictures/timeline.svg", PICTURE, "does not show docs/pictures/timeline.svg"),
    ("docs/pictures/timeline.svg", ">ring 2<", ">ring 1<", "its events are not those of crates/nvme_examples"),
    ("docs/TUTORIAL.md", "<!-- file: agent.py -->", "<!-- file: agents.py -->", "no file is called agent.py"),
    ("crates/nvme_mailbox/src/laws.rt", "ensures unseen { UnseenNeverComes }", "ensures unseen { tt }",
     "no definition is stated by trouble_never_comes"),
    ("crates/nvme_spec/specs/Pointer.antt", "abbrev pub pointer_fault :", "abbrev pub pointer_faults :",
     "pointer_fault of crates/nvme_spec/specs/Pointer is imported but not found there"),
)
# What else is told of these.
ALSO = ("no definition or function is called nvme_gone", "layers.svg:1: nvme_ring is missing",
        "nvme_mem is no crate, or is not here exactly once", "Window::new takes memory, and no row",
        "crates/nvmelive/src/main.rt calls the system",
        # What these spellings have beside the one that they are told by.
        "nvme_subsys/src/power.rt", "nvme_library/src/events.rt", "nvme_medium/src/memory.rt")


def copy_of(top: Path, room: Path) -> Path:
    """The repository's texts."""
    copy = room / "copy"
    shutil.copytree(top / "crates", copy / "crates", ignore=shutil.ignore_patterns("out"))
    for name in FOLDERS:
        shutil.copytree(top / name, copy / name, ignore=shutil.ignore_patterns("__pycache__", "out"))
    for name in TOP_TEXTS:
        shutil.copy(top / name, copy / name)
    return copy


def spoil(copy: Path) -> List[str]:
    """Puts the faults into a copy; what must be told of them."""
    wanted = [what for _, what in APPENDED]
    for name, old, new, what in CHANGED:
        text = (copy / name).read_text(encoding="utf-8")
        before, found, after = text.partition(old)
        if not found:
            raise ValueError(f"the self-test finds no {old!r} in {name}")
        (copy / name).write_text(before + new + after, encoding="utf-8")
        wanted.append(what.replace("{line}", str(before.count("\n") + 1)))
    with open(copy / "README.md", "a", encoding="utf-8") as file:
        file.write("".join(f"\n{text}\n" for text, _ in APPENDED))
    return wanted


def run(top: Path, findings: Callable[[Path], Iterator[Finding]]) -> int:
    """The status of the self-test."""
    with tempfile.TemporaryDirectory() as room:
        copy = copy_of(top, Path(room))
        before = {it.what for it in findings(copy)}
        wanted = spoil(copy)
        told = [it for it in findings(copy) if it.what not in before]
    missed = [what for what in wanted if not any(what in str(it) for it in told)]
    missed += [*spellings.missed(top), *wording.missed()]
    others = [it for it in told if not any(what in str(it) for what in (*wanted, *ALSO))]
    for what in missed:
        print(f"documents: not found: {what}")
    for it in others:
        print(f"documents: found without a fault: {it}")
    count = len(wanted) + spellings.count() + len(wording.RULES + wording.CODE_RULES)
    print("documents: self-test: " + ("failed" if missed or others else f"{count} faults found, and no other"))
    return 1 if missed or others else 0
