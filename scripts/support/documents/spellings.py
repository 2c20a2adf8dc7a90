"""Ways to take memory, to keep it or to run code when a value is dropped, each of which the rules must find.

Each is written as someone would who wants it to pass: with comments between the words, by another name, by a path, by a
macro. A rule that finds none of them that the others don't is not needed, and is told too.
"""
from pathlib import Path
from typing import Dict, Iterator, List, NamedTuple

from support.documents import taking
from support.documents.allowed import lists
from support.documents.program import read


class Place(NamedTuple):
    """A place in a source: a spelling is put before a text of it."""
    file: str
    text: str


# Among the items of a file, and its imports.
ITEM = Place("crates/nvme_medium/src/file.rt", "\nimpl<F: RawFile> FileMedium<F> {")
IMPORT = Place("crates/nvme_live/src/session.rt", "\nuse ")
# Events: a store to a window, which has `self.bytes`, a vector; and two calls of the library, which are given `alloc`.
STORE = Place("crates/nvme_mem/src/window.rt", "        if !is_inside(addr, len) {\n            return Err")
CYCLE = Place("crates/nvme_library/src/events.rt", "    apply_event(alloc, sim, Event::PowerCycle)")
LOAD = Place("crates/nvme_library/src/events.rt", "    apply_event(alloc, sim, Event::Store(cntlid, address, bytes))")
# A function that may add to a list of a fixed size, once.
FETCH = Place("crates/nvme_ctrl/src/fetching.rt", "self.fetched.push(")

# What is put there, under the place.
SPELLINGS: Dict[Place, List[str]] = {
    ITEM: [
        # A type ends in a way of its own.
        "impl<F: RawFile> Drop /* as it goes */ for FileMedium<F> { fn drop(self) {} }",
        "#[inline] impl<F: RawFile> Drop for FileMedium<F> { fn drop(self) {} }",
        "impl\n<F: RawFile>\n// as it goes\nDrop\nfor FileMedium<F> { fn drop(self) {} }",
        "impl<F: RawFile> core::ops::Drop for FileMedium<F> { fn drop(self) {} }",
        "impl<F: RawFile<Kept = Vec<u8>>> Drop for FileMedium<F> where F: Clone { fn drop(self) {} }",
        "mod inner { impl /* /* twice */ */ Drop for super::Ending { fn drop(self) {} } }",
        "use std::ops::Drop as Going; impl Going for Ending { fn drop(self) {} }",
        # What the rules could not see through.
        "macro_rules! grow { ($v:expr) => { $v.bytes.get() } }",
        "#[derive(Grown)] struct Growing;",
        "#[path = \"other.text\"] mod other;",
        "unsafe extern \"C\" { fn malloc(size: usize) -> *mut u8; }",
        "struct Vec; impl Vec { fn with_capacity() {} }",
        "fn started() { ghost { let it = 1; } }",
        # Code that may be hidden behind what the toolchain reads otherwise.
        "fn one() -> u8\n    ensures { result ≡ 1 -- {\n }\n{\n    1\n}",
        "fn one() -> u8\n    ensures { at'\"'\" ≡ 1 }\n{\n    1\n} // \"",
        "fn one() -> &'static str {\n    \"one\n\"\n}",
        # Another name for what is not known.
        "type Bytes = Vec<u8>; fn more(alloc: Global) { let _ = Bytes::sparse(alloc); }",
        "trait More { fn append(&mut self); } impl More for Vec<u8> { fn append(&mut self) { Self::append(self); } }",
        "fn made<T: Default>() -> T { T::default() }",
        "trait Roomy { fn with_capacity(); fn room(); } impl Roomy for Vec<u8> { fn room() { Self::with_capacity(); } }",
    ],
    IMPORT: [
        "use std::mem::*;", "use std::mem::{replace, forget};", "use std::mem as kept;", "use std::mem::forget as keep;",
        "use core :: mem :: { self , ManuallyDrop };", "use std::rc::Rc;", "use std::sync::Arc as Shared;",
        "use std::alloc::*;", "use std::collections::{hash_map::{self, Entry}, VecDeque};", "use lru::*;",
        "pub use std::boxed;", "use std::mem::{replace as drop_later};", "extern crate alloc;",
    ],
    STORE: [
        # A copy.
        "let _more = self.bytes.clone();", "let _more = Clone::clone(&self.bytes);",
        "let _more = <Vec<u8> as Clone>::clone(&self.bytes);", "let _more = self.bytes.to_vec();",
        "let _more = self.bytes . /* aside */ clone ();", "let _more = self.bytes.iter().collect::<Vec<u8>>();",
        "let _more = String::from_utf8_lossy(&self.bytes);", "let _more = self.bytes.as_slice().to_owned();",
        "let copy = Clone::clone; let _more = copy(&self.bytes);",
        # More room.
        "let _ = Vec::reserve(&mut self.bytes, 1 << 30);", "let _ = Vec::<u8>::reserve(&mut self.bytes, 1 << 30);",
        "let _ = self.bytes.try_reserve(1 << 30);", "let _ = <Vec<u8>>::push(&mut self.bytes, 0);",
        "let _ = self\n            .bytes\n            // one more\n            .push(0);", "let _ = self.bytes.r#push(0);",
        "let _ = self.bytes.resize(1 << 30, 0);", "let _ = self.bytes.extend_from_slice(&[0; 512]);",
        "let quote = '\"'; let _ = self.bytes.insert(0, 0); let other = '\"';",
        "let text = r#\"a \" in it\"#; let _ = self.bytes.append(&mut more); let other = r\"\\\";",
        "/* a /* comment */ in it */ let _ = self.bytes.extend([0; 9]); // */",
        "let _ = LruCache::put(&mut self.kept, 1, 2);", "let _ = write!(self.bytes, \"more\");",
        # What never goes.
        "std::mem::forget(self.bytes);", "mem :: forget(self.bytes);", "core::mem::r#forget::<Vec<u8>>(self.bytes);",
        "let _kept = ManuallyDrop::new(self.bytes);", "let _kept = self.bytes.leak();", "let _kept = Box::leak(boxed);",
        "let _kept = Box::into_raw_with_allocator(boxed);", "let _kept = Box::<u8>::into_raw(boxed);",
        "let _kept = unsafe { Vec::from_raw_parts(at, 0, 9) };",
    ],
    CYCLE: [
        # An event is given an allocator, and takes memory.
        "let _ = Vec::<u8>::with_capacity(alloc, 1 << 30);", "let _ = vec![in alloc; 0; 1 << 30];",
        "let _ = Box::new(alloc, [0; 4096]);", "let _ = String::with_capacity(alloc, 9);", "let _ = Rc::new(alloc, 1);",
        "let grown = Vec::with_capacity; let _ = grown(alloc, 9);", "let _ = alloc.allocate(Layout::new::<u64>());",
        "let _ = format!(in alloc; \"{}\", 1);", "let _ = std::env::vars(alloc);", "let _ = include!(\"more.rt\");",
    ],
    LOAD: [
        # It calls a function of the repository that takes memory.
        "let _ = nvme_medium::MemMedium::new(alloc, bytes);", "let _ = MemMedium::new(alloc, bytes);",
        "let _ = crate::configuration::config_of(alloc, &[], &[], &[]);",
        "use crate::configuration::config_of as plain; let _ = plain(alloc, &[], &[], &[]);",
        "let make = nvme_subsys::Subsystem::new; let _ = make(alloc, config, medium);",
        "use crate::configuration::config_of; let _ = carried(config_of, alloc);",
        "let Some(boxed) = sim.take(alloc) else { return; }; let BoxPointer { at, alloc } = BoxPointer::of(boxed);",
    ],
    FETCH: ["self.fetched.push(it);"],
}


def with_spelling(text: str, place: Place, spelling: str) -> str:
    """A source with a spelling in its place."""
    if place.text not in text:
        raise ValueError(f"the self-test finds no {place.text!r} in {place.file}")
    return text.replace(place.text, f"\n{spelling}\n{place.text}", 1)


def missed(top: Path) -> Iterator[str]:
    """The spellings that no rule finds, and the rules that are never the only one to find any."""
    given, found = lists(), taking.sources(top)
    alone, known = set(), taking.owned_by(top, found)
    for place, spellings in SPELLINGS.items():
        text = (top / place.file).read_text(encoding="utf-8")
        for spelling in spellings:
            source = read(with_spelling(text, place, spelling))
            owned = taking.Owned({*known.items}, {*known.types}, {*known.traits}, known.below, known.hidden)
            owned.add(source.code)
            rules = [it for it in taking.RULES if any(it(place.file, source, owned, given))]
            if not rules:
                yield f"{place.file}: {spelling}"
            alone.update(rules if len(rules) == 1 else ())
    for rule in taking.RULES:
        if rule not in alone:
            yield f"the rule {rule.__name__} finds nothing alone"


def count() -> int:
    """How many spellings there are."""
    return sum(map(len, SPELLINGS.values()))
