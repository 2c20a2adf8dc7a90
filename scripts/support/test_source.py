"""Tests of what is read of Rattle's text: where functions begin and end, and what they are called."""
import unittest
from typing import List, Tuple

from support import source
from support.documents.shape import parameters_of

TEXT = """//! A module.
use std::fmt;

/// A pair.
#[derive(Drop)]
pub struct Pair<T> {
    one: T,
}

/// Free.
#[inline]
pub fn free<F: Fn(u8) -> u8>(f: F) -> u8
    requires { small f }
    ensures { IsOk result }
{
    match f(1) {
        0 => {
            1
        }
        n => n,
    }
}

fn unit() {}

const fn of_one_line() -> u8 { 1 }

impl<T: Into<io::Error>> From<Vec<T>> for pairs::Pair<T> {
    // Not a contract.
    fn from(all: Vec<T>) -> Pair<T> {
        let f = || { 1 };
        Pair { one: f() }
    }
}

impl<T> Pair<T> {
    pub(crate) unsafe fn inner<'a>(
        &'a mut self,
        one: T,
    ) -> &'a T
        ensures one { result ≡ self.new }
    {
        self.one
    }

    extern "C" fn outer(self) -> u8
    {
    }
}

pub trait Draws {
    /// Draws.
    fn draw(&self) -> u8
        ensures { result < 3 };

    fn twice(&self) -> u8 {
        2
    }
}

fn last(text: &str) -> String {
    format!("}} {{ {text}")
}
"""


def named(text: str, path: str = "src/pairs.rt") -> List[Tuple[str, str, str]]:
    """Each function: its name, its first line, and that of the end of its body."""
    lines = text.split("\n")
    return [(it.name, lines[it.first].strip(), lines[it.last].strip()) for it in source.functions_of(text, path)]


class SourceTest(unittest.TestCase):
    def test_functions(self) -> None:
        self.assertEqual(named(TEXT), [
            ("pairs::free", "/// Free.", "}"), ("pairs::unit", "fn unit() {}", "fn unit() {}"),
            ("pairs::of_one_line", "const fn of_one_line() -> u8 { 1 }", "const fn of_one_line() -> u8 { 1 }"),
            ("PairFromVec::from", "fn from(all: Vec<T>) -> Pair<T> {", "}"),
            ("Pair::inner", "pub(crate) unsafe fn inner<'a>(", "}"),
            ("Pair::outer", 'extern "C" fn outer(self) -> u8', "}"),
            ("Draws::draw", "/// Draws.", "ensures { result < 3 };"), ("Draws::twice", "fn twice(&self) -> u8 {", "}"),
            ("pairs::last", "fn last(text: &str) -> String {", "}")])

    def test_bodies(self) -> None:
        lines = TEXT.split("\n")
        bodies = {it.word: (lines[it.body].strip(), it.last - it.body + 1) for it in
                  source.functions_of(TEXT, "src/lib.rt")}
        self.assertEqual(bodies["free"], ("{", 8))
        self.assertEqual(bodies["from"], ("fn from(all: Vec<T>) -> Pair<T> {", 4))
        self.assertEqual(bodies["draw"], ("ensures { result < 3 };", 1))
        self.assertEqual(bodies["unit"], ("fn unit() {}", 1))

    def test_methods_of_traits(self) -> None:
        found = source.functions_of(TEXT, "src/pairs/mod.rt")
        self.assertEqual({it.word for it in found if it.is_of_trait}, {"from", "draw", "twice"})

    def test_modules(self) -> None:
        for path, name in (("src/lib.rt", "one"), ("src/main.rt", "one"), ("src/a.rt", "a::one"),
                           ("src/a/mod.rt", "a::one"), ("src/a/b.rt", "a::b::one")):
            self.assertEqual(named("fn one() {}\n", path)[0][0], name)

    def test_a_function_without_an_end(self) -> None:
        with self.assertRaises((ValueError, StopIteration)):
            source.functions_of("fn one()\n    -> u8\n", "src/lib.rt")

    def test_parameters(self) -> None:
        for head, count in (("fn one()", 0), ("fn one(&self)", 0), ("fn one(self: Box<Self>, a: u8)", 1),
                            ("fn one(&'a mut self, a: u8,)", 1), ("fn one<F: Fn(u8, u8) -> u8>(f: F, n: (u8, u8))", 2),
                            ("pub fn one(\n    a: Result<u8, u8>,\n    b: [u8; 2],\n) -> (u8, u8)", 2),
                            ("fn one(f: fn(u8) -> u8, selfish: u8)", 2)):
            self.assertEqual(parameters_of(head + " {"), count, head)


if __name__ == "__main__":
    unittest.main()
