//! Looks for the smallest run that fails in the way that another does: with fewer commands, kinds of trouble, paths,
//! commands at a time, and blocks of a command.
//!
//! A smaller run is another run, in which the fault may need other chances. So each size is tried with several
//! variants, which differ in all random choices but those of the scenario.

use crate::command::Run;
use crate::hosts::Path;
use crate::jobs::{child, Printed};
use std::thread;
use std::time::{Duration, Instant};

/// Parts of the commands that are tried, and with how many variants each. The fewer, the less often they fail, and the
/// less time they take.
const PARTS: [(u64, u64, u64); 6] = [(1, 16, 2), (1, 8, 3), (1, 4, 4), (1, 2, 6), (3, 4, 6), (9, 10, 8)];
/// Variants that are tried without a kind of trouble, or with fewer paths.
const OF_CALMER: u64 = 4;

/// The first words of a violation, without its numbers.
pub fn kind(text: &str) -> String {
    let words = text.split_whitespace().filter(|it| !it.contains(|it: char| it.is_ascii_digit()));
    words.take(4).collect::<Vec<_>>().join(" ")
}

struct Search {
    begin: Instant,
    time: Duration,
    jobs: usize,
    kind: String,
    tries: usize,
    best: Run,
    printed: Printed,
}

impl Search {
    fn is_over(&self) -> bool {
        self.begin.elapsed() >= self.time
    }

    /// Tries variants of a run; whether one fails in the same way. It is the best one then.
    fn takes(&mut self, run: &Run, variants: u64) -> bool {
        let first = self.best.variant;
        let all: Vec<Run> = (first..first + variants).map(|variant| Run { variant, ..run.clone() }).collect();
        for some in all.chunks(self.jobs) {
            if self.is_over() {
                return false;
            }
            self.tries += some.len();
            let found = tried(some).into_iter().zip(some).find(|(printed, _)| self.is_same(printed));
            if let Some((printed, run)) = found {
                self.best = run.clone();
                self.printed = printed;
                return true;
            }
        }
        false
    }

    fn is_same(&self, printed: &Printed) -> bool {
        printed.is_bad && printed.violations().any(|it| kind(it) == self.kind)
    }

    /// Leaves out the commands after the violation.
    fn cut(&mut self) {
        let sent = self.printed.number(" sent ").max(1);
        if sent < self.best.commands {
            let best = self.best.clone();
            let _ = self.takes(&Run { commands: sent, ..best }, 1);
        }
    }

    /// Leaves out all kinds of trouble, or else one after the other.
    fn fewer_troubles(&mut self) -> bool {
        let mut is_smaller = false;
        let kinds = self.best.scenario().kinds;
        let all = std::iter::once(kinds.clone()).chain(kinds.iter().map(|it| vec![*it]));
        for some in all.filter(|it| !it.is_empty()) {
            let mut run = self.best.clone();
            run.without.extend(
                some.iter().filter(|it| !self.best.without.iter().any(|out| out == *it)).map(|it| (*it).to_owned()),
            );
            is_smaller |= run.without != self.best.without && self.takes(&run, OF_CALMER);
        }
        is_smaller
    }

    fn fewer_at_a_time(&mut self) -> bool {
        let mut is_smaller = false;
        for at in 0..3 {
            for limit in [1, 2, 4, 8] {
                let mut run = self.best.clone();
                *[&mut run.paths, &mut run.depth, &mut run.longest][at] = limit;
                if self.sizes()[at] <= limit {
                    break;
                }
                if self.takes(&run, OF_CALMER) {
                    is_smaller = true;
                    break;
                }
            }
        }
        is_smaller
    }

    /// Paths, commands at a time, and blocks of a command.
    fn sizes(&self) -> [usize; 3] {
        let paths = self.best.scenario().paths;
        let most = |size: fn(&Path) -> usize| paths.iter().map(size).max().unwrap_or(0);
        [paths.len(), most(|it| it.depth), most(|it| it.longest)]
    }

    fn fewer_commands(&mut self) -> bool {
        for (part, of, variants) in PARTS {
            let commands = self.best.commands * part / of;
            let run = Run { commands, ..self.best.clone() };
            if commands != 0 && commands < self.best.commands && self.takes(&run, variants) {
                self.cut();
                return true;
            }
        }
        false
    }
}

fn tried(runs: &[Run]) -> Vec<Printed> {
    thread::scope(|scope| {
        let all: Vec<_> = runs.iter().map(|run| scope.spawn(move || child(run))).collect();
        all.into_iter().filter_map(|it| it.join().ok()).collect()
    })
}

/// Shrinks a run that fails, prints the smallest, and returns it.
pub fn shrink(run: &Run, time: Duration, jobs: usize) -> Run {
    let printed = child(run);
    let found = printed.violations().next().map(kind).unwrap_or_default();
    let begin = Instant::now();
    let mut search = Search { begin, time, jobs, kind: found, tries: 0, best: run.clone(), printed };
    let sent = search.printed.number(" sent ");
    search.cut();
    loop {
        while search.fewer_commands() {}
        let is_smaller = search.fewer_troubles() | search.fewer_at_a_time();
        if !is_smaller || search.is_over() {
            break;
        }
        search.cut();
    }
    let Search { best, printed, tries, .. } = search;
    let least = printed.number(" sent ");
    let seconds = begin.elapsed().as_secs_f64();
    println!("the smallest that fails, {least} commands of {sent}, in {seconds:.0} s and {tries} tries:");
    println!("  simulate {}\n{}", best.words().join(" "), printed.text);
    best
}

#[cfg(test)]
mod tests {
    use super::*;

    #[test]
    fn violations_of_a_kind_are_the_same_without_their_numbers() {
        let [one, other] = ["block 2: value 0x0 was read from 10 to 12", "block 77: value 0xfe was read from 3 to 4"];
        assert_eq!(kind(one), kind(other));
        assert_ne!(kind(one), kind("path 3 gets neither an answer nor an end in 60 s"));
    }
}
