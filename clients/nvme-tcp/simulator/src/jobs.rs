//! Many seeds, each in a process of its own.

use crate::command::{Options, Run};
use crate::shrinking::{kind, shrink};
use std::collections::BTreeMap;
use std::io::Write;
use std::process::{Command, ExitCode, Stdio};
use std::sync::{Mutex, PoisonError};
use std::time::Instant;
use std::{env, fs, io, thread};

/// The most failures that are shrunk after a run of many seeds.
const MOST_SHRUNK: usize = 3;

/// What a process for one run printed.
pub struct Printed {
    pub is_bad: bool,
    pub text: String,
}

impl Printed {
    /// Its violations.
    pub fn violations(&self) -> impl Iterator<Item = &str> {
        self.text.lines().filter_map(|it| it.strip_prefix("  VIOLATION "))
    }

    /// The number before a word of the first line.
    pub fn number(&self, mark: &str) -> u64 {
        let head = self.text.lines().next().unwrap_or("").split(mark).next().unwrap_or("");
        head.rsplit(' ').next().and_then(|it| it.parse().ok()).unwrap_or(0)
    }

    /// Names and counts of a line.
    fn counts(&self, line: &str) -> Vec<(String, u64)> {
        let found = self.text.lines().find_map(|it| it.strip_prefix(line)).unwrap_or("");
        let all = found.split(", ").filter_map(|it| it.rsplit_once(' '));
        all.map(|(name, count)| (name.to_owned(), count.parse().unwrap_or(0))).collect()
    }
}

/// Runs a seed in another process.
pub fn child(run: &Run) -> Printed {
    printed(run, &[])
}

/// Writes the page of a run.
pub fn draw(run: &Run, path: &str) {
    if printed(run, &["--page", path]).is_bad {
        println!("its page: {path}");
    }
}

fn printed(run: &Run, more: &[&str]) -> Printed {
    let mut command = Command::new(env::current_exe().unwrap_or_default());
    command.arg("--no-shrink").args(more).args(run.words());
    match command.stdin(Stdio::null()).stderr(Stdio::piped()).output() {
        Ok(output) => {
            let mut text = String::from_utf8_lossy(&output.stdout).into_owned();
            text += &String::from_utf8_lossy(&output.stderr);
            if output.status.code().is_none() {
                text += &format!("seed {}\n  VIOLATION the simulator ends by {}\n", run.seed, output.status);
            }
            Printed { is_bad: output.status.code() != Some(0), text }
        }
        Err(error) => Printed { is_bad: true, text: format!("seed {}: {error}\n", run.seed) },
    }
}

/// Seeds that are left, and what the others gave.
struct Totals {
    begin: Instant,
    seeds: Box<dyn Iterator<Item = u64> + Send>,
    done: u64,
    sent: u64,
    fenced: u64,
    injected: BTreeMap<String, u64>,
    statuses: BTreeMap<String, u64>,
    failed: Vec<(u64, String)>,
}

impl Totals {
    fn new(seeds: Box<dyn Iterator<Item = u64> + Send>) -> Totals {
        let (injected, statuses) = (BTreeMap::new(), BTreeMap::new());
        Totals { begin: Instant::now(), seeds, done: 0, sent: 0, fenced: 0, injected, statuses, failed: Vec::new() }
    }

    fn add(&mut self, run: &Run, printed: &Printed) {
        self.done += 1;
        self.sent += printed.number(" sent ");
        self.fenced += printed.number(" fenced");
        for (sums, line) in [(&mut self.injected, "  injected: "), (&mut self.statuses, "  statuses: ")] {
            printed.counts(line).into_iter().for_each(|(name, count)| *sums.entry(name).or_default() += count);
        }
        if printed.is_bad {
            let (seconds, sent) = (self.begin.elapsed().as_secs_f64(), self.sent);
            println!(
                "\rafter {seconds:.1} s and {sent} commands: simulate {}\n{}",
                run.words().join(" "),
                printed.text
            );
            self.failed.push((run.seed, printed.violations().next().map_or(String::new(), kind)));
        }
    }

    fn line(&self) -> String {
        let minutes = self.begin.elapsed().as_secs_f64() / 60.0;
        let (seeds, sent, failed) = (self.done, self.sent, self.failed.len());
        format!("{seeds} seeds, {sent} commands, {:.0} a minute, violations in {failed}", sent as f64 / minutes)
    }

    fn print(&self, jobs: usize) {
        println!("{}, {} fenced, {jobs} jobs", self.line(), self.fenced);
        for (name, counts) in [("injected", &self.injected), ("statuses", &self.statuses)] {
            let counts: Vec<String> = counts.iter().map(|(name, count)| format!("{name} {count}")).collect();
            println!("{name}: {}", counts.join(", "));
        }
        if !self.failed.is_empty() {
            println!("failed: {}", self.failed.iter().map(|it| it.0.to_string()).collect::<Vec<_>>().join(" "));
        }
    }
}

/// Runs a number of seeds, or seeds until the time is over.
pub fn many(options: &Options) -> ExitCode {
    let first = options.run.clone();
    let seeds: Box<dyn Iterator<Item = u64> + Send> = if let Some(count) = options.seeds {
        Box::new(first.seed..first.seed.saturating_add(count))
    } else {
        let (begin, time) = (Instant::now(), options.time);
        Box::new((first.seed..).take_while(move |_| begin.elapsed() < time))
    };
    let totals = Mutex::new(Totals::new(seeds));
    thread::scope(|scope| (0..options.jobs).for_each(|_| drop(scope.spawn(|| work(&first, &totals)))));
    let totals = totals.into_inner().unwrap_or_else(PoisonError::into_inner);
    if is_watched() {
        eprintln!();
    }
    totals.print(options.jobs);
    if totals.failed.is_empty() {
        return ExitCode::SUCCESS;
    }
    if options.shrinks {
        shrink_some(options, &first, &totals);
    }
    ExitCode::from(1)
}

/// Whether standard error is a terminal.
fn is_watched() -> bool {
    let to = fs::read_link("/proc/self/fd/2").unwrap_or_default();
    to.starts_with("/dev/pts") || to.starts_with("/dev/tty")
}

fn work(first: &Run, totals: &Mutex<Totals>) {
    let locked = || totals.lock().unwrap_or_else(PoisonError::into_inner);
    let shows = is_watched();
    loop {
        let seed = match locked().seeds.next() {
            Some(seed) => seed,
            None => return,
        };
        let run = Run { seed, ..first.clone() };
        let printed = child(&run);
        let mut totals = locked();
        if shows {
            eprint!("\r{:100}\r", "");
        }
        totals.add(&run, &printed);
        if shows {
            eprint!("{}", totals.line());
            drop(io::stderr().flush());
        }
    }
}

/// Shrinks the first failure of each kind.
fn shrink_some(options: &Options, first: &Run, totals: &Totals) {
    let mut known: Vec<&str> = Vec::new();
    let mut failed: Vec<_> = totals.failed.iter().collect();
    failed.sort();
    for (seed, kind) in failed {
        if known.len() < MOST_SHRUNK && !known.contains(&kind.as_str()) {
            known.push(kind);
            let best = shrink(&Run { seed: *seed, ..first.clone() }, options.shrink_time, options.jobs);
            if let Some(path) = options.page.as_ref().filter(|_| known.len() == 1) {
                draw(&best, path);
            }
        }
    }
}

#[cfg(test)]
mod tests {
    use super::*;

    #[test]
    fn numbers_are_found_in_a_report() {
        let text =
            "seed 3 image: 20 sent 19 answered 1 ends 7 replayed 4 fenced, 5 steps\n  injected: late disk 3, cut 1\n";
        let printed = Printed { is_bad: false, text: text.to_owned() };
        assert_eq!((printed.number(" sent "), printed.number(" fenced")), (20, 4));
        assert_eq!(printed.counts("  injected: "), [("late disk".to_owned(), 3), ("cut".to_owned(), 1)]);
    }
}
