//! The command line of the simulator.

use crate::habits::HABITS;
use crate::jobs;
use crate::page;
use crate::run::{run, Report};
use crate::scenario::{Scenario, KINDS};
use crate::shrinking::shrink;
use crate::supervisor::Act;
use crate::world::{self, SECOND};
use std::process::ExitCode;
use std::time::Duration;
use std::{env, fs, thread};

const HELP: &str = "\
usage: clients/nvme-tcp/simulate [--seed N | --for TIME | --seeds COUNT] [OPTION]..

Runs the NVMe/TCP target in a simulated world, in which the seed decides everything: docs/SIMULATOR.md describes it.
With --seed it runs that one; else the seeds from --first on, 1 by default: --seeds of them, or for --for, 60s by
default: 30s, 10m, 1h.
  --jobs N         run seeds in N processes, by default one per processor
  --dask ADDRESS   run --seeds COUNT on the Dask cluster of this scheduler, such as tcp://host:8786
  --commands M     commands that hosts send in a seed, by default 2000
  --without KIND   leave out a kind of trouble: KINDS
  --paths N, --depth N, --longest N
                   at most N paths, commands of a path at a time, blocks of a command
  --variant N      other random choices of the same scenario, by default 0
  --log FILE       write the events of the seed there, with the simulated time in seconds
  --page FILE      write a timeline of the seed there, as one HTML page
  --no-shrink      do not look for a smaller failure
  --shrink-for TIME
                   look for one that long, by default 60s
  --coverage FOLDER
                   build with counters, and write there which lines of the target the seeds of --for reached
A violation is printed with what the checker knows, and after it the smallest run that fails the same way.
Exit status: 0 no violation; 1 a violation, which is printed with its seed; 3 bad command line; 70 not built, or seeds
that a cluster has not run.
";

/// A run, as one command line describes it.
#[derive(Clone, Debug, PartialEq, Eq)]
pub struct Run {
    pub seed: u64,
    pub commands: u64,
    pub without: Vec<String>,
    pub paths: usize,
    pub depth: usize,
    pub longest: usize,
    pub variant: u64,
    /// A fault of simulator/plant, or none.
    pub planted: String,
}

pub struct Options {
    pub run: Run,
    pub is_one: bool,
    pub seeds: Option<u64>,
    pub jobs: usize,
    pub time: Duration,
    log: Option<String>,
    pub page: Option<String>,
    pub shrinks: bool,
    pub shrink_time: Duration,
}

impl Run {
    fn new() -> Run {
        let (paths, depth, longest) = (usize::MAX, usize::MAX, usize::MAX);
        let (without, planted) = (Vec::new(), String::new());
        Run { seed: 1, commands: 2_000, without, paths, depth, longest, variant: 0, planted }
    }

    /// The words of its command line.
    pub fn words(&self) -> Vec<String> {
        let numbers = [
            ("--seed", self.seed, None),
            ("--commands", self.commands, None),
            ("--paths", self.paths as u64, Some(u64::MAX)),
            ("--depth", self.depth as u64, Some(u64::MAX)),
            ("--longest", self.longest as u64, Some(u64::MAX)),
            ("--variant", self.variant, Some(0)),
        ];
        let numbers = numbers.iter().filter(|(_, value, default)| *default != Some(*value));
        let numbers = numbers.flat_map(|(name, value, _)| [(*name).to_owned(), value.to_string()]);
        let without = self.without.iter().flat_map(|it| ["--without".to_owned(), it.clone()]);
        let planted = Some(&self.planted).filter(|it| !it.is_empty());
        let planted = planted.into_iter().flat_map(|it| ["--planted".to_owned(), it.clone()]);
        numbers.chain(without).chain(planted).collect()
    }

    pub fn scenario(&self) -> Scenario {
        let mut scenario = Scenario::new(self.seed, self.commands, &self.without);
        scenario.paths.truncate(self.paths.max(1));
        for path in &mut scenario.paths {
            (path.depth, path.longest) = (path.depth.min(self.depth), path.longest.min(self.longest));
        }
        scenario
    }
}

fn time_of(text: &str) -> Result<Duration, String> {
    let digits = text.trim_end_matches(|it: char| !it.is_ascii_digit());
    let unit = [("s", 1), ("m", 60), ("h", 3600)].into_iter().find(|(name, _)| *name == &text[digits.len()..]);
    let number = digits.parse::<u64>().ok();
    let seconds = unit.and_then(|(_, unit)| number.and_then(|it| it.checked_mul(unit)));
    seconds.map(Duration::from_secs).ok_or_else(|| format!("{text}: no time, such as 30s, 10m or 1h"))
}

fn kind_of(text: String) -> Result<String, String> {
    let is_known = KINDS.iter().chain(&HABITS).any(|it| *it == text);
    is_known.then_some(text.clone()).ok_or_else(|| format!("--without {text}: no kind of trouble; see --help"))
}

fn options(words: impl Iterator<Item = String>) -> Result<Options, String> {
    let mut options = Options {
        run: Run::new(),
        is_one: false,
        seeds: None,
        jobs: thread::available_parallelism().map_or(1, std::num::NonZeroUsize::get),
        time: Duration::from_secs(60),
        log: None,
        page: None,
        shrinks: true,
        shrink_time: Duration::from_secs(60),
    };
    let mut words = words;
    while let Some(word) = words.next() {
        if word == "--no-shrink" {
            options.shrinks = false;
            continue;
        }
        let value = words.next().ok_or_else(|| format!("{word}: it needs a value, or is unknown; see --help"))?;
        take(&mut options, &word, value)?;
    }
    Ok(options)
}

fn take(options: &mut Options, word: &str, value: String) -> Result<(), String> {
    let number = || value.parse::<u64>().map_err(|_| format!("{word} {value}: no number"));
    let size = || number().map(|it| usize::try_from(it).unwrap_or(usize::MAX).max(1));
    let run = &mut options.run;
    match word {
        "--seed" => (run.seed, options.is_one) = (number()?, true),
        "--first" => run.seed = number()?,
        "--seeds" => options.seeds = Some(number()?),
        "--jobs" => options.jobs = size()?,
        "--commands" => run.commands = number()?,
        "--for" => options.time = time_of(&value)?,
        "--without" => run.without.push(kind_of(value)?),
        "--paths" => run.paths = size()?,
        "--depth" => run.depth = size()?,
        "--longest" => run.longest = size()?,
        "--variant" => run.variant = number()?,
        "--log" => options.log = Some(value),
        "--page" => options.page = Some(value),
        "--shrink-for" => options.shrink_time = time_of(&value)?,
        "--planted" => run.planted = value,
        _ => return Err(format!("{word}: unknown; see --help")),
    }
    Ok(())
}

pub fn main(act: Act) -> ExitCode {
    let words: Vec<String> = env::args().skip(1).collect();
    if words.iter().any(|it| it == "--help" || it == "-h") {
        print!("{}", HELP.replace("KINDS", &[&KINDS[..], &HABITS].concat().join(" ")));
        return ExitCode::SUCCESS;
    }
    match options(words.into_iter()) {
        Ok(options) if options.is_one => one(&options, act),
        Ok(options) => jobs::many(&options),
        Err(text) => {
            eprintln!("simulate: {text}");
            ExitCode::from(3)
        }
    }
}

/// Runs one seed in this process.
fn one(options: &Options, act: Act) -> ExitCode {
    world::plant(&options.run.planted);
    let scenario = options.run.scenario();
    let report = run(&scenario, options.run.variant, act, options.log.is_some() || options.page.is_some());
    let lines = report.lines.as_deref().unwrap_or(&[]);
    for (path, is_page) in [(&options.log, false), (&options.page, true)] {
        let path = match path {
            Some(path) => path,
            None => continue,
        };
        let text = if is_page { page::page(&options.run, &report) } else { lines.join("\n") + "\n" };
        if let Err(error) = fs::write(path, text) {
            eprintln!("simulate: {path}: {error}");
        }
    }
    print_report(&scenario, &report);
    if report.violations.is_empty() {
        return ExitCode::SUCCESS;
    }
    if options.shrinks {
        let best = shrink(&options.run, options.shrink_time, options.jobs);
        if let Some(path) = &options.page {
            jobs::draw(&best, path);
        }
    }
    ExitCode::from(1)
}

fn print_report(scenario: &Scenario, report: &Report) {
    let source = if scenario.is_volume { "volume".to_owned() } else { format!("image {}", scenario.options.join(" ")) };
    println!(
        "seed {} {source} blocks {} paths {} troubles {}: {} sent {} answered {} ends {} replayed {} fenced, {} steps, \
         {:.1} s simulated, {} events, digest {:016x}",
        scenario.seed,
        scenario.blocks,
        scenario.paths.len(),
        scenario.kinds.join(","),
        report.sent,
        report.answered,
        report.starts,
        report.replayed,
        report.fenced,
        report.steps,
        report.simulated as f64 / SECOND as f64,
        report.events,
        report.digest,
    );
    let injected: Vec<String> = report.injected.iter().map(|(name, count)| format!("{name} {count}")).collect();
    println!("  injected: {}", injected.join(", "));
    let statuses: Vec<String> = report.statuses.iter().map(|(status, count)| format!("{status:x}h {count}")).collect();
    println!("  statuses: {}", statuses.join(", "));
    for text in &report.violations {
        println!("  VIOLATION {text:.1500}");
    }
}

#[cfg(test)]
mod tests {
    use super::*;

    #[test]
    fn the_words_of_a_run_are_that_run() {
        let (without, planted) = (vec!["kill".to_owned(), "cut".to_owned()], "no-sync".to_owned());
        let run = Run { seed: 7, commands: 9, without, paths: 2, depth: 3, longest: 4, variant: 5, planted };
        for run in [run, Run::new()] {
            let read = options(run.words().into_iter()).map(|it| (it.run, it.is_one));
            assert_eq!(read.ok(), Some((run, true)));
        }
    }

    #[test]
    fn wrong_words_are_refused() {
        for words in ["--seed", "--seed x", "--for 5", "--for 1d", "--without nothing", "--what 1"] {
            assert!(options(words.split(' ').map(str::to_owned)).is_err(), "{words}");
        }
    }
}
