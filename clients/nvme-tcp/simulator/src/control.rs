//! Operators: they ask targets control lines while hosts use them, and judge the answers.

use crate::hosts::checker::check;
use crate::shadow::os::unix::net::UnixStream;
use crate::world::{self, with, Key, MILLISECOND, SECOND};
use std::io::{ErrorKind, Read, Write};
use std::net::Shutdown;
use std::os::unix::io::AsRawFd;

/// How long a target may take for its answers.
const PATIENCE: u64 = 20 * SECOND;
/// The longest line of a target.
const LINE: usize = 4096;

/// A target as an operator knows it: its process, and the path of its socket.
#[derive(Clone, Debug)]
pub struct Asked {
    pub process: usize,
    pub control: String,
}

pub struct Operator {
    pub cntlids: usize,
    /// Whether blocks can be asked for: they are in memory.
    pub is_memory: bool,
    /// The last count of commands of each target.
    counts: Vec<(usize, u64)>,
}

fn below(limit: usize) -> usize {
    with(|it| it.random.index(limit))
}

fn complain(text: String) {
    check(|it| it.violate(text));
}

/// Whether a target has ended, or was stopped since a time.
fn is_excused(process: usize, since: u64) -> bool {
    with(|it| {
        let it = &it.processes[process];
        !it.is_alive || it.outcome.is_some() || it.is_asked_to_end || it.stopped_until >= since
    })
}

impl Operator {
    pub fn new(cntlids: usize, is_memory: bool) -> Operator {
        Operator { cntlids, is_memory, counts: Vec::new() }
    }

    /// Asks targets until `is_over`.
    pub fn run(&mut self, targets: impl Fn() -> Vec<Asked>, is_over: impl Fn() -> bool) {
        while !is_over() {
            let time = with(|it| it.random.within(MILLISECOND, 2 * SECOND));
            world::pause(time);
            let all = targets();
            if all.is_empty() || is_over() {
                continue;
            }
            let asked = &all[below(all.len())];
            match below(9) {
                0 => self.flood(asked),
                1 => self.change_access(asked),
                2 => change_keys(),
                _ => self.query(asked),
            }
        }
    }

    /// A few lines, whose answers are judged.
    fn query(&mut self, asked: &Asked) {
        let lines: Vec<String> = (0..=below(6)).map(|_| self.line()).collect();
        if let Some(text) = exchange(asked, &(lines.join("\n") + "\n")) {
            self.judge(asked, &lines, &text);
        }
    }

    fn line(&self) -> String {
        let cntlid = 1 + below(self.cntlids);
        let lines = [
            "hosts".to_owned(),
            "counts".to_owned(),
            "metrics".to_owned(),
            "?help".to_owned(),
            "?help write32".to_owned(),
            "?attached".to_owned(),
            "?namespaces".to_owned(),
            "?reservation 1".to_owned(),
            "?blocks 1 0 2".to_owned(),
            format!("?fetched {cntlid}"),
            format!("?queues {cntlid}"),
            format!("?registers {cntlid}"),
            format!("?register {cntlid} 0x14"),
            format!("?window {cntlid} 0x0 16"),
            format!("held {cntlid}"),
            format!("ana {cntlid:#x} optimized"),
            "?reservation 77".to_owned(),
            "?nothing".to_owned(),
            "ana 99 optimized".to_owned(),
            format!("ana {cntlid} somehow"),
            "hold 0x1zz".to_owned(),
            "go 4000".to_owned(),
            "nothing at all".to_owned(),
            String::new(),
        ];
        lines[below(lines.len())].clone()
    }

    /// Each line has its answer, in order; that of `metrics` has many lines.
    fn judge(&mut self, asked: &Asked, lines: &[String], text: &str) {
        let mut answers = text.lines();
        for line in lines {
            let word = line.split(' ').next().unwrap_or("");
            let answer = answers.next().unwrap_or("");
            let is_right = match word {
                "hosts" => answer.starts_with('[') && answer.ends_with(']'),
                "counts" => self.is_count(asked, answer),
                "metrics" => answer.starts_with("# HELP nvmetcp_build_info") && answers.any(|it| it == "# EOF"),
                "held" | "ana" if !line.contains("99") && !line.contains("somehow") => {
                    answer.starts_with(line.as_str())
                }
                "?nothing" | "nothing" | "" | "hold" | "go" | "ana" => answer.starts_with('!'),
                "?blocks" if !self.is_memory => !answer.is_empty(),
                "?reservation" if line.ends_with("77") => !answer.is_empty(),
                _ => answer.starts_with(&word[1..]),
            };
            if !is_right {
                return complain(format!("the control line {line:?} is answered {answer:.300?}"));
            }
        }
        if answers.next().is_some() {
            complain(format!("more answers than control lines: {lines:?}"));
        }
    }

    /// The number of commands never falls while a target runs.
    fn is_count(&mut self, asked: &Asked, answer: &str) -> bool {
        let digits = answer.strip_prefix("{\"commands\": ").and_then(|it| it.split(',').next());
        let count = match digits.and_then(|it| it.parse().ok()) {
            Some(count) => count,
            None => return false,
        };
        let before = self.counts.iter().find(|(process, _)| *process == asked.process).map_or(0, |it| it.1);
        self.counts.retain(|(process, _)| *process != asked.process);
        self.counts.push((asked.process, count));
        before <= count
    }

    /// The path of a controller gets worse for a while.
    fn change_access(&mut self, asked: &Asked) {
        let cntlid = 1 + below(self.cntlids);
        let state = ["non-optimized", "inaccessible"][below(2)];
        for (state, time) in [(state, 300 * MILLISECOND), ("optimized", 0)] {
            let line = format!("ana {cntlid} {state}");
            if let Some(text) = exchange(asked, &(line.clone() + "\n")) {
                self.judge(asked, &[line], &text);
            }
            world::pause(with(|it| it.random.below(time + 1)));
        }
    }

    /// Someone who sends too much, or takes nothing, gets no more, and keeps nobody from being served.
    fn flood(&mut self, asked: &Asked) {
        let mut streams: Vec<UnixStream> =
            (0..=below(12)).filter_map(|_| UnixStream::connect(&asked.control).ok()).collect();
        let text = match below(3) {
            0 => "metrics\n".repeat(40),
            1 => "x".repeat(2 * LINE),
            _ => "?help\n".repeat(400),
        };
        for it in &mut streams {
            let _ = it.set_nonblocking(true);
            let _ = it.write(text.as_bytes());
        }
        world::pause(with(|it| it.random.below(4 * SECOND)));
    }
}

/// Has targets read the file of keys again, if they have one: as it was, with another secret of a host, without a host
/// for a while, or as it can't be read.
fn change_keys() {
    let hosts = check(|it| it.keys.hosts());
    let (host, time) = (below(hosts), with(|it| it.random.below(3 * SECOND)));
    match below(4) {
        0 => check(|it| it.keys.write()),
        1 => check(|it| it.keys.change(host, false)),
        2 if hosts > 1 => {
            check(|it| it.keys.change(host, true));
            world::pause(time);
            check(|it| it.keys.change(host, false));
        }
        _ => {
            check(|it| it.keys.spoil());
            world::pause(time);
            check(|it| it.keys.mend());
        }
    }
}

/// The answer to lines; nothing if the target has a reason to give none.
fn exchange(asked: &Asked, lines: &str) -> Option<String> {
    let begun = with(|it| it.now);
    let mut stream = UnixStream::connect(&asked.control).ok()?;
    stream.set_nonblocking(true).ok()?;
    let is_sent = stream.write_all(lines.as_bytes()).is_ok() && stream.shutdown(Shutdown::Write).is_ok();
    let (mut text, mut room) = (Vec::new(), [0; 8192]);
    if !is_sent {
        return None;
    }
    loop {
        match stream.read(&mut room) {
            Ok(0) => break,
            Ok(count) => text.extend(&room[..count]),
            Err(error) if error.kind() == ErrorKind::WouldBlock && with(|it| it.now) < begun + PATIENCE => {
                world::wait(Key::Descriptor(stream.as_raw_fd()), Some(begun + PATIENCE));
            }
            Err(error) if error.kind() == ErrorKind::WouldBlock => {
                if !is_excused(asked.process, begun) {
                    complain(format!("the control lines {lines:?} have no answer"));
                }
                return None;
            }
            Err(_) => return None,
        }
    }
    (!is_excused(asked.process, begun)).then(|| String::from_utf8_lossy(&text).into_owned())
}
