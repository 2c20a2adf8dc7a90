//! The timeline of a run, as one HTML page that needs nothing else: a lane per path of a host and per machine, a bar
//! per command and per target, and a mark per trouble. Between two events is the same room, however long that was.

use crate::command::Run;
use crate::run::Report;
use crate::world::tap::{Lived, Tap, Told, FABRICS};
use crate::world::SECOND;
use std::collections::BTreeMap;
use std::fmt::Write;

const SLOT: usize = 6;
const ROW: usize = 13;
const GAP: usize = 9;
const TOP: usize = 34;
const LEFT: usize = 150;
/// The most commands that are drawn: the last ones.
const MOST: usize = 3_000;
/// The count of events between two times that are written.
const TICK: usize = 20;

const STYLE: &str = "\
:root { --ground: #fff; --text: #1d2329; --faint: #5d6872; --lane: #f1f4f7; --line: #c8d0d8; --done: #2b6cb0;
  --denied: #c0341d; --failed: #a86400; --waiting: #9aa6b1; --up: #22794c; }
@media (prefers-color-scheme: dark) { :root { --ground: #14181c; --text: #e6eaee; --faint: #9aa6b1; --lane: #1d2329;
  --line: #3c4650; --done: #63a7ee; --denied: #ff7a63; --failed: #f0ae4a; --waiting: #5d6872; --up: #5cc48e; } }
body { background: var(--ground); color: var(--text); font: 14px/1.45 system-ui, sans-serif; margin: 20px; }
pre { white-space: pre-wrap; overflow-wrap: anywhere; background: var(--lane); padding: 8px; }
.picture { display: flex; } .scroll { overflow-x: auto; } svg { display: block; flex: none; }
svg text { font: 11px system-ui, sans-serif; fill: var(--text); } .tick { fill: var(--faint); }
.lane { fill: var(--lane); } .done { fill: var(--done); } .denied { fill: var(--denied); } .up { fill: var(--up); }
.failed { fill: var(--failed); } .waiting { fill: var(--waiting); }
.trouble { stroke: var(--failed); stroke-width: 1.5; } .violation { stroke: var(--denied); stroke-width: 3; }
.other { opacity: 0.35; }
.meant { stroke: var(--text); stroke-width: 2; } rect:hover { stroke: var(--text); }
";

/// Places of times, by their order.
struct Axis(Vec<u64>);

impl Axis {
    fn new(tap: &Tap, told: &[Told]) -> Axis {
        let first = told.first().map_or(0, |it| it.sent);
        let commands = told.iter().flat_map(|it| [Some(it.sent), it.end]);
        let lives = tap.lived.iter().flat_map(|it| [Some(it.begin), it.end]);
        let notes = tap.notes.iter().map(|(at, _)| Some(*at));
        let mut times: Vec<u64> = commands.chain(lives).chain(notes).flatten().filter(|it| *it >= first).collect();
        times.sort_unstable();
        times.dedup();
        Axis(times)
    }

    fn place(&self, time: u64) -> usize {
        SLOT + SLOT * self.0.partition_point(|it| *it < time)
    }

    fn end(&self) -> usize {
        SLOT * (self.0.len() + 2)
    }

    /// The place and width of a bar.
    fn bar(&self, begin: u64, end: Option<u64>) -> (usize, usize) {
        let from = self.place(begin);
        (from, (end.map_or(self.end(), |it| self.place(it)) - from).max(SLOT / 2))
    }
}

fn escape(text: &str) -> String {
    text.replace('&', "&amp;").replace('<', "&lt;").replace('"', "&quot;")
}

fn seconds(time: u64) -> f64 {
    time as f64 / SECOND as f64
}

fn name(told: &Told) -> String {
    let io = match (told.opcode, told.qid) {
        (FABRICS, _) => {
            return ["Property Set", "Connect", "", "", "Property Get"]
                .get(usize::from(told.form))
                .map_or("Fabrics command".to_owned(), |it| (*it).to_owned())
        }
        (opcode, 0) => return format!("admin command {opcode:02x}h"),
        (0x00, _) => return "Flush".to_owned(),
        (0x0d, _) => return "Reservation Register".to_owned(),
        (0x0e, _) => return "Reservation Report".to_owned(),
        (0x11, _) => return "Reservation Acquire".to_owned(),
        (0x15, _) => return "Reservation Release".to_owned(),
        (0x01, _) => "Write",
        (0x02, _) => "Read",
        (0x05, _) => "Compare",
        (0x08, _) => "Write Zeroes",
        (0x09, _) => "Deallocate",
        (opcode, _) => return format!("command {opcode:02x}h"),
    };
    let value = told.value.filter(|_| io == "Write" || io == "Compare");
    let value = value.map_or(String::new(), |it| format!(", values from {it:#x} ({it})"));
    format!("{io} of blocks {} to {}{value}", told.slba, told.slba.saturating_add(told.count.saturating_sub(1)))
}

fn touches(told: &Told, block: u64) -> bool {
    let is_on_blocks = told.qid != 0 && [0x01, 0x02, 0x05, 0x08, 0x09].contains(&told.opcode);
    is_on_blocks && (told.slba..told.slba.saturating_add(told.count)).contains(&block)
}

/// The number after the word `block` in violations.
fn blocks(violations: &[String]) -> Vec<u64> {
    let number = |it: &str| it.trim_end_matches(|it: char| !it.is_ascii_digit()).parse().ok();
    let after = |text: &String| {
        let mut words = text.split(' ').skip_while(|it| *it != "block").skip(1);
        words.next().and_then(number)
    };
    violations.iter().filter_map(after).collect()
}

/// Rows of bars that overlap.
fn rows(bars: &[(usize, usize)]) -> Vec<usize> {
    let mut ends: Vec<usize> = Vec::new();
    let mut chosen = Vec::new();
    for (from, width) in bars {
        let row = ends.iter().position(|end| end <= from).unwrap_or(ends.len());
        ends.resize(ends.len().max(row + 1), 0);
        ends[row] = from + width;
        chosen.push(row);
    }
    chosen
}

/// A picture of lanes from top to bottom.
struct Drawing {
    axis: Axis,
    blocks: Vec<u64>,
    labels: String,
    bars: String,
    height: usize,
}

impl Drawing {
    fn lane(&mut self, label: &str, count: usize) -> usize {
        let (top, height) = (self.height, count.max(1) * ROW);
        let width = self.axis.end();
        let _ = write!(self.bars, r#"<rect class="lane" x="0" y="{top}" width="{width}" height="{height}"/>"#);
        let label = escape(label);
        let _ = write!(self.labels, r#"<text x="{}" y="{}" text-anchor="end">{label}</text>"#, LEFT - 8, top + 11);
        self.height += height + GAP;
        top
    }

    fn bar(&mut self, class: &str, (x, width): (usize, usize), y: usize, title: &str) {
        let (height, title) = (ROW - 2, escape(title));
        let place = format!(r#"x="{x}" y="{y}" width="{width}" height="{height}""#);
        let _ = writeln!(self.bars, r#"<rect class="{class}" {place}><title>{title}</title></rect>"#);
    }

    fn machine(&mut self, machine: usize, lived: &[&Lived]) {
        let bars: Vec<_> = lived.iter().map(|it| self.axis.bar(it.begin, it.end)).collect();
        let rows = rows(&bars);
        let top = self.lane(&format!("machine {machine}"), rows.iter().max().map_or(1, |it| it + 1));
        for ((it, bar), row) in lived.iter().zip(bars).zip(rows) {
            let end = it.end.map_or("runs".to_owned(), |end| format!("to {:.6}", seconds(end)));
            let title = format!("process {} from {:.6} {end}", it.process, seconds(it.begin));
            self.bar("up", bar, top + row * ROW + 1, &title);
        }
    }

    fn path(&mut self, cntlid: u16, told: &[&Told]) {
        let bars: Vec<_> = told.iter().map(|it| self.axis.bar(it.sent, it.end)).collect();
        let rows = rows(&bars);
        let top = self.lane(&format!("path {cntlid}"), rows.iter().max().map_or(1, |it| it + 1));
        for ((it, bar), row) in told.iter().zip(bars).zip(rows) {
            let status = it.status.map_or("no answer".to_owned(), |status| format!("status {status:x}h"));
            let class = match it.status {
                None => "waiting",
                Some(0) => "done",
                Some(0x83) => "denied",
                Some(_) => "failed",
            };
            let is_meant = self.blocks.iter().any(|block| touches(it, *block));
            let more = if is_meant {
                " meant"
            } else if self.blocks.is_empty() {
                ""
            } else {
                " other"
            };
            let end = it.end.map_or(String::new(), |end| format!(" to {:.6}", seconds(end)));
            let title =
                format!("path {cntlid}, queue {}: {}, {status}, {:.6}{end}", it.qid, name(it), seconds(it.sent));
            self.bar(&format!("{class}{more}"), bar, top + row * ROW + 1, &title);
        }
    }

    fn marks(&mut self, notes: &[(u64, String)]) {
        let first = self.axis.0.first().copied().unwrap_or(0);
        for (at, text) in notes.iter().filter(|it| it.0 >= first) {
            let (x, bottom) = (self.axis.place(*at), self.height);
            let class = if text.starts_with("VIOLATION") { "violation" } else { "trouble" };
            let title = escape(&format!("{:.6} {text:.300}", seconds(*at)));
            let _ = writeln!(
                self.bars,
                r#"<line class="{class}" x1="{x}" x2="{x}" y1="18" y2="{bottom}"><title>{title}</title></line>"#
            );
        }
        for at in (0..self.axis.0.len()).step_by(TICK) {
            let (x, time) = (SLOT + SLOT * at, seconds(self.axis.0[at]));
            let _ = write!(self.bars, r#"<text class="tick" x="{x}" y="12">{time:.6}</text>"#);
        }
    }
}

fn drawn(tap: &Tap, violations: &[String]) -> Drawing {
    let told = &tap.told[tap.told.len().saturating_sub(MOST)..];
    let axis = Axis::new(tap, told);
    let first = axis.0.first().copied().unwrap_or(0);
    let blocks = blocks(violations);
    let mut drawing = Drawing { axis, blocks, labels: String::new(), bars: String::new(), height: TOP };
    let mut machines: BTreeMap<usize, Vec<&Lived>> = BTreeMap::new();
    for it in tap.lived.iter().filter(|it| it.end.map_or(true, |end| end >= first)) {
        machines.entry(it.machine).or_default().push(it);
    }
    let mut paths: BTreeMap<u16, Vec<&Told>> = BTreeMap::new();
    told.iter().for_each(|it| paths.entry(it.cntlid).or_default().push(it));
    machines.iter().for_each(|(machine, lived)| drawing.machine(*machine, lived));
    paths.iter().for_each(|(cntlid, told)| drawing.path(*cntlid, told));
    drawing.marks(&tap.notes);
    drawing
}

/// The page of a run.
pub fn page(run: &Run, report: &Report) -> String {
    let none = Tap::default();
    let tap = report.tapped.as_ref().unwrap_or(&none);
    let drawing = drawn(tap, &report.violations);
    let (width, height) = (drawing.axis.end(), drawing.height);
    let violations: String = report.violations.iter().map(|it| format!("<pre>{}</pre>\n", escape(it))).collect();
    let title = format!("simulate {}", escape(&run.words().join(" ")));
    let legend =
        "A bar is a command, from its sending to its answer: blue succeeded, red Reservation Conflict, orange \
                  another status, grey without an answer. Green bars are targets, orange lines troubles, the red line \
                  the violation. Commands on its block have a frame. Times are seconds of the simulated clock; the \
                  distance of events does not show it. Point at a bar or line for more.";
    let (labels, bars, sent) = (&drawing.labels, &drawing.bars, report.sent);
    format!(
        r#"<!DOCTYPE html>
<html lang="en"><head><meta charset="utf-8"><title>{title}</title><style>{STYLE}</style></head><body>
<h1>{title}</h1>
<p>{sent} commands. {legend}</p>
{violations}<div class="picture"><svg width="{LEFT}" height="{height}">{labels}</svg>
<div class="scroll" id="scroll"><svg width="{width}" height="{height}">{bars}</svg></div></div>
<script>document.getElementById("scroll").scrollLeft = {width};</script>
</body></html>
"#
    )
}

#[cfg(test)]
mod tests {
    use super::*;

    #[test]
    fn the_block_of_a_violation_is_marked() {
        let told = |slba, sent, status| Told {
            cntlid: 3,
            qid: 1,
            opcode: 1,
            form: 0,
            slba,
            count: 2,
            value: Some(7),
            sent,
            end: Some(sent + 5),
            status,
        };
        let mut tap = Tap::default();
        tap.told.extend([told(10, 1, Some(0)), told(20, 2, None)]);
        tap.notes.push((3, "a target is killed <now>".to_owned()));
        tap.begin(1, 0, 1);
        let drawing = drawn(&tap, &["block 11: value 0x9 was read".to_owned()]);
        let count = |text: &str| drawing.bars.matches(text).count();
        assert_eq!([count("done meant"), count("waiting other"), count("killed &lt;now>"), count("\"up\"")], [1; 4]);
        assert_eq!(drawing.bars.matches("Write of blocks 10 to 11, values from 0x7 (7), status 0h").count(), 1);
    }
}
