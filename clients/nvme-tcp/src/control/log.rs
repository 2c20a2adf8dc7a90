//! The log: lines on standard error about hosts, each with its time, as text or as JSON. Each topic has a limit. Once
//! lines of a topic are allowed again, one line reports how many were left out.

use crate::numbers::narrow;
use std::fmt::{self, Display, Write as _};
use std::io::{self, Write as _};
use std::sync::atomic::{AtomicU8, Ordering};
use std::time::{Duration, Instant, SystemTime, UNIX_EPOCH};

/// How lines are written.
#[derive(Clone, Copy, Debug, PartialEq, Eq)]
pub enum Form {
    None,
    Text,
    Json,
}

impl Form {
    /// Its number, which an atomic value can have.
    #[allow(clippy::as_conversions)] // An enum has no other conversion.
    const fn number(self) -> u8 {
        self as u8
    }

    /// The form that a word of the command line names.
    pub fn of(word: &str) -> Option<Form> {
        match word {
            "none" => Some(Form::None),
            "text" => Some(Form::Text),
            "json" => Some(Form::Json),
            _ => None,
        }
    }
}

/// The form of warnings and faults, which come from everywhere. Before the target serves they are plain texts.
static FORM: AtomicU8 = AtomicU8::new(Form::None.number());

/// Has warnings and faults written in this form from now on.
pub fn begin(form: Form) {
    FORM.store(form.number(), Ordering::Relaxed);
}

/// Writes a warning.
pub fn warn(reason: fmt::Arguments<'_>) {
    tell("warning", reason);
}

/// Writes why the program ends.
pub fn fault(reason: &str) {
    tell("fault", format_args!("{reason}"));
}

fn tell(event: &str, reason: fmt::Arguments<'_>) {
    let form = match FORM.load(Ordering::Relaxed) {
        it if it == Form::Json.number() => Form::Json,
        it if it == Form::Text.number() => Form::Text,
        _ => return put(&format!("nvmetcp: {reason}")),
    };
    put(&line_of(form, now(), event, &[("reason", &reason)]));
}

/// Writes a line. If standard error is closed nobody reads it.
fn put(line: &str) {
    let _ = writeln!(io::stderr(), "{line}");
}

fn now() -> Duration {
    SystemTime::now().duration_since(UNIX_EPOCH).unwrap_or_default()
}

/// A name and its value.
pub type Field<'l> = (&'static str, &'l dyn Display);

/// The text of a line: of a time since 1970, an event, and its fields.
fn line_of(form: Form, time: Duration, event: &str, fields: &[Field<'_>]) -> String {
    let mut line = String::new();
    let is_json = form == Form::Json;
    let _ = if is_json {
        write!(line, "{{\"time\":\"{}\",\"event\":\"{event}\"", Timestamp(time))
    } else {
        write!(line, "{} nvmetcp: {event}", Timestamp(time))
    };
    for (name, value) in fields {
        let value = value.to_string();
        let is_plain = !is_json && !value.is_empty() && value.bytes().all(|it| it.is_ascii_graphic() && it != b'"');
        let _ = if is_json { write!(line, ",\"{name}\":") } else { write!(line, " {name}=") };
        if is_plain {
            line.push_str(&value);
        } else {
            put_quoted(&mut line, &value);
        }
    }
    if is_json {
        line.push('}');
    }
    line
}

/// Puts a text in quotes, as JSON has it.
fn put_quoted(line: &mut String, text: &str) {
    line.push('"');
    for it in text.chars() {
        let _ = match it {
            '"' | '\\' => write!(line, "\\{it}"),
            it if it.is_control() => write!(line, "\\u{:04x}", u32::from(it)),
            it => line.write_char(it),
        };
    }
    line.push('"');
}

/// A time since 1970, written as ISO 8601 has it, in UTC.
struct Timestamp(Duration);

impl Display for Timestamp {
    fn fmt(&self, f: &mut fmt::Formatter<'_>) -> fmt::Result {
        let seconds = self.0.as_secs();
        let (year, month, day) = date_of(seconds / 86_400);
        let (hour, minute, second) = (seconds / 3600 % 24, seconds / 60 % 60, seconds % 60);
        let milliseconds = self.0.subsec_millis();
        write!(f, "{year:04}-{month:02}-{day:02}T{hour:02}:{minute:02}:{second:02}.{milliseconds:03}Z")
    }
}

/// Year, month and day of a number of days since 1970. Years begin in March here, so that a leap day ends one.
fn date_of(days: u64) -> (u64, u64, u64) {
    const FOUR_CENTURIES: u64 = 146_097;
    let shifted = days + 719_468;
    let (era, day) = (shifted / FOUR_CENTURIES, shifted % FOUR_CENTURIES);
    let year = (day - day / 1460 + day / 36_524 - day / 146_096) / 365;
    let day = day - (365 * year + year / 4 - year / 100);
    let month = (5 * day + 2) / 153;
    let in_next_year = month >= 10;
    (
        400 * era + year + u64::from(in_next_year),
        if in_next_year { month - 9 } else { month + 3 },
        day - (153 * month + 2) / 5 + 1,
    )
}

/// What a line is about.
#[derive(Clone, Copy, Debug, PartialEq, Eq)]
pub enum Topic {
    /// The target serves, or ends in order, or loses power.
    Service,
    /// A host has an association, or has none any more.
    Host,
    /// A Connect is refused.
    Refused,
    /// A connection is closed that has no association.
    Closed,
    /// A command of this controller is refused by a reservation.
    Fenced(usize),
}

/// The names of topics except the last, and their limits: enough lines for all hosts to come and go.
const TOPICS: [(&str, u32); 4] = [("service", 10), ("host", 64), ("refused", 10), ("closed", 10)];
/// How often another one is.
const PERIOD: Duration = Duration::from_secs(5);
/// Limits the lines about commands of a controller that a reservation refuses.
const FENCED_BURST: u32 = 1;
const FENCED_PERIOD: Duration = Duration::from_secs(10);

/// Lets a number of lines pass, and then one in each period.
struct Limit {
    burst: u32,
    period: Duration,
    room: u32,
    /// When the limit was last updated, in whole periods.
    at: Instant,
    left_out: u64,
}

impl Limit {
    fn new(burst: u32, period: Duration, now: Instant) -> Limit {
        Limit { burst, period, room: burst, at: now, left_out: 0 }
    }

    /// Whether a line is within the limit, which counts it.
    fn take(&mut self, now: Instant) -> bool {
        let periods: u32 = narrow(now.saturating_duration_since(self.at).as_millis() / self.period.as_millis());
        if self.room == self.burst {
            self.at = now;
        } else if periods != 0 {
            self.room = self.room.saturating_add(periods).min(self.burst);
            self.at += self.period * periods;
        }
        let has_room = self.room != 0;
        self.room -= u32::from(has_room);
        has_room
    }
}

/// The log of a target.
pub struct Log {
    form: Form,
    limits: Vec<Limit>,
    /// How many lines were left out.
    pub(super) left_out: u64,
}

impl Log {
    /// The log of a target with this many controllers.
    pub fn new(form: Form, controllers: usize) -> Log {
        let now = Instant::now();
        let topics = TOPICS.iter().map(|(_, burst)| Limit::new(*burst, PERIOD, now));
        let fences = (0..controllers).map(|_| Limit::new(FENCED_BURST, FENCED_PERIOD, now));
        Log { form, limits: topics.chain(fences).collect(), left_out: 0 }
    }

    /// Writes a line, if it is within its topic's limit.
    pub fn put(&mut self, topic: Topic, event: &str, fields: &[Field<'_>]) {
        if self.form == Form::None {
            return;
        }
        let limit = match topic {
            Topic::Service => 0,
            Topic::Host => 1,
            Topic::Refused => 2,
            Topic::Closed => 3,
            Topic::Fenced(index) => TOPICS.len() + index,
        };
        if self.limits[limit].take(Instant::now()) {
            self.tell_left_out(limit);
            put(&line_of(self.form, now(), event, fields));
        } else {
            self.limits[limit].left_out += 1;
            self.left_out += 1;
        }
    }

    /// Reports how many lines were left out, of topics that have space for lines again.
    pub fn rest(&mut self, now: Instant) {
        for limit in 0..self.limits.len() {
            if self.limits[limit].left_out != 0 && self.limits[limit].take(now) {
                self.tell_left_out(limit);
            }
        }
    }

    fn tell_left_out(&mut self, limit: usize) {
        let count = std::mem::take(&mut self.limits[limit].left_out);
        if count != 0 {
            let cntlid = (limit + 1).saturating_sub(TOPICS.len());
            let controller: [Field<'_>; 1] = [("controller", &cntlid)];
            let (topic, fields) = match TOPICS.get(limit) {
                Some((name, _)) => (*name, &[][..]),
                None => ("fenced", &controller[..]),
            };
            let first: [Field<'_>; 2] = [("topic", &topic), ("lines", &count)];
            let fields = [&first[..], fields].concat();
            put(&line_of(self.form, now(), "left-out", &fields));
        }
    }
}

#[cfg(test)]
mod tests {
    use super::*;

    #[test]
    fn times_are_iso_8601() {
        for (seconds, wanted) in [
            (0, "1970-01-01T00:00:00.007Z"),
            (951_782_399, "2000-02-28T23:59:59.007Z"),
            (951_868_799, "2000-02-29T23:59:59.007Z"),
            (951_868_800, "2000-03-01T00:00:00.007Z"),
            (1_735_689_599, "2024-12-31T23:59:59.007Z"),
            (1_735_689_600, "2025-01-01T00:00:00.007Z"),
            (4_107_542_400, "2100-03-01T00:00:00.007Z"),
        ] {
            assert_eq!(Timestamp(Duration::new(seconds, 7_000_000)).to_string(), wanted);
        }
    }

    #[test]
    fn lines_are_text_or_json() {
        let fields: [Field<'_>; 3] = [("host", &"a1"), ("reason", &"two words, \"\\\n"), ("empty", &"")];
        let (text, json) = [Form::Text, Form::Json].map(|it| line_of(it, Duration::ZERO, "refused", &fields)).into();
        let start = "1970-01-01T00:00:00.000Z";
        let quoted = r#""two words, \"\\\u000a""#;
        assert_eq!(text, format!("{start} nvmetcp: refused host=a1 reason={quoted} empty=\"\""));
        let head = format!("{{\"time\":\"{start}\",\"event\":\"refused\"");
        assert_eq!(json, format!("{head},\"host\":\"a1\",\"reason\":{quoted},\"empty\":\"\"}}"));
    }

    #[test]
    fn a_topic_has_room_for_some_lines_and_then_for_one_in_a_period() {
        let begun = Instant::now();
        let mut limit = Limit::new(10, PERIOD, begun);
        let passed = |seconds: u64| (0..100).filter(|_| limit.take(begun + Duration::from_secs(seconds))).count();
        assert_eq!([0, 1, 5, 9, 10, 24, 1000].map(passed), [10, 0, 1, 0, 1, 2, 10]);
    }
}
