//! Replays the kept run of a target by the proved library: each event must give what the transcript says, and at the
//! end the blocks must be those of the disk.

use crate::hosts::checker::{value_of, BLOCK};
use nvmesim::{answer_line, read_configuration, Answered, Event, Refusal, Subsystem, ANY_SIZE};
use std::collections::{BTreeMap, BTreeSet};

/// The place of the I/O queue's entries in the memory of a host.
const IO_QUEUE: std::ops::Range<u64> = 0x3000..0x4000;
/// The bytes of a submission queue entry.
const ENTRY: usize = 64;
/// Room for a line of a transcript.
const LINE: usize = 128;

/// An event as a line of a script has it.
enum Owned {
    Store(u16, u64, Vec<u8>),
    Plain(Event<'static>),
}

fn parsed(line: &str) -> Option<Owned> {
    let words: Vec<&str> = line.split(' ').collect();
    let number = |at: usize| words.get(at).and_then(|it| it.parse::<u64>().ok());
    let small = |at: usize| number(at).and_then(|it| u16::try_from(it).ok());
    Some(match words[0] {
        "store" => Owned::Store(small(1)?, number(2)?, bytes_of(words.get(3)?.strip_prefix("hex:")?)?),
        "write32" => Owned::Plain(Event::Write32 { cntlid: small(1)?, offset: number(2)?, value: number(3)? as u32 }),
        "fetch" => Owned::Plain(Event::Fetch { cntlid: small(1)?, qid: small(2)? }),
        "execute" => Owned::Plain(Event::Execute { cntlid: small(1)?, i: number(2)? as usize }),
        "powercycle" => Owned::Plain(Event::PowerCycle),
        _ => return None,
    })
}

/// The value of each hexadecimal digit, and `NO_DIGIT` for other bytes.
static DIGITS: [u8; 256] = digits();
const NO_DIGIT: u8 = 0x80;

const fn digits() -> [u8; 256] {
    let (mut all, mut value) = ([NO_DIGIT; 256], 0);
    while value < 16 {
        all[b"0123456789abcdef"[value] as usize] = value as u8;
        all[b"0123456789ABCDEF"[value] as usize] = value as u8;
        value += 1;
    }
    all
}

fn bytes_of(digits: &str) -> Option<Vec<u8>> {
    let pairs = digits.as_bytes().chunks_exact(2);
    let (is_whole, mut all) = (pairs.remainder().is_empty(), 0);
    let mut bytes = Vec::with_capacity(digits.len() / 2);
    for it in pairs {
        let (high, low) = (DIGITS[usize::from(it[0])], DIGITS[usize::from(it[1])]);
        all |= high | low;
        bytes.push(high << 4 | low);
    }
    (is_whole && all & NO_DIGIT == 0).then_some(bytes)
}

fn answered(result: Result<Answered, Refusal>) -> Result<Answered, String> {
    match result {
        Err(Refusal::NoController) => Ok(Answered::NoController),
        Err(Refusal::Outside) => Ok(Answered::Outside),
        result => result.map_err(|refusal| refusal.to_string()),
    }
}

fn run(subsystem: &mut Subsystem<'_>, event: &Event<'_>) -> Result<Answered, String> {
    answered(match *event {
        Event::Store { cntlid, address, bytes } => subsystem.store(cntlid, address, bytes).map(|()| Answered::Stored),
        Event::Write32 { cntlid, offset, value } => {
            subsystem.write32(cntlid, offset, value).map(|()| Answered::Wrote32)
        }
        Event::Fetch { cntlid, qid } => subsystem.fetch(cntlid, qid).map(Answered::Fetched),
        Event::Execute { cntlid, i } => subsystem.execute(cntlid, i).map(Answered::Executed),
        Event::PowerCycle => {
            subsystem.power_cycle();
            Ok(Answered::PowerCycled)
        }
    })
}

/// The whole lines of a file that may be cut.
fn whole(bytes: &[u8]) -> Vec<&str> {
    let end = bytes.iter().rposition(|it| *it == b'\n').map_or(0, |it| it + 1);
    std::str::from_utf8(&bytes[..end]).map_or(Vec::new(), |it| it.lines().collect())
}

/// The values of the blocks that Writes of a script have. The data of a command are stored after its entry.
pub fn values_of(script: &[u8]) -> BTreeSet<u64> {
    let (mut values, mut is_write) = (BTreeSet::new(), false);
    for digits in whole(script).iter().filter(|it| it.starts_with("store ")).filter_map(|it| it.split(':').nth(1)) {
        if digits.len() == 2 * ENTRY {
            is_write = digits.starts_with("01");
        }
        let bytes = if is_write { bytes_of(digits).unwrap_or_default() } else { Vec::new() };
        values.extend(bytes.chunks_exact(BLOCK).filter_map(value_of));
    }
    values
}

/// How often a script has a command of an I/O queue, by the controller and the identifier.
pub fn commands_of(script: &[u8]) -> BTreeMap<(u16, u16), usize> {
    let mut commands = BTreeMap::new();
    for line in whole(script).iter().filter(|it| it.starts_with("store ")) {
        if let Some(Owned::Store(cntlid, address, bytes)) = if line.len() < 160 { parsed(line) } else { None } {
            if bytes.len() == ENTRY && IO_QUEUE.contains(&address) {
                *commands.entry((cntlid, u16::from(bytes[2]) | u16::from(bytes[3]) << 8)).or_default() += 1;
            }
        }
    }
    commands
}

/// Replays a script over blocks, which it changes; how many events agree with the transcript.
pub fn replay(script: &[u8], transcript: &[u8], blocks: &mut [u8]) -> Result<usize, String> {
    let (lines, gave) = (whole(script), whole(transcript));
    let start = match lines.iter().position(|it| *it == "start") {
        Some(start) => start,
        None => return Ok(0),
    };
    let head = lines[..start].join("\n") + "\n";
    let config = read_configuration(head.as_bytes(), ANY_SIZE, blocks.len() as u64 / 512);
    let config = config.map_err(|error| format!("the script's configuration: {error}"))?;
    let mut subsystem = Subsystem::open_lent(&config, blocks).map_err(|error| error.to_string())?;
    let mut count = 0;
    for line in &lines[start + 1..] {
        let owned = parsed(line).ok_or_else(|| format!("the script has a line {line:.60}"))?;
        let event = match &owned {
            Owned::Store(cntlid, address, bytes) => Event::Store { cntlid: *cntlid, address: *address, bytes },
            Owned::Plain(event) => *event,
        };
        let answer = run(&mut subsystem, &event).map_err(|text| format!("event {count}, {line:.60}: {text}"))?;
        let mut room = [0; LINE];
        let length = answer_line(&event, &answer, &mut room).map_err(|error| error.to_string())?;
        let text = String::from_utf8_lossy(&room[..length]);
        match gave.get(count) {
            Some(given) if *given != text.trim_end() => {
                return Err(format!(
                    "event {count}, {line:.60}: the program gives {text:?}, the target gave {given:?}"
                ));
            }
            _ => count += 1,
        }
    }
    Ok(count)
}

#[cfg(test)]
mod tests {
    use super::*;
    use crate::hosts::checker::bytes_of as bytes_of_value;

    #[test]
    fn values_of_writes_are_found() {
        let digits = |value| bytes_of_value(value).iter().map(|it| format!("{it:02x}")).collect::<String>();
        let entry = |opcode| format!("store 1 0 hex:{opcode}{}\n", "00".repeat(63));
        let data = |value| format!("store 1 65536 hex:{}{}\n", digits(value), digits(value + 1));
        let script = [entry("01"), data(7), entry("05"), data(9)].concat();
        assert_eq!(values_of(script.as_bytes()), BTreeSet::from([7, 8]));
    }

    #[test]
    fn digits_are_read() {
        assert_eq!(bytes_of("00ff5aA5"), Some(vec![0, 255, 0x5a, 0xa5]));
        assert_eq!([bytes_of("0"), bytes_of("0g"), bytes_of("/0"), bytes_of("00 0")], [None, None, None, None]);
    }

    #[test]
    fn a_wrong_answer_is_noticed() {
        let script = b"controller 1 host 0xa1\nnamespace 1 blocks 8 shared\nattached 1 1\nstart\nfetch 1 0\nfetch 1";
        let mut blocks = [0; 4096];
        assert_eq!(replay(script, b"fetch 1 0 idle\n", &mut blocks), Ok(1));
        assert!(replay(script, b"fetch 1 0 took\n", &mut blocks).is_err());
    }
}
