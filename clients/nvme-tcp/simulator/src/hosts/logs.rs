//! Get Log Page: every page, whole and in parts, and pages and parts that there are not.

use super::admin::{one_of, words, DATA_TRANSFER, INVALID_FIELD, SUCCESS};
use super::pdu::u16_at;
use super::queue::{Command, Completion, Lost};
use super::{below, Session};

const GET_LOG_PAGE: u8 = 0x02;
const INVALID_PAGE: u16 = 0x109;
/// Pages, with their sizes; the size of that of access depends on the attached namespaces.
const ERRORS: u8 = 0x01;
const HEALTH: u8 = 0x02;
const CHANGED: u8 = 0x04;
const EFFECTS: u8 = 0x05;
const ACCESS: u8 = 0x0c;
const NOTICES: u8 = 0x80;
const PAGES: [(u8, u64); 9] = [
    (0x00, 1024),
    (ERRORS, 4096),
    (HEALTH, 512),
    (0x03, 512),
    (CHANGED, 4096),
    (EFFECTS, 4096),
    (ACCESS, 48),
    (0x12, 1024),
    (NOTICES, 64),
];
/// Retain Asynchronous Event.
const RETAIN: u32 = 1 << 15;
/// Offset Type, and a command set.
const BY_INDEX: u32 = 1 << 23;
const OTHER_SET: u32 = 1 << 24;

fn u64_at(bytes: &[u8], at: usize) -> u64 {
    bytes[at..at + 8].iter().rev().fold(0, |sum, it| sum << 8 | u64::from(*it))
}

/// A Get Log Page of `length` bytes from an offset on.
pub fn page_command(page: u8, length: usize, offset: u64, retains: bool) -> Command {
    let count = length as u32 / 4 - 1;
    let low = u32::from(page) | if retains { RETAIN } else { 0 } | count << 16;
    let list = words(&[low, count >> 16, offset as u32, (offset >> 32) as u32, 0]);
    Command { opcode: GET_LOG_PAGE, words: list, length, ..Command::default() }
}

impl Session<'_> {
    /// Get Log Page with a page and a part chosen at random.
    pub fn read_log(&mut self) -> Result<(), Lost> {
        let (page, size) = one_of(&PAGES);
        match below(8) {
            0 => self.read_wrong_page(page),
            1 => self.read_beyond(page, size),
            2..=3 => self.read_in_parts(page, size as usize),
            _ => self.read_whole(page, one_of(&[64, 512, 4096]), below(2) == 0),
        }
    }

    /// Reads the page of an event, which may be another by now.
    pub fn read_page_of_event(&mut self, page: u8) -> Result<(), Lost> {
        self.read_whole(page, 4096, false)
    }

    fn read_whole(&mut self, page: u8, length: usize, retains: bool) -> Result<(), Lost> {
        let command = page_command(page, length, 0, retains);
        let completion = self.expect(&command, &[SUCCESS])?;
        self.judge_page(page, length, &completion);
        Ok(())
    }

    /// Two halves are the whole, of pages that only this host changes.
    fn read_in_parts(&mut self, page: u8, size: usize) -> Result<(), Lost> {
        let whole = self.expect(&page_command(page, size, 0, true), &[SUCCESS])?;
        let half = size / 2;
        let mut parts = Vec::new();
        for offset in [0, half] {
            let command = page_command(page, half, offset as u64, true);
            parts.extend(self.expect(&command, &[SUCCESS])?.data);
        }
        if matches!(page, 0x00 | 0x03 | EFFECTS | 0x12) && parts != whole.data {
            self.complain(&format!("log page {page:#x} has other bytes in parts"));
        }
        self.judge_page(page, size, &whole);
        Ok(())
    }

    /// Offsets beyond the end, and lengths beyond the buffer.
    fn read_beyond(&mut self, page: u8, size: u64) -> Result<(), Lost> {
        let offset = one_of(&[2, 4097, size + 8192, u64::MAX - 3]);
        self.expect(&page_command(page, 64, offset, true), &[INVALID_FIELD])?;
        let short = Command { length: one_of(&[0, 60]), ..page_command(page, 64, 0, true) };
        self.expect(&short, &[DATA_TRANSFER])?;
        self.expect(&Command { length: 64, ..page_command(page, 1 << 20, 0, true) }, &[DATA_TRANSFER]).map(|_| ())
    }

    fn read_wrong_page(&mut self, page: u8) -> Result<(), Lost> {
        let unknown = one_of(&[0x06, 0x0d, 0x70, 0xc0, 0xff]);
        self.expect(&page_command(unknown, 64, 0, false), &[INVALID_PAGE])?;
        let of_one = Command { nsid: 1, ..page_command(page, 64, 0, true) };
        self.expect(&of_one, &[INVALID_FIELD])?;
        let mut other = page_command(page, 64, 0, true);
        let kind = if page == EFFECTS { one_of(&[BY_INDEX, OTHER_SET]) } else { BY_INDEX };
        other.words[16..20].copy_from_slice(&kind.to_le_bytes());
        self.expect(&other, &[INVALID_FIELD])?;
        let groups = u32::from(ACCESS) | 1 << 8 | 15 << 16;
        let command = Command { words: words(&[groups]), ..page_command(ACCESS, 64, 0, true) };
        let completion = self.expect(&command, &[SUCCESS])?;
        self.judge_page(ACCESS, 64, &completion);
        Ok(())
    }

    fn judge_page(&mut self, page: u8, length: usize, completion: &Completion) {
        let data = &completion.data;
        if completion.status != SUCCESS {
            return;
        }
        if data.len() != length {
            return self.complain(&format!("log page {page:#x} has {} bytes, not {length}", data.len()));
        }
        let is_right = match page {
            0x00 if length >= 4 * 0x12 => PAGES.iter().all(|(it, _)| *it > 0x0c || data[4 * usize::from(*it)] == 1),
            ERRORS => has_falling_numbers(data),
            HEALTH if length >= 512 => self.follows(data),
            ACCESS => self.is_access(data),
            _ => true,
        };
        if !is_right {
            self.complain(&format!("log page {page:#x} is wrong: {:x?}", &data[..length.min(256)]));
        }
    }

    /// Counters of SMART / Health Information never fall while a target runs.
    fn follows(&mut self, data: &[u8]) -> bool {
        let now: Vec<u64> = (32..192).step_by(16).map(|at| u64_at(data, at)).collect();
        let before = std::mem::replace(&mut self.known.health, now.clone());
        before.is_empty() || before.iter().zip(&now).all(|(one, other)| one <= other)
    }

    /// One group, whose state is one of three, and whose number of changes never falls.
    fn is_access(&mut self, data: &[u8]) -> bool {
        let changes = u64_at(data, 0);
        let before = std::mem::replace(&mut self.known.access_changes, changes);
        u16_at(data, 8) == 1 && (1..=3).contains(&data[32]) && before <= changes
    }
}

/// Error Information: the last failure comes first.
fn has_falling_numbers(data: &[u8]) -> bool {
    let numbers: Vec<u64> = data.chunks_exact(64).map(|it| u64_at(it, 0)).collect();
    numbers.windows(2).all(|it| it[1] == it[0].saturating_sub(1))
}
