//! Get Log Page: what is checked of the command, and the pages.

use crate::admin::features;
use crate::bytes::put;
use crate::numbers::{to_u64, to_usize};
use crate::nvme::entry::SubmissionEntry;
use crate::nvme::status::{Status, DATA_TRANSFER, INVALID_FIELD, INVALID_LOG_PAGE};
use crate::nvme::{
    ABORT, ALL_NAMESPACES, ASYNCHRONOUS_EVENT_REQUEST, CHANGED_NAMESPACES, COMMAND_EFFECTS, COMPARE,
    DATASET_MANAGEMENT, ERROR_INFORMATION, FEATURE_EFFECTS, FIRMWARE_SLOTS, FLUSH, GET_FEATURES, GET_LOG_PAGE,
    HEALTH_INFORMATION, IDENTIFY, KEEP_ALIVE, NAMESPACE_ACCESS, NAMESPACE_ATTACHMENT, READ, RESERVATION_ACQUIRE,
    RESERVATION_NOTICES, RESERVATION_REGISTER, RESERVATION_RELEASE, RESERVATION_REPORT, SET_FEATURES,
    SUPPORTED_LOG_PAGES, WRITE, WRITE_ZEROES,
};
use crate::target::answer::Answer;
use crate::target::Target;

/// The pages that there are.
const PAGES: [u8; 9] = [
    SUPPORTED_LOG_PAGES,
    ERROR_INFORMATION,
    HEALTH_INFORMATION,
    FIRMWARE_SLOTS,
    CHANGED_NAMESPACES,
    COMMAND_EFFECTS,
    NAMESPACE_ACCESS,
    FEATURE_EFFECTS,
    RESERVATION_NOTICES,
];
/// Retain Asynchronous Event in double word 10, Offset Type in double word 14.
const RETAIN: u32 = 1 << 15;
/// Log Specific Parameter of Asymmetric Namespace Access: groups without their namespaces.
const RETURN_GROUPS_ONLY: u32 = 1 << 8;
const BY_INDEX: u32 = 1 << 23;

/// Effects of commands: it is supported, changes blocks, and changes which namespaces there are.
const IS_SUPPORTED: u32 = 1;
const CHANGES_BLOCKS: u32 = 1 << 1;
const CHANGES_NAMESPACES: u32 = 1 << 3;
const ADMIN_EFFECTS: [(u8, u32); 8] = [
    (GET_LOG_PAGE, 0),
    (IDENTIFY, 0),
    (ABORT, 0),
    (SET_FEATURES, 0),
    (GET_FEATURES, 0),
    (ASYNCHRONOUS_EVENT_REQUEST, 0),
    (NAMESPACE_ATTACHMENT, CHANGES_NAMESPACES),
    (KEEP_ALIVE, 0),
];
const IO_EFFECTS: [(u8, u32); 10] = [
    (FLUSH, 0),
    (WRITE, CHANGES_BLOCKS),
    (READ, 0),
    (COMPARE, 0),
    (WRITE_ZEROES, CHANGES_BLOCKS),
    (DATASET_MANAGEMENT, CHANGES_BLOCKS),
    (RESERVATION_REGISTER, 0),
    (RESERVATION_REPORT, 0),
    (RESERVATION_ACQUIRE, 0),
    (RESERVATION_RELEASE, 0),
];

/// The part of a page that Get Log Page asks for, and zeros after the end of the page. NUMDL and NUMDU give its length
/// in double words, LPOL and LPOU its offset.
pub fn part(page: &[u8], entry: &SubmissionEntry, length: usize) -> Result<Answer, Status> {
    let words = u64::from(entry.cdw10_upper()) | u64::from(entry.cdw11() & 0xffff) << 16;
    let (asked, offset) = (4 * (words + 1), entry.log_offset());
    if offset % 4 != 0 || offset > to_u64(page.len()) || entry.cdw14() & BY_INDEX != 0 {
        return Err(INVALID_FIELD);
    }
    if asked > to_u64(length) {
        return Err(DATA_TRANSFER);
    }
    let rest = &page[to_usize(offset)..];
    Ok(Answer::with(rest[..rest.len().min(to_usize(asked))].to_vec(), length))
}

/// Log Page 00h: which pages there are.
fn supported_page() -> Vec<u8> {
    let mut page = vec![0; 1024];
    PAGES.iter().for_each(|it| page[4 * usize::from(*it)] = 1);
    page
}

/// Log Page 05h: the admin commands, and then those of I/O.
fn effects_page() -> Vec<u8> {
    let mut page = vec![0; 4096];
    for (place, effects) in [(0, &ADMIN_EFFECTS[..]), (1024, &IO_EFFECTS[..])] {
        for (opcode, effect) in effects {
            put(&mut page, place + 4 * usize::from(*opcode), &(effect | IS_SUPPORTED).to_le_bytes());
        }
    }
    page
}

/// Log Page 03h: slot 1 is active, with the firmware revision that Identify has.
fn firmware_page() -> Vec<u8> {
    let mut page = vec![0; 512];
    page[0] = 1;
    put(&mut page, 8, b"1.0     ");
    page
}

impl Target<'_> {
    /// Executes Get Log Page.
    pub fn get_log_page(&mut self, index: usize, entry: &SubmissionEntry, length: usize) -> Answer {
        let retains = entry.cdw10() & RETAIN != 0;
        if !PAGES.contains(&entry.cdw10_low()) {
            return Answer::of(INVALID_LOG_PAGE);
        }
        // None is of one namespace. The Command Set Identifier is in the last byte of double word 14.
        let has_command_set = entry.cdw10_low() != COMMAND_EFFECTS || entry.log_command_set() == 0;
        if !matches!(entry.namespace_id(), 0 | ALL_NAMESPACES) || !has_command_set {
            return Answer::of(INVALID_FIELD);
        }
        let page = match entry.cdw10_low() {
            SUPPORTED_LOG_PAGES => supported_page(),
            ERROR_INFORMATION => self.health[index].error_page(),
            HEALTH_INFORMATION => self.health[index].health_page(),
            FIRMWARE_SLOTS => firmware_page(),
            CHANGED_NAMESPACES => {
                self.associations[index].as_ref().map(|it| it.events.changed_page()).unwrap_or_default()
            }
            COMMAND_EFFECTS => effects_page(),
            NAMESPACE_ACCESS => self.access_page(index, entry.cdw10() & RETURN_GROUPS_ONLY != 0),
            RESERVATION_NOTICES => self.notice_page(index),
            _ => features::effects_page(self.has_volatile_cache()),
        };
        let answer = part(&page, entry, length);
        if let (Ok(_), false, Some(association)) = (&answer, retains, &mut self.associations[index]) {
            association.events.was_read(entry.cdw10_low());
            self.tell_events(index);
        }
        answer.unwrap_or_else(Answer::of)
    }
}

#[cfg(test)]
mod tests {
    use super::*;
    use crate::numbers::low_u16;
    use crate::nvme::ENTRY;
    use crate::target::answer::Payload;

    fn asked(page: &[u8], words: u32, offset: u64, length: usize) -> Result<Vec<u8>, Status> {
        let mut bytes = [0; ENTRY];
        put(&mut bytes, 42, &low_u16(words).to_le_bytes());
        put(&mut bytes, 44, &(words >> 16).to_le_bytes());
        put(&mut bytes, 48, &offset.to_le_bytes());
        part(page, &bytes.into(), length)
            .map(|answer| if let Payload::Bytes(bytes) = answer.data { bytes } else { vec![] })
    }

    #[test]
    fn parts_of_pages() {
        let page = [1, 2, 3, 4, 5, 6, 7, 8];
        assert_eq!(asked(&page, 0, 0, 4), Ok(vec![1, 2, 3, 4]));
        assert_eq!(asked(&page, 0, 4, 8), Ok(vec![5, 6, 7, 8, 0, 0, 0, 0]));
        assert_eq!(asked(&page, 3, 4, 16), Ok([&[5, 6, 7, 8][..], &[0; 12]].concat()));
        assert_eq!(asked(&page, 0, 8, 4), Ok(vec![0; 4]));
        for (words, offset, length, status) in [
            (0, 12, 4, INVALID_FIELD),
            (0, 2, 4, INVALID_FIELD),
            (0, u64::MAX - 3, 4, INVALID_FIELD),
            (1, 0, 4, DATA_TRANSFER),
            (0x10000, 0, 4, DATA_TRANSFER),
            (u32::MAX, 0, 131_072, DATA_TRANSFER),
        ] {
            assert_eq!(asked(&page, words, offset, length), Err(status));
        }
    }
}
