//! Asynchronous events: requests that are held, and the notices that a controller's namespaces, how they are reached, or
//! their reservations have changed.

use crate::bytes::put;
use crate::nvme::{CHANGED_NAMESPACES, NAMESPACE_ACCESS, RESERVATION_NOTICES};
use nvmesim::Notices;
use std::collections::{BTreeSet, VecDeque};

/// The most Asynchronous Event Requests of a controller that are held: Identify Controller's AERL plus one.
pub const MOST_EVENTS: usize = 4;
/// The size of the log page of namespaces that have changed.
const LIST: usize = 4096;

/// A notice: its bit in OAES and in Asynchronous Event Configuration, and double word 0 of its answer, which has the
/// log page, the information, and type 2h.
#[derive(Clone, Copy, Debug, PartialEq, Eq)]
pub struct Notice {
    pub(super) mask: u32,
    dw0: u32,
}

/// The namespace attribute notice, and that of a change of Asymmetric Namespace Access.
pub const NAMESPACE_NOTICE: Notice = Notice { mask: 1 << 8, dw0: u32::from_be_bytes([0, CHANGED_NAMESPACES, 0, 2]) };
pub const ACCESS_NOTICE: Notice = Notice { mask: 1 << 11, dw0: u32::from_be_bytes([0, NAMESPACE_ACCESS, 3, 2]) };

/// Double word 0 of Reservation Log Page Available: the log page, information 0h, and type 6h. No bit of Asynchronous
/// Event Configuration turns it off, only the masks of the namespaces do.
const RESERVATION_EVENT: u32 = u32::from_be_bytes([0, RESERVATION_NOTICES, 0, 6]);

/// The events of an association.
#[derive(Default)]
pub struct Events {
    requests: VecDeque<u16>,
    /// The reservation notifications that the host has not read.
    pub notices: Notices,
    /// Whether Reservation Log Page Available was sent since the host last read that page.
    has_told_reservation: bool,
    /// Asynchronous Event Configuration, as its host has set it.
    pub(super) configuration: u32,
    changed: BTreeSet<u32>,
    has_new_access: bool,
    /// The masks of the notices that were sent since the host last read their log pages.
    told: u32,
}

impl Events {
    /// Holds a request, unless the limit is reached.
    pub fn hold(&mut self, cid: u16) -> bool {
        let has_room = self.requests.len() < MOST_EVENTS;
        if has_room {
            self.requests.push_back(cid);
        }
        has_room
    }

    /// The identifiers of the requests that are held.
    pub fn requests(&self) -> Vec<u16> {
        self.requests.iter().copied().collect()
    }

    /// A namespace was attached or detached.
    pub fn change(&mut self, nsid: u32) {
        self.changed.insert(nsid);
    }

    /// Namespaces are reached in another way.
    pub fn change_access(&mut self) {
        self.has_new_access = true;
    }

    /// The request to answer now, and double word 0 of the answer.
    pub fn due(&mut self) -> Option<(u16, u32)> {
        if !self.has_told_reservation && self.notices.available() != 0 {
            let cid = self.requests.pop_front()?;
            self.has_told_reservation = true;
            return Some((cid, RESERVATION_EVENT));
        }
        let pending = [(NAMESPACE_NOTICE, !self.changed.is_empty()), (ACCESS_NOTICE, self.has_new_access)];
        let is_due = |(notice, has_changed): &(Notice, bool)| {
            *has_changed && self.told & notice.mask == 0 && self.configuration & notice.mask != 0
        };
        let (notice, _) = pending.into_iter().find(is_due)?;
        let cid = self.requests.pop_front()?;
        self.told |= notice.mask;
        Some((cid, notice.dw0))
    }

    /// The log page of namespaces that have changed.
    pub fn changed_page(&self) -> Vec<u8> {
        let mut page = vec![0; LIST];
        for (place, nsid) in self.changed.iter().enumerate() {
            put(&mut page, 4 * place, &nsid.to_le_bytes());
        }
        page
    }

    /// The log page was read without Retain Asynchronous Event: the next change is reported again. The page of
    /// reservation notifications has one at a time, and the next one is reported at once.
    pub fn was_read(&mut self, page: u8) {
        match page {
            CHANGED_NAMESPACES => {
                self.changed.clear();
                self.told &= !NAMESPACE_NOTICE.mask;
            }
            NAMESPACE_ACCESS => {
                self.has_new_access = false;
                self.told &= !ACCESS_NOTICE.mask;
            }
            RESERVATION_NOTICES => {
                self.notices.take();
                self.has_told_reservation = false;
            }
            _ => (),
        }
    }
}

#[cfg(test)]
mod tests {
    use super::*;
    use crate::numbers::narrow;

    #[test]
    fn a_change_is_reported_once_until_it_is_read() {
        let mut events = Events { configuration: 0x900, ..Events::default() };
        (0..narrow(MOST_EVENTS)).for_each(|cid| assert!(events.hold(cid)));
        assert!(!events.hold(9));
        assert_eq!(events.due(), None);
        events.change(3);
        events.configuration = 0x800;
        assert_eq!(events.due(), None);
        events.configuration = 0x900;
        assert_eq!(events.due(), Some((0, 0x0004_0002)));
        events.change(1);
        assert_eq!(events.due(), None);
        events.change_access();
        assert_eq!(events.due(), Some((1, 0x000c_0302)));
        assert_eq!(events.changed_page()[..12], [1, 0, 0, 0, 3, 0, 0, 0, 0, 0, 0, 0]);
        events.was_read(CHANGED_NAMESPACES);
        assert_eq!(events.changed_page(), [0; LIST]);
        events.change(2);
        events.change_access();
        assert_eq!(events.due(), Some((2, 0x0004_0002)));
        assert_eq!(events.due(), None);
        events.was_read(NAMESPACE_ACCESS);
        events.change_access();
        assert_eq!(events.due(), Some((3, 0x000c_0302)));
    }
}
