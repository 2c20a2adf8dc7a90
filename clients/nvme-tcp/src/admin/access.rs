//! Asymmetric Namespace Access: how well the namespaces are reached by a controller, which `ctl` sets. All namespaces
//! are one group, so that a path has one state.

use crate::bytes::put;
use crate::numbers::narrow;
use crate::target::Target;

/// The group of all namespaces, and how many groups there are.
pub const GROUP: u32 = 1;
/// ANATT: how long a change takes at most, in seconds.
pub const TRANSITION_SECONDS: u8 = 1;
/// ANACAP: the states that occur.
pub const CAPABILITIES: u8 = 1 << 2 | 1 << 1 | 1;

/// The state of a path.
#[derive(Clone, Copy, Debug, PartialEq, Eq)]
pub enum Access {
    Optimized = 1,
    NonOptimized = 2,
    Inaccessible = 3,
}

impl Access {
    /// Its number, the Asymmetric Namespace Access State.
    #[allow(clippy::as_conversions)] // An enum has no other conversion.
    pub const fn state(self) -> u8 {
        self as u8
    }

    /// The state that a word names.
    fn of(word: &str) -> Option<Access> {
        match word {
            "optimized" => Some(Access::Optimized),
            "non-optimized" => Some(Access::NonOptimized),
            "inaccessible" => Some(Access::Inaccessible),
            _ => None,
        }
    }
}

impl Target<'_> {
    /// `ana C STATE`: sets the state of a controller and notifies its host. `None` if there is no such state.
    pub fn set_access(&mut self, index: usize, word: &str) -> Option<()> {
        let access = Access::of(word)?;
        if self.access[index] != access {
            self.access[index] = access;
            self.access_changes += 1;
            if let Some(association) = &mut self.associations[index] {
                association.events.change_access();
            }
            self.tell_events(index);
        }
        Some(())
    }

    /// Log Page 0Ch: the group, with its namespaces unless only groups are requested.
    pub fn access_page(&mut self, index: usize, is_of_groups: bool) -> Vec<u8> {
        let cntlid = self.controllers[index].cntlid;
        let mut nsids: Vec<u32> =
            self.attachments.iter().filter(|it| it.cntlid == cntlid && !is_of_groups).map(|it| it.nsid).collect();
        nsids.sort_unstable();
        let mut page = vec![0; 48 + 4 * nsids.len()];
        put(&mut page, 0, &self.access_changes.to_le_bytes());
        put(&mut page, 8, &1u16.to_le_bytes());
        put(&mut page, 16, &GROUP.to_le_bytes());
        put(&mut page, 20, &narrow::<_, u32>(nsids.len()).to_le_bytes());
        put(&mut page, 24, &self.access_changes.to_le_bytes());
        page[32] = self.access[index].state();
        nsids.iter().enumerate().for_each(|(place, nsid)| put(&mut page, 48 + 4 * place, &nsid.to_le_bytes()));
        page
    }
}
