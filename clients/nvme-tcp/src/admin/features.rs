//! Set Features and Get Features: those that hosts ask for and the subsystem leaves out, and the Select field of all.
//! None can be saved.

use crate::configuration::Configuration;
use crate::fault::Outcome;
use crate::numbers::index;
use crate::nvme::entry::SubmissionEntry;
use crate::nvme::status::{
    Status, COMMAND_SEQUENCE, FEATURE_NOT_CHANGEABLE, FEATURE_NOT_SAVEABLE, FEATURE_OF_NO_NAMESPACE, INVALID_FIELD,
    INVALID_NAMESPACE, SUCCESS,
};
use crate::nvme::{
    ALL_NAMESPACES, ARBITRATION, ERROR_RECOVERY, EVENT_CONFIGURATION, HOST_IDENTIFIER, KEEP_ALIVE_TIMER,
    NUMBER_OF_QUEUES, POWER_MANAGEMENT, RESERVATION_NOTIFICATION, TEMPERATURE_THRESHOLD, VOLATILE_WRITE_CACHE,
    WRITE_ATOMICITY, WRITE_PROTECTION,
};
use crate::target::answer::Answer;
use crate::target::controller::Data;
use crate::target::Target;

/// Set Features: Save. Get Features: Select, by its place, and the values that are no current one.
const SAVE: u32 = 1 << 31;
const SELECT_AT: u32 = 8;
pub const CURRENT: u32 = 0;
const DEFAULT: u32 = 1;
const SAVED: u32 = 2;
pub const SUPPORTED: u32 = 3;
/// What Select 3 answers: the feature is of a namespace, and it can be changed.
pub const OF_A_NAMESPACE: u32 = 1 << 1;
pub const CHANGEABLE: u32 = 1 << 2;
/// Set Features of the write protection: the field of its state, and the state that lasts.
const PROTECTION_STATE: u32 = 7;
pub const PROTECTED: u32 = 1;
/// Error Recovery: the error that a deallocated block is read.
const DEALLOCATED_ERROR: u32 = 1 << 16;
/// Keep Alive Timeout of a host that asks for none of its own, in milliseconds.
const KEEP_ALIVE: u32 = 120_000;

/// The features and their effects, as Log Page 12h has them: the scope of each is a controller, a namespace, or the
/// subsystem.
const OF_CONTROLLER: u32 = 1 << 21 | 1;
const OF_NAMESPACE: u32 = 1 << 20 | 1;
const FEATURES: [(u8, u32); 12] = [
    (ARBITRATION, OF_CONTROLLER),
    (POWER_MANAGEMENT, OF_CONTROLLER),
    (TEMPERATURE_THRESHOLD, OF_CONTROLLER),
    (ERROR_RECOVERY, OF_NAMESPACE),
    (VOLATILE_WRITE_CACHE, OF_CONTROLLER),
    (NUMBER_OF_QUEUES, OF_CONTROLLER),
    (WRITE_ATOMICITY, OF_CONTROLLER),
    (EVENT_CONFIGURATION, OF_CONTROLLER),
    (KEEP_ALIVE_TIMER, OF_CONTROLLER),
    (HOST_IDENTIFIER, OF_CONTROLLER),
    (RESERVATION_NOTIFICATION, OF_NAMESPACE),
    (WRITE_PROTECTION, OF_NAMESPACE),
];

/// The features of a controller that are what its host has set, until it is reset.
#[derive(Clone, Copy, Debug, PartialEq, Eq)]
pub struct Features {
    arbitration: u32,
    workload: u32,
    /// Temperature thresholds, over and under.
    temperatures: [u32; 2],
    write_atomicity: u32,
    /// Whether writes may wait in a cache until a Flush.
    pub has_write_cache: bool,
}

impl Default for Features {
    fn default() -> Self {
        let temperatures = [0xffff, 0];
        Features { arbitration: 0, workload: 0, temperatures, write_atomicity: 0, has_write_cache: true }
    }
}

impl Features {
    /// The value of a feature.
    fn get(&self, fid: u8, dw11: u32) -> Result<u32, Status> {
        Ok(match fid {
            ARBITRATION => self.arbitration,
            POWER_MANAGEMENT => self.workload,
            TEMPERATURE_THRESHOLD => self.temperatures[threshold(dw11, false)?],
            WRITE_ATOMICITY => self.write_atomicity,
            _ => self.has_write_cache.into(),
        })
    }

    /// Sets a feature: the fields that it has.
    fn set(&mut self, fid: u8, dw11: u32) -> Result<(), Status> {
        match fid {
            // Commands are executed one after the other, so there are no weights.
            ARBITRATION => self.arbitration = dw11 & 7,
            // There is power state 0 alone.
            POWER_MANAGEMENT if dw11 & 0x1f != 0 => return Err(INVALID_FIELD),
            POWER_MANAGEMENT => self.workload = dw11 & 0xe0,
            TEMPERATURE_THRESHOLD => self.temperatures[threshold(dw11, true)?] = dw11 & 0xffff,
            WRITE_ATOMICITY => self.write_atomicity = dw11 & 1,
            _ => self.has_write_cache = dw11 & 1 != 0,
        }
        Ok(())
    }
}

/// Which temperature threshold is selected: over or under, of the composite temperature. There are no sensors, but all
/// of them may be set together with it.
fn threshold(dw11: u32, may_be_all: bool) -> Result<usize, Status> {
    match (dw11 >> 20 & 3, dw11 >> 16 & 15) {
        (kind @ (0 | 1), 0) => Ok(index(kind)),
        (kind @ (0 | 1), 15) if may_be_all => Ok(index(kind)),
        _ => Err(INVALID_FIELD),
    }
}

/// Log Page 12h.
pub fn effects_page(has_write_cache: bool) -> Vec<u8> {
    let mut page = vec![0; 1024];
    for (fid, effects) in FEATURES.iter().filter(|(fid, _)| has_write_cache || *fid != VOLATILE_WRITE_CACHE) {
        let at = 4 * usize::from(*fid);
        page[at..at + 4].copy_from_slice(&effects.to_le_bytes());
    }
    page
}

/// What a value or a refusal is answered.
fn answered(result: Result<u32, Status>) -> Answer {
    match result {
        Ok(dw0) => Answer { dw0, ..Answer::of(SUCCESS) },
        Err(status) => Answer::of(status),
    }
}

impl Target<'_> {
    /// Executes Set Features.
    pub fn set_features(&mut self, index: usize, entry: &SubmissionEntry, data: Data<'_>) -> Outcome<Answer> {
        match entry.cdw10_low() {
            WRITE_PROTECTION if self.settings.is_read_only && entry.cdw11() & PROTECTION_STATE != PROTECTED => {
                Ok(Answer::of(FEATURE_NOT_CHANGEABLE))
            }
            NUMBER_OF_QUEUES | WRITE_PROTECTION => self.plain(index, entry, data),
            fid => Ok(answered(self.set_feature(index, fid, entry).map(|()| 0))),
        }
    }

    fn set_feature(&mut self, index: usize, fid: u8, entry: &SubmissionEntry) -> Result<(), Status> {
        let (dw10, dw11, nsid) = (entry.cdw10(), entry.cdw11(), entry.namespace_id());
        self.check_feature(fid)?;
        if dw10 & SAVE != 0 {
            return Err(FEATURE_NOT_SAVEABLE);
        }
        if fid == ERROR_RECOVERY {
            return self.set_recovery(index, nsid, dw11);
        }
        if fid == RESERVATION_NOTIFICATION {
            return self.set_notice_mask(index, nsid, dw11);
        }
        if !matches!(nsid, 0 | ALL_NAMESPACES) {
            return Err(FEATURE_OF_NO_NAMESPACE);
        }
        let association = self.associations[index].as_mut().ok_or(COMMAND_SEQUENCE)?;
        match fid {
            EVENT_CONFIGURATION => association.events.configuration = dw11,
            KEEP_ALIVE_TIMER => association.set_keep_alive(dw11),
            // Connect has said who the host is.
            HOST_IDENTIFIER => return Err(COMMAND_SEQUENCE),
            _ => return association.features.set(fid, dw11),
        }
        Ok(())
    }

    /// Refuses a feature that does not exist: all but a few, and the write cache if nothing is cached.
    fn check_feature(&self, fid: u8) -> Result<(), Status> {
        let is_there = FEATURES.iter().any(|(known, _)| *known == fid);
        if is_there && (fid != VOLATILE_WRITE_CACHE || self.has_volatile_cache()) {
            return Ok(());
        }
        Err(INVALID_FIELD)
    }

    /// Executes Get Features.
    pub fn get_features(&mut self, index: usize, entry: &SubmissionEntry, data: Data<'_>) -> Outcome<Answer> {
        let (fid, select) = (entry.cdw10_low(), entry.cdw10() >> SELECT_AT & 7);
        if select > SUPPORTED {
            return Ok(Answer::of(INVALID_FIELD));
        }
        if let Err(status) = self.check_feature(fid) {
            return Ok(Answer::of(status));
        }
        match (fid, select) {
            (NUMBER_OF_QUEUES, SUPPORTED) => Ok(answered(Ok(CHANGEABLE))),
            (HOST_IDENTIFIER, SUPPORTED) => Ok(answered(Ok(0))),
            (NUMBER_OF_QUEUES | HOST_IDENTIFIER, _) => self.plain(index, entry, data),
            (WRITE_PROTECTION, _) => {
                let answer = self.plain(index, entry, data)?;
                Ok(match select {
                    _ if answer.status != SUCCESS => answer,
                    CURRENT => answer,
                    SUPPORTED => Answer { dw0: OF_A_NAMESPACE | CHANGEABLE, ..answer },
                    _ => Answer { dw0: 0, ..answer },
                })
            }
            _ => Ok(answered(self.get_feature(index, fid, select, entry))),
        }
    }

    fn get_feature(&mut self, index: usize, fid: u8, select: u32, entry: &SubmissionEntry) -> Result<u32, Status> {
        let (dw11, nsid) = (entry.cdw11(), entry.namespace_id());
        match fid {
            ERROR_RECOVERY => return self.get_recovery(index, nsid, select),
            RESERVATION_NOTIFICATION => return self.get_notice_mask(index, nsid, select),
            _ => (),
        }
        let association = self.associations[index].as_ref().ok_or(COMMAND_SEQUENCE)?;
        match (fid, select) {
            (_, SUPPORTED) => Ok(CHANGEABLE),
            (EVENT_CONFIGURATION, CURRENT) => Ok(association.events.configuration),
            (KEEP_ALIVE_TIMER, CURRENT) => Ok(association.keep_alive()),
            (EVENT_CONFIGURATION, _) => Ok(0),
            (KEEP_ALIVE_TIMER, _) => Ok(KEEP_ALIVE),
            (_, DEFAULT | SAVED) => Features::default().get(fid, dw11),
            _ => association.features.get(fid, dw11),
        }
    }

    /// Error Recovery of a namespace: how long it is tried to recover data, which is never needed, is kept as it was
    /// set.
    fn get_recovery(&mut self, index: usize, nsid: u32, select: u32) -> Result<u32, Status> {
        let place = self.attached_place(index, nsid)?;
        Ok(match select {
            CURRENT => self.recovery[place],
            SUPPORTED => OF_A_NAMESPACE | CHANGEABLE,
            _ => 0,
        })
    }

    fn set_recovery(&mut self, index: usize, nsid: u32, dw11: u32) -> Result<(), Status> {
        if dw11 & DEALLOCATED_ERROR != 0 {
            return Err(INVALID_FIELD);
        }
        if nsid == ALL_NAMESPACES {
            for place in 0..self.recovery.len() {
                let nsid = self.configuration.config.namespaces[place].nsid;
                if self.machine.is_attached(self.controllers[index].cntlid, nsid) {
                    self.recovery[place] = dw11 & 0xffff;
                }
            }
            return Ok(());
        }
        let place = self.attached_place(index, nsid)?;
        self.recovery[place] = dw11 & 0xffff;
        Ok(())
    }

    /// The place of a namespace in the configuration, which is attached to a controller.
    pub fn attached_place(&mut self, index: usize, nsid: u32) -> Result<usize, Status> {
        if !Configuration::may_be(nsid) {
            return Err(INVALID_NAMESPACE);
        }
        let place = self.configuration.place(nsid).ok_or(INVALID_FIELD)?;
        let is_attached = self.machine.is_attached(self.controllers[index].cntlid, nsid);
        if is_attached {
            Ok(place)
        } else {
            Err(INVALID_FIELD)
        }
    }
}

#[cfg(test)]
mod tests {
    use super::*;

    #[test]
    fn values_are_checked_and_kept() {
        let mut features = Features::default();
        for (fid, dw11, set, then) in [
            (ARBITRATION, 0xffff_ffff, Ok(()), Ok(7)),
            (POWER_MANAGEMENT, 1, Err(INVALID_FIELD), Ok(0)),
            (POWER_MANAGEMENT, 0x20, Ok(()), Ok(0x20)),
            (TEMPERATURE_THRESHOLD, 0x0000_0150, Ok(()), Ok(0x150)),
            (TEMPERATURE_THRESHOLD, 0x0010_0033, Ok(()), Ok(0x33)),
            (TEMPERATURE_THRESHOLD, 0x001f_0044, Ok(()), Err(INVALID_FIELD)),
            (TEMPERATURE_THRESHOLD, 0x0001_0150, Err(INVALID_FIELD), Err(INVALID_FIELD)),
            (TEMPERATURE_THRESHOLD, 0x0020_0150, Err(INVALID_FIELD), Err(INVALID_FIELD)),
            (WRITE_ATOMICITY, 3, Ok(()), Ok(1)),
            (VOLATILE_WRITE_CACHE, 0, Ok(()), Ok(0)),
        ] {
            assert_eq!((features.set(fid, dw11), features.get(fid, dw11)), (set, then), "{fid:#x} {dw11:#x}");
        }
        assert_eq!(features.temperatures, [0x150, 0x44]);
    }
}
