//! Get Features and Set Features: a feature reads back as it was set, and wrong values are refused.

use super::admin::{one_of, words, CONFLICT, INVALID_FIELD, INVALID_NAMESPACE, SUCCESS};
use super::checker::check;
use super::queue::{Command, Lost};
use super::{below, now, Session};
use crate::world::{with, MILLISECOND};

const SET_FEATURES: u8 = 0x09;
const GET_FEATURES: u8 = 0x0a;
/// Feature identifiers.
const ARBITRATION: u8 = 0x01;
const POWER: u8 = 0x02;
const TEMPERATURE: u8 = 0x04;
const RECOVERY: u8 = 0x05;
const CACHE: u8 = 0x06;
const QUEUES: u8 = 0x07;
const ATOMICITY: u8 = 0x0a;
const EVENTS: u8 = 0x0b;
const KEEP_ALIVE_TIMER: u8 = 0x0f;
const HOST_IDENTIFIER: u8 = 0x81;
const NOTICE_MASK: u8 = 0x82;
const PROTECTION: u8 = 0x84;
/// Those that are a host's own.
const OWN: [u8; 7] = [ARBITRATION, POWER, TEMPERATURE, CACHE, ATOMICITY, EVENTS, KEEP_ALIVE_TIMER];
const SAVE: u32 = 1 << 31;
/// Statuses.
const SEQUENCE: u16 = 0x0c;
const NOT_SAVEABLE: u16 = 0x10d;
const NOT_CHANGEABLE: u16 = 0x10e;
const OF_NO_NAMESPACE: u16 = 0x10f;
/// On a namespace that is detached, Invalid Field.
const PROTECTION_STATUSES: [u16; 5] = [SUCCESS, INVALID_FIELD, INVALID_NAMESPACE, NOT_CHANGEABLE, CONFLICT];

fn set(fid: u8, nsid: u32, value: u32) -> Command {
    Command { opcode: SET_FEATURES, nsid, words: words(&[fid.into(), value]), ..Command::default() }
}

fn get(fid: u8, nsid: u32, select: u32, value: u32) -> Command {
    let list = words(&[u32::from(fid) | select << 8, value]);
    Command { opcode: GET_FEATURES, nsid, words: list, ..Command::default() }
}

/// What a feature is after a value was set, or `None` if that is refused.
fn kept(fid: u8, value: u32) -> Option<u32> {
    match fid {
        ARBITRATION => Some(value & 7),
        POWER => (value & 0x1f == 0).then_some(value & 0xe0),
        TEMPERATURE => (value >> 21 & 1 == 0 && matches!(value >> 16 & 15, 0 | 15)).then_some(value & 0xffff),
        CACHE | ATOMICITY => Some(value & 1),
        KEEP_ALIVE_TIMER => Some((value + 999) / 1000 * 1000),
        _ => Some(value),
    }
}

/// Which threshold of the temperature a value is of.
fn selector(fid: u8, value: u32) -> u32 {
    if fid == TEMPERATURE {
        value & 1 << 20
    } else {
        0
    }
}

impl Session<'_> {
    /// Sets or gets a feature chosen at random.
    pub fn use_feature(&mut self) -> Result<(), Lost> {
        match below(10) {
            0..=3 => self.set_own(),
            4..=5 => self.get_own(),
            6 => self.use_wrong_feature(),
            7 => self.use_recovery(),
            8 => self.use_notice_mask(),
            _ => self.use_others(),
        }
    }

    /// All notices are sent.
    pub fn await_events(&mut self) -> Result<(), Lost> {
        self.expect(&set(EVENTS, 0, 0x900), &[SUCCESS])?;
        self.known.features.insert((EVENTS, 0), 0x900);
        Ok(())
    }

    /// Whether the target has a feature: no write cache if writes are written through.
    fn has(&self, fid: u8) -> bool {
        fid != CACHE || !check(|it| it.writes_through)
    }

    fn set_own(&mut self) -> Result<(), Lost> {
        let fid = one_of(&OWN);
        let value = match fid {
            KEEP_ALIVE_TIMER => one_of(&[0, 1_000, 1_500, 10_000]),
            EVENTS => one_of(&[0, 0x100, 0x800, 0x900]),
            TEMPERATURE => one_of(&[0x150, 0x10_0033, 0x0f_0144, 0x1f_0044, 0x01_0150, 0x20_0150]),
            _ => one_of(&[0, 1, 7, 0x20, 0xff, u32::MAX]),
        };
        let nsid = one_of(&[0, 0, u32::MAX]);
        let sent = now();
        let wanted = match kept(fid, value) {
            _ if !self.has(fid) => INVALID_FIELD,
            Some(_) => SUCCESS,
            None => INVALID_FIELD,
        };
        if fid == KEEP_ALIVE_TIMER {
            self.keep_alive = 0;
        }
        self.expect(&set(fid, nsid, value), &[wanted])?;
        if let (Some(kept), SUCCESS) = (kept(fid, value), wanted) {
            self.known.features.insert((fid, selector(fid, value)), kept);
        }
        if fid == KEEP_ALIVE_TIMER {
            (self.keep_alive, self.heard) = (u64::from(value) * MILLISECOND, sent);
        }
        Ok(())
    }

    fn get_own(&mut self) -> Result<(), Lost> {
        let fid = one_of(&OWN);
        let (select, value) = (below(5) as u32, if fid == TEMPERATURE { one_of(&[0, 1 << 20]) } else { 0 });
        let wanted = if self.has(fid) && select <= 3 { SUCCESS } else { INVALID_FIELD };
        let completion = self.expect(&get(fid, 0, select, value), &[wanted])?;
        let known = self.known.features.get(&(fid, value)).copied();
        let expected = match select {
            0 => known,
            3 => Some(4),
            _ => None,
        };
        match expected {
            Some(it) if completion.status == SUCCESS && completion.value != u64::from(it) => {
                self.complain(&format!("feature {fid:#x}, {select}, is {:#x}, not {it:#x}", completion.value));
            }
            _ => (),
        }
        Ok(())
    }

    /// Features that there are not, Save, a namespace for a feature of none, and the host's identifier.
    fn use_wrong_feature(&mut self) -> Result<(), Lost> {
        let unknown = one_of(&[0x00, 0x03, 0x08, 0x0c, 0x10, 0x80, 0xc0, 0xff]);
        self.expect(&set(unknown, 0, 0), &[INVALID_FIELD])?;
        self.expect(&get(unknown, 0, 0, 0), &[INVALID_FIELD])?;
        let saved = Command { words: words(&[u32::from(ARBITRATION) | SAVE, 0]), ..set(ARBITRATION, 0, 0) };
        self.expect(&saved, &[NOT_SAVEABLE])?;
        self.expect(&set(ARBITRATION, 1, 0), &[OF_NO_NAMESPACE])?;
        self.expect(&set(HOST_IDENTIFIER, 0, 0), &[SEQUENCE]).map(|_| ())
    }

    /// Error Recovery, which all hosts of a namespace share.
    fn use_recovery(&mut self) -> Result<(), Lost> {
        let nsid = one_of(&[1, 1, u32::MAX]);
        self.expect(&set(RECOVERY, nsid, 0x1_0000), &[INVALID_FIELD])?;
        let detached = [SUCCESS, INVALID_FIELD];
        self.expect(&set(RECOVERY, nsid, one_of(&[0, 5, 0xffff])), &detached)?;
        self.expect(&set(RECOVERY, one_of(&[0, 9]), 1), &[INVALID_NAMESPACE])?;
        let select = below(4) as u32;
        let completion = self.expect(&get(RECOVERY, 1, select, 0), &detached)?;
        let most = if select == 3 { 6 } else { 0xffff };
        if completion.value > most {
            self.complain(&format!("Error Recovery is {:#x}", completion.value));
        }
        self.expect(&get(RECOVERY, 5, 0, 0), &[INVALID_FIELD])?;
        let of_second = if self.path.second == 0 { INVALID_FIELD } else { SUCCESS };
        self.expect(&get(RECOVERY, 2, 0, 0), &[of_second]).map(|_| ())
    }

    /// Reservation Notification Mask.
    fn use_notice_mask(&mut self) -> Result<(), Lost> {
        let (nsid, mask) = (one_of(&[1, 1, u32::MAX]), one_of(&[0, 2, 4, 8, 14]));
        let is_set = self.expect(&set(NOTICE_MASK, nsid, mask), &[SUCCESS, INVALID_FIELD])?.status == SUCCESS;
        self.expect(&set(NOTICE_MASK, 9, 0), &[INVALID_FIELD])?;
        let completion = self.expect(&get(NOTICE_MASK, 1, below(4) as u32, 0), &[SUCCESS, INVALID_FIELD])?;
        if completion.value & !0xe != 0 {
            self.complain(&format!("Reservation Notification Mask is {:#x}", completion.value));
        }
        let completion = self.expect(&get(NOTICE_MASK, 1, 0, 0), &[SUCCESS, INVALID_FIELD])?;
        if is_set && completion.status == SUCCESS && nsid == 1 && completion.value != u64::from(mask) {
            self.complain(&format!("Reservation Notification Mask is {:#x}, not {mask:#x}", completion.value));
        }
        Ok(())
    }

    /// Number of Queues, Host Identifier, and the write protection.
    fn use_others(&mut self) -> Result<(), Lost> {
        self.expect(&set(QUEUES, 0, 3 << 16 | 3), &[SUCCESS, SEQUENCE])?;
        self.expect(&get(QUEUES, 0, below(4) as u32, 0), &[SUCCESS])?;
        let command = Command { length: 16, ..get(HOST_IDENTIFIER, 0, 0, 1) };
        let completion = self.expect(&command, &[SUCCESS])?;
        if completion.status == SUCCESS && completion.data != self.path.host_id().to_le_bytes() {
            self.complain(&format!("Host Identifier is {:x?}", completion.data));
        }
        self.expect(&get(HOST_IDENTIFIER, 0, 3, 1), &[SUCCESS])?;
        self.protect()
    }

    /// Write protects the namespace for a moment, in which no write may succeed.
    fn protect(&mut self) -> Result<(), Lost> {
        if !self.path.habits.protects {
            return Ok(());
        }
        let number = check(|it| it.begin_protection(self.path.cntlid));
        let completion = self.expect(&set(PROTECTION, 1, 1), &PROTECTION_STATUSES)?;
        check(|it| it.protected(number, completion.status == SUCCESS));
        let completion = self.expect(&get(PROTECTION, 1, below(4) as u32, 0), &PROTECTION_STATUSES)?;
        with(|it| it.note(&format!("write protection is {:x}", completion.value)));
        self.rest(MILLISECOND * below(20) as u64)?;
        self.unprotect()
    }

    /// Ends the write protection, which another session may have left.
    pub fn unprotect(&mut self) -> Result<(), Lost> {
        let number = check(|it| it.begin_protection(self.path.cntlid));
        self.expect(&set(PROTECTION, 1, 0), &PROTECTION_STATUSES)?;
        check(|it| it.protected(number, false));
        Ok(())
    }
}
