//! What a volume has besides its blocks, and the two commands that look at it.

use super::area::Kept;
use super::log;
use super::open_direct;
use super::refusal::Refusal;
use super::superblock::{self, Chosen, Superblock};
use crate::configuration::Configuration;
use crate::files::settled::settled;
use crate::journal::checkpoint::{Checkpoint, NamespaceState};
use crate::journal::record::{current, newest, Current};
use crate::journal::restoring::Replica;
use nvmesim::{Holder, Registrant};
use std::fmt::Write;
use std::fs::File;
use std::io::{Seek, SeekFrom};
use std::path::Path;

/// Superblock and journal of a volume.
pub struct Content {
    pub(super) chosen: Chosen,
    pub(super) configuration: Configuration,
    pub(super) kept: Kept,
    pub(super) current: Current,
    /// What persists after the records.
    pub(super) replica: Replica,
}

impl Content {
    /// Reads them by a file that is open with O_DIRECT, and judges all of it.
    pub fn read(file: &File, length: u64) -> Result<Content, Refusal> {
        Content::of(superblock::read(file)?, || log::read(file), length)
    }

    /// Reads them while nobody writes, until two reads agree: a disk may return bytes of another place.
    pub fn read_settled(file: &File, length: u64) -> Result<Content, Refusal> {
        Content::of(settled(|| superblock::read(file))?, || settled(|| log::read(file)), length)
    }

    fn of(chosen: Chosen, kept: impl FnOnce() -> Result<Kept, Refusal>, length: u64) -> Result<Content, Refusal> {
        let Superblock { size, configuration, epoch, .. } = &chosen.superblock;
        if length < *size {
            return Err(Refusal::Short(length, *size));
        }
        let read = Configuration::read(configuration.as_bytes(), chosen.superblock.blocks());
        let configuration = read.map_err(|error| Refusal::Configuration(error.to_string()))?;
        let kept = kept()?;
        let unknown = |number| Refusal::Journal(format!("record {number} is of an epoch that no target has started"));
        let newest = newest(&kept.records).map_err(unknown)?;
        if newest > *epoch {
            return Err(Refusal::Journal(format!("it is of epoch {newest}, and the superblock of {epoch}")));
        }
        let (current, mut replica) = (current(kept.records.clone()), log::replica(&configuration)?);
        replica.follow(&current.events).map_err(|error| Refusal::Journal(error.to_string()))?;
        Ok(Content { chosen, configuration, kept, current, replica })
    }

    fn open(path: &Path) -> Result<Content, Refusal> {
        let mut file = open_direct(path, false)?;
        let length = file.seek(SeekFrom::End(0))?;
        Content::read(&file, length)
    }

    /// What an operator should know about a volume that is not refused.
    fn remarks(&self) -> Vec<String> {
        let mut remarks = Vec::new();
        for (number, _) in (1..).zip(self.chosen.are_whole).filter(|(_, is_whole)| !is_whole) {
            remarks.push(format!("copy {number} of the superblock is damaged or older; the next start writes it"));
        }
        if self.kept.torn != 0 {
            remarks.push(format!("the last {} bytes of the journal were never answered", self.kept.torn));
        }
        if let Some(owner) = &self.chosen.superblock.owner {
            remarks.push(format!("{} has it, or has not ended in order", owner.name));
        }
        remarks
    }

    fn text(&mut self) -> String {
        let Superblock { identity, size, epoch, lease, owner, .. } = &self.chosen.superblock;
        let owner = owner.as_ref().map_or("nobody", |it| &it.name);
        let mut text = format!(
            "uuid {}version 1\nsize {size}\nblocks {}\nepoch {epoch}\nowner {owner}\nlease {} s\njournal segment {}, \
             {} records\n{}",
            identity.text(),
            self.chosen.superblock.blocks(),
            lease.as_secs(),
            self.kept.segment,
            self.kept.records.len(),
            self.configuration.lines,
        );
        let Checkpoint(states) = self.replica.checkpoint();
        states.iter().for_each(|it| push_state(&mut text, it));
        text
    }
}

/// Appends what persists of a namespace.
fn push_state(text: &mut String, NamespaceState { nsid, reservation, attached }: &NamespaceState) {
    let holder = match reservation.holder {
        Holder::Nobody => "none".to_owned(),
        Holder::Host(rtype, host) => format!("type {rtype} of host {host:#x}"),
        Holder::EachRegistrant(rtype) => format!("type {rtype} of each registrant"),
    };
    let (generation, persists) = (reservation.generation, if reservation.ptpl { "persists" } else { "ends" });
    let _ = writeln!(text, "reservation of namespace {nsid}: {holder}, generation {generation}, {persists}");
    for Registrant { host, key } in &reservation.registrants {
        let _ = writeln!(text, "registrant of namespace {nsid}: host {host:#x}, key {key:#x}");
    }
    let attached: Vec<String> = attached.iter().map(u16::to_string).collect();
    let _ = writeln!(text, "protection of namespace {nsid}: {}", reservation.protection);
    let _ = writeln!(text, "attached to namespace {nsid}: {}", attached.join(" "));
}

/// `nvmetcp check VOLUME`: the text that it prints.
pub fn check(path: &Path) -> Result<String, Refusal> {
    let remarks = Content::open(path)?.remarks();
    let lines = remarks.iter().map(|it| format!("{}: {it}\n", path.display()));
    Ok(format!("{}{}: not refused\n", lines.collect::<String>(), path.display()))
}

/// `nvmetcp dump VOLUME`: the text that it prints.
pub fn dump(path: &Path) -> Result<String, Refusal> {
    Ok(Content::open(path)?.text())
}
