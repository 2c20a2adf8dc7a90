//! Admin commands: those that Fabrics, Linux or nvme-cli need and the subsystem leaves out. All others are the
//! subsystem's.

pub mod access;
pub mod events;
pub mod features;
pub mod health;
pub mod identify;
pub mod identity;
pub mod inventory;
pub mod pages;

use crate::bytes::u16_at;
use crate::fabrics::association::Association;
use crate::fault::Outcome;
use crate::numbers::narrow;
use crate::nvme::entry::SubmissionEntry;
use crate::nvme::status::{EVENT_LIMIT, INVALID_OPCODE, SUCCESS};
use crate::nvme::{
    ABORT, ASYNCHRONOUS_EVENT_REQUEST, CREATE_COMPLETION_QUEUE, CREATE_SUBMISSION_QUEUE, DELETE_COMPLETION_QUEUE,
    DELETE_SUBMISSION_QUEUE, GET_FEATURES, GET_LOG_PAGE, IDENTIFY, KEEP_ALIVE, NAMESPACE_ATTACHMENT, SET_FEATURES,
};
use crate::target::answer::Answer;
use crate::target::controller::Data;
use crate::target::{Effect, Target};

/// Double word 0 of an Abort that has aborted nothing.
const NOT_ABORTED: u32 = 1;

impl Target<'_> {
    /// Executes an admin command. One that waits for an event has no answer yet.
    pub fn admin(&mut self, index: usize, entry: &SubmissionEntry, data: Data<'_>) -> Outcome<Option<Answer>> {
        let answer = match entry.opcode() {
            // Fabrics has Connect and Disconnect in their place.
            DELETE_SUBMISSION_QUEUE | CREATE_SUBMISSION_QUEUE | DELETE_COMPLETION_QUEUE | CREATE_COMPLETION_QUEUE => {
                Answer::of(INVALID_OPCODE)
            }
            KEEP_ALIVE => {
                self.associations[index].iter_mut().for_each(Association::hear);
                Answer::of(SUCCESS)
            }
            ASYNCHRONOUS_EVENT_REQUEST => return Ok(self.request_event(index, entry.command_id())),
            // A command ends before the next one is received, except those that wait for an event or are held.
            ABORT => Answer { dw0: NOT_ABORTED, ..Answer::of(SUCCESS) },
            IDENTIFY => self.identify(index, entry, data)?,
            GET_LOG_PAGE => self.get_log_page(index, entry, asked(data)),
            SET_FEATURES => self.set_features(index, entry, data)?,
            GET_FEATURES => self.get_features(index, entry, data)?,
            _ => self.plain(index, entry, data)?,
        };
        Ok(Some(answer))
    }

    /// An admin command that is the subsystem's. Zeroes that have begun end before one that may deny them.
    pub fn plain(&mut self, index: usize, entry: &SubmissionEntry, data: Data<'_>) -> Outcome<Answer> {
        if matches!(entry.opcode(), NAMESPACE_ATTACHMENT | SET_FEATURES) {
            self.end_begun_zeroes()?;
        }
        let completed = self.controllers[index].run(&mut self.machine, 0, entry, data)?;
        if completed.status == SUCCESS {
            self.follow(index, 0, entry, data, &completed);
            if let (NAMESPACE_ATTACHMENT, Data::ToController(list)) = (entry.opcode(), data) {
                self.tell_attachments(entry.namespace_id(), list);
            }
        }
        Ok(Answer::completed(completed, self.controllers[index].cntlid, asked(data)))
    }

    fn request_event(&mut self, index: usize, cid: u16) -> Option<Answer> {
        let is_held = self.associations[index].as_mut().map_or(false, |it| it.events.hold(cid));
        if !is_held {
            return Some(Answer::of(EVENT_LIMIT));
        }
        self.tell_events(index);
        None
    }

    /// Notifies the controllers of a list that a namespace was attached or detached.
    fn tell_attachments(&mut self, nsid: u32, list: &[u8]) {
        let count = list.get(..2).map_or(0, |head| usize::from(u16_at(head, 0)));
        for cntlid in list.chunks_exact(2).skip(1).take(count).map(|it| usize::from(u16_at(it, 0))) {
            let index = cntlid.wrapping_sub(1);
            if let Some(Some(association)) = self.associations.get_mut(index) {
                association.events.change(nsid);
                self.tell_events(index);
            }
        }
    }

    /// Answers requests that wait for an event, as many as have one.
    pub fn tell_events(&mut self, index: usize) {
        let admin = self.fabrics.connection(narrow(index), 0);
        if let Some(association) = &mut self.associations[index] {
            while let (Some((cid, dw0)), Some(admin)) = (association.events.due(), admin) {
                let answer = Answer { dw0, ..Answer::of(SUCCESS) };
                self.effects.push_back(Effect::Answer(admin, request_entry(cid), answer));
            }
        }
    }
}

/// The entry of an Asynchronous Event Request.
fn request_entry(cid: u16) -> SubmissionEntry {
    SubmissionEntry::new(ASYNCHRONOUS_EVENT_REQUEST, cid, 0)
}

/// The length of the host's buffer for a command's data.
fn asked(data: Data<'_>) -> usize {
    match data {
        Data::FromController(length) => length,
        _ => 0,
    }
}
