//! Reservation notifications. The library says which controllers are notified of a reservation command and keeps their
//! notices; here are the calls before and after each such command, the log page and the mask.

use crate::admin::features::{CHANGEABLE, CURRENT, OF_A_NAMESPACE, SUPPORTED};
use crate::fault::Outcome;
use crate::nvme::entry::SubmissionEntry;
use crate::nvme::status::{Status, COMMAND_SEQUENCE, INVALID_FIELD};
use crate::nvme::{ALL_NAMESPACES, RESERVATION_ACQUIRE, RESERVATION_REGISTER, RESERVATION_RELEASE};
use crate::target::Target;
use nvmesim::{Action, Change, HostView};

/// A reservation command, and how the reservation concerned the host of each controller before it.
pub struct Watch {
    change: Change,
    before: Vec<Option<HostView>>,
}

/// The action of a reservation command: the three lowest bits of double word 10.
fn action_of(entry: &SubmissionEntry) -> Option<Action> {
    match (entry.opcode(), entry.cdw10_low() & 7) {
        (RESERVATION_REGISTER, _) => Some(Action::Register),
        (RESERVATION_ACQUIRE, 0) => Some(Action::Acquire),
        (RESERVATION_ACQUIRE, _) => Some(Action::Preempt),
        (RESERVATION_RELEASE, 0) => Some(Action::Release),
        (RESERVATION_RELEASE, _) => Some(Action::Clear),
        _ => None,
    }
}

impl Target<'_> {
    /// Looks at the reservation before a controller executes an I/O command; nothing unless that is a reservation
    /// command. Zeroes that have begun end before one.
    pub fn watch(&mut self, index: usize, entry: &SubmissionEntry) -> Outcome<Option<Watch>> {
        let (action, nsid) = match action_of(entry) {
            Some(action) => (action, entry.namespace_id()),
            None => return Ok(None),
        };
        self.end_begun_zeroes()?;
        let Target { machine, controllers, .. } = self;
        let before = controllers.iter().map(|it| machine.view(nsid, it.cntlid)).collect();
        Ok(Some(Watch { change: Change { nsid, action, issuer: controllers[index].cntlid }, before }))
    }

    /// Notifies the controllers of a reservation command that has succeeded.
    pub fn notify(&mut self, watch: &Watch) -> Outcome<()> {
        for index in 0..self.controllers.len() {
            let Target { machine, controllers, associations, .. } = self;
            if let (Some(association), Some(before)) = (&mut associations[index], &watch.before[index]) {
                machine.notify(&mut association.events.notices, controllers[index].cntlid, watch.change, *before)?;
            }
            self.tell_events(index);
        }
        Ok(())
    }

    /// Log Page 80h.
    pub fn notice_page(&self, index: usize) -> Vec<u8> {
        self.associations[index].as_ref().map(|it| it.events.notices.page().to_vec()).unwrap_or_default()
    }

    /// Reservation Notification Mask of a namespace.
    pub fn get_notice_mask(&mut self, index: usize, nsid: u32, select: u32) -> Result<u32, Status> {
        self.attached_place(index, nsid).map_err(|_| INVALID_FIELD)?;
        let association = self.associations[index].as_ref().ok_or(COMMAND_SEQUENCE)?;
        Ok(match select {
            CURRENT => association.events.notices.mask(nsid),
            SUPPORTED => OF_A_NAMESPACE | CHANGEABLE,
            _ => 0,
        })
    }

    /// Sets Reservation Notification Mask of a namespace, or of all that are attached.
    pub fn set_notice_mask(&mut self, index: usize, nsid: u32, dw11: u32) -> Result<(), Status> {
        let all = self.configuration.config.namespaces.iter().map(|it| it.nsid).collect();
        let nsids: Vec<u32> = if nsid == ALL_NAMESPACES { all } else { vec![nsid] };
        for it in nsids {
            if self.attached_place(index, it).is_ok() {
                let association = self.associations[index].as_mut().ok_or(COMMAND_SEQUENCE)?;
                association.events.notices.set_mask(it, dw11).map_err(|_| INVALID_FIELD)?;
            } else if nsid != ALL_NAMESPACES {
                return Err(INVALID_FIELD);
            }
        }
        Ok(())
    }
}
