//! Identify: the structures that Fabrics, Linux and nvme-cli ask for and the subsystem leaves out, and the fields that
//! it leaves out in its own.

use crate::admin::identify;
use crate::bytes::put;
use crate::configuration::Configuration;
use crate::fault::Outcome;
use crate::numbers::narrow;
use crate::nvme::entry::SubmissionEntry;
use crate::nvme::status::{Status, DATA_TRANSFER, INVALID_NAMESPACE, SUCCESS};
use crate::nvme::ALL_NAMESPACES;
use crate::target::answer::Answer;
use crate::target::controller::Data;
use crate::target::Target;

/// A structure, unless the command is refused.
type Structure = Result<Vec<u8>, Status>;

impl Target<'_> {
    /// Executes Identify.
    pub fn identify(&mut self, index: usize, entry: &SubmissionEntry, data: Data<'_>) -> Outcome<Answer> {
        // CSI 0 is the NVM Command Set, and there is no other.
        let (cns, has_command_set) = (entry.cdw10_low(), entry.identify_command_set() == 0);
        let length = if let Data::FromController(length) = data { length } else { 0 };
        let structure = match cns {
            identify::NAMESPACE => self.namespace_structure(index, entry)?,
            identify::CONTROLLER => self.controller_structure(index, entry)?,
            identify::DESCRIPTORS => self.descriptors_structure(index, entry)?,
            identify::NVM_NAMESPACE if has_command_set => self.attached(index, entry)?.map(|_| vec![]),
            identify::NVM_CONTROLLER if has_command_set => Ok(identify::limits()),
            identify::NVM_NAMESPACES if has_command_set => self.told(index, entry, identify::NAMESPACES)?,
            identify::ANY_NAMESPACE => self.attached(index, entry)?.map(|it| identify::independent(&it)),
            identify::ALLOCATED_NAMESPACES => self.allocated_list(entry.namespace_id()),
            identify::ALLOCATED_NAMESPACE => self.allocated_structure(entry.namespace_id()),
            identify::ATTACHED_CONTROLLERS => self.attached_controllers(entry.namespace_id(), entry.cdw10_upper()),
            identify::CONTROLLERS => Ok(self.controller_list(entry.cdw10_upper(), |_| true)),
            _ => return self.plain(index, entry, data),
        };
        Ok(match structure {
            Ok(_) if length < identify::BYTES => Answer::of(DATA_TRANSFER),
            Ok(bytes) => Answer::with(bytes, length),
            Err(status) => Answer::of(status),
        })
    }

    /// The subsystem's answer for another structure.
    fn told(&mut self, index: usize, entry: &SubmissionEntry, cns: u8) -> Outcome<Structure> {
        let mut asking = *entry;
        asking.set_cdw10_low(cns);
        let data = Data::FromController(identify::BYTES);
        let completed = self.controllers[index].run(&mut self.machine, 0, &asking, data)?;
        if completed.status != SUCCESS {
            return Ok(Err(completed.status));
        }
        let mut told = vec![0; identify::BYTES];
        self.machine.load(self.controllers[index].cntlid, completed.data, &mut told)?;
        Ok(Ok(told))
    }

    /// Identify Controller, with what Fabrics needs.
    fn controller_structure(&mut self, index: usize, entry: &SubmissionEntry) -> Outcome<Structure> {
        let told = self.told(index, entry, identify::CONTROLLER)?;
        Ok(told.map(|mut told| {
            identify::controller(&mut told, &self.settings.name, self.identity, self.has_volatile_cache());
            told
        }))
    }

    /// Identify Namespace: zeros if it is not attached.
    fn namespace_structure(&mut self, index: usize, entry: &SubmissionEntry) -> Outcome<Structure> {
        let told = self.told(index, entry, identify::NAMESPACE)?;
        Ok(told.map(|mut told| {
            if told.iter().any(|byte| *byte != 0) {
                identify::namespace(&mut told);
            }
            told
        }))
    }

    /// Identify Namespace: refused if it is not attached.
    fn attached(&mut self, index: usize, entry: &SubmissionEntry) -> Outcome<Structure> {
        let told = self.namespace_structure(index, entry)?;
        Ok(told.and_then(|it| if it.iter().any(|byte| *byte != 0) { Ok(it) } else { Err(INVALID_NAMESPACE) }))
    }

    /// The descriptors of a namespace.
    fn descriptors_structure(&mut self, index: usize, entry: &SubmissionEntry) -> Outcome<Structure> {
        let attached = self.attached(index, entry)?;
        Ok(attached.map(|_| identify::descriptors(self.identity, entry.namespace_id())))
    }

    /// The namespaces that are configured, above one.
    fn allocated_list(&self, above: u32) -> Structure {
        if above >= ALL_NAMESPACES - 1 {
            return Err(INVALID_NAMESPACE);
        }
        let mut nsids: Vec<u32> = self.configuration.config.namespaces.iter().map(|it| it.nsid).collect();
        nsids.sort_unstable();
        Ok(nsids.into_iter().filter(|nsid| *nsid > above).flat_map(u32::to_le_bytes).collect())
    }

    /// A configured namespace, attached or not: zeros if there is none.
    fn allocated_structure(&mut self, nsid: u32) -> Structure {
        if !Configuration::may_be(nsid) {
            return Err(INVALID_NAMESPACE);
        }
        let protection = self.machine.reservation(nsid).map_or(0, |it| it.protection);
        let namespace = self.configuration.config.namespaces.iter().find(|it| it.nsid == nsid);
        Ok(namespace.map_or(vec![], |it| identify::allocated(it, protection != 0)))
    }

    /// The controllers that a namespace is attached to, from one on.
    fn attached_controllers(&mut self, nsid: u32, from: u16) -> Structure {
        if !Configuration::may_be(nsid) {
            return Err(INVALID_NAMESPACE);
        }
        let attachments = &self.attachments;
        Ok(self.controller_list(from, |cntlid| attachments.iter().any(|it| it.nsid == nsid && it.cntlid == cntlid)))
    }

    fn controller_list(&self, from: u16, is_listed: impl Fn(u16) -> bool) -> Vec<u8> {
        let cntlids = self.controllers.iter().map(|it| it.cntlid).filter(|it| *it >= from && is_listed(*it));
        let mut list = vec![0; 2];
        list.extend(cntlids.flat_map(u16::to_le_bytes));
        let count: u16 = narrow(list.len() / 2 - 1);
        put(&mut list, 0, &count.to_le_bytes());
        list
    }
}
