//! The commands of Fabrics. The library decides which connection becomes or stays a queue of which controller, and how a
//! command that breaks a rule is answered. Here is what it asks about, and what the target does then.

use crate::bytes::{first, text_of, u16_at};
use crate::fabrics::association::{Association, ConnectData, ConnectionId, HostQueue};
use crate::fabrics::discovery::{self, Discovery};
use crate::fault::Outcome;
use crate::numbers::{low_u16, low_u32, narrow};
use crate::nvme::entry::SubmissionEntry;
use crate::nvme::status::{Status, COMMAND_SEQUENCE, SUCCESS};
use crate::nvme::{AUTHENTICATION_RECEIVE, QUEUES};
use crate::target::answer::Answer;
use crate::target::controller::{Data, CAP, ENABLE};
use crate::target::{Effect, Target};
use nvmesim::fabrics::{self, Command, Judged, Live, Place, Subsystem};

/// The size of Connect's data.
const CONNECT_DATA: usize = 1024;
/// CATTR: the host does without flow control of the submission queue.
const NO_FLOW_CONTROL: u8 = 1 << 2;

/// Connect's data: NVM Express Base, Fabrics Connect Command.
struct ConnectBytes<'b>(&'b [u8; CONNECT_DATA]);

impl ConnectBytes<'_> {
    fn host_id(&self) -> &[u8; 16] {
        first(self.0)
    }

    fn controller_id(&self) -> u16 {
        u16_at(self.0, 16)
    }

    fn subsystem_name(&self) -> &[u8] {
        text_of(&self.0[256..512])
    }

    fn host_name(&self) -> &[u8] {
        text_of(&self.0[512..768])
    }
}

/// The connections of the I/O queues of a controller.
type IoConnections = [Option<ConnectionId>; QUEUES - 1];

/// The offset of a property, and the value that a Property Set gives it.
fn property(entry: &SubmissionEntry) -> (u64, u32) {
    (entry.cdw11().into(), entry.cdw12())
}

impl From<fabrics::Answer> for Answer {
    fn from(it: fabrics::Answer) -> Answer {
        Answer { dw0: it.dw0, ..Answer::of(Status { sct: it.sct, sc: it.sc }) }
    }
}

impl Target<'_> {
    /// Executes a Fabrics command. An Authentication Receive may have no answer yet.
    pub fn execute_fabrics(
        &mut self,
        queue: &mut HostQueue,
        entry: &SubmissionEntry,
        data: Data<'_>,
    ) -> Outcome<Option<Answer>> {
        // Before it, the library refuses all commands but Connect.
        if queue.session.last() == Live::NotConnected {
            let answer = self.connect(queue, entry, data)?;
            self.log_connect(queue, data, &answer);
            return Ok(Some(answer));
        }
        let live = self.fabrics.live(&queue.session);
        let io = if let Live::Queue { index, .. } = live { self.io_connections(index) } else { Default::default() };
        let command = match self.fabrics.execute(&mut queue.session, entry.bytes()) {
            Ok(command) => command,
            Err(answer) => return Ok(Some(answer.into())),
        };
        let (offset, value) = property(entry);
        let answer = match (command, live) {
            (Command::Authenticate, _) if entry.fabrics_type() == AUTHENTICATION_RECEIVE => {
                return self.give_message(queue, entry, data);
            }
            (Command::Authenticate, _) => self.take_message(queue, entry, data)?,
            (Command::Disconnect, live) => self.disconnect(queue, live)?,
            (Command::GetProperty, Live::Queue { index, .. }) => of_property(self.register(index.into(), offset)?),
            (Command::GetProperty, _) => of_property(queue.discovery.property(offset)),
            (Command::SetProperty, Live::Queue { index, .. }) => self.configure(queue, index.into(), value, io)?,
            (Command::SetProperty, _) => {
                queue.discovery.configuration = value;
                Answer::of(SUCCESS)
            }
        };
        Ok(Some(answer))
    }

    fn connect(&mut self, queue: &mut HostQueue, entry: &SubmissionEntry, data: Data<'_>) -> Outcome<Answer> {
        let whole = match data {
            Data::ToController(bytes) => bytes.try_into().ok(),
            _ => None,
        };
        let bytes: &[u8; CONNECT_DATA] = whole.unwrap_or(&[0; CONNECT_DATA]);
        let mut judged = self.judged(queue, bytes, whole.is_some());
        let (request, place) = match self.fabrics.admitted(&queue.session, entry.bytes(), bytes, &judged) {
            Ok(admitted) => admitted,
            Err(answer) => return Ok(answer.into()),
        };
        let data = ConnectData::of(&request, entry.cdw12());
        let (qid, entries, host) = (data.qid, data.entries, u128::from_be_bytes(data.host_id));
        self.say(format_args!("connect: queue {qid} of {entries}, host {host:032x}"));
        if let (Place::Controller(index), false) = (place, self.settings.admission.has_keys) {
            judged.created = self.make_queues(index.into(), &data)?;
        }
        let answer = self.fabrics.connect(&mut queue.session, entry.bytes(), bytes, &judged);
        if answer.is_success() {
            let is_flow_control_disabled = entry.connect_attributes() & NO_FLOW_CONTROL != 0;
            queue.responses.connected(entries - 1, is_flow_control_disabled);
            match queue.session.last() {
                Live::Discovery => queue.discovery = Discovery::new(low_u16(answer.dw0)),
                Live::Authenticating(index) => queue.proof = self.proof_of(data, index.into()).map(Box::new),
                _ => self.begin_association(queue, &data),
            }
        }
        Ok(answer.into())
    }

    /// What the library asks about a Connect.
    fn judged(&self, queue: &HostQueue, bytes: &[u8; CONNECT_DATA], is_whole: bool) -> Judged {
        let connect = ConnectBytes(bytes);
        let subsystem = match connect.subsystem_name() {
            name if name == discovery::NAME.as_bytes() => Subsystem::Discovery,
            name if name == self.settings.name.as_bytes() => Subsystem::Nvm,
            _ => Subsystem::Other,
        };
        // CNTLID of an I/O queue is that of its controller.
        let controller = self.controllers.get(usize::from(connect.controller_id()).wrapping_sub(1));
        Judged {
            subsystem,
            is_whole,
            is_known: self.knows(connect.host_id(), connect.host_name()),
            is_allowed: self.settings.admission.allows(connect.host_id(), queue.peer.ip()),
            is_enabled: controller.map_or(false, |it| it.has_queue(0)),
            created: (0, 0),
            authenticating: self.authenticating(),
        }
    }

    /// Makes the queues of a Connect that the library admits: an Admin Queue has a controller that was reset, and I/O
    /// queues are made by the commands that make queues. Returns the status of these.
    pub fn make_queues(&mut self, index: usize, data: &ConnectData) -> Outcome<(u8, u8)> {
        let controller = &mut self.controllers[index];
        let Status { sct, sc } = if data.qid == 0 {
            controller.reset(&mut self.machine)?;
            SUCCESS
        } else {
            controller.create_queues(&mut self.machine, data.qid, data.entries)?
        };
        Ok((sct, sc))
    }

    /// A connection has become a queue: with an Admin Queue an association begins.
    pub fn begin_association(&mut self, queue: &HostQueue, data: &ConnectData) {
        if let Live::Queue { index, qid: 0 } = queue.session.last() {
            self.associations[usize::from(index)] = Some(Association::new(queue, data));
        }
    }

    /// The connections of the I/O queues of a controller.
    pub fn io_connections(&mut self, index: u16) -> IoConnections {
        [1, 2, 3, 4].map(|qid| self.fabrics.connection(index, qid))
    }

    /// How many I/O queues of a controller are connected.
    pub fn io_queues(&mut self, index: usize) -> usize {
        self.io_connections(narrow(index)).into_iter().flatten().count()
    }

    fn disconnect(&mut self, queue: &mut HostQueue, live: Live) -> Outcome<Answer> {
        queue.is_over = true;
        if let Live::Queue { index, qid } = live {
            self.end_queue(index.into(), qid)?;
        }
        Ok(Answer::of(SUCCESS))
    }

    /// A register that is a property.
    fn register(&mut self, index: usize, offset: u64) -> Outcome<u64> {
        let cntlid = self.controllers[index].cntlid;
        let low = u64::from(self.machine.read32(cntlid, offset)?);
        let high = if offset == CAP { self.machine.read32(cntlid, CAP + 4)? } else { 0 };
        Ok(low | u64::from(high) << 32)
    }

    /// Property Set of CC. The queues of a controller end when it is reset.
    fn configure(&mut self, queue: &mut HostQueue, index: usize, value: u32, io: IoConnections) -> Outcome<Answer> {
        let (entries, requests) = match &self.associations[index] {
            Some(association) => (association.admin_entries, association.events.requests()),
            None => return Ok(Answer::of(COMMAND_SEQUENCE)),
        };
        self.say(format_args!("controller {}: CC {value:#x}", index + 1));
        if value & ENABLE == 0 {
            requests.into_iter().for_each(|cid| {
                queue.responses.forget(cid);
            });
            self.drop_answers(queue);
            self.forget_commands(index);
            self.effects.extend(io.into_iter().flatten().map(Effect::Close));
        }
        self.controllers[index].configure(&mut self.machine, value, entries)?;
        Ok(Answer::of(SUCCESS))
    }

    /// Drops the answers of a queue that wait to be sent, as events of a change whose record is not synced yet do: after
    /// that of a reset, its host could take them for those of later commands.
    fn drop_answers(&mut self, queue: &mut HostQueue) {
        let connection = queue.connection();
        self.effects.retain(|it| match it {
            Effect::Answer(name, entry, _) if *name == connection => !queue.responses.forget(entry.command_id()),
            _ => true,
        });
    }
}

/// The answer to Property Get.
fn of_property(value: u64) -> Answer {
    Answer { dw0: low_u32(value), dw1: low_u32(value >> 32), ..Answer::of(SUCCESS) }
}

#[cfg(test)]
mod tests {
    use super::*;
    use crate::bytes::put;
    use crate::nvme::FABRICS;

    #[test]
    fn fields_of_connect() {
        let mut bytes = [0; CONNECT_DATA];
        put(&mut bytes, 0, &[0xa1; 16]);
        put(&mut bytes, 16, &[0xfe, 0xff]);
        put(&mut bytes, 256, b"nqn.subsystem");
        put(&mut bytes, 512, b"nqn.host");
        let it = ConnectBytes(&bytes);
        assert_eq!((it.host_id(), it.controller_id()), (&[0xa1; 16], 0xfffe));
        assert_eq!((it.subsystem_name(), it.host_name()), (&b"nqn.subsystem"[..], &b"nqn.host"[..]));
        let entry = SubmissionEntry::new(FABRICS, 0, 0).with(0, 0x14);
        assert_eq!(property(&entry), (0x14, 0));
    }
}
