//! Log lines about hosts: they connect, are refused, leave, and are fenced.

use crate::control::counters::Closing;
use crate::control::log::Topic;
use crate::fabrics::association::{Association, HostQueue};
use crate::nvme::entry::SubmissionEntry;
use crate::nvme::names::command_name;
use crate::nvme::status::{Status, CONNECT_HOST, CONNECT_PARAMETERS, CONTROLLER_BUSY, RESERVATION_CONFLICT, SUCCESS};
use crate::target::answer::Answer;
use crate::target::controller::Data;
use crate::target::{uuid, Target};
use nvmesim::fabrics::Live;
use std::fmt::Display;
use std::net::SocketAddr;

/// Offsets of CNTLID, SUBNQN and HOSTNQN in Connect's data, as double word 0 of a refusal names them.
const CNTLID: u32 = 1 << 16 | 16;
const SUBNQN: u32 = 1 << 16 | 256;
const HOSTNQN: u32 = 1 << 16 | 512;

impl Target<'_> {
    /// Logs that the target serves, and the number of starts over its state folder.
    pub fn log_start(&mut self, addresses: &[SocketAddr]) {
        let addresses: Vec<String> = addresses.iter().map(SocketAddr::to_string).collect();
        let addresses = addresses.join(",");
        let epoch = self.journal.as_ref().map(|it| it.epoch);
        let name: &dyn Display = &self.settings.name;
        let fields = [("subsystem", name), ("addresses", &addresses)];
        match &epoch {
            Some(epoch) => {
                let epoch: &dyn Display = epoch;
                self.log.put(Topic::Service, "started", &[&fields[..], &[("epoch", epoch)]].concat());
            }
            None => self.log.put(Topic::Service, "started", &fields),
        }
    }

    /// Logs that a host has connected, or why it is refused.
    pub fn log_connect(&mut self, queue: &HostQueue, data: Data<'_>, answer: &Answer) {
        let mut host = None;
        if let Data::ToController(bytes) = data {
            host = bytes.get(..16).and_then(|it| it.try_into().ok()).map(u128::from_le_bytes);
        }
        let name = host.map_or_else(|| "unknown".to_owned(), uuid);
        if answer.status != SUCCESS {
            let reason = self.refusal(host, answer);
            return self.log_refused(queue, &name, answer.status, reason);
        }
        match queue.session.last() {
            Live::Discovery => {
                let fields: [(&'static str, &dyn Display); 2] = [("host", &name), ("address", &queue.peer)];
                self.log.put(Topic::Host, "discovery", &fields);
            }
            _ => self.log_connected(queue),
        }
    }

    /// Logs that a host has a controller, if the queue is its admin queue.
    pub fn log_connected(&mut self, queue: &HostQueue) {
        let index = match queue.session.last() {
            Live::Queue { index, qid: 0 } => usize::from(index),
            _ => return,
        };
        let (host, controller) = (uuid(self.controllers[index].host), self.controllers[index].cntlid);
        let association = self.associations[index].as_ref();
        let nqn = association.map(|it| String::from_utf8_lossy(&it.host_name).into_owned()).unwrap_or_default();
        let fields: [(&'static str, &dyn Display); 4] =
            [("host", &host), ("address", &queue.peer), ("controller", &controller), ("nqn", &nqn)];
        self.log.put(Topic::Host, "connected", &fields);
    }

    /// Logs that a host is refused.
    pub fn log_refused(&mut self, queue: &HostQueue, host: &str, status: Status, reason: &str) {
        let fields: [(&'static str, &dyn Display); 4] =
            [("host", &host), ("address", &queue.peer), ("status", &status), ("reason", &reason)];
        self.log.put(Topic::Refused, "refused", &fields);
    }

    /// Why a Connect is refused.
    fn refusal(&self, host: Option<u128>, answer: &Answer) -> &'static str {
        let is_known = host.map_or(false, |host| self.controllers.iter().any(|it| it.host == host));
        match (answer.status, answer.dw0) {
            (CONNECT_HOST, _) if is_known => "this host may not come from this address",
            (CONNECT_HOST, _) => "no controller is of this host",
            (CONTROLLER_BUSY, _) => "all controllers of this host are in use",
            (CONNECT_PARAMETERS, CNTLID) => "this host has no such controller",
            (CONNECT_PARAMETERS, SUBNQN) => "there is no subsystem of this name",
            (CONNECT_PARAMETERS, HOSTNQN) => "the name of the host is wrong",
            (CONNECT_PARAMETERS, _) => "a parameter of Connect is wrong",
            _ => "the command can't be executed",
        }
    }

    /// Logs that an association has ended.
    pub fn log_end(&mut self, index: usize, association: &Association, reason: &str) {
        let (host, controller) = (uuid(u128::from_le_bytes(association.host_id)), self.controllers[index].cntlid);
        let fields: [(&'static str, &dyn Display); 4] =
            [("host", &host), ("address", &association.peer), ("controller", &controller), ("reason", &reason)];
        self.log.put(Topic::Host, "disconnected", &fields);
    }

    /// Logs that a connection without an association is closed, unless its host has closed it.
    pub fn log_closed(&mut self, queue: &HostQueue, closing: Closing) {
        let is_said = matches!(closing, Closing::Protocol | Closing::Late | Closing::Crowded);
        if is_said && !matches!(queue.session.last(), Live::Queue { qid: 0, .. }) {
            self.log.put(Topic::Closed, "closed", &[("address", &queue.peer), ("reason", &closing.reason())]);
        }
    }

    /// Logs that a reservation, or its preemption, has refused a command of a host.
    pub fn log_fenced(&mut self, queue: &HostQueue, index: usize, entry: &SubmissionEntry, status: Status) {
        let Target { controllers, log, .. } = self;
        let qid = if let Live::Queue { qid, .. } = queue.session.last() { qid } else { 0 };
        let (host, controller) = (uuid(controllers[index].host), controllers[index].cntlid);
        let (command, namespace) = (command_name(qid, entry.opcode()), entry.namespace_id());
        let reason =
            if status == RESERVATION_CONFLICT { "Reservation Conflict" } else { "aborted by Preempt and Abort" };
        let fields: [(&'static str, &dyn Display); 7] = [
            ("host", &host),
            ("address", &queue.peer),
            ("controller", &controller),
            ("namespace", &namespace),
            ("command", &command),
            ("status", &status),
            ("reason", &reason),
        ];
        log.put(Topic::Fenced(index), "fenced", &fields);
    }
}
