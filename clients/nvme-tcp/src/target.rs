//! The target: the controllers of the subsystem with the associations of their hosts, and each command's way to them.

pub mod answer;
pub mod controller;
pub mod deallocating;
pub mod holding;
pub mod machine;
pub mod notices;

use crate::admin::access::Access;
use crate::admin::health::Health;
use crate::admin::identity::Identity;
use crate::authentication::proving::Prover;
use crate::configuration::Configuration;
use crate::control::counters::{Closing, Counters};
use crate::control::log::{Form, Log};
use crate::fabrics::admission::Admission;
use crate::fabrics::association::{Association, ConnectionId, HostQueue};
use crate::fault::{Fault, Outcome};
use crate::journal::Journal;
use crate::numbers::narrow;
use crate::nvme::entry::SubmissionEntry;
use crate::nvme::status::{Status, INACCESSIBLE, SUCCESS};
use crate::nvme::{DATASET_MANAGEMENT, NAMESPACE_ATTACHMENT};
use crate::storage::pending::{Issued, Waiting};
use crate::storage::zeroes::LongZeroes;
use crate::storage::Storage;
use crate::target::answer::{Answer, Payload};
use crate::target::controller::{Completed, Controller, Data, CSTS};
use crate::target::holding::Held;
use crate::target::machine::Machine;
use crate::target::notices::Watch;
use crate::transport::output::Buffers;
use nvmesim::capsules::Destination;
use nvmesim::fabrics::{Fabrics, Live};
use nvmesim::{Attachment, Need};
use std::collections::VecDeque;
use std::fmt;
use std::io::{self, Write};
use std::net::SocketAddr;
use std::time::Instant;

/// CSTS.RDY and CSTS.SHST.
const READY: u32 = 1;
const SHUTDOWN_STATUS: u32 = 3 << 2;

/// The settings of the command line.
pub struct Settings {
    /// The subsystem's name.
    pub name: String,
    pub admission: Admission,
    /// The address that discovery returns, if it is not the one that the host has reached.
    pub advertised: Option<SocketAddr>,
    /// Whether all namespaces stay write protected.
    pub is_read_only: bool,
    /// Whether to log what hosts do.
    pub traces: bool,
    /// How the log is written.
    pub log: Form,
}

/// The UUID of a host, as it gives its HOSTID.
pub fn uuid(host: u128) -> String {
    let digits = format!("{:032x}", u128::from_be_bytes(host.to_le_bytes()));
    [0..8, 8..12, 12..16, 16..20, 20..32].map(|part| &digits[part]).join("-")
}

/// What a connection is to do because of another.
pub enum Effect {
    /// It is closed.
    Close(ConnectionId),
    /// A command of it that has waited is answered.
    Answer(ConnectionId, SubmissionEntry, Answer),
}

/// How many batches of the run and records of the journal were begun.
#[derive(Clone, Copy, Debug, Default, PartialEq, Eq)]
pub struct Handed {
    batches: u64,
    records: u64,
}

/// The subsystem and its hosts.
pub struct Target<'a> {
    pub machine: Machine<'a>,
    /// Which connection is a queue of which controller.
    pub fabrics: Fabrics,
    pub configuration: Configuration,
    pub controllers: Vec<Controller>,
    /// What the host of each controller has there, as long as the library knows an association.
    pub associations: Vec<Option<Association>>,
    /// What is attached, in the order in which it was.
    pub attachments: Vec<Attachment>,
    /// Whether the next commands of a controller are held, and those that are.
    pub holds: Vec<bool>,
    pub held: Vec<VecDeque<Held>>,
    /// How well each controller reaches the namespaces, and how often that has changed.
    pub access: Vec<Access>,
    pub access_changes: u64,
    /// Error Recovery of each namespace.
    pub recovery: Vec<u32>,
    pub counters: Counters,
    /// What each controller has done.
    pub health: Vec<Health>,
    pub log: Log,
    pub settings: Settings,
    /// The keys, if hosts have to prove who they are.
    pub prover: Option<Prover>,
    pub identity: Identity,
    /// The disk, unless the blocks are in memory; and the commands that wait for it.
    pub storage: Option<Storage>,
    pub waiting: Waiting,
    /// The commands that zero many blocks.
    pub long_zeroes: LongZeroes,
    /// Buffers of answers.
    pub buffers: Buffers,
    pub journal: Option<Journal>,
    /// In the order in which they came about.
    pub effects: VecDeque<Effect>,
}

impl<'a> Target<'a> {
    pub fn new(
        machine: Machine<'a>,
        fabrics: Fabrics,
        configuration: Configuration,
        settings: Settings,
        identity: Identity,
        storage: Option<Storage>,
    ) -> Self {
        let described = configuration.config.controllers.iter();
        let controllers: Vec<Controller> = described.map(|it| Controller::new(it.cntlid(), it.host())).collect();
        let (count, attachments) = (controllers.len(), configuration.config.attached.clone());
        Target {
            machine,
            fabrics,
            recovery: vec![0; configuration.config.namespaces.len()],
            configuration,
            attachments,
            access: vec![Access::Optimized; count],
            access_changes: 0,
            counters: Counters::new(),
            health: (0..count).map(|_| Health::new()).collect(),
            log: Log::new(settings.log, count),
            associations: (0..count).map(|_| None).collect(),
            holds: vec![false; count],
            held: (0..count).map(|_| VecDeque::new()).collect(),
            controllers,
            settings,
            prover: None,
            identity,
            storage,
            waiting: Waiting::default(),
            long_zeroes: LongZeroes::default(),
            buffers: Buffers::default(),
            journal: None,
            effects: VecDeque::new(),
        }
    }

    /// Logs what happens, if `--trace` asks for it.
    pub fn say(&self, text: fmt::Arguments<'_>) {
        if self.settings.traces {
            let _ = writeln!(io::stderr(), "nvmetcp: {text}");
        }
    }

    /// Executes a command that has its data. A held command has no answer yet.
    pub fn carry_out(
        &mut self,
        queue: &mut HostQueue,
        entry: &SubmissionEntry,
        data: Data<'_>,
    ) -> Outcome<Option<Answer>> {
        let live = self.fabrics.live(&queue.session);
        match Destination::of(live, entry.bytes(), self.has_queue(live)) {
            Destination::Fabrics => self.execute_fabrics(queue, entry, data),
            Destination::Discovery => Ok(Some(self.discover(queue, entry, data))),
            Destination::Admin(index) => self.admin(index.into(), entry, data),
            Destination::Io { index, qid } => self.io(queue.connection(), index.into(), qid, entry, data),
            Destination::Refused { sct, sc } => {
                if let Live::Queue { index, qid } = live {
                    self.say(format_args!("controller {} has no queue {qid}", index + 1));
                }
                Ok(Some(Answer::of(Status { sct, sc })))
            }
        }
    }

    /// Whether the controller has the queue that a connection is, if it is one.
    fn has_queue(&self, live: Live) -> bool {
        matches!(live, Live::Queue { index, qid } if self.controllers[usize::from(index)].has_queue(qid))
    }

    fn io(
        &mut self,
        connection: ConnectionId,
        index: usize,
        qid: u16,
        entry: &SubmissionEntry,
        data: Data<'_>,
    ) -> Outcome<Option<Answer>> {
        if self.access[index] == Access::Inaccessible {
            return Ok(Some(Answer::of(INACCESSIBLE)));
        }
        if self.holds[index] && self.hold(connection, index, qid, entry, data)? {
            return Ok(None);
        }
        let issued = Issued { connection, index, qid, entry: *entry, opcode: entry.opcode() };
        if self.wait_for_turns(issued, data) {
            return Ok(None);
        }
        if self.storage.is_some() {
            return self.io_over_disk(issued, data);
        }
        if entry.opcode() == DATASET_MANAGEMENT {
            return self.deallocate(index, qid, entry, data, None).map(Some);
        }
        let watch = self.watch(index, entry)?;
        let completed = self.controllers[index].run(&mut self.machine, qid, entry, data)?;
        self.answer_of(index, qid, entry, data, completed, watch.as_ref()).map(Some)
    }

    /// Does what follows the execution of an I/O command; its answer.
    pub fn answer_of(
        &mut self,
        index: usize,
        qid: u16,
        entry: &SubmissionEntry,
        data: Data<'_>,
        completed: Completed,
        watch: Option<&Watch>,
    ) -> Outcome<Answer> {
        if !completed.is_denied {
            self.follow(index, qid, entry, data, &completed);
        }
        if let (Some(watch), SUCCESS) = (watch, completed.status) {
            self.notify(watch)?;
        }
        let length = if let Data::FromController(length) = data { length } else { 0 };
        Ok(Answer::completed(completed, self.controllers[index].cntlid, length))
    }

    /// Makes counters and journal follow a command that was allowed.
    pub fn follow(&mut self, index: usize, qid: u16, entry: &SubmissionEntry, data: Data<'_>, completed: &Completed) {
        let has_succeeded = completed.status == SUCCESS;
        if qid == 0 && entry.opcode() == NAMESPACE_ATTACHMENT {
            self.follow_attachments();
        }
        if let (Need::Zero { blocks, .. }, true) = (completed.need, has_succeeded) {
            self.health[index].zero(blocks);
        }
        if let (Some(journal), true) = (&mut self.journal, has_succeeded) {
            journal.follow(self.controllers[index].cntlid, qid, entry, data);
        }
    }

    /// Begins to write what the commands so far have changed: blocks, once the journal has the records before them, and
    /// the events of the kept run, which the system must have before a host hears of them. `is_alone` says that one host
    /// is served and waits for that.
    pub fn hand_over(&mut self, is_alone: bool) -> Outcome<Handed> {
        let records = self.journal.as_ref().map_or(0, |it| it.count);
        if let Some(storage) = &mut self.storage {
            if let Some(journal) = &self.journal {
                storage.wait_for_records(records, journal.synced()?);
            }
            let is_only_host = is_alone && self.associations.iter().flatten().count() == 1;
            storage.begin(is_only_host)?;
        }
        Ok(Handed { batches: self.machine.begin_run(is_alone)?, records })
    }

    /// Whether the journal has synced all records up to `handed`, and the system has all events.
    pub fn has(&self, handed: Handed) -> Outcome<bool> {
        Ok(self.has_records(handed.records)? && self.has_events(handed)?)
    }

    fn has_records(&self, count: u64) -> Outcome<bool> {
        self.journal.as_ref().map_or(Ok(true), |it| Ok(count <= it.synced()?))
    }

    /// Has the threads of the disk take their work, before the event loop waits.
    pub fn hand_out(&mut self) -> Outcome<()> {
        self.storage.as_mut().map_or(Ok(()), Storage::hand_out)
    }

    /// Whether the system has all events up to `handed`.
    pub fn has_events(&self, handed: Handed) -> Outcome<bool> {
        Ok(handed.batches <= self.machine.run_done()?)
    }

    /// Waits until the system has them.
    pub fn wait_for(&self, handed: Handed) -> Outcome<()> {
        self.machine.wait_for_run(handed.batches)
    }

    /// Has the disk hold all that happened, at the end: records, blocks and events.
    pub fn end(&mut self) -> Outcome<()> {
        let log = self.journal.take().map(Journal::end).transpose()?;
        self.storage.as_mut().map_or(Ok(()), Storage::sync)?;
        self.machine.sync_run()?;
        log.map_or(Ok(()), |mut it| it.close().map_err(Fault::Journal))
    }

    /// An error if another target has taken the journal over, and with `all` also if another program has changed the
    /// files.
    pub fn check_files(&self, all: bool) -> Outcome<()> {
        if all {
            self.storage.as_ref().map_or(Ok(()), Storage::check)?;
        }
        self.journal.as_ref().map_or(Ok(()), |it| it.check(all))
    }

    /// An error if another target may have taken over by now, so that nothing may be answered.
    pub fn check_time(&self) -> Outcome<()> {
        self.journal.as_ref().map_or(Ok(()), Journal::check_time)
    }

    /// Has the list of attachments follow a command that has attached a namespace to controllers, or detached it: the
    /// new ones come after the others, by rising controllers.
    pub fn follow_attachments(&mut self) {
        let Target { machine, attachments, .. } = self;
        attachments.retain(|it| machine.is_attached(it.cntlid, it.nsid));
        for nsid in self.configuration.config.namespaces.iter().map(|it| it.nsid) {
            for cntlid in self.controllers.iter().map(|it| it.cntlid) {
                let it = Attachment { nsid, cntlid };
                if !attachments.contains(&it) && machine.is_attached(cntlid, nsid) {
                    attachments.push(it);
                }
            }
        }
    }

    /// Turns data in memory into bytes, which later commands leave alone.
    pub fn kept(&mut self, answer: Answer) -> Outcome<Answer> {
        Ok(match answer.data {
            Payload::Memory { cntlid, address, length } => {
                let mut bytes = vec![0; length];
                self.machine.load(cntlid, address, &mut bytes)?;
                Answer { data: Payload::Bytes(bytes), ..answer }
            }
            _ => answer,
        })
    }

    /// The connection of a queue is gone: the queue ends, and with the admin queue the association.
    pub fn lose(&mut self, queue: &mut HostQueue, closing: Closing) -> Outcome<()> {
        self.counters.closed[closing.place()] += 1;
        self.log_closed(queue, closing);
        self.end_session(queue, closing.reason())
    }

    /// The same while the connection stays: it may still send what is due.
    pub fn end_session(&mut self, queue: &mut HostQueue, reason: &str) -> Outcome<()> {
        let live = self.fabrics.live(&queue.session);
        if let Live::Queue { index, qid: 0 } = live {
            let own = Some(queue.connection());
            self.forget_association(index.into(), own, reason);
            return self.controllers[usize::from(index)].reset(&mut self.machine);
        }
        self.fabrics.end_session(&mut queue.session);
        match live {
            Live::Queue { index, qid } => self.end_queue(index.into(), qid),
            _ => Ok(()),
        }
    }

    /// A pair of I/O queues has ended.
    pub fn end_queue(&mut self, index: usize, qid: u16) -> Outcome<()> {
        self.held[index].retain(|held| held.qid != qid);
        self.drop_waiting(index, Some(qid));
        self.controllers[index].delete_queues(&mut self.machine, qid)
    }

    /// A controller is reset: its commands that wait are dropped, and what its host has set is forgotten.
    pub fn forget_commands(&mut self, index: usize) {
        self.held[index].clear();
        self.holds[index] = false;
        self.drop_waiting(index, None);
        self.associations[index].iter_mut().for_each(Association::reset);
    }

    /// An association ends: its connections are closed, except for this one.
    fn forget_association(&mut self, index: usize, own: Option<ConnectionId>, reason: &str) {
        let (io, admin) = (self.io_connections(narrow(index)), self.fabrics.connection(narrow(index), 0));
        self.fabrics.end_association(narrow(index));
        self.forget_commands(index);
        let lost = io.into_iter().chain([admin]).flatten().filter(|it| Some(*it) != own);
        self.effects.extend(lost.map(Effect::Close));
        if let Some(association) = self.associations[index].take() {
            self.log_end(index, &association, reason);
        }
    }

    /// An association ends, and its controller is reset.
    pub fn end_association(&mut self, index: usize, reason: &str) -> Outcome<()> {
        self.forget_association(index, None, reason);
        self.controllers[index].reset(&mut self.machine)
    }

    /// Ends the associations whose hosts have not been heard of.
    pub fn expire(&mut self, now: Instant) -> Outcome<()> {
        for index in 0..self.associations.len() {
            if self.associations[index].as_ref().map_or(false, |it| it.is_expired(now)) {
                self.end_association(index, "Keep Alive Timeout")?;
            }
        }
        Ok(())
    }

    /// Power is lost in the subsystem, and comes back: all associations have ended.
    pub fn power_cycle(&mut self) -> Outcome<()> {
        self.counters.power_cycles += 1;
        for index in 0..self.associations.len() {
            let status = self.machine.read32(self.controllers[index].cntlid, CSTS)?;
            self.health[index].power_cycle(status & (READY | SHUTDOWN_STATUS) == READY);
            self.forget_association(index, None, "power cycle");
            self.controllers[index].forget();
        }
        self.machine.power_cycle();
        self.journal.iter_mut().for_each(Journal::cycle);
        Ok(())
    }
}
