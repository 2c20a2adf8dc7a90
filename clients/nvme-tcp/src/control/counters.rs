//! What the target has done since it started, by kinds of commands and by their statuses. All are plain integers of the
//! loop's thread: to count a command takes no memory, unless its status is one that its opcode never had.

use crate::admin::health::Health;
use crate::fabrics::association::HostQueue;
use crate::nvme::entry::SubmissionEntry;
use crate::nvme::status::{Status, ABORTED_BY_PREEMPTION, RESERVATION_CONFLICT, SUCCESS};
use crate::nvme::{FABRICS, RESERVATION_ACQUIRE, RESERVATION_REGISTER, RESERVATION_RELEASE};
use crate::target::Target;
use nvmesim::fabrics::Live;
use std::collections::BTreeMap;
use std::time::{Duration, SystemTime, UNIX_EPOCH};

/// The commands whose Reservation Conflict refuses a change of reservations.
const RESERVATION_COMMANDS: [u8; 3] = [RESERVATION_REGISTER, RESERVATION_ACQUIRE, RESERVATION_RELEASE];

/// Which opcodes a command has.
#[derive(Clone, Copy, Debug, PartialEq, Eq, PartialOrd, Ord)]
pub enum Kind {
    Fabrics,
    Admin,
    Io,
}

impl Kind {
    /// Its place in an array of all kinds.
    #[allow(clippy::as_conversions)] // An enum has no other conversion.
    pub const fn place(self) -> usize {
        self as usize
    }

    /// The kind of a command on a queue, and its opcode, which is the type of a command of Fabrics.
    fn of(queue: Live, entry: &SubmissionEntry) -> (Kind, u8) {
        match queue {
            _ if entry.opcode() == FABRICS => (Kind::Fabrics, entry.fabrics_type()),
            Live::Queue { qid, .. } if qid != 0 => (Kind::Io, entry.opcode()),
            _ => (Kind::Admin, entry.opcode()),
        }
    }
}

/// Why a connection has ended.
#[derive(Clone, Copy, Debug, PartialEq, Eq)]
pub enum Closing {
    /// Its host has closed it, or the network has.
    ByHost,
    /// It has broken the transport's rules.
    Protocol,
    /// It took too long to connect, or a discovery controller was not asked for a while.
    Late,
    /// Closed in favour of others before it had connected.
    Crowded,
    /// Its association has ended: by its admin queue, Keep Alive, a reset or a power cycle.
    Association,
    /// The target ends.
    Shutdown,
    /// The target has an answer that nobody waits for, which is a fault of its own.
    Fault,
}

impl Closing {
    /// Its place in an array of all of them.
    #[allow(clippy::as_conversions)] // An enum has no other conversion.
    pub const fn place(self) -> usize {
        self as usize
    }

    /// What the log says of it.
    pub fn reason(self) -> &'static str {
        match self {
            Closing::ByHost => "the host has ended its connection",
            Closing::Protocol => "the host has broken the rules of the transport",
            Closing::Late => "there was no command in time",
            Closing::Crowded => "there were too many connections without a controller",
            Closing::Association => "the association has ended",
            Closing::Shutdown => "the target ends",
            Closing::Fault => "the target has an answer that nobody waits for",
        }
    }
}

pub const CLOSINGS: [(Closing, &str); 7] = [
    (Closing::ByHost, "host"),
    (Closing::Protocol, "protocol"),
    (Closing::Late, "timeout"),
    (Closing::Crowded, "crowded"),
    (Closing::Association, "association"),
    (Closing::Shutdown, "shutdown"),
    (Closing::Fault, "fault"),
];

/// The counters.
pub struct Counters {
    pub(super) started: Duration,
    /// Commands of Fabrics and admin commands that have succeeded, by kind and opcode. Those of I/O are counted for
    /// each controller.
    pub(super) succeeded: [[u64; 256]; 2],
    /// Those that have not, by kind, opcode and status.
    pub(super) failed: BTreeMap<(Kind, u8, Status), u64>,
    /// Connections that were taken, and those that have ended.
    pub accepted: u64,
    pub closed: [u64; CLOSINGS.len()],
    pub power_cycles: u64,
}

impl Counters {
    pub fn new() -> Counters {
        Counters {
            started: SystemTime::now().duration_since(UNIX_EPOCH).unwrap_or_default(),
            succeeded: [[0; 256]; 2],
            failed: BTreeMap::new(),
            accepted: 0,
            closed: [0; CLOSINGS.len()],
            power_cycles: 0,
        }
    }

    /// How many connections there are.
    pub fn connections(&self) -> u64 {
        self.accepted - self.closed.iter().sum::<u64>()
    }
}

impl Target<'_> {
    /// Forgets what was counted before hosts may come.
    pub fn begin_counting(&mut self) {
        self.counters = Counters::new();
        self.health.fill_with(Health::new);
    }

    /// Counts a command that is answered. One that a reservation has refused is logged.
    #[inline]
    pub fn count(&mut self, queue: &HostQueue, entry: &SubmissionEntry, status: Status) {
        if status != SUCCESS {
            return self.count_failed(queue, entry, status);
        }
        let live = queue.session.last();
        match (Kind::of(live, entry), live) {
            ((Kind::Io, _), Live::Queue { index, .. }) => self.health[usize::from(index)].succeed(entry),
            ((kind, opcode), _) => self.counters.succeeded[kind.place()][usize::from(opcode)] += 1,
        }
    }

    #[cold]
    fn count_failed(&mut self, queue: &HostQueue, entry: &SubmissionEntry, status: Status) {
        let live = queue.session.last();
        let (kind, opcode) = Kind::of(live, entry);
        *self.counters.failed.entry((kind, opcode, status)).or_default() += 1;
        if let Live::Queue { index, qid } = live {
            let index = usize::from(index);
            self.health[index].fail(qid, entry, status);
            let is_reservation = qid != 0 && RESERVATION_COMMANDS.contains(&opcode);
            if matches!(status, RESERVATION_CONFLICT | ABORTED_BY_PREEMPTION) && !is_reservation {
                self.log_fenced(queue, index, entry, status);
            }
        }
    }
}
