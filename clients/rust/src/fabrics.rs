//! Which connection is a queue of which controller, by Connect, authentication, Disconnect and Property Set.
//!
//! ```
//! use nvmesim::fabrics::{Fabrics, Judged, Live, Session};
//!
//! let mut fabrics = Fabrics::new(&[0xa1], false)?;
//! let mut session = Session::new(7);
//! let (mut entry, mut data) = ([0; 64], [0; 1024]);
//! (entry[44], data[0], data[16], data[17], data[512]) = (31, 0xa1, 0xff, 0xff, b'h');
//! let answer = fabrics.connect(&mut session, &entry, &data, &Judged::default());
//! assert_eq!((answer.sct, answer.sc, answer.dw0), (0, 0, 1));
//! assert_eq!(fabrics.live(&session), Live::Queue { index: 0, qid: 0 });
//! assert_eq!(fabrics.connection(0, 0), Some(7));
//! fabrics.end_session(&mut session);
//! assert_eq!(fabrics.live(&session), Live::Ended);
//! # Ok::<_, nvmesim::OpenError>(())
//! ```

use crate::layout;
use crate::numbers::{halves, joined};
use crate::raw::Associations;
use crate::{status_name, OpenError, OK};
use std::cell::Cell;
use std::sync::atomic::{AtomicU64, Ordering};
use std::{error, fmt};

/// The fields of a completion that an answer sets.
#[derive(Clone, Copy, Debug, PartialEq, Eq)]
pub struct Answer {
    /// Double word 0.
    pub dw0: u32,
    /// Status Code Type.
    pub sct: u8,
    /// Status Code.
    pub sc: u8,
}

impl Answer {
    /// Whether the status is a success.
    #[must_use]
    pub fn is_success(&self) -> bool {
        (self.sct, self.sc) == (0, 0)
    }
}

impl fmt::Display for Answer {
    fn fmt(&self, f: &mut fmt::Formatter<'_>) -> fmt::Result {
        write!(f, "status {:x}:{:02x}, {}", self.sct, self.sc, status_name(self.sct, self.sc))
    }
}

/// A command is refused by its answer.
impl error::Error for Answer {}

/// What a Connect asks for.
#[derive(Clone, Copy, Debug, PartialEq, Eq)]
pub struct Request {
    /// HOSTID.
    pub host_id: u128,
    /// HOSTNQN: a text, NUL, and anything.
    pub host_nqn: [u8; 256],
    /// CNTLID; FFFFh is any controller of the host.
    pub cntlid: u16,
    /// QID: 0 is the Admin Queue.
    pub qid: u16,
    /// The number of entries of the queue, SQSIZE and one.
    pub entries: u16,
}

/// What a Connect connects to.
#[derive(Clone, Copy, Debug, PartialEq, Eq)]
pub enum Place {
    /// A discovery controller.
    Discovery,
    /// The controller at this place, one less than CNTLID.
    Controller(u16),
}

/// The subsystem that SUBNQN names.
#[derive(Clone, Copy, Debug, PartialEq, Eq)]
pub enum Subsystem {
    /// This one.
    Nvm = 0,
    /// The discovery subsystem.
    Discovery = 1,
    /// Another.
    Other = 2,
}

impl Subsystem {
    /// Its number in `nvmetcp.h`.
    #[allow(clippy::as_conversions)] // An enum has no other conversion.
    fn number(self) -> u32 {
        self as u32
    }
}

/// What the caller knows of a Connect. The default is a Connect to which nothing is opposed.
#[derive(Clone, Copy, Debug)]
#[allow(clippy::struct_excessive_bools)] // Each is a rule of its own.
pub struct Judged {
    /// The subsystem that SUBNQN names.
    pub subsystem: Subsystem,
    /// Whether the command's data are 1,024 bytes.
    pub is_whole: bool,
    /// Whether the host has a key, if hosts need one.
    pub is_known: bool,
    /// Whether the host may connect from its address.
    pub is_allowed: bool,
    /// Whether the Admin Queue of the controller is enabled.
    pub is_enabled: bool,
    /// Status Code Type and Status Code of the creation of the I/O queues.
    pub created: (u8, u8),
    /// The number of hosts that authenticate themselves for each controller.
    pub authenticating: [u32; 16],
}

impl Default for Judged {
    fn default() -> Judged {
        let (subsystem, created, authenticating) = (Subsystem::Nvm, (0, 0), [0; 16]);
        Judged {
            subsystem,
            is_whole: true,
            is_known: true,
            is_allowed: true,
            is_enabled: true,
            created,
            authenticating,
        }
    }
}

/// What a connection is now.
#[derive(Clone, Copy, Debug, PartialEq, Eq)]
pub enum Live {
    /// Nothing yet: it has not connected.
    NotConnected,
    /// Its host has to authenticate itself to the controller at this place.
    Authenticating(u16),
    /// A queue of the controller at a place.
    Queue {
        /// The place, one less than CNTLID.
        index: u16,
        /// The queue.
        qid: u16,
    },
    /// The Admin Queue of a discovery controller.
    Discovery,
    /// Nothing any more.
    Ended,
}

impl Live {
    #[inline]
    fn of(kind: u32, index: u16, qid: u16) -> Live {
        match kind {
            0 => Live::NotConnected,
            AUTHENTICATING => Live::Authenticating(index),
            2 => Live::Queue { index, qid },
            3 => Live::Discovery,
            _ => Live::Ended,
        }
    }

    /// The struct of `nvmetcp.h`.
    #[inline]
    pub(crate) fn raw(self) -> layout::LiveSession {
        let (kind, index, qid) = match self {
            Live::NotConnected => (0, 0, 0),
            Live::Authenticating(index) => (AUTHENTICATING, index, 0),
            Live::Queue { index, qid } => (2, index, qid),
            Live::Discovery => (3, 0, 0),
            Live::Ended => (4, 0, 0),
        };
        layout::LiveSession { what: OK, kind, index, qid }
    }
}

/// A Fabrics command that its connection may issue.
#[derive(Clone, Copy, Debug, PartialEq, Eq)]
pub enum Command {
    /// Authentication Send or Authentication Receive.
    Authenticate,
    /// Disconnect.
    Disconnect,
    /// Property Get of a property that there is.
    GetProperty,
    /// Property Set of Controller Configuration.
    SetProperty,
}

/// What a connection was when a call last changed it: `Fabrics::live` says what it is now.
#[derive(Clone)]
pub struct Session {
    pub(crate) raw: layout::Session,
    /// What `live` has returned, and the stamp of the associations then.
    seen: Cell<(u64, Live)>,
}

impl Session {
    /// A connection that has not connected. No other connection ever has its number.
    #[must_use]
    pub fn new(connection: u64) -> Session {
        let raw = layout::Session { connection, request: layout::Request::NONE, kind: 0, index: 0, qid: 0 };
        Session { raw, seen: Cell::new((0, Live::NotConnected)) }
    }

    /// The number of the connection.
    pub fn connection(&self) -> u64 {
        self.raw.connection
    }

    /// What it was when a call last changed it.
    #[inline]
    pub fn last(&self) -> Live {
        Live::of(self.raw.kind, self.raw.index, self.raw.qid)
    }

    /// What its Connect asked for, while its host has to authenticate itself.
    pub fn request(&self) -> Option<Request> {
        (self.raw.kind == AUTHENTICATING).then(|| self.raw.request.into())
    }
}

const AUTHENTICATING: u32 = 1;

/// The controllers of a subsystem and their associations.
pub struct Fabrics {
    raw: Associations,
    /// Another number after each call that may change them or a session. No two have the same.
    stamp: u64,
}

fn next_stamp() -> u64 {
    static NEXT: AtomicU64 = AtomicU64::new(1);
    NEXT.fetch_add(1, Ordering::Relaxed)
}

impl Fabrics {
    /// A subsystem without associations, whose controllers have these hosts, by rising CNTLID from 1. With `has_keys`
    /// hosts have to authenticate themselves. It takes memory once.
    ///
    /// # Errors
    ///
    /// [`OpenError::TooMany`] for more than 16 hosts; [`OpenError::NoMemory`].
    pub fn new(hosts: &[u128], has_keys: bool) -> Result<Fabrics, OpenError> {
        let hosts: Vec<_> =
            hosts.iter().map(|it| halves(*it)).map(|(low, high)| layout::HostId { low, high }).collect();
        let (answer, raw) = Associations::open(&hosts, has_keys);
        match answer {
            OK => Ok(Fabrics { raw, stamp: next_stamp() }),
            25 => Err(OpenError::TooMany),
            _ => Err(OpenError::NoMemory),
        }
    }

    /// What a connection is now: a queue only as long as its association names it.
    #[inline]
    pub fn live(&mut self, session: &Session) -> Live {
        match session.seen.get() {
            (stamp, live) if stamp == self.stamp => live,
            _ => {
                let it = self.raw.live(&session.raw);
                let live = Live::of(it.kind, it.index, it.qid);
                session.seen.set((self.stamp, live));
                live
            }
        }
    }

    /// The connection of a queue of the controller at a place.
    pub fn connection(&mut self, index: u16, qid: u16) -> Option<u64> {
        let it = self.raw.connection(index, qid);
        (it.what == OK).then_some(it.connection)
    }

    /// What a Connect asks for, and what `connect` will connect it to.
    ///
    /// # Errors
    ///
    /// The answer of the first rule that the Connect breaks.
    pub fn admitted(
        &mut self,
        session: &Session,
        entry: &[u8; 64],
        data: &[u8; 1024],
        judged: &Judged,
    ) -> Result<(Request, Place), Answer> {
        let it = self.raw.admitted(&session.raw, entry, data, &judged.into());
        match it.place {
            1 => Ok((it.request.into(), Place::Controller(it.index))),
            2 => Ok((it.request.into(), Place::Discovery)),
            _ => Err(it.answer.into()),
        }
    }

    /// Whether a request may have its queue at the controller at a place: a success, or the answer of the first rule that
    /// is broken.
    pub fn admits(&mut self, index: u16, request: &Request, is_enabled: bool) -> Answer {
        self.raw.admits(index, &request.into(), is_enabled).into()
    }

    /// Executes a Connect. A refused one changes nothing.
    pub fn connect(&mut self, session: &mut Session, entry: &[u8; 64], data: &[u8; 1024], judged: &Judged) -> Answer {
        self.stamp = next_stamp();
        self.raw.connect(&mut session.raw, entry, data, &judged.into()).into()
    }

    /// The host of a connection has authenticated itself: the connection becomes the queue that its Connect asked for, or
    /// ends. Any other connection stays what it is.
    pub fn authenticate(&mut self, session: &mut Session, is_enabled: bool, created: (u8, u8)) -> Answer {
        self.stamp = next_stamp();
        self.raw.authenticate(&mut session.raw, is_enabled, created.0, created.1).into()
    }

    /// Executes a Fabrics command other than Connect, as far as associations go.
    ///
    /// # Errors
    ///
    /// The answer of the first rule that the command breaks: nothing has changed.
    pub fn execute(&mut self, session: &mut Session, entry: &[u8; 64]) -> Result<Command, Answer> {
        self.stamp = next_stamp();
        let it = self.raw.execute(&mut session.raw, entry);
        match it.command {
            1 => Ok(Command::Authenticate),
            2 => Ok(Command::Disconnect),
            3 => Ok(Command::GetProperty),
            4 => Ok(Command::SetProperty),
            _ => Err(it.answer.into()),
        }
    }

    /// A connection ends: its queue ends, and with the Admin Queue the association.
    pub fn end_session(&mut self, session: &mut Session) {
        self.stamp = next_stamp();
        self.raw.end_session(&mut session.raw);
    }

    /// The association of the controller at a place ends, if there is one.
    pub fn end_association(&mut self, index: u16) {
        self.stamp = next_stamp();
        self.raw.end_association(index);
    }
}

impl From<layout::FabricsAnswer> for Answer {
    fn from(it: layout::FabricsAnswer) -> Answer {
        Answer { dw0: it.dw0, sct: it.sct, sc: it.sc }
    }
}

impl From<layout::Request> for Request {
    fn from(it: layout::Request) -> Request {
        let host_id = joined(it.host_low, it.host_high);
        Request { host_id, host_nqn: it.host_nqn, cntlid: it.cntlid, qid: it.qid, entries: it.entries }
    }
}

impl From<&Request> for layout::Request {
    fn from(it: &Request) -> layout::Request {
        let (host_low, host_high) = halves(it.host_id);
        layout::Request {
            host_low,
            host_high,
            host_nqn: it.host_nqn,
            cntlid: it.cntlid,
            qid: it.qid,
            entries: it.entries,
        }
    }
}

impl From<&Judged> for layout::Judged {
    fn from(it: &Judged) -> layout::Judged {
        layout::Judged {
            authenticating: it.authenticating,
            subsystem: it.subsystem.number(),
            is_whole: it.is_whole,
            is_known: it.is_known,
            is_allowed: it.is_allowed,
            is_enabled: it.is_enabled,
            created_sct: it.created.0,
            created_sc: it.created.1,
        }
    }
}
