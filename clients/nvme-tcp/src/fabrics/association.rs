//! What Connect makes: queues of hosts, and the association of a host's queues with a controller.

use crate::admin::events::Events;
use crate::admin::features::Features;
use crate::authentication::proving::Proof;
use crate::bytes::text_of;
use crate::fabrics::discovery::Discovery;
use nvmesim::fabrics::{Request, Session};
use nvmesim::responses::Responses;
use std::net::SocketAddr;
use std::time::{Duration, Instant};

/// The name of a connection, which is never used again.
pub type ConnectionId = u64;

/// A queue at its host: a connection, and what Connect has said of it.
pub struct HostQueue {
    /// What the connection is, which only the library changes.
    pub session: Session,
    /// The addresses of the host and of the target.
    pub peer: SocketAddr,
    pub(super) local: SocketAddr,
    /// Its discovery controller, if it is the queue of one.
    pub(super) discovery: Discovery,
    /// Its commands without a response, which only the library changes.
    pub responses: Responses,
    /// How its host proves who it is, if hosts have to.
    pub proof: Option<Box<Proof>>,
    /// Whether Disconnect has ended it.
    pub is_over: bool,
}

impl HostQueue {
    /// A connection that has sent nothing.
    pub fn new(connection: ConnectionId, peer: SocketAddr, local: SocketAddr) -> HostQueue {
        let (session, discovery, responses) = (Session::new(connection), Discovery::default(), Responses::new());
        HostQueue { session, peer, local, discovery, responses, proof: None, is_over: false }
    }

    pub fn connection(&self) -> ConnectionId {
        self.session.connection()
    }
}

/// What a host has at a controller, besides its queues: the library knows their connections.
pub struct Association {
    pub host_id: [u8; 16],
    pub host_name: Vec<u8>,
    /// The addresses of its admin queue: the host's, and the target's.
    pub peer: SocketAddr,
    pub local: SocketAddr,
    pub(super) admin_entries: u16,
    /// Keep Alive Timeout in seconds; 0 is none.
    keep_alive_seconds: u32,
    heard: Instant,
    pub events: Events,
    pub features: Features,
}

impl Association {
    /// The association that an admin queue makes. Its Keep Alive Timer begins now.
    pub fn new(queue: &HostQueue, data: &ConnectData) -> Association {
        Association {
            host_id: data.host_id,
            host_name: data.host_name.clone(),
            peer: queue.peer,
            local: queue.local,
            admin_entries: data.entries,
            keep_alive_seconds: whole_seconds(data.keep_alive),
            heard: Instant::now(),
            events: Events::default(),
            features: Features::default(),
        }
    }

    /// Keep Alive Timeout, in milliseconds.
    pub fn keep_alive(&self) -> u32 {
        self.keep_alive_seconds.saturating_mul(1000)
    }

    /// The host asks for another Keep Alive Timeout, in milliseconds.
    pub fn set_keep_alive(&mut self, keep_alive: u32) {
        self.keep_alive_seconds = whole_seconds(keep_alive);
        self.hear();
    }

    /// The controller is reset: nothing of what its host has set is left.
    pub fn reset(&mut self) {
        self.events = Events::default();
        self.features = Features::default();
    }

    /// Its host is alive.
    pub fn hear(&mut self) {
        self.heard = Instant::now();
    }

    pub fn is_expired(&self, now: Instant) -> bool {
        // The timer has a second more than the host's timeout, since timeouts are checked at intervals.
        let patience = Duration::from_secs(u64::from(self.keep_alive_seconds) + 1);
        self.keep_alive_seconds != 0 && now.saturating_duration_since(self.heard) > patience
    }
}

/// A Keep Alive Timeout in milliseconds, in units of KAS, which are seconds.
fn whole_seconds(milliseconds: u32) -> u32 {
    milliseconds / 1000 + u32::from(milliseconds % 1000 != 0)
}

/// What Connect has said.
pub struct ConnectData {
    pub host_id: [u8; 16],
    pub host_name: Vec<u8>,
    pub qid: u16,
    pub(super) entries: u16,
    /// The Keep Alive Timeout in milliseconds.
    keep_alive: u32,
}

impl ConnectData {
    /// What a request asks for, with a Keep Alive Timeout.
    pub fn of(request: &Request, keep_alive: u32) -> ConnectData {
        let (host_id, host_name) = (request.host_id.to_le_bytes(), text_of(&request.host_nqn).to_vec());
        ConnectData { host_id, host_name, qid: request.qid, entries: request.entries, keep_alive }
    }
}
