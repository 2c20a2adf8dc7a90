//! Queues whose hosts authenticate themselves.

use super::admin::one_of;
use super::chap::{negotiate, success2, Challenge, Peers, Reply};
use super::checker::check;
use super::queue::{Command, Completion, Lost, Queue};
use super::{below, Path, Session, KEEP_ALIVE};
use crate::libcrypto::size;
use crate::world::with;

/// The forms of Authentication Send and Authentication Receive.
pub const SEND: u8 = 5;
pub const RECEIVE: u8 = 6;
/// A reserved byte, SPSP0, SPSP1 and SECP.
pub const PROTOCOL: [u8; 4] = [0, 1, 1, 0xe9];
/// The length of a message that a host asks for.
pub const LENGTH: usize = 4096;
/// AUTHREQ.ATR of Connect's completion.
const REQUIRED: u64 = 1 << 17;
/// AUTH_Failure1.
const FAILURE1: [u8; 2] = [0, 0xf1];

/// How an authentication ends: well, or with the explanation of Failure1, or with the status of the last message.
#[derive(Clone, Copy, Debug, PartialEq, Eq)]
pub enum Proof {
    Done,
    Failed(u8),
    Refused(u16),
}

/// Authentication Send of a message.
pub fn send_command(message: &[u8]) -> Command {
    let words = [&PROTOCOL[..], &(message.len() as u32).to_le_bytes()].concat();
    Command { opcode: 0x7f, form: SEND, words, data: message.to_vec(), ..Command::default() }
}

/// Authentication Receive of at most this length.
pub fn receive_command(length: usize) -> Command {
    let words = [&PROTOCOL[..], &(length as u32).to_le_bytes()].concat();
    Command { opcode: 0x7f, form: RECEIVE, words, length, ..Command::default() }
}

/// The bytes of a host's random number.
pub fn random_bytes(count: usize) -> Vec<u8> {
    (0..count).map(|_| with(|it| it.random.next() as u8)).collect()
}

impl Queue {
    /// Sends a message.
    pub fn tell(&mut self, message: &[u8]) -> Result<(), Lost> {
        match self.call(&send_command(message))?.status {
            0 => Ok(()),
            status => Err(Lost::Broken(format!("a message of authentication has status {status:x}"))),
        }
    }

    /// The next message; or the explanation of Failure1.
    pub fn ask(&mut self) -> Result<Result<Vec<u8>, u8>, Lost> {
        let Completion { status, data, .. } = self.call(&receive_command(LENGTH))?;
        if status != 0 || data.len() != LENGTH {
            return Err(Lost::Broken(format!("Authentication Receive has status {status:x}, {} bytes", data.len())));
        }
        Ok(if data[..2] == FAILURE1 && data[6] == 1 { Err(data[7]) } else { Ok(data) })
    }

    /// Negotiates: the challenge.
    pub fn negotiate(&mut self, peers: &Peers) -> Result<Result<Challenge, u8>, Lost> {
        let (begun, transaction) = with(|it| (it.now, it.random.next() as u16));
        self.tell(&negotiate(transaction, &[1, 2, 3], &[0, 1, 2, 3, 4, 5]))?;
        let message = match self.ask()? {
            Ok(message) => message,
            Err(explanation) => {
                self.look_for_failed_number(begun);
                return Ok(Err(explanation));
            }
        };
        Challenge::read(&message, transaction, peers.choice).map(Ok).map_err(Lost::Broken)
    }

    /// Authenticates the host, and perhaps the controller.
    pub fn prove(&mut self, peers: &Peers) -> Result<Proof, Lost> {
        let challenge = match self.negotiate(peers)? {
            Ok(challenge) => challenge,
            Err(explanation) => return Ok(Proof::Failed(explanation)),
        };
        let own = random_bytes(size(peers.choice.hash));
        let asks = peers.controller.is_some() && below(2) == 0;
        let reply = Reply::to(&challenge, peers, asks.then_some(&own[..]));
        self.tell(&reply.message)?;
        let message = match self.ask()? {
            Ok(message) => message,
            Err(explanation) => return Ok(Proof::Failed(explanation)),
        };
        if !reply.judge(&message).map_err(Lost::Broken)? {
            return Ok(Proof::Done);
        }
        let transaction = u16::from_le_bytes([reply.message[4], reply.message[5]]);
        Ok(match self.call(&send_command(&success2(transaction)))?.status {
            0 => Proof::Done,
            status => Proof::Refused(status),
        })
    }
}

impl Path {
    /// A queue is connected: its host authenticates itself if the target has keys.
    pub fn prove(&self, queue: &mut Queue, connected: &Completion) -> Result<Proof, Lost> {
        if (connected.value & REQUIRED != 0) != self.choice.is_some() {
            return Err(Lost::Broken(format!("Connect returns {:#x}", connected.value)));
        }
        match self.choice {
            Some(choice) => {
                let proof = queue.prove(&self.peers(choice))?;
                with(|it| {
                    *it.injected.entry(if proof == Proof::Done { "proof" } else { "no proof" }).or_default() += 1;
                });
                Ok(proof)
            }
            None => Ok(Proof::Done),
        }
    }
}

impl Session<'_> {
    /// The host of a queue authenticates itself again, which changes nothing.
    pub fn prove_again(&mut self) -> Result<(), Lost> {
        let choice = match self.path.choice.filter(|_| self.open.is_empty()) {
            Some(choice) => choice,
            None => return Ok(()),
        };
        let peers = self.path.peers(choice);
        let is_admin = one_of(&[true, false]);
        let queue = if is_admin { &mut self.admin } else { &mut self.io };
        let (proof, lacks_number) = (queue.prove(&peers)?, queue.lacks_number);
        if proof == Proof::Done {
            return Ok(());
        }
        // The target does not believe the host: there must be a reason.
        if lacks_number || check(|it| it.keys.has_changed(self.path.host, self.begun)) {
            self.may_end = true;
            return Err(Lost::Ended);
        }
        // The association is there as long as this is answered.
        self.admin.call(&Command { opcode: KEEP_ALIVE, ..Command::default() })?;
        Err(Lost::Broken(format!("an authentication ends with {proof:?}")))
    }
}
