//! DH-HMAC-CHAP on the controller's side: a state machine that takes a host's messages and returns those to send. It
//! does no input or output, and returns slow computations as [`Work`], which any thread can run.
//!
//! NVM Express Base, Authentication Requirements, DH-HMAC-CHAP Protocol. The host negotiates. The controller sends a
//! challenge. The host replies with its response, and may challenge the controller; then Success1 has the controller's
//! response, and the host accepts that by Success2. Any error is answered by Failure1, which ends the authentication.

pub mod crypto;
pub mod groups;
pub mod keys;
#[cfg_attr(feature = "authentication", allow(unsafe_code))]
#[cfg_attr(not(feature = "authentication"), path = "authentication/no_libcrypto.rs")]
pub mod libcrypto;
pub mod messages;
pub mod proving;
pub mod secret;
pub mod worker;

use crate::authentication::crypto::{is_same, Exchange, Failed, Hash, Wiped};
use crate::authentication::groups::Group;
use crate::authentication::keys::Host;
use crate::authentication::messages::{Explanation, Message, Negotiate, Reply};
use std::mem;
use std::sync::Arc;

/// The hash and the group that hosts have to offer.
#[derive(Clone, Copy, Debug, PartialEq, Eq)]
pub struct Choice {
    pub hash: Hash,
    pub group: Group,
}

impl Default for Choice {
    fn default() -> Choice {
        Choice { hash: Hash::Sha256, group: Group::Ffdhe2048 }
    }
}

/// The host, with its secrets, and the name of the subsystem.
#[derive(Clone)]
pub struct Peers {
    host: Arc<Host>,
    subsystem: Arc<str>,
}

/// A challenge of the controller. It is used once.
pub struct Offer {
    choice: Choice,
    sequence: u32,
    challenge: Vec<u8>,
    exchange: Option<Exchange>,
}

impl Offer {
    /// A random challenge.
    fn random(choice: Choice) -> Result<Offer, Failed> {
        let sequence = Wiped::random(4)?.iter().fold(0, |number, byte| number << 8 | u32::from(*byte));
        let challenge = Wiped::random(choice.hash.size())?.to_vec();
        // 0 is no sequence number.
        Ok(Offer { choice, sequence: sequence.max(1), challenge, exchange: Exchange::random(choice.group)? })
    }

    fn message(&self, transaction: u16) -> Vec<u8> {
        let Choice { hash, group } = self.choice;
        let public = self.exchange.as_ref().map_or(&[][..], |it| &it.public);
        messages::challenge(transaction, hash, group, self.sequence, &self.challenge, public)
    }
}

/// A computation that may take milliseconds, with its inputs.
pub enum Work {
    Draw(Choice),
    Judge(Box<Judgement>),
}

/// A reply, with the challenge that it answers.
pub struct Judgement {
    transaction: u16,
    offer: Offer,
    reply: Reply,
    peers: Peers,
}

/// The result of work: a challenge; or for a valid reply the controller's response, if the host asked for one.
pub enum Done {
    Drawn(Result<Offer, Failed>),
    Judged(Result<Option<Vec<u8>>, Explanation>),
}

impl Work {
    pub fn run(self) -> Done {
        match self {
            Work::Draw(choice) => Done::Drawn(Offer::random(choice)),
            Work::Judge(it) => Done::Judged(it.judge()),
        }
    }
}

impl From<Failed> for Explanation {
    fn from(_: Failed) -> Explanation {
        Explanation::Failed
    }
}

impl Judgement {
    fn judge(&self) -> Result<Option<Vec<u8>>, Explanation> {
        let Judgement { offer, reply, peers, .. } = self;
        let (host, subsystem) = (&*peers.host, &*peers.subsystem);
        let hash = offer.choice.hash;
        if reply.response.len() != hash.size() {
            return Err(Explanation::IncorrectPayload);
        }
        let shared = match &offer.exchange {
            None if reply.public.is_empty() => None,
            None => return Err(Explanation::IncorrectPayload),
            Some(exchange) => Some(exchange.shared(&reply.public)?.ok_or(Explanation::IncorrectPayload)?),
        };
        let augmented = hash.augmented(shared.as_ref(), &offer.challenge)?;
        let key = host.secret.key(&host.name)?;
        let wanted = self.response(&key, &augmented, offer.sequence, ["HostHost", &host.name, subsystem])?;
        if !is_same(&wanted, &reply.response) {
            return Err(Explanation::Failed);
        }
        let (sequence, challenge) = match &reply.challenge {
            None => return Ok(None),
            Some((0, _)) => return Err(Explanation::IncorrectPayload),
            Some(it) => it,
        };
        let secret = match &host.controller {
            // A host may not send the controller's challenge back, to learn a response to it.
            Some(secret) if *challenge != offer.challenge => secret,
            _ => return Err(Explanation::Failed),
        };
        let augmented = hash.augmented(shared.as_ref(), challenge)?;
        let key = secret.key(subsystem)?;
        let response = self.response(&key, &augmented, *sequence, ["Controller", subsystem, &host.name])?;
        Ok(Some(response.to_vec()))
    }

    /// The response to a challenge. `who` is the role and the name of the responder, and the name of its peer.
    fn response(&self, key: &[u8], augmented: &[u8], sequence: u32, who: [&str; 3]) -> Result<Wiped, Failed> {
        let [role, own, other] = who.map(str::as_bytes);
        // SC_C is 0: no secure channel.
        let (sequence, transaction) = (sequence.to_le_bytes(), self.transaction.to_le_bytes());
        let parts = [augmented, &sequence, &transaction, &[0], role, own, &[0], other];
        self.offer.choice.hash.hmac(key, &parts)
    }
}

/// The next step of an authentication.
enum Step {
    /// The host sends Negotiate.
    Negotiate,
    /// Work generates a challenge, for these peers.
    Draw(Peers),
    /// The controller sends this challenge.
    Challenge(Offer, Peers),
    /// The host replies to it.
    Reply(Offer, Peers),
    /// Work checks the reply.
    Judge,
    /// The controller sends Success1, with this response if the host asked for one.
    Success1(Option<Vec<u8>>),
    /// The host sends Success2.
    Success2,
    /// The controller sends Failure1.
    Failure1(Explanation),
    /// None: the authentication has failed.
    Over,
}

/// The effect of a host's message.
pub enum Taken {
    /// The next message to the host is ready.
    Ready,
    /// The next message needs this computation, whose result goes to `finish`.
    Work(Work),
    /// Host and controller have authenticated each other.
    Proved,
    /// The host has sent Failure2, with this explanation.
    Ended(u8),
}

/// The next message to the host.
#[derive(Debug, PartialEq, Eq)]
pub enum Due {
    /// None until work is finished.
    Later,
    /// None: it is the host's turn.
    Nothing,
    Message(Vec<u8>),
}

/// The effect of sending a message.
#[derive(Clone, Copy, Debug, PartialEq, Eq)]
pub enum Sent {
    Continues,
    /// The host has authenticated itself.
    Proved,
    Failed(Explanation),
}

/// The authentication of a queue's host. It may be repeated after success.
pub struct Authentication {
    choice: Choice,
    transaction: u16,
    step: Step,
}

impl Authentication {
    /// Waits for Negotiate.
    pub fn new(choice: Choice) -> Authentication {
        Authentication { choice, transaction: 0, step: Step::Negotiate }
    }

    /// Takes a message of the host. `peers` are used if it is Negotiate; without them the host is unknown and fails.
    pub fn take(&mut self, message: &[u8], peers: Option<Peers>) -> Taken {
        let step = mem::replace(&mut self.step, Step::Over);
        let taken = match (messages::read(message), step) {
            (_, Step::Over) => return Taken::Ready,
            (Ok(Message::Failure2 { explanation }), _) => return Taken::Ended(explanation),
            (Ok(Message::Negotiate(it)), Step::Negotiate) => self.negotiate(&it, peers),
            (Ok(Message::Reply(it)), Step::Reply(offer, peers)) => self.reply(offer, it, peers),
            (Ok(Message::Success2 { transaction }), Step::Success2) if transaction == self.transaction => {
                self.step = Step::Negotiate;
                return Taken::Proved;
            }
            (Ok(Message::Success2 { .. }), Step::Success2) => Err(Explanation::IncorrectPayload),
            (Err(explanation), Step::Negotiate) => {
                self.transaction = messages::transaction_of(message).unwrap_or(0);
                Err(explanation)
            }
            (Err(explanation), Step::Reply(..) | Step::Success2) => Err(explanation),
            _ => Err(Explanation::IncorrectMessage),
        };
        taken.unwrap_or_else(|explanation| {
            self.step = Step::Failure1(explanation);
            Taken::Ready
        })
    }

    fn negotiate(&mut self, it: &Negotiate<'_>, peers: Option<Peers>) -> Result<Taken, Explanation> {
        self.transaction = it.transaction;
        it.check(self.choice.hash, self.choice.group)?;
        self.step = Step::Draw(peers.ok_or(Explanation::Failed)?);
        Ok(Taken::Work(Work::Draw(self.choice)))
    }

    fn reply(&mut self, offer: Offer, reply: Reply, peers: Peers) -> Result<Taken, Explanation> {
        let transaction = self.transaction;
        if reply.transaction != transaction {
            return Err(Explanation::IncorrectPayload);
        }
        self.step = Step::Judge;
        Ok(Taken::Work(Work::Judge(Box::new(Judgement { transaction, offer, reply, peers }))))
    }

    /// Takes the result of work. It is dropped if the host has sent another message meanwhile.
    fn finish(&mut self, done: Done) {
        self.step = match (done, mem::replace(&mut self.step, Step::Over)) {
            (Done::Drawn(Ok(offer)), Step::Draw(peers)) => Step::Challenge(offer, peers),
            (Done::Drawn(Err(error)), Step::Draw(_)) => Step::Failure1(error.into()),
            (Done::Judged(Ok(response)), Step::Judge) => Step::Success1(response),
            (Done::Judged(Err(explanation)), Step::Judge) => Step::Failure1(explanation),
            (_, step) => step,
        };
    }

    /// The next message to the host.
    pub fn due(&self) -> Due {
        let transaction = self.transaction;
        match &self.step {
            Step::Draw(_) | Step::Judge => Due::Later,
            Step::Challenge(offer, _) => Due::Message(offer.message(transaction)),
            Step::Success1(it) => Due::Message(messages::success1(transaction, self.choice.hash, it.as_deref())),
            Step::Failure1(explanation) => Due::Message(messages::failure1(transaction, *explanation)),
            Step::Negotiate | Step::Reply(..) | Step::Success2 | Step::Over => Due::Nothing,
        }
    }

    /// Whether the next message completes the authentication.
    fn proves_next(&self) -> bool {
        matches!(self.step, Step::Success1(None))
    }

    /// Replaces the next message by Failure1, which is no longer than any other.
    pub fn fail(&mut self, explanation: Explanation) -> Vec<u8> {
        self.step = Step::Failure1(explanation);
        messages::failure1(self.transaction, explanation)
    }

    /// Records that the next message was sent.
    pub fn sent(&mut self) -> Sent {
        let (step, sent) = match mem::replace(&mut self.step, Step::Over) {
            Step::Challenge(offer, peers) => (Step::Reply(offer, peers), Sent::Continues),
            Step::Success1(None) => (Step::Negotiate, Sent::Proved),
            Step::Success1(Some(_)) => (Step::Success2, Sent::Continues),
            Step::Failure1(explanation) => (Step::Over, Sent::Failed(explanation)),
            step => (step, Sent::Continues),
        };
        self.step = step;
        sent
    }
}

#[cfg(all(test, feature = "authentication"))]
mod tests;
