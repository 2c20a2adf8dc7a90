//! Authentication of queues, if the target has keys: Authentication Send, Authentication Receive, and their effects on
//! associations. Connect reserves nothing: the first host that proves itself gets the controller or the queue.

use crate::authentication::keys::{Host, Keys};
use crate::authentication::messages::Explanation;
use crate::authentication::worker::{Finished, Worker};
use crate::authentication::{Authentication, Choice, Done, Due, Peers, Sent, Taken, Work};
use crate::control::log::warn;
use crate::fabrics::association::{ConnectData, HostQueue};
use crate::fault::Outcome;
use crate::numbers::{index, narrow};
use crate::nvme::entry::SubmissionEntry;
use crate::nvme::status::{
    AUTHENTICATION_REQUIRED, COMMAND_SEQUENCE, CONNECT_HOST, INVALID_FIELD, INVALID_OPCODE, SGL_LENGTH, SUCCESS,
};
use crate::nvme::{AUTHENTICATION_RECEIVE, FABRICS};
use crate::target::answer::Answer;
use crate::target::controller::Data;
use crate::target::{uuid, Target};
use crate::waker::Wakeup;
use nvmesim::fabrics::Live;
use std::io;
use std::path::{Path, PathBuf};
use std::rc::Rc;
use std::sync::Arc;

/// SPSP0, SPSP1 and SECP of both commands: the security protocol of NVMe's own authentication.
const PROTOCOL: [u8; 3] = [0x01, 0x01, 0xe9];

/// The keys of a target, and the thread that computes.
pub struct Prover {
    path: PathBuf,
    keys: Keys,
    choice: Choice,
    /// The subsystem's name.
    subsystem: Arc<str>,
    worker: Worker,
    /// For each controller one count for each proof in progress, and one more.
    counts: Vec<Rc<()>>,
}

impl Prover {
    /// Starts the thread. `path` is the file of keys, which may be read again.
    pub fn start(path: &Path, keys: Keys, choice: Choice, subsystem: &str, controllers: usize) -> io::Result<Prover> {
        let counts = (0..controllers).map(|_| Rc::new(())).collect();
        let (path, subsystem) = (path.to_owned(), subsystem.into());
        Ok(Prover { path, keys, choice, subsystem, worker: Worker::start()?, counts })
    }

    /// A descriptor that is readable when work is finished.
    pub fn wakeup(&self) -> &Wakeup {
        &self.worker.wakeup
    }
}

/// The authentication of a queue's host.
pub struct Proof {
    authentication: Authentication,
    data: ConnectData,
    /// The host's line of the keys at Negotiate.
    host: Option<Arc<Host>>,
    /// Counts this proof for the controller of an admin queue, until it succeeds.
    count: Option<Rc<()>>,
    /// Command identifier and length of an Authentication Receive that waits for work.
    waiting: Option<(u16, usize)>,
    /// Dropped with the connection.
    life: Arc<()>,
}

impl Target<'_> {
    /// Whether the keys have a line for a host, or there are no keys.
    pub fn knows(&self, host_id: &[u8; 16], host_name: &[u8]) -> bool {
        self.prover.as_ref().map_or(true, |it| it.keys.host(host_id, host_name).is_some())
    }

    /// Number of proofs in progress for each controller.
    pub fn authenticating(&self) -> [u32; 16] {
        let mut numbers = [0; 16];
        for (number, it) in numbers.iter_mut().zip(self.prover.iter().flat_map(|it| &it.counts)) {
            *number = narrow(Rc::strong_count(it) - 1);
        }
        numbers
    }

    /// The authentication that a queue of a controller needs, if there are keys. Discovery needs none: nvme-cli 2.3 gives
    /// the kernel no secret for it.
    pub fn proof_of(&self, data: ConnectData, index: usize) -> Option<Proof> {
        let prover = self.prover.as_ref()?;
        Some(Proof {
            authentication: Authentication::new(prover.choice),
            count: (data.qid == 0).then(|| prover.counts[index].clone()),
            data,
            host: None,
            waiting: None,
            life: Arc::new(()),
        })
    }

    /// Authentication Send: a message of the host.
    pub fn take_message(&mut self, queue: &mut HostQueue, entry: &SubmissionEntry, data: Data<'_>) -> Outcome<Answer> {
        let answer = self.with_proof(queue, |it, queue, proof| it.take_message_of(queue, proof, entry, data))?;
        Ok(answer.unwrap_or(Answer::of(INVALID_OPCODE)))
    }

    /// Does something with the proof of a queue, if it has one.
    fn with_proof<R>(
        &mut self,
        queue: &mut HostQueue,
        act: impl FnOnce(&mut Self, &mut HostQueue, &mut Proof) -> Outcome<R>,
    ) -> Outcome<Option<R>> {
        let mut proof = match queue.proof.take() {
            Some(proof) => proof,
            None => return Ok(None),
        };
        let result = act(self, queue, &mut proof);
        queue.proof = Some(proof);
        result.map(Some)
    }

    fn take_message_of(
        &mut self,
        queue: &mut HostQueue,
        proof: &mut Proof,
        entry: &SubmissionEntry,
        data: Data<'_>,
    ) -> Outcome<Answer> {
        let bytes = match data {
            Data::ToController(bytes) if bytes.len() == index(entry.cdw11()) => bytes,
            _ => return Ok(Answer::of(SGL_LENGTH)),
        };
        if entry.security_protocol() != PROTOCOL {
            return Ok(Answer::of(INVALID_FIELD));
        }
        let peers = self.peers_of(proof);
        let host = peers.as_ref().map(|it| Arc::clone(&it.host));
        match proof.authentication.take(bytes, peers) {
            Taken::Ready => (),
            Taken::Work(work) => {
                if matches!(work, Work::Draw(_)) {
                    proof.host = host;
                }
                if let Some(prover) = &self.prover {
                    prover.worker.begin(queue.connection(), &proof.life, work);
                }
            }
            Taken::Proved => return self.admit(queue, proof),
            Taken::Ended(explanation) => {
                self.say(format_args!("{} ends its authentication, explanation {explanation}", who(proof)));
                self.end_unproved(queue)?;
            }
        }
        Ok(Answer::of(SUCCESS))
    }

    /// The host of a proof, as the keys have it, and this subsystem.
    fn peers_of(&self, proof: &Proof) -> Option<Peers> {
        let prover = self.prover.as_ref()?;
        let host = prover.keys.host(&proof.data.host_id, &proof.data.host_name)?;
        Some(Peers { host: Arc::clone(host), subsystem: Arc::clone(&prover.subsystem) })
    }

    /// Authentication Receive: a message to the host. It has no answer yet if the message needs work.
    pub fn give_message(
        &mut self,
        queue: &mut HostQueue,
        entry: &SubmissionEntry,
        data: Data<'_>,
    ) -> Outcome<Option<Answer>> {
        let answer = self.with_proof(queue, |it, queue, proof| it.give_message_of(queue, proof, entry, data))?;
        Ok(answer.unwrap_or(Some(Answer::of(INVALID_OPCODE))))
    }

    fn give_message_of(
        &mut self,
        queue: &mut HostQueue,
        proof: &mut Proof,
        entry: &SubmissionEntry,
        data: Data<'_>,
    ) -> Outcome<Option<Answer>> {
        let length = match data {
            Data::FromController(length) if length == index(entry.cdw11()) => length,
            _ => return Ok(Some(Answer::of(SGL_LENGTH))),
        };
        if entry.security_protocol() != PROTOCOL {
            return Ok(Some(Answer::of(INVALID_FIELD)));
        }
        if proof.waiting.is_some() {
            return Ok(Some(Answer::of(COMMAND_SEQUENCE)));
        }
        if proof.authentication.due() == Due::Later {
            proof.waiting = Some((entry.command_id(), length));
            return Ok(None);
        }
        self.give(queue, proof, length).map(Some)
    }

    /// Takes the result of a queue's work; the answer to the command that waited for it.
    pub fn finish_work(&mut self, queue: &mut HostQueue, done: Done) -> Outcome<Option<(SubmissionEntry, Answer)>> {
        let answered = self.with_proof(queue, |it, queue, proof| {
            proof.authentication.finish(done);
            match proof.waiting.take() {
                Some((cid, length)) => it.give(queue, proof, length).map(|answer| Some((receive_entry(cid), answer))),
                None => Ok(None),
            }
        })?;
        Ok(answered.flatten())
    }

    /// Answers Authentication Receive with the next message.
    fn give(&mut self, queue: &mut HostQueue, proof: &mut Proof, length: usize) -> Outcome<Answer> {
        let mut message = match proof.authentication.due() {
            Due::Message(bytes) if bytes.len() <= length => bytes,
            Due::Message(_) => return Ok(Answer::of(INVALID_FIELD)),
            Due::Later | Due::Nothing => return Ok(Answer::of(COMMAND_SEQUENCE)),
        };
        if proof.authentication.proves_next() && self.admit(queue, proof)?.status != SUCCESS {
            message = proof.authentication.fail(Explanation::Failed);
        }
        let answer = Answer::with(message, length);
        if let Sent::Failed(explanation) = proof.authentication.sent() {
            self.say(format_args!("{} has not proved who it is: {explanation:?}", who(proof)));
            let host = uuid(u128::from_le_bytes(proof.data.host_id));
            self.log_refused(queue, &host, AUTHENTICATION_REQUIRED, "the host has not proved who it is");
            self.end_unproved(queue)?;
        }
        Ok(answer)
    }

    /// A host has proved itself: its queue becomes what Connect asked for. It fails if another queue was first, or if
    /// the host's secret has changed.
    fn admit(&mut self, queue: &mut HostQueue, proof: &mut Proof) -> Outcome<Answer> {
        if !self.has_secret_of(proof) {
            self.end_unproved(queue)?;
            return Ok(Answer::of(CONNECT_HOST));
        }
        self.say(format_args!("{} has proved who it is", who(proof)));
        let (index, request) = match (self.fabrics.live(&queue.session), queue.session.request()) {
            (Live::Authenticating(index), Some(request)) => (index, request),
            _ => return Ok(Answer::of(SUCCESS)),
        };
        proof.count = None;
        let is_enabled = self.controllers[usize::from(index)].has_queue(0);
        let mut created = (0, 0);
        if self.fabrics.admits(index, &request, is_enabled).is_success() {
            created = self.make_queues(index.into(), &proof.data)?;
        }
        let answer = self.fabrics.authenticate(&mut queue.session, is_enabled, created);
        if answer.is_success() {
            self.begin_association(queue, &proof.data);
            self.log_connected(queue);
        }
        queue.is_over |= !answer.is_success();
        Ok(answer.into())
    }

    /// Whether the secret of a proof is still that of its host. The keys may have been read again.
    fn has_secret_of(&self, proof: &Proof) -> bool {
        let keys = self.prover.as_ref().map(|it| &it.keys);
        let host = keys.and_then(|it| it.host(&proof.data.host_id, &proof.data.host_name));
        match (host, &proof.host) {
            (Some(now), Some(before)) => now.secret.is_same(&before.secret),
            _ => false,
        }
    }

    /// Ends a queue whose host has failed, and the association if it is the admin queue. The queue's own connection
    /// stays open until Failure1 is sent.
    fn end_unproved(&mut self, queue: &mut HostQueue) -> Outcome<()> {
        queue.is_over = true;
        self.end_session(queue, "the host has not proved who it is")
    }

    /// The results of work that is finished.
    pub fn take_finished(&self) -> Vec<Finished> {
        self.prover.as_ref().map(|it| it.worker.take_finished()).unwrap_or_default()
    }

    /// Reads the keys again. Hosts without a line are disconnected. Others stay, and need their new secrets when they
    /// next connect or authenticate. A refused file changes nothing.
    pub fn read_keys_again(&mut self) -> Outcome<()> {
        let prover = match &mut self.prover {
            Some(prover) => prover,
            None => return Ok(()),
        };
        match Keys::read(&prover.path) {
            Ok(keys) => prover.keys = keys,
            Err(reason) => {
                warn(format_args!("the keys stay as they are: {reason}"));
                return Ok(());
            }
        }
        warn(format_args!("the keys are those of {} now", prover.path.display()));
        for index in 0..self.associations.len() {
            let keys = self.prover.as_ref().map(|it| &it.keys);
            let is_gone = self.associations[index]
                .as_ref()
                .map_or(false, |it| keys.map_or(false, |keys| keys.host(&it.host_id, &it.host_name).is_none()));
            if is_gone {
                self.end_association(index, "the host has no key any more")?;
            }
        }
        Ok(())
    }

    /// The hosts of controllers that have no line, and can't connect.
    pub fn hosts_without_key(&self) -> Vec<String> {
        let mut hosts: Vec<u128> = self.configuration.hosts();
        hosts.sort_unstable();
        hosts.dedup();
        let has_key = |host: &u128| self.prover.as_ref().map_or(true, |it| it.keys.has_id(&host.to_le_bytes()));
        hosts.iter().filter(|host| !has_key(host)).map(|host| uuid(*host)).collect()
    }
}

/// Names host and queue of a proof, for a message.
fn who(proof: &Proof) -> String {
    let (host, qid) = (uuid(u128::from_le_bytes(proof.data.host_id)), proof.data.qid);
    format!("host {host}, queue {qid},")
}
/// The entry of an Authentication Receive.
fn receive_entry(cid: u16) -> SubmissionEntry {
    SubmissionEntry::new(FABRICS, cid, AUTHENTICATION_RECEIVE.into())
}
