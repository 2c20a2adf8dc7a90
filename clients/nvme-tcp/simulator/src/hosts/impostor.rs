//! Hosts that do not prove who they are: with wrong secrets, with messages that are false in a field or come out of
//! turn, and that end in the midst. No command of theirs is executed.

use super::admin::{one_of, words, ID_CONFLICT, INVALID_FIELD, SEQUENCE, SGL_LENGTH, SUCCESS};
use super::chap::{failure2, negotiate, success2, Choice, Peers, Reply, Secret, HEAD};
use super::checker::{bytes_of, check};
use super::fabrics::Connect;
use super::keyring::NOBODY;
use super::proving::{random_bytes, receive_command, send_command, LENGTH};
use super::queue::{Command, Lost, Queue};
use super::{below, now, once_in, Path, CC, ENABLE, KEEP_ALIVE, READ};
use crate::libcrypto::{prime, size};
use crate::world::{with, SECOND};
use std::net::SocketAddr;

/// Explanations of Failure1.
const FAILED: u8 = 1;
const NO_PROTOCOL: u8 = 2;
const CHANNEL: u8 = 3;
const HASH: u8 = 4;
const GROUP: u8 = 5;
const PAYLOAD: u8 = 6;
const MESSAGE: u8 = 7;
/// Statuses of Connect, and of a command before the proof.
const BUSY: u16 = 0x181;
const PARAMETERS: u16 = 0x182;
const HOST: u16 = 0x184;
const REQUIRED: u16 = 0x191;
/// Opcodes of a queue of I/O that change blocks.
const WRITE: u8 = 0x01;
const WRITE_ZEROES: u8 = 0x08;
/// How long a host may take to prove itself, with time for the target to notice.
const LONGEST: u64 = 180 * SECOND;

/// A connection of a host that has not proved itself.
struct Stranger<'p> {
    /// Whom it claims to be.
    path: &'p Path,
    peers: Peers,
    address: SocketAddr,
    queue: Queue,
    begun: u64,
}

impl Path {
    /// Claims to be a host, its own or another, and does not prove it.
    pub fn pretend(&self, address: SocketAddr, choice: Choice) -> Result<(), Lost> {
        let cntlid = 1 + below(self.hosts * self.per_host) as u16;
        let other = Path { host: (usize::from(cntlid) - 1) / self.per_host, cntlid, ..self.clone() };
        let (begun, mut queue) = (now(), Queue::open(address, self.digests)?);
        let connect = Connect { cntlid: one_of(&[cntlid, cntlid, 0xffff]), ..other.connect_of(one_of(&[0, 1, 2]), 0) };
        let connected = queue.connect(&connect)?;
        match connected.status {
            SUCCESS => (),
            // The controller is in use, or has no such queue now, or the host has no line.
            BUSY | PARAMETERS | HOST | SEQUENCE => return Ok(()),
            given => return broken(format!("{connect:?} has status {given:x}")),
        }
        let peers = other.peers(choice);
        let mut it = Stranger { path: &other, peers, address, queue, begun };
        it.be_refused()?;
        it.lie()?;
        with(|it| *it.injected.entry("impostor").or_default() += 1);
        Ok(())
    }
}

/// A command that nobody may send before a proof. A write has values that no block may ever have.
fn command_of_stranger() -> Command {
    let blocks = words(&[0, 0, 3]);
    match below(8) {
        0 => Command { opcode: 0x7f, form: 4, words: words(&[0, CC]), ..Command::default() },
        1 => Command { opcode: 0x7f, form: 0, words: words(&[0, CC, ENABLE as u32, 0]), ..Command::default() },
        2 => Command { opcode: 0x06, words: words(&[1]), length: 4096, ..Command::default() },
        3 => Command { opcode: KEEP_ALIVE, ..Command::default() },
        4 => Command { opcode: READ, nsid: 1, words: blocks, length: 2048, ..Command::default() },
        5 => Command { opcode: WRITE_ZEROES, nsid: 1, words: blocks, ..Command::default() },
        _ => {
            // So long that the target would have to ask for them.
            let count = one_of(&[4, 40]);
            let data = check(|it| it.values(count)).iter().flat_map(|it| bytes_of(*it)).collect();
            Command { opcode: WRITE, nsid: 1, words: words(&[0, 0, count as u32 - 1]), data, ..Command::default() }
        }
    }
}

fn broken<T>(text: String) -> Result<T, Lost> {
    Err(Lost::Broken(text))
}

impl Stranger<'_> {
    /// A command before the proof.
    fn be_refused(&mut self) -> Result<(), Lost> {
        let command = command_of_stranger();
        match self.queue.call(&command)?.status {
            REQUIRED => Ok(()),
            given => broken(format!("opcode {:#x} has status {given:x} before a proof", command.opcode)),
        }
    }

    /// Fails in one of many ways.
    fn lie(&mut self) -> Result<(), Lost> {
        match below(16) {
            0..=1 => self.have_wrong_secret(),
            2..=4 => self.change_reply(),
            5 => self.change_number(),
            12..=13 => self.offer_wrong(),
            14 => self.confirm_wrong(),
            6 => self.come_out_of_turn(),
            7 => self.use_wrong_words(),
            8 => self.leave(),
            9 => self.replay(),
            10 => self.hurry(),
            11 => self.give_up(),
            _ if below(4) == 0 => self.stay_silent(),
            _ => self.reflect(),
        }
    }

    /// A message that is answered by Failure1 with this explanation.
    fn fail(&mut self, message: &[u8], wanted: u8) -> Result<(), Lost> {
        self.queue.tell(message)?;
        let given = self.queue.ask()?;
        self.judge(given.err(), wanted)
    }

    /// Judges the explanation of Failure1. The target may have other keys by now, and then no secret is right.
    fn judge(&mut self, given: Option<u8>, wanted: u8) -> Result<(), Lost> {
        match given {
            Some(given) if given == wanted || given == FAILED && self.may_fail() => self.end(),
            _ => broken(format!("Failure1 has explanation {given:?}, not {wanted}")),
        }
    }

    /// Judges the explanation of a Failure1 after a message that is right: there must be a reason.
    fn judge_refusal(&mut self, given: u8) -> Result<(), Lost> {
        if given == FAILED && self.may_fail() {
            return self.end();
        }
        broken(format!("a message that is right is answered by Failure1 with explanation {given}"))
    }

    /// Whether the target may refuse to continue: it had no random number for this queue, or has other keys.
    fn may_fail(&self) -> bool {
        self.queue.lacks_number || check(|it| it.keys.has_changed(self.path.host, self.begun))
    }

    /// The connection ends, and nothing more is executed.
    fn end(&mut self) -> Result<(), Lost> {
        drop(self.queue.send(&command_of_stranger()));
        loop {
            match self.queue.receive() {
                Ok(it) if it.status == SUCCESS => return broken("a command succeeds after Failure1".to_owned()),
                Ok(_) => (),
                Err(Lost::Ended) => return Ok(()),
                Err(lost) => return Err(lost),
            }
        }
    }

    /// A reply with the right secret, or with another.
    fn reply(&mut self, peers: &Peers, own: Option<&[u8]>) -> Result<Option<Reply>, Lost> {
        match self.queue.negotiate(peers)? {
            Ok(challenge) => Ok(Some(Reply::to(&challenge, peers, own))),
            Err(given) => self.judge_refusal(given).map(|()| None),
        }
    }

    /// A secret that is nobody's, another host's, one that the host will have, or the controller's.
    fn have_wrong_secret(&mut self) -> Result<(), Lost> {
        let owners = [NOBODY, self.path.host + 1, self.path.host];
        let secret = match below(4) {
            3 => self.peers.controller.clone().unwrap_or_else(|| Secret::of(NOBODY, 1)),
            at => Secret::of(owners[at], 1_000_000),
        };
        let peers = Peers { secret, ..self.peers.clone() };
        match self.reply(&peers, None)? {
            Some(reply) => self.fail(&reply.message, FAILED),
            None => Ok(()),
        }
    }

    /// A reply of which a field is wrong.
    fn change_reply(&mut self) -> Result<(), Lost> {
        let own = random_bytes(size(self.peers.choice.hash));
        let peers = self.peers.clone();
        let mut message = match self.reply(&peers, Some(&own))? {
            Some(reply) => reply.message,
            None => return Ok(()),
        };
        let size = size(peers.choice.hash);
        if below(8) == 0 {
            message.truncate(one_of(&[2, 8, HEAD, HEAD + 2 * size - 1]));
            return self.fail(&message, PAYLOAD);
        }
        let (at, change, wanted) = one_of(&[
            (0, 1, MESSAGE),
            (1, 1, MESSAGE),
            (1, 6, MESSAGE),
            (4, 1, PAYLOAD),
            (5, 128, PAYLOAD),
            (6, 16, PAYLOAD),
            (11, 16, PAYLOAD),
            // The host's sequence number, which is 7, is 0.
            (12, 7, PAYLOAD),
            (HEAD, 1, FAILED),
            (HEAD + size - 1, 128, FAILED),
        ]);
        message[at] ^= change;
        self.fail(&message, wanted)
    }

    /// A value of the DH exchange that no exchange gives.
    fn change_number(&mut self) -> Result<(), Lost> {
        let prime = prime(self.peers.choice.group);
        if prime.is_empty() {
            return self.add_number();
        }
        let peers = self.peers.clone();
        let mut message = match self.reply(&peers, None)? {
            Some(reply) => reply.message,
            None => return Ok(()),
        };
        let (begin, last) = (message.len() - prime.len(), message.len() - 1);
        match below(4) {
            it @ 0..=1 => {
                message[begin..].fill(0);
                message[last] = it as u8;
            }
            it => {
                message[begin..].copy_from_slice(&prime);
                message[last] -= it as u8 - 2;
            }
        }
        self.fail(&message, PAYLOAD)
    }

    /// A value of a DH exchange in the null group.
    fn add_number(&mut self) -> Result<(), Lost> {
        let peers = self.peers.clone();
        let mut message = match self.reply(&peers, None)? {
            Some(reply) => reply.message,
            None => return Ok(()),
        };
        message[10] = 4;
        message.extend([1, 2, 3, 4]);
        self.fail(&message, PAYLOAD)
    }

    /// AUTH_Negotiate that offers what the target does not take.
    fn offer_wrong(&mut self) -> Result<(), Lost> {
        let Choice { hash, group } = self.peers.choice;
        let (hashes, groups): (Vec<u8>, Vec<u8>) = ((1..=3).collect(), (0..=5).collect());
        let others = |all: &[u8], it: u8| all.iter().copied().filter(|other| *other != it).collect::<Vec<u8>>();
        let right = negotiate(9, &hashes, &groups);
        let changed = |at: usize, value: u8| {
            let mut message = right.clone();
            message[at] = value;
            message
        };
        let (message, wanted) = match below(7) {
            0 => (negotiate(9, &others(&hashes, hash), &groups), HASH),
            1 => (negotiate(9, &hashes, &others(&groups, group)), GROUP),
            2 => (changed(6, 1), CHANNEL),
            3 => (changed(8, 2), NO_PROTOCOL),
            4 => (changed(10, 31), PAYLOAD),
            5 => (right[..one_of(&[2, 5, 7, 71])].to_vec(), PAYLOAD),
            _ => (changed(1, 9), MESSAGE),
        };
        self.fail(&message, wanted)
    }

    /// Messages that it is not the turn of.
    fn come_out_of_turn(&mut self) -> Result<(), Lost> {
        let status = self.queue.call(&receive_command(LENGTH))?.status;
        if status != SEQUENCE {
            return broken(format!("Authentication Receive has status {status:x} before a message"));
        }
        let peers = self.peers.clone();
        // Of a reply and of Success2 a part alone.
        let mut messages = vec![(success2(9), MESSAGE), (vec![1, 2, 0, 0], PAYLOAD), (vec![1, 4, 0, 0], PAYLOAD)];
        if below(2) == 0 {
            if self.reply(&peers, None)?.is_none() {
                return Ok(());
            }
            messages = vec![(success2(9), MESSAGE), (negotiate(9, &[1], &[0]), MESSAGE)];
        }
        let (message, wanted) = messages.swap_remove(below(messages.len()));
        self.fail(&message, wanted)
    }

    /// The commands have another protocol, or another length than their data.
    fn use_wrong_words(&mut self) -> Result<(), Lost> {
        let good = [send_command(&negotiate(9, &[1, 2, 3], &[0, 1, 2, 3, 4, 5])), receive_command(LENGTH)];
        let mut command = good[below(2)].clone();
        let (at, change, wanted) =
            one_of(&[(1, 2, INVALID_FIELD), (2, 1, INVALID_FIELD), (3, 1, INVALID_FIELD), (4, 1, SGL_LENGTH)]);
        command.words[at] ^= change;
        match self.queue.call(&command)?.status {
            given if given == wanted => self.ask_for_less(),
            given => broken(format!("a message with the words {:x?} has status {given:x}", command.words)),
        }
    }

    /// A challenge that does not fit in the host's room is still there.
    fn ask_for_less(&mut self) -> Result<(), Lost> {
        let Choice { hash, group } = self.peers.choice;
        let begun = now();
        self.queue.tell(&negotiate(9, &[hash], &[group]))?;
        let status = self.queue.call(&receive_command(one_of(&[4, 44])))?.status;
        // Instead of a challenge there may be Failure1, which is short.
        if status == SUCCESS {
            self.queue.look_for_failed_number(begun);
            return self.judge_refusal(FAILED);
        }
        if status != INVALID_FIELD {
            return broken(format!("a challenge that does not fit has status {status:x}"));
        }
        match self.queue.ask()? {
            Ok(_) => self.have_no_reply(),
            Err(given) => {
                self.queue.look_for_failed_number(begun);
                self.judge_refusal(given)
            }
        }
    }

    /// A reply of random bytes.
    fn have_no_reply(&mut self) -> Result<(), Lost> {
        let mut message = random_bytes(LENGTH);
        message[..2].copy_from_slice(&[1, 2]);
        self.queue.tell(&message)?;
        match self.queue.ask()? {
            Err(FAILED | PAYLOAD) => self.end(),
            given => broken(format!("random bytes are answered by {given:x?}")),
        }
    }

    /// Ends the connection in the midst of a message, or between two.
    fn leave(&mut self) -> Result<(), Lost> {
        let peers = self.peers.clone();
        let reply = match self.reply(&peers, None)? {
            Some(reply) => reply.message,
            None => return Ok(()),
        };
        if below(2) == 0 {
            self.queue.send(&send_command(&reply))?;
            self.queue.leave();
        }
        Ok(())
    }

    /// The reply of another connection.
    fn replay(&mut self) -> Result<(), Lost> {
        let peers = self.peers.clone();
        let mut message = match self.reply(&peers, None)? {
            Some(reply) => reply.message,
            None => return Ok(()),
        };
        let mut queue = Queue::open(self.address, self.path.digests)?;
        let connect = Connect { cntlid: self.path.cntlid, ..self.path.connect_of(one_of(&[0, 1, 2]), 0) };
        if queue.connect(&connect)?.status != SUCCESS {
            return Ok(());
        }
        self.queue = queue;
        match self.queue.negotiate(&peers)? {
            Err(given) => self.judge_refusal(given),
            Ok(challenge) => {
                let own = Reply::to(&challenge, &peers, None).message;
                message[4..6].copy_from_slice(&own[4..6]);
                self.fail(&message, FAILED)
            }
        }
    }

    /// Does not wait for computations: a command waits for the challenge, and its identifier is in use meanwhile.
    fn hurry(&mut self) -> Result<(), Lost> {
        let Choice { hash, group } = self.peers.choice;
        let first = self.queue.send(&send_command(&negotiate(9, &[hash], &[group])))?;
        let receive = receive_command(LENGTH);
        let waiting = self.queue.send(&receive)?;
        let same = self.queue.send(&Command { cid: Some(waiting), ..receive.clone() })?;
        let third = self.queue.send(&receive)?;
        let early = self.queue.send(&send_command(&success2(9)))?;
        for _ in 0..5 {
            let it = match self.queue.receive() {
                Ok(it) => it,
                Err(Lost::Ended) => return Ok(()),
                Err(lost) => return Err(lost),
            };
            let is_right = match it.status {
                SUCCESS => [first, waiting, third, early].contains(&it.cid),
                ID_CONFLICT => it.cid == same,
                SEQUENCE => [waiting, third].contains(&it.cid),
                _ => false,
            };
            if !is_right {
                return broken(format!("command {} of five has status {:x}", it.cid, it.status));
            }
        }
        self.ask_after_hurry()
    }

    /// The second message has come before its turn, whatever was computed meanwhile.
    fn ask_after_hurry(&mut self) -> Result<(), Lost> {
        match self.queue.call(&receive_command(LENGTH)) {
            Ok(it) if it.status == SUCCESS && it.data[..2] == [0, 0xf1] => self.end(),
            Ok(it) => broken(format!("a message out of turn is answered by {:x?}", &it.data[..it.data.len().min(16)])),
            Err(Lost::Ended) => Ok(()),
            Err(lost) => Err(lost),
        }
    }

    /// The host ends the authentication.
    fn give_up(&mut self) -> Result<(), Lost> {
        let peers = self.peers.clone();
        if below(2) == 0 && self.reply(&peers, None)?.is_none() {
            return Ok(());
        }
        self.queue.tell(&failure2(9))?;
        self.end()
    }

    /// Sends the controller's challenge back, to learn the response.
    fn reflect(&mut self) -> Result<(), Lost> {
        let peers = self.peers.clone();
        let challenge = match self.queue.negotiate(&peers)? {
            Ok(challenge) => challenge,
            Err(given) => return self.judge_refusal(given),
        };
        let reply = Reply::to(&challenge, &peers, Some(&challenge.value));
        self.fail(&reply.message, FAILED)
    }

    /// Success2 of another authentication, after the controller has proved itself.
    fn confirm_wrong(&mut self) -> Result<(), Lost> {
        let (peers, own) = (self.peers.clone(), random_bytes(size(self.peers.choice.hash)));
        let reply = match self.reply(&peers, Some(&own))? {
            Some(reply) => reply,
            None => return Ok(()),
        };
        if peers.controller.is_none() {
            return self.fail(&reply.message, FAILED);
        }
        self.queue.tell(&reply.message)?;
        match self.queue.ask()? {
            Ok(message) => reply.judge(&message).map_err(Lost::Broken)?,
            Err(given) => return self.judge_refusal(given),
        };
        let transaction = u16::from_le_bytes([reply.message[4], reply.message[5]]) ^ 1;
        self.fail(&success2(transaction), PAYLOAD)
    }

    /// Sends nothing more, perhaps after a challenge: the target ends the connection in two minutes.
    fn stay_silent(&mut self) -> Result<(), Lost> {
        let peers = self.peers.clone();
        if once_in(2) && self.reply(&peers, None)?.is_none() {
            return Ok(());
        }
        match self.queue.receive_until(with(|it| it.now) + LONGEST) {
            Err(Lost::Ended) => Ok(()),
            Err(lost) => Err(lost),
            Ok(it) => broken(format!("a silent host gets status {:x}", it.status)),
        }
    }
}
