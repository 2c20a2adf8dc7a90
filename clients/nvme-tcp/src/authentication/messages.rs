//! Layouts of the messages of DH-HMAC-CHAP: NVM Express Base, DH-HMAC-CHAP Protocol.

use crate::authentication::crypto::Hash;
use crate::authentication::groups::Group;
use crate::bytes::{put, u16_at, u32_at};
use crate::numbers::narrow;

/// AUTH_TYPE: messages of all protocols, and those of this one.
const COMMON: u8 = 0x00;
const DH_HMAC_CHAP: u8 = 0x01;
/// AUTH_ID.
const NEGOTIATE: u8 = 0x00;
const CHALLENGE: u8 = 0x01;
const REPLY: u8 = 0x02;
const SUCCESS1: u8 = 0x03;
const SUCCESS2: u8 = 0x04;
const FAILURE2: u8 = 0xf0;
const FAILURE1: u8 = 0xf1;

/// Sizes of the fixed part of long and short messages, and of a protocol descriptor.
const HEAD: usize = 16;
const SHORT_HEAD: usize = 8;
const DESCRIPTOR: usize = 64;
/// Offsets of the hash and group identifiers in a descriptor, and their largest number.
const HASHES_AT: usize = 4;
const GROUPS_AT: usize = 34;
const MOST_IDENTIFIERS: usize = 30;
/// Reason Code: authentication failure.
const FAILURE: u8 = 1;

/// Reason Code Explanation of a failure.
#[derive(Clone, Copy, Debug, PartialEq, Eq)]
pub enum Explanation {
    Failed = 1,
    ProtocolNotUsable = 2,
    SecureChannelMismatch = 3,
    HashNotUsable = 4,
    GroupNotUsable = 5,
    IncorrectPayload = 6,
    IncorrectMessage = 7,
}

impl Explanation {
    /// Its number.
    #[allow(clippy::as_conversions)] // An enum has no other conversion.
    pub const fn number(self) -> u8 {
        self as u8
    }
}

/// AUTH_Negotiate.
#[derive(Debug, PartialEq, Eq)]
pub struct Negotiate<'m> {
    pub(super) transaction: u16,
    /// SC_C: the secure channel that the host asks for.
    secure_channel: u8,
    /// Identifiers of hashes and of groups, if the host offers this protocol.
    offered: Option<(&'m [u8], &'m [u8])>,
}

impl Negotiate<'_> {
    /// Checks that it offers a hash and a group, and asks for no secure channel.
    pub fn check(&self, hash: Hash, group: Group) -> Result<(), Explanation> {
        if self.secure_channel != 0 {
            return Err(Explanation::SecureChannelMismatch);
        }
        let (hashes, groups) = self.offered.ok_or(Explanation::ProtocolNotUsable)?;
        if !hashes.contains(&hash.id()) {
            return Err(Explanation::HashNotUsable);
        }
        if !groups.contains(&group.id()) {
            return Err(Explanation::GroupNotUsable);
        }
        Ok(())
    }
}

/// DH-HMAC-CHAP_Reply.
#[derive(Debug, PartialEq, Eq)]
pub struct Reply {
    pub(super) transaction: u16,
    pub(super) response: Vec<u8>,
    /// Sequence number and challenge to the controller, with CVALID.
    pub(super) challenge: Option<(u32, Vec<u8>)>,
    /// The host's value of the DH exchange; empty with the null group.
    pub(super) public: Vec<u8>,
}

/// A message of a host.
#[derive(Debug, PartialEq, Eq)]
pub enum Message<'m> {
    Negotiate(Negotiate<'m>),
    Reply(Reply),
    Success2 { transaction: u16 },
    Failure2 { explanation: u8 },
}

/// Reads a message. Reserved fields, and bytes after the message, are ignored.
pub fn read(bytes: &[u8]) -> Result<Message<'_>, Explanation> {
    match bytes {
        [COMMON, NEGOTIATE, ..] => negotiate(bytes).map(Message::Negotiate),
        [DH_HMAC_CHAP, REPLY, ..] => reply(bytes).map(Message::Reply),
        [DH_HMAC_CHAP, SUCCESS2, ..] if bytes.len() >= HEAD => Ok(Message::Success2 { transaction: u16_at(bytes, 4) }),
        [COMMON, FAILURE2, ..] if bytes.len() >= SHORT_HEAD => Ok(Message::Failure2 { explanation: bytes[7] }),
        [DH_HMAC_CHAP, SUCCESS2, ..] | [COMMON, FAILURE2, ..] => Err(Explanation::IncorrectPayload),
        _ => Err(Explanation::IncorrectMessage),
    }
}

fn negotiate(bytes: &[u8]) -> Result<Negotiate<'_>, Explanation> {
    let count = bytes.get(7).map_or(0, |count| usize::from(*count));
    let descriptors = bytes.get(SHORT_HEAD..SHORT_HEAD + count * DESCRIPTOR).ok_or(Explanation::IncorrectPayload)?;
    let mut offered = None;
    if let Some(it) = descriptors.chunks_exact(DESCRIPTOR).find(|it| it[0] == DH_HMAC_CHAP) {
        let (hashes, groups) = (usize::from(it[2]), usize::from(it[3]));
        if hashes.max(groups) > MOST_IDENTIFIERS {
            return Err(Explanation::IncorrectPayload);
        }
        offered = Some((&it[HASHES_AT..HASHES_AT + hashes], &it[GROUPS_AT..GROUPS_AT + groups]));
    }
    Ok(Negotiate { transaction: u16_at(bytes, 4), secure_channel: bytes[6], offered })
}

fn reply(bytes: &[u8]) -> Result<Reply, Explanation> {
    let head = bytes.get(..HEAD).ok_or(Explanation::IncorrectPayload)?;
    let (size, public) = (usize::from(head[6]), usize::from(u16_at(head, 10)));
    let rest = bytes.get(HEAD..HEAD + 2 * size + public).ok_or(Explanation::IncorrectPayload)?;
    // Without CVALID sequence number and challenge are ignored: Linux sends a sequence number anyway.
    let challenge = if head[8] & 1 == 0 { None } else { Some((u32_at(head, 12), rest[size..2 * size].to_vec())) };
    let (response, public) = (rest[..size].to_vec(), rest[2 * size..].to_vec());
    Ok(Reply { transaction: u16_at(head, 4), response, challenge, public })
}

/// The first fields of a message to the host.
fn head(kind: u8, id: u8, transaction: u16, size: usize) -> Vec<u8> {
    let mut bytes = vec![0; size];
    put(&mut bytes, 0, &[kind, id]);
    put(&mut bytes, 4, &transaction.to_le_bytes());
    bytes
}

/// DH-HMAC-CHAP_Challenge. With the null group it never has a DH value, which makes Linux 6.12 crash.
pub fn challenge(transaction: u16, hash: Hash, group: Group, sequence: u32, value: &[u8], public: &[u8]) -> Vec<u8> {
    let mut bytes = head(DH_HMAC_CHAP, CHALLENGE, transaction, HEAD);
    let public = if group == Group::Null { &[] } else { public };
    bytes[6] = narrow(hash.size());
    put(&mut bytes, 8, &[hash.id(), group.id()]);
    put(&mut bytes, 10, &narrow::<_, u16>(public.len()).to_le_bytes());
    put(&mut bytes, 12, &sequence.to_le_bytes());
    bytes.extend_from_slice(value);
    bytes.extend_from_slice(public);
    bytes
}

/// DH-HMAC-CHAP_Success1, with the controller's response if it was asked for.
pub fn success1(transaction: u16, hash: Hash, response: Option<&[u8]>) -> Vec<u8> {
    let mut bytes = head(DH_HMAC_CHAP, SUCCESS1, transaction, HEAD + hash.size());
    bytes[6] = narrow(hash.size());
    if let Some(response) = response {
        bytes[8] = 1;
        put(&mut bytes, HEAD, response);
    }
    bytes
}

/// AUTH_Failure1.
pub fn failure1(transaction: u16, explanation: Explanation) -> Vec<u8> {
    let mut bytes = head(COMMON, FAILURE1, transaction, SHORT_HEAD);
    put(&mut bytes, 6, &[FAILURE, explanation.number()]);
    bytes
}

/// The transaction of a message that may be malformed otherwise, for Failure1.
pub fn transaction_of(bytes: &[u8]) -> Option<u16> {
    bytes.get(4..6).map(|it| u16_at(it, 0))
}
