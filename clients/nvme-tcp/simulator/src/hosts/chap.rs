//! The host's side of DH-HMAC-CHAP: secrets, messages, and what those of the controller have to contain.

use super::pdu::{u16_at, u32_at};
use crate::libcrypto::{base64, digest, hmac, power, prime, size};
use crate::world::with;

/// A response is to a challenge of the controller, or of the host.
const OF_HOST: &str = "HostHost";
const OF_CONTROLLER: &str = "Controller";
/// The size of the fixed part of a long message.
pub const HEAD: usize = 16;
/// The size of a host's private number. Targets have longer ones.
const PRIVATE: usize = 8;

/// The hash and the DH group of a target, by their identifiers.
#[derive(Clone, Copy, Debug, PartialEq, Eq)]
pub struct Choice {
    pub hash: u8,
    pub group: u8,
}

impl Choice {
    /// The value of `--dhchap`.
    pub fn text(self) -> String {
        let groups = ["null", "ffdhe2048", "ffdhe3072", "ffdhe4096", "ffdhe6144", "ffdhe8192"];
        format!("sha{},{}", 8 * size(self.hash), groups[usize::from(self.group)])
    }
}

/// CRC-32 of IEEE 802.3.
fn checksum(bytes: &[u8]) -> u32 {
    let step = |sum: u32, _| if sum & 1 == 0 { sum >> 1 } else { sum >> 1 ^ 0xedb8_8320 };
    !bytes.iter().fold(!0, |sum, byte| (0..8).fold(sum ^ u32::from(*byte), step))
}

/// A secret, and the hash that makes a key of it and a name; 0 is none.
#[derive(Clone, Debug, PartialEq, Eq)]
pub struct Secret {
    form: u8,
    bytes: Vec<u8>,
}

impl Secret {
    /// The secret of an owner that has had a number of others before. No two are the same.
    pub fn of(owner: usize, number: u64) -> Secret {
        let (form, length) = [(0, 32), (0, 48), (0, 64), (1, 32), (2, 48), (3, 64)][(owner + number as usize) % 6];
        Secret { form, bytes: digest(3, format!("{owner} {number}").as_bytes())[..length].to_vec() }
    }

    /// As `nvme gen-dhchap-key` writes it.
    pub fn text(&self) -> String {
        let sum = checksum(&self.bytes).to_le_bytes();
        format!("DHHC-1:{:02x}:{}:", self.form, base64(&[&self.bytes[..], &sum].concat()))
    }

    fn key(&self, name: &str) -> Vec<u8> {
        match self.form {
            0 => self.bytes.clone(),
            form => hmac(form, &self.bytes, &[name.as_bytes(), b"NVMe-over-Fabrics"].concat()),
        }
    }
}

/// A host and the subsystem, with the secrets that the host has.
#[derive(Clone, Debug)]
pub struct Peers {
    pub choice: Choice,
    pub host: String,
    pub subsystem: String,
    pub secret: Secret,
    /// By which the controller proves itself, if the host wants that.
    pub controller: Option<Secret>,
}

/// AUTH_Negotiate with these identifiers of hashes and groups.
pub fn negotiate(transaction: u16, hashes: &[u8], groups: &[u8]) -> Vec<u8> {
    let mut message = vec![0; 72];
    message[4..6].copy_from_slice(&transaction.to_le_bytes());
    message[7..12].copy_from_slice(&[1, 1, 0, hashes.len() as u8, groups.len() as u8]);
    message[12..12 + hashes.len()].copy_from_slice(hashes);
    message[42..42 + groups.len()].copy_from_slice(groups);
    message
}

/// DH-HMAC-CHAP_Success2.
pub fn success2(transaction: u16) -> Vec<u8> {
    let mut message = vec![0; HEAD];
    (message[0], message[1]) = (1, 4);
    message[4..6].copy_from_slice(&transaction.to_le_bytes());
    message
}

/// AUTH_Failure2.
pub fn failure2(transaction: u16) -> Vec<u8> {
    let [low, high] = transaction.to_le_bytes();
    vec![0, 0xf0, 0, 0, low, high, 1, 1]
}

/// DH-HMAC-CHAP_Challenge.
#[derive(Clone, Debug)]
pub struct Challenge {
    transaction: u16,
    sequence: u32,
    pub value: Vec<u8>,
    public: Vec<u8>,
}

impl Challenge {
    /// Reads it, or says what is wrong with it.
    pub fn read(message: &[u8], transaction: u16, choice: Choice) -> Result<Challenge, String> {
        let (size, length) = (size(choice.hash), prime(choice.group).len());
        let end = HEAD + size + length;
        let is_right = message.len() >= end
            && message[..4] == [1, 1, 0, 0]
            && u16_at(message, 4) == transaction
            && usize::from(message[6]) == size
            && message[8..10] == [choice.hash, choice.group]
            && usize::from(u16_at(message, 10)) == length
            && u32_at(message, 12) != 0
            && message[end..].iter().all(|it| *it == 0);
        if !is_right {
            return Err(format!("a challenge begins with {:x?}", &message[..message.len().min(24)]));
        }
        let (value, public) = (message[HEAD..HEAD + size].to_vec(), message[HEAD + size..end].to_vec());
        Ok(Challenge { transaction, sequence: u32_at(message, 12), value, public })
    }
}

/// DH-HMAC-CHAP_Reply, and the response of the controller that it asks for.
pub struct Reply {
    pub message: Vec<u8>,
    wanted: Option<Vec<u8>>,
}

impl Reply {
    /// The reply to a challenge. `own` is the host's challenge, if it asks the controller to prove itself.
    pub fn to(it: &Challenge, peers: &Peers, own: Option<&[u8]>) -> Reply {
        let Peers { choice: Choice { hash, group }, host, subsystem, secret, controller } = peers;
        let prime = prime(*group);
        let private: Vec<u8> = (0..PRIVATE).map(|_| with(|it| it.random.next() as u8 | 1)).collect();
        let (public, shared) = if prime.is_empty() {
            (Vec::new(), None)
        } else {
            (power(&[2], &private, &prime), Some(power(&it.public, &private, &prime)))
        };
        let respond = |key: &[u8], (challenge, sequence): (&[u8], u32), who: [&str; 3]| {
            let augmented = match &shared {
                Some(shared) => hmac(*hash, &digest(*hash, shared), challenge),
                None => challenge.to_vec(),
            };
            let [role, responder, other] = who.map(str::as_bytes);
            let numbers = [&sequence.to_le_bytes()[..], &it.transaction.to_le_bytes()].concat();
            hmac(*hash, key, &[&augmented, &numbers, &[0][..], role, responder, &[0], other].concat())
        };
        let own_sequence = 7;
        let response = respond(&secret.key(host), (&it.value, it.sequence), [OF_HOST, host, subsystem]);
        let wanted = own.zip(controller.as_ref()).map(|(own, controller)| {
            respond(&controller.key(subsystem), (own, own_sequence), [OF_CONTROLLER, subsystem, host])
        });
        let mut message = vec![1, 2, 0, 0];
        message.extend(it.transaction.to_le_bytes());
        message.extend([response.len() as u8, 0, u8::from(own.is_some()), 0]);
        message.extend((public.len() as u16).to_le_bytes());
        message.extend(u32::to_le_bytes(own_sequence));
        message.extend(&response);
        message.extend(own.unwrap_or(&vec![0; response.len()]));
        message.extend(public);
        Reply { message, wanted }
    }

    /// Judges Success1, which ends the authentication unless the host has to answer it; whether it has to.
    pub fn judge(&self, message: &[u8]) -> Result<bool, String> {
        let size = usize::from(self.message[6]);
        let response = self.wanted.clone().unwrap_or_else(|| vec![0; size]);
        let is_right = message.len() >= HEAD + size
            && message[..4] == [1, 3, 0, 0]
            && message[4..6] == self.message[4..6]
            && usize::from(message[6]) == size
            && message[8] == u8::from(self.wanted.is_some())
            && message[HEAD..HEAD + size] == response;
        if !is_right {
            return Err(format!("Success1 begins with {:x?}", &message[..message.len().min(24)]));
        }
        Ok(self.wanted.is_some())
    }
}

#[cfg(test)]
mod tests {
    use super::*;

    #[test]
    fn secrets_differ_and_have_a_checksum() {
        assert_eq!(checksum(b"123456789"), 0xcbf4_3926);
        let all: Vec<String> = (0..40).flat_map(|owner| [0, 1].map(|it| Secret::of(owner, it).text())).collect();
        assert!(all.iter().enumerate().all(|(at, it)| !all[..at].contains(it)));
        assert!(all[3].starts_with("DHHC-1:00:") && all[3].ends_with(':'));
    }
}
