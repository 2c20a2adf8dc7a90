//! Hashes, DH exchanges, and bytes that are wiped.

use crate::authentication::groups::Group;
use crate::authentication::libcrypto;
use std::ops::Deref;

/// libcrypto has failed: it has no memory, or no random numbers.
#[derive(Clone, Copy, Debug, PartialEq, Eq)]
pub struct Failed;

/// Secret bytes: they are overwritten when dropped. They have no `Debug`, nor has anything that has some.
pub struct Wiped(Vec<u8>);

impl Wiped {
    /// Takes bytes of which there is no other copy.
    pub fn new(bytes: Vec<u8>) -> Wiped {
        Wiped(bytes)
    }

    /// `count` bytes that `fill` writes.
    pub fn filled<E>(count: usize, fill: impl FnOnce(&mut [u8]) -> Result<(), E>) -> Result<Wiped, E> {
        let mut bytes = Wiped(vec![0; count]);
        fill(&mut bytes.0)?;
        Ok(bytes)
    }

    /// `count` random bytes that nobody can guess.
    pub fn random(count: usize) -> Result<Wiped, Failed> {
        Wiped::filled(count, libcrypto::fill_random)
    }
}

impl Deref for Wiped {
    type Target = [u8];

    fn deref(&self) -> &[u8] {
        &self.0
    }
}

impl Drop for Wiped {
    fn drop(&mut self) {
        libcrypto::wipe(&mut self.0);
    }
}

/// A hash by its identifier in DH-HMAC-CHAP, and in secrets.
#[derive(Clone, Copy, Debug, PartialEq, Eq)]
pub enum Hash {
    Sha256 = 1,
    Sha384 = 2,
    Sha512 = 3,
}

impl Hash {
    /// All hashes with their names.
    pub const ALL: [(&'static str, Hash); 3] =
        [("sha256", Hash::Sha256), ("sha384", Hash::Sha384), ("sha512", Hash::Sha512)];

    /// Its identifier.
    #[allow(clippy::as_conversions)] // An enum has no other conversion.
    pub const fn id(self) -> u8 {
        self as u8
    }

    /// The size of its digests, in bytes.
    pub fn size(self) -> usize {
        16 + 16 * usize::from(self.id())
    }

    /// The HMAC of the concatenated parts. Their copy is wiped, since a part may be secret.
    pub fn hmac(self, key: &[u8], parts: &[&[u8]]) -> Result<Wiped, Failed> {
        libcrypto::hmac(self, key, &Wiped(parts.concat())).map(Wiped)
    }

    /// The augmented challenge: the HMAC of the challenge under the hash of the DH exchange's result, if there was one.
    pub fn augmented(self, shared: Option<&Wiped>, challenge: &[u8]) -> Result<Wiped, Failed> {
        match shared {
            None => Ok(Wiped(challenge.to_vec())),
            Some(shared) => self.hmac(&Wiped(libcrypto::digest(self, shared)?), &[challenge]),
        }
    }
}

/// One side of a DH exchange, in a group other than null.
pub struct Exchange {
    prime: Vec<u8>,
    private: Wiped,
    /// The value for the other side, as long as the prime.
    pub(super) public: Vec<u8>,
}

impl Exchange {
    /// The size of a private number: RFC 7919 asks for 225 to 400 bits.
    const PRIVATE_BYTES: usize = 64;

    /// A new exchange; nothing for the null group.
    pub fn random(group: Group) -> Result<Option<Exchange>, Failed> {
        Exchange::of(group, Wiped::random(Exchange::PRIVATE_BYTES)?)
    }

    /// The exchange of a private number; nothing for the null group.
    pub fn of(group: Group, private: Wiped) -> Result<Option<Exchange>, Failed> {
        let prime = group.prime();
        if prime.is_empty() {
            return Ok(None);
        }
        let public = libcrypto::power(&[2], &private, &prime)?;
        Ok(Some(Exchange { prime, private, public }))
    }

    /// The result, with leading zeros up to the length of the prime. `None` unless the other side's value has that
    /// length and is from 2 to p - 2: no exchange gives other values.
    pub fn shared(&self, value: &[u8]) -> Result<Option<Wiped>, Failed> {
        let mut one = vec![0; self.prime.len()];
        let mut last = self.prime.clone();
        // The prime is odd: the subtraction borrows nothing.
        one.iter_mut().rev().take(1).for_each(|byte| *byte = 1);
        last.iter_mut().rev().take(1).for_each(|byte| *byte -= 1);
        if value.len() != self.prime.len() || value <= &one[..] || value >= &last[..] {
            return Ok(None);
        }
        libcrypto::power(value, &self.private, &self.prime).map(|shared| Some(Wiped(shared)))
    }
}

/// Compares in constant time.
pub use crate::authentication::libcrypto::is_same;
