//! Replaces `libcrypto.rs` in a build without OpenSSL, in which `--keys` is refused: all calls fail.

use crate::authentication::crypto::{Failed, Hash};

/// Why this build has no libcrypto, if it has none.
pub const AVAILABLE: Result<(), &str> = Err("this build has no authentication; install libssl-dev, and build it again");

pub fn digest(_: Hash, _: &[u8]) -> Result<Vec<u8>, Failed> {
    Err(Failed)
}

pub fn hmac(_: Hash, _: &[u8], _: &[u8]) -> Result<Vec<u8>, Failed> {
    Err(Failed)
}

pub fn power(_: &[u8], _: &[u8], _: &[u8]) -> Result<Vec<u8>, Failed> {
    Err(Failed)
}

pub fn fill_random(_: &mut [u8]) -> Result<(), Failed> {
    Err(Failed)
}

pub fn is_same(one: &[u8], other: &[u8]) -> bool {
    one == other
}

pub fn wipe(bytes: &mut [u8]) {
    bytes.fill(0);
}
