//! OpenSSL's libcrypto by its C interface: what a host computes to authenticate itself, and random numbers for the target
//! that are those of the seed.
//!
//! Why it is safe: each pointer in a call is that of a slice or value that outlives the call, with the slice's length; an
//! output is as long as the call writes; and each number is freed once, by the `Drop` of [`Number`]. The method of random
//! numbers is a constant, as long-lived as the program.

use crate::world::with;
use std::os::raw::{c_int, c_void};
use std::ptr;

/// BIGNUM.
enum BigNumber {}
/// BN_CTX.
enum Context {}
/// EVP_MD.
enum Digest {}
/// DH.
enum Parameters {}

/// RAND_METHOD. What is not given does nothing.
#[repr(C)]
struct Method {
    seed: Option<extern "C" fn(*const c_void, c_int) -> c_int>,
    bytes: Option<extern "C" fn(*mut u8, c_int) -> c_int>,
    cleanup: Option<extern "C" fn()>,
    add: Option<extern "C" fn(*const c_void, c_int, f64) -> c_int>,
    pseudo: Option<extern "C" fn(*mut u8, c_int) -> c_int>,
    status: Option<extern "C" fn() -> c_int>,
}

static METHOD: Method =
    Method { seed: None, bytes: Some(fill), cleanup: None, add: None, pseudo: Some(fill), status: Some(status) };

#[link(name = "crypto")]
extern "C" {
    fn RAND_set_rand_method(method: *const Method) -> c_int;
    fn EVP_sha256() -> *const Digest;
    fn EVP_sha384() -> *const Digest;
    fn EVP_sha512() -> *const Digest;
    fn EVP_Digest(
        data: *const c_void,
        count: usize,
        digest: *mut u8,
        size: *mut u32,
        kind: *const Digest,
        engine: *mut c_void,
    ) -> c_int;
    fn HMAC(
        kind: *const Digest,
        key: *const c_void,
        key_count: c_int,
        data: *const u8,
        count: usize,
        code: *mut u8,
        size: *mut u32,
    ) -> *mut u8;
    fn EVP_EncodeBlock(text: *mut u8, bytes: *const u8, count: c_int) -> c_int;
    fn BN_CTX_new() -> *mut Context;
    fn BN_CTX_free(context: *mut Context);
    fn BN_new() -> *mut BigNumber;
    fn BN_free(number: *mut BigNumber);
    fn BN_num_bits(number: *const BigNumber) -> c_int;
    fn BN_bin2bn(bytes: *const u8, count: c_int, number: *mut BigNumber) -> *mut BigNumber;
    fn BN_bn2binpad(number: *const BigNumber, bytes: *mut u8, count: c_int) -> c_int;
    fn BN_mod_exp(
        power: *mut BigNumber,
        base: *const BigNumber,
        exponent: *const BigNumber,
        modulus: *const BigNumber,
        context: *mut Context,
    ) -> c_int;
    fn DH_new_by_nid(nid: c_int) -> *mut Parameters;
    fn DH_get0_p(parameters: *const Parameters) -> *const BigNumber;
    fn DH_free(parameters: *mut Parameters);
}

/// NID_ffdhe2048; those of the longer primes follow.
const FIRST_GROUP: c_int = 1126;

extern "C" fn status() -> c_int {
    1
}

/// RAND_bytes: numbers of the seed, or an error.
extern "C" fn fill(bytes: *mut u8, count: c_int) -> c_int {
    let count = usize::try_from(count).unwrap_or(0);
    let bytes = unsafe { std::slice::from_raw_parts_mut(bytes, count) };
    let fails = with(|it| {
        bytes.iter_mut().for_each(|byte| *byte = it.random.next() as u8);
        let once_in = it.chances.failed_random;
        let fails = it.happens("failed random", once_in);
        let failure = (it.process(), it.now);
        it.failed_numbers.extend(fails.then_some(failure));
        fails
    });
    c_int::from(!fails)
}

/// From now on libcrypto has the random numbers of the seed. It keeps what it allocates when it is first used, so that is
/// now, while no process runs.
pub fn begin() {
    let is_set = unsafe { RAND_set_rand_method(&METHOD) };
    assert_eq!(is_set, 1, "libcrypto takes no method of random numbers");
    for hash in 1..=3 {
        hmac(hash, b"key", &digest(hash, b""));
    }
}

fn kind(hash: u8) -> *const Digest {
    match hash {
        1 => unsafe { EVP_sha256() },
        2 => unsafe { EVP_sha384() },
        _ => unsafe { EVP_sha512() },
    }
}

/// The size of a digest, by the hash's identifier in DH-HMAC-CHAP.
pub fn size(hash: u8) -> usize {
    16 + 16 * usize::from(hash)
}

fn count_of(bytes: &[u8]) -> c_int {
    c_int::try_from(bytes.len()).expect("a message is shorter")
}

pub fn digest(hash: u8, bytes: &[u8]) -> Vec<u8> {
    let (mut digest, mut count) = (vec![0; size(hash)], 0);
    let (data, length) = (bytes.as_ptr().cast(), bytes.len());
    let is_done = unsafe { EVP_Digest(data, length, digest.as_mut_ptr(), &mut count, kind(hash), ptr::null_mut()) };
    assert_eq!((is_done, count as usize), (1, digest.len()), "libcrypto makes no digest");
    digest
}

pub fn hmac(hash: u8, key: &[u8], bytes: &[u8]) -> Vec<u8> {
    let (mut code, mut count) = (vec![0; size(hash)], 0);
    let (of_key, data) = (key.as_ptr().cast(), bytes.as_ptr());
    let made = unsafe { HMAC(kind(hash), of_key, count_of(key), data, bytes.len(), code.as_mut_ptr(), &mut count) };
    assert!(!made.is_null() && count as usize == code.len(), "libcrypto makes no HMAC");
    code
}

/// Bytes in base64.
pub fn base64(bytes: &[u8]) -> String {
    // The call writes a NUL after the text.
    let mut text = vec![0; (bytes.len() + 2) / 3 * 4 + 1];
    let count = unsafe { EVP_EncodeBlock(text.as_mut_ptr(), bytes.as_ptr(), count_of(bytes)) };
    text.truncate(usize::try_from(count).unwrap_or(0));
    text.into_iter().map(char::from).collect()
}

/// A number that is freed when it is dropped.
struct Number(*mut BigNumber);

impl Number {
    /// From bytes, highest first.
    fn of(bytes: &[u8]) -> Number {
        Number(unsafe { BN_bin2bn(bytes.as_ptr(), count_of(bytes), ptr::null_mut()) })
    }
}

impl Drop for Number {
    fn drop(&mut self) {
        unsafe { BN_free(self.0) }
    }
}

/// A power modulo a prime, in as many bytes as that has, highest first.
pub fn power(base: &[u8], exponent: &[u8], prime: &[u8]) -> Vec<u8> {
    let [b, e, p] = [base, exponent, prime].map(Number::of);
    let (result, mut bytes) = (Number(unsafe { BN_new() }), vec![0; prime.len()]);
    unsafe {
        let context = BN_CTX_new();
        let is_done = BN_mod_exp(result.0, b.0, e.0, p.0, context);
        let count = BN_bn2binpad(result.0, bytes.as_mut_ptr(), count_of(prime));
        BN_CTX_free(context);
        assert!(is_done == 1 && count == count_of(prime), "libcrypto makes no power");
    }
    bytes
}

/// The prime of a DH group of RFC 7919, by its identifier in DH-HMAC-CHAP; nothing for the null group.
pub fn prime(group: u8) -> Vec<u8> {
    if group == 0 {
        return Vec::new();
    }
    unsafe {
        let parameters = DH_new_by_nid(FIRST_GROUP + c_int::from(group) - 1);
        let prime = DH_get0_p(parameters);
        let mut bytes = vec![0; BN_num_bits(prime) as usize / 8];
        BN_bn2binpad(prime, bytes.as_mut_ptr(), count_of(&bytes));
        DH_free(parameters);
        bytes
    }
}

#[cfg(test)]
mod tests {
    use super::*;

    #[test]
    fn what_libcrypto_returns() {
        assert_eq!((base64(b"f"), base64(b"foobar")), ("Zg==".to_owned(), "Zm9vYmFy".to_owned()));
        assert_eq!(digest(1, b"")[..4], [0xe3, 0xb0, 0xc4, 0x42]);
        assert_eq!(hmac(1, b"key", b"The quick brown fox jumps over the lazy dog")[..4], [0xf7, 0xbc, 0x83, 0xf4]);
        assert_eq!(power(&[3], &[4], &[0, 7]), [0, 4]);
        for (group, bits) in (0..).zip([0, 2048, 3072, 4096, 6144, 8192]) {
            let prime = prime(group);
            assert_eq!(prime.len() * 8, bits);
            assert!(prime.iter().take(8).chain(prime.iter().rev().take(8)).all(|it| *it == 0xff));
        }
    }
}
