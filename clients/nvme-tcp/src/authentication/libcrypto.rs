//! OpenSSL's libcrypto by its C interface: random numbers, digests, HMAC, and powers modulo a prime.
//!
//! Why it is safe: each pointer in a call is that of a slice or value that outlives the call, with the slice's length;
//! an output is as long as the call writes; and each number of libcrypto is freed once, by the `Drop` of [`Number`],
//! which wipes it.

use crate::authentication::crypto::{Failed, Hash};
use crate::numbers::index;
use std::ffi::c_void;
use std::ptr;

/// BIGNUM.
enum BigNumber {}
/// BN_CTX, temporary numbers.
enum Context {}
/// EVP_MD.
enum Digest {}

#[link(name = "crypto")]
extern "C" {
    fn RAND_bytes(bytes: *mut u8, count: i32) -> i32;
    fn CRYPTO_memcmp(one: *const c_void, other: *const c_void, count: usize) -> i32;
    fn OPENSSL_cleanse(bytes: *mut c_void, count: usize);
    fn EVP_sha256() -> *const Digest;
    fn EVP_sha384() -> *const Digest;
    fn EVP_sha512() -> *const Digest;
    fn EVP_Digest(
        data: *const c_void,
        count: usize,
        digest: *mut u8,
        size: *mut u32,
        kind: *const Digest,
        engine: *mut c_void,
    ) -> i32;
    fn HMAC(
        kind: *const Digest,
        key: *const c_void,
        key_count: i32,
        data: *const u8,
        count: usize,
        code: *mut u8,
        size: *mut u32,
    ) -> *mut u8;
    fn BN_CTX_new() -> *mut Context;
    fn BN_CTX_free(context: *mut Context);
    fn BN_new() -> *mut BigNumber;
    fn BN_clear_free(number: *mut BigNumber);
    fn BN_bin2bn(bytes: *const u8, count: i32, number: *mut BigNumber) -> *mut BigNumber;
    fn BN_bn2binpad(number: *const BigNumber, bytes: *mut u8, count: i32) -> i32;
    fn BN_mod_exp_mont_consttime(
        power: *mut BigNumber,
        base: *const BigNumber,
        exponent: *const BigNumber,
        modulus: *const BigNumber,
        context: *mut Context,
        montgomery: *mut c_void,
    ) -> i32;
}

/// Why this build has no libcrypto, if it has none.
pub const AVAILABLE: Result<(), &str> = Ok(());

fn kind(hash: Hash) -> *const Digest {
    // SAFETY: these take nothing, and return what is there as long as the process.
    unsafe {
        match hash {
            Hash::Sha256 => EVP_sha256(),
            Hash::Sha384 => EVP_sha384(),
            Hash::Sha512 => EVP_sha512(),
        }
    }
}

/// The digest of bytes.
pub fn digest(hash: Hash, data: &[u8]) -> Result<Vec<u8>, Failed> {
    let (mut digest, mut size) = (vec![0; hash.size()], 0);
    let (data, count) = (data.as_ptr().cast(), data.len());
    // SAFETY: `count` bytes are read, and there is room for a digest of this hash.
    let done = unsafe { EVP_Digest(data, count, digest.as_mut_ptr(), &mut size, kind(hash), ptr::null_mut()) };
    if done == 1 && index(size) == digest.len() {
        Ok(digest)
    } else {
        Err(Failed)
    }
}

/// The HMAC of bytes under a key.
pub fn hmac(hash: Hash, key: &[u8], data: &[u8]) -> Result<Vec<u8>, Failed> {
    let (mut code, mut size) = (vec![0; hash.size()], 0);
    let key_count = i32::try_from(key.len()).map_err(|_| Failed)?;
    let (key, bytes) = (key.as_ptr().cast(), data.as_ptr());
    // SAFETY: key and bytes have these lengths, and there is room for a digest of this hash.
    let made = unsafe { HMAC(kind(hash), key, key_count, bytes, data.len(), code.as_mut_ptr(), &mut size) };
    if !made.is_null() && index(size) == code.len() {
        Ok(code)
    } else {
        Err(Failed)
    }
}

/// Fills bytes with random values that nobody can guess.
pub fn fill_random(bytes: &mut [u8]) -> Result<(), Failed> {
    let count = i32::try_from(bytes.len()).map_err(|_| Failed)?;
    // SAFETY: there is room for `count` bytes.
    match unsafe { RAND_bytes(bytes.as_mut_ptr(), count) } {
        1 => Ok(()),
        _ => Err(Failed),
    }
}

/// Compares in constant time.
pub fn is_same(one: &[u8], other: &[u8]) -> bool {
    // SAFETY: both have this length.
    one.len() == other.len() && unsafe { CRYPTO_memcmp(one.as_ptr().cast(), other.as_ptr().cast(), one.len()) } == 0
}

/// Overwrites bytes with zeros, which the compiler can't optimize away.
pub fn wipe(bytes: &mut [u8]) {
    // SAFETY: the bytes are borrowed, and have this length.
    unsafe { OPENSSL_cleanse(bytes.as_mut_ptr().cast(), bytes.len()) }
}

/// A number that is wiped when it is dropped.
struct Number(*mut BigNumber);

impl Number {
    fn new() -> Result<Number, Failed> {
        // SAFETY: it takes nothing.
        Number::checked(unsafe { BN_new() })
    }

    /// From bytes, highest first.
    fn of(bytes: &[u8]) -> Result<Number, Failed> {
        let count = i32::try_from(bytes.len()).map_err(|_| Failed)?;
        // SAFETY: `count` bytes are read; null makes a new number.
        Number::checked(unsafe { BN_bin2bn(bytes.as_ptr(), count, ptr::null_mut()) })
    }

    fn checked(number: *mut BigNumber) -> Result<Number, Failed> {
        if number.is_null() {
            Err(Failed)
        } else {
            Ok(Number(number))
        }
    }
}

impl Drop for Number {
    fn drop(&mut self) {
        // SAFETY: it is a number of libcrypto, which nobody else has.
        unsafe { BN_clear_free(self.0) }
    }
}

/// A power modulo an odd number, in as many bytes as the modulus has, highest first. The time does not depend on the
/// exponent.
pub fn power(base: &[u8], exponent: &[u8], modulus: &[u8]) -> Result<Vec<u8>, Failed> {
    let [b, e, m] = [Number::of(base)?, Number::of(exponent)?, Number::of(modulus)?];
    let (result, mut bytes) = (Number::new()?, vec![0; modulus.len()]);
    let count = i32::try_from(bytes.len()).map_err(|_| Failed)?;
    // SAFETY: all are numbers of libcrypto; there is room for `count` bytes; the context is freed once, and may be null.
    unsafe {
        let context = BN_CTX_new();
        let done = !context.is_null()
            && BN_mod_exp_mont_consttime(result.0, b.0, e.0, m.0, context, ptr::null_mut()) == 1
            && BN_bn2binpad(result.0, bytes.as_mut_ptr(), count) == count;
        BN_CTX_free(context);
        if done {
            Ok(bytes)
        } else {
            Err(Failed)
        }
    }
}
