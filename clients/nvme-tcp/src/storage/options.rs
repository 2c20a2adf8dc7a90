//! Options of the command line about the image.

use std::error::Error;
use std::fmt;

/// Memory of the cache unless `--cache` names another size, and the least.
const CACHE: u64 = 256 << 20;
const LEAST_CACHE: u64 = 4 << 20;

/// How the image is opened and cached.
#[derive(Clone, Copy, Debug, PartialEq, Eq)]
pub struct Options {
    /// Bytes of the cache.
    pub cache: u64,
    /// Bytes of the file, which is created if there is none.
    pub size: Option<u64>,
    /// Whether the system caches nothing: O_DIRECT.
    pub is_direct: bool,
    /// Whether each write is synced before it is answered.
    pub writes_through: bool,
}

impl Default for Options {
    fn default() -> Self {
        Options { cache: CACHE, size: None, is_direct: false, writes_through: false }
    }
}

/// Why the value of `--cache` or `--size` is refused.
#[derive(Clone, Debug, PartialEq, Eq)]
pub enum SizeError {
    SmallCache(String),
    NoCacheSize(String),
    /// It is no multiple of a page, is 0, or is too large.
    BadImageSize(String),
    NoImageSize(String),
}

impl fmt::Display for SizeError {
    fn fmt(&self, f: &mut fmt::Formatter<'_>) -> fmt::Result {
        match self {
            SizeError::SmallCache(text) => write!(f, "--cache {text}: a cache has at least 4M"),
            SizeError::NoCacheSize(text) => {
                write!(f, "--cache {text}: a size is a number of bytes, or of units: 256M, 4G")
            }
            SizeError::BadImageSize(text) => {
                write!(f, "--size {text}: an image has at least 4K, and a multiple of that")
            }
            SizeError::NoImageSize(text) => {
                write!(f, "--size {text}: a size is a number of bytes, or of units: 512M, 64G, 1T")
            }
        }
    }
}

impl Error for SizeError {}

/// A number of bytes: digits, and K, M, G or T for powers of 1,024.
fn size_of(text: &str) -> Option<u64> {
    let digits = text.trim_end_matches(|it: char| !it.is_ascii_digit());
    let unit = match &text[digits.len()..] {
        "" => 1,
        "K" => 1 << 10,
        "M" => 1 << 20,
        "G" => 1 << 30,
        "T" => 1 << 40,
        _ => return None,
    };
    if digits.is_empty() || !digits.bytes().all(|it| it.is_ascii_digit()) {
        return None;
    }
    digits.parse::<u64>().ok()?.checked_mul(unit)
}

/// The value of `--cache`.
pub fn cache_of(text: &str) -> Result<u64, SizeError> {
    match size_of(text) {
        Some(size) if size >= LEAST_CACHE => Ok(size),
        Some(_) => Err(SizeError::SmallCache(text.to_owned())),
        None => Err(SizeError::NoCacheSize(text.to_owned())),
    }
}

/// The value of `--size`, whole pages.
pub fn image_size_of(text: &str) -> Result<u64, SizeError> {
    match size_of(text) {
        Some(size) if size % 4096 == 0 && size != 0 && i64::try_from(size).is_ok() => Ok(size),
        Some(_) => Err(SizeError::BadImageSize(text.to_owned())),
        None => Err(SizeError::NoImageSize(text.to_owned())),
    }
}

#[cfg(test)]
mod tests {
    use super::*;

    #[test]
    fn sizes() {
        for (text, size) in
            [("0", 0), ("4096", 4096), ("1K", 1024), ("3M", 3 << 20), ("64G", 64 << 30), ("1T", 1 << 40)]
        {
            assert_eq!(size_of(text), Some(size));
        }
        for wrong in
            ["", "K", "1k", "1KB", "-1", "+1", "1 K", "0x10", "18446744073709551616", "99999999999T", "\u{661}"]
        {
            assert_eq!(size_of(wrong), None, "{wrong}");
        }
        assert_eq!(cache_of("4M"), Ok(4 << 20));
        assert!(cache_of("3M").is_err() && cache_of("x").is_err());
        assert_eq!(image_size_of("8K"), Ok(8192));
        assert!(["0", "512", "4097", "x", "9000000T"].iter().all(|it| image_size_of(it).is_err()));
    }
}
