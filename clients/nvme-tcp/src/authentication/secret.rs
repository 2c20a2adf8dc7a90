//! Secrets as `nvme gen-dhchap-key` makes them: `DHHC-1:HH:BASE64:`. HH is the hash that derives a key from secret and
//! name. The last four bytes are the CRC-32 of the others.

use crate::authentication::crypto::{is_same, Failed, Hash, Wiped};
use std::error::Error;
use std::fmt;

/// Input of a key after the name.
const PURPOSE: &[u8] = b"NVMe-over-Fabrics";
/// The size of the CRC-32.
const CHECK: usize = 4;

/// A secret, and the hash that transforms it.
pub struct Secret {
    transform: Option<Hash>,
    bytes: Wiped,
}

/// Why a text is no secret.
#[derive(Clone, Copy, Debug, PartialEq, Eq)]
pub enum NoSecret {
    Form,
    Transform,
    Base64,
    Length,
    Check,
}

impl fmt::Display for NoSecret {
    fn fmt(&self, f: &mut fmt::Formatter<'_>) -> fmt::Result {
        f.write_str(match self {
            NoSecret::Form => "this is no secret: it has not the form DHHC-1:HH:BASE64:",
            NoSecret::Transform => "this secret's hash is none of 00, 01, 02 and 03",
            NoSecret::Base64 => "this secret is not in base64",
            NoSecret::Length => "this secret's length is not that of its hash, or 32, 48 or 64 bytes with hash 00",
            NoSecret::Check => "this secret's checksum is wrong: a character of it was changed",
        })
    }
}

impl Error for NoSecret {}

impl Secret {
    pub fn read(text: &str) -> Result<Secret, NoSecret> {
        let words = text.strip_prefix("DHHC-1:").and_then(|rest| rest.split_once(':'));
        let (hash, rest) = words.ok_or(NoSecret::Form)?;
        let digits = rest.strip_suffix(':').ok_or(NoSecret::Form)?;
        let transform = match hash {
            "00" => None,
            "01" => Some(Hash::Sha256),
            "02" => Some(Hash::Sha384),
            "03" => Some(Hash::Sha512),
            _ => return Err(NoSecret::Transform),
        };
        let all = base64(digits).ok_or(NoSecret::Base64)?;
        let length = all.len().checked_sub(CHECK).ok_or(NoSecret::Length)?;
        let (bytes, check) = all.split_at(length);
        let has_length = match transform {
            None => Hash::ALL.iter().any(|(_, hash)| hash.size() == length),
            Some(hash) => hash.size() == length,
        };
        if !has_length {
            return Err(NoSecret::Length);
        }
        if crc32(bytes).to_le_bytes() != check {
            return Err(NoSecret::Check);
        }
        Ok(Secret { transform, bytes: Wiped::new(bytes.to_vec()) })
    }

    /// The key of the host or subsystem that has this secret and this name.
    pub fn key(&self, name: &str) -> Result<Wiped, Failed> {
        match self.transform {
            None => Ok(Wiped::new(self.bytes.to_vec())),
            Some(hash) => hash.hmac(&self.bytes, &[name.as_bytes(), PURPOSE]),
        }
    }

    /// Whether two secrets have the same bytes.
    pub fn is_same(&self, other: &Secret) -> bool {
        is_same(&self.bytes, &other.bytes)
    }
}

/// The bytes of a text in base64, whose length is a multiple of four.
fn base64(text: &str) -> Option<Wiped> {
    let digits = text.trim_end_matches('=');
    let padding = text.len() - digits.len();
    if text.len() % 4 != 0 || padding > 2 {
        return None;
    }
    let (mut bits, mut count) = (0u32, 0);
    // Its capacity suffices, so that it is never copied to another place.
    let mut bytes = Vec::with_capacity(text.len());
    for digit in digits.bytes() {
        bits = bits << 6 | digit_value(digit)?;
        count += 6;
        if count >= 8 {
            count -= 8;
            let [low, ..] = (bits >> count).to_le_bytes();
            bytes.push(low);
        }
    }
    let bytes = Wiped::new(bytes);
    // The remaining bits must be zeros.
    if bits & ((1 << count) - 1) == 0 {
        Some(bytes)
    } else {
        None
    }
}

fn digit_value(digit: u8) -> Option<u32> {
    let value = match digit {
        b'A'..=b'Z' => digit - b'A',
        b'a'..=b'z' => digit - b'a' + 26,
        b'0'..=b'9' => digit - b'0' + 52,
        b'+' => 62,
        b'/' => 63,
        _ => return None,
    };
    Some(value.into())
}

/// The CRC-32 of IEEE 802.3.
fn crc32(bytes: &[u8]) -> u32 {
    const POLYNOMIAL: u32 = 0xedb8_8320;
    let step = |crc: u32, _| if crc & 1 == 0 { crc >> 1 } else { crc >> 1 ^ POLYNOMIAL };
    !bytes.iter().fold(!0, |crc, byte| (0..8).fold(crc ^ u32::from(*byte), step))
}

#[cfg(test)]
mod tests {
    use super::*;

    const GOOD: &str = "DHHC-1:01:3X0j8i/J+hOalK55SyjrXPsklzadBmbcemg++I96hS3NslrP:";

    #[test]
    fn numbers_of_the_standards() {
        assert_eq!(crc32(b"123456789"), 0xcbf4_3926);
        for (text, bytes) in [("", &b""[..]), ("Zg==", b"f"), ("Zm8=", b"fo"), ("Zm9v", b"foo"), ("Zm9vYg==", b"foob")]
        {
            assert_eq!(base64(text).as_deref(), Some(bytes));
        }
        for text in ["Zg", "Zg=", "Zg===", "Zh==", "Zm9=", "Z===", "====", "Zm9v\n", "Zm-v", "Zm 9"] {
            assert!(base64(text).is_none(), "{text}");
        }
    }

    #[test]
    fn what_is_no_secret() {
        assert!(Secret::read(GOOD).is_ok());
        let at = |from: &str, to: &str| Secret::read(&GOOD.replacen(from, to, 1)).err();
        assert_eq!(at("DHHC-1", "DHHC-2"), Some(NoSecret::Form));
        assert_eq!(at("rP:", "rP"), Some(NoSecret::Form));
        assert_eq!(at(":01:", ":04:"), Some(NoSecret::Transform));
        assert_eq!(at(":01:", "::"), Some(NoSecret::Transform));
        assert_eq!(at(":01:", ":02:"), Some(NoSecret::Length));
        assert_eq!(at("3X0j", ""), Some(NoSecret::Length));
        assert_eq!(at("3X0j", "3X0!"), Some(NoSecret::Base64));
        assert_eq!(at("3X0j", "3X0k"), Some(NoSecret::Check));
        assert_eq!(Secret::read("DHHC-1:00:AAA=:").err(), Some(NoSecret::Length));
    }

    /// Each type implements it once, and once more with `Debug`: then this would not compile.
    trait IsShownNowhere<How> {
        fn holds() {}
    }

    impl<T> IsShownNowhere<()> for T {}
    impl<T: fmt::Debug> IsShownNowhere<u8> for T {}

    #[test]
    fn it_is_shown_nowhere() {
        <Secret as IsShownNowhere<_>>::holds();
        <Wiped as IsShownNowhere<_>>::holds();
    }
}
