//! Which disk it is that hosts see: 128 bits, of which Identify's serial number and UUIDs are made. Linux takes two
//! disks with the same of these for paths of one.
//!
//! It is kept in the state folder, if there is one. Otherwise it is made of the image's file: the same after a restart,
//! another in a copy. Without an image it is new at each start, as the blocks are.

use crate::bytes::put;
use std::fs::{File, Metadata};
use std::io::{self, Read};
use std::os::unix::fs::MetadataExt;
use std::time::UNIX_EPOCH;

/// The size of a serial number.
pub const SERIAL: usize = 20;

/// An identity. It is kept as its digits and a line's end.
#[derive(Clone, Copy, Debug, PartialEq, Eq)]
pub struct Identity(pub [u8; 16]);

impl Identity {
    /// One that nothing else has.
    pub fn random() -> io::Result<Identity> {
        let mut bytes = [0; 16];
        File::open("/dev/urandom")?.read_exact(&mut bytes)?;
        Ok(Identity(bytes))
    }

    /// That of a file: its inode and birth time. If the file system has no birth times it is the inode and the device,
    /// whose number may change when the machine starts again.
    pub fn of_file(metadata: &Metadata) -> Identity {
        let born = metadata.created().ok().and_then(|it| it.duration_since(UNIX_EPOCH).ok());
        let text = match born {
            Some(born) => format!("inode {} of {}", metadata.ino(), born.as_nanos()),
            None => format!("inode {} of device {}", metadata.ino(), metadata.dev()),
        };
        Identity(mixed(text.as_bytes()))
    }

    /// The serial number: the first of its digits.
    pub fn serial(self) -> [u8; SERIAL] {
        let mut serial = [0; SERIAL];
        serial.copy_from_slice(&self.text().as_bytes()[..SERIAL]);
        serial
    }

    /// The UUID of a namespace, of version 8.
    pub fn uuid(self, nsid: u32) -> [u8; 16] {
        let mut uuid = mixed(&[&self.0[..], &nsid.to_le_bytes()].concat());
        uuid[6] = uuid[6] & 0x0f | 0x80;
        uuid[8] = uuid[8] & 0x3f | 0x80;
        uuid
    }

    /// What is kept.
    pub fn text(self) -> String {
        format!("{:032x}\n", u128::from_be_bytes(self.0))
    }

    /// The identity that is kept as a text.
    pub fn read(text: &str) -> Option<Identity> {
        let digits = text.strip_suffix('\n')?;
        if digits.len() != 32 || digits.starts_with('+') {
            return None;
        }
        u128::from_str_radix(digits, 16).ok().map(|number| Identity(number.to_be_bytes()))
    }
}

/// Two FNV-1a sums of bytes.
fn mixed(bytes: &[u8]) -> [u8; 16] {
    let sum = |seed: u64| bytes.iter().fold(seed, |sum, byte| (sum ^ u64::from(*byte)).wrapping_mul(0x0100_0000_01b3));
    let mut mixed = [0; 16];
    put(&mut mixed, 0, &sum(0xcbf2_9ce4_8422_2325).to_be_bytes());
    put(&mut mixed, 8, &sum(0x8422_2325_cbf2_9ce4).to_be_bytes());
    mixed
}

#[cfg(test)]
mod tests {
    use super::*;

    #[test]
    fn namespaces_have_uuids_of_their_own() {
        let (one, two) = (Identity([7; 16]), Identity([8; 16]));
        let uuids = [one.uuid(1), one.uuid(2), two.uuid(1), two.uuid(2)];
        assert!((1..4).all(|it| !uuids[..it].contains(&uuids[it])));
        assert_eq!((uuids[0][6] & 0xf0, uuids[0][8] & 0xc0, &one.serial()), (0x80, 0x80, b"07070707070707070707"));
    }

    #[test]
    fn files_have_identities_of_their_own() {
        let paths = [0, 1].map(|it| std::env::temp_dir().join(format!("nvmetcp-identity{it}-{}", std::process::id())));
        let files = [0, 1].map(|it: usize| File::create(&paths[it]).unwrap());
        let identities = [0, 1, 0].map(|it: usize| Identity::of_file(&files[it].metadata().unwrap()));
        assert!(identities[0] != identities[1] && identities[0] == identities[2]);
        paths.iter().for_each(|it| std::fs::remove_file(it).unwrap());
    }

    #[test]
    fn texts_are_read() {
        let identity = Identity::random().unwrap();
        assert_ne!(identity, Identity::random().unwrap());
        assert_eq!(Identity::read(&identity.text()), Some(identity));
        let long = format!("0{}", identity.text());
        for wrong in ["", "\n", &identity.text()[..32], &identity.text()[1..], &long, &"+1".repeat(16)] {
            assert_eq!(Identity::read(wrong), None, "{wrong}");
        }
    }
}
