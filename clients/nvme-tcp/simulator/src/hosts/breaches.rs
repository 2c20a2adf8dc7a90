//! Rules of the transport that a host breaks, and how the target ends its connection.

use super::admin::one_of;
use super::pdu::{pdu, Digests, CAPSULE, HOST_DATA, IC_REQUEST, LAST};
use super::queue::{Lost, Queue};
use super::{below, Path};
use crate::world::{with, SECOND};
use std::net::SocketAddr;

/// Fatal Error Status.
const INVALID_FIELD: u16 = 1;
const SEQUENCE: u16 = 2;
const HEADER_DIGEST: u16 = 3;
const OUT_OF_RANGE: u16 = 4;
const UNSUPPORTED: u16 = 6;
/// H2CTermReq.
const HOST_TERMINATION: u8 = 2;
/// How long a connection may stay open that has broken a rule.
const LONGEST: u64 = 60 * SECOND;

impl Queue {
    /// Reads until the connection ends.
    pub fn wait_for_end(&mut self) -> Result<(), Lost> {
        loop {
            match self.receive_until(with(|it| it.now) + LONGEST) {
                Ok(_) => (),
                Err(Lost::Ended) => return Ok(()),
                Err(lost) => return Err(lost),
            }
        }
    }
}

/// ICReq with a byte that is wrong, and the status that this has.
fn wrong_request() -> (Vec<u8>, Vec<u16>) {
    let mut unit = pdu(IC_REQUEST, 0, &[0; 120], &[], Digests::default());
    let (at, value, status) = one_of(&[
        (0, 1, SEQUENCE),
        (0, 255, SEQUENCE),
        (1, 1, INVALID_FIELD),
        (2, 127, INVALID_FIELD),
        (4, 127, INVALID_FIELD),
        (7, 1, INVALID_FIELD),
        (8, 1, UNSUPPORTED),
        (10, 32, INVALID_FIELD),
    ]);
    unit[at] = value;
    (unit, vec![status])
}

/// A capsule with a byte of its header that is wrong, or with too much.
fn wrong_capsule(digests: Digests) -> (Vec<u8>, Vec<u16>) {
    let mut unit = pdu(CAPSULE, 0, &[0; 64], &[], digests);
    let (at, value) = one_of(&[(0, 1), (0, 5), (0, 8), (0, 255), (1, 4), (1, 128), (2, 71), (2, 24), (3, 71), (7, 1)]);
    unit[at] = value;
    // Its digest is wrong then too.
    (unit, vec![INVALID_FIELD, HEADER_DIGEST])
}

/// A PDU that breaks a rule after ICReq was granted, and the status that this has; none if the target just closes.
fn breach(digests: Digests) -> (Vec<u8>, Vec<u16>) {
    let data = |count: usize, tag: u16| {
        let header = [&[1, 0][..], &tag.to_le_bytes(), &[0; 4], &(count as u32).to_le_bytes(), &[0; 4]].concat();
        pdu(HOST_DATA, LAST, &header, &vec![0; count], digests)
    };
    match below(7) {
        0 => (pdu(IC_REQUEST, 0, &[0; 120], &[], Digests::default()), vec![SEQUENCE]),
        1 if digests.header => {
            let mut unit = pdu(CAPSULE, 0, &[0; 64], &[], digests);
            unit[72] ^= 1;
            (unit, vec![HEADER_DIGEST])
        }
        1..=2 => (data(512, one_of(&[0, 3, 9, 0xffff])), vec![OUT_OF_RANGE]),
        3 => (
            pdu(HOST_TERMINATION, 0, &[2, 0, 0, 0, 0, 0, 0, 0, 0, 0, 0, 0, 0, 0, 0, 0], &[], Digests::default()),
            vec![],
        ),
        _ => wrong_capsule(digests),
    }
}

impl Path {
    /// Breaks a rule: the target ends the connection, and says why.
    pub fn break_rules(&self, address: SocketAddr) -> Result<(), Lost> {
        let (mut queue, (unit, wanted)) = match below(4) {
            0 => (Queue::begin(address)?, wrong_request()),
            1 => (Queue::begin(address)?, (pdu(CAPSULE, 0, &[0; 64], &[], Digests::default()), vec![SEQUENCE])),
            _ => (Queue::open(address, self.digests)?, breach(self.digests)),
        };
        queue.send_bytes(&unit)?;
        queue.wait_for_end()?;
        // A connection that was cut has no such PDU.
        match queue.terminated {
            Some(given) if !wanted.contains(&given) => {
                let begin = &unit[..unit.len().min(24)];
                Err(Lost::Broken(format!(
                    "a connection is ended with status {given}, not one of {wanted:?}, after {begin:x?}"
                )))
            }
            _ => Ok(()),
        }
    }
}
