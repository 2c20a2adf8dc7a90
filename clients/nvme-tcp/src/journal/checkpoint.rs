//! A checkpoint: what persists of all namespaces, so that the records before it are needed no more.

use crate::bytes::{u16_at, u32_at, u64_at};
use crate::numbers::narrow;
use nvmesim::{Holder, Registrant, Reservation};

/// A namespace before its registrants: its identifier, its protection, whether its reservation persists, the type and
/// the holder of that, the generation counter, and how many registrants and controllers follow.
const HEAD: usize = 31;
const REGISTRANT: usize = 24;
const CONTROLLER: usize = 2;

/// What persists of a namespace.
#[derive(Clone, Debug, PartialEq, Eq)]
pub struct NamespaceState {
    pub nsid: u32,
    pub reservation: Reservation,
    /// The controllers that are attached.
    pub attached: Vec<u16>,
}

/// What persists of all namespaces.
#[derive(Clone, Debug, Default, PartialEq, Eq)]
pub struct Checkpoint(pub Vec<NamespaceState>);

impl Checkpoint {
    /// Its bytes in a record.
    pub fn bytes(&self) -> Vec<u8> {
        let mut bytes = Vec::new();
        self.0.iter().for_each(|it| it.push(&mut bytes));
        bytes
    }

    /// The checkpoint that these bytes are of.
    pub fn of(bytes: &[u8]) -> Option<Checkpoint> {
        let (mut rest, mut namespaces) = (bytes, Vec::new());
        while !rest.is_empty() {
            let (namespace, length) = NamespaceState::first_of(rest)?;
            namespaces.push(namespace);
            rest = &rest[length..];
        }
        Some(Checkpoint(namespaces))
    }
}

impl NamespaceState {
    fn push(&self, bytes: &mut Vec<u8>) {
        let Reservation { holder, registrants, generation, ptpl, protection } = &self.reservation;
        let (rtype, host) = match *holder {
            Holder::Nobody => (0, 0),
            Holder::Host(rtype, host) => (rtype, host),
            Holder::EachRegistrant(rtype) => (rtype, 0),
        };
        bytes.extend(self.nsid.to_le_bytes());
        bytes.extend([narrow(*protection), u8::from(*ptpl), rtype]);
        bytes.extend(host.to_le_bytes());
        bytes.extend(generation.to_le_bytes());
        bytes.extend(narrow::<_, u16>(registrants.len()).to_le_bytes());
        bytes.extend(narrow::<_, u16>(self.attached.len()).to_le_bytes());
        for Registrant { host, key } in registrants {
            bytes.extend(host.to_le_bytes());
            bytes.extend(key.to_le_bytes());
        }
        bytes.extend(self.attached.iter().flat_map(|it| it.to_le_bytes()));
    }

    /// The first namespace of these bytes, and how many of them it has.
    fn first_of(bytes: &[u8]) -> Option<(NamespaceState, usize)> {
        let head = bytes.get(..HEAD)?;
        let (count, attached) = (usize::from(u16_at(head, 27)), usize::from(u16_at(head, 29)));
        let length = HEAD + REGISTRANT * count + CONTROLLER * attached;
        let (registrants, attached) = bytes.get(HEAD..length)?.split_at(REGISTRANT * count);
        let holder = match (head[6], host_at(head, 7)) {
            (0, _) => Holder::Nobody,
            (rtype, 0) => Holder::EachRegistrant(rtype),
            (rtype, host) => Holder::Host(rtype, host),
        };
        let registrants = registrants.chunks_exact(REGISTRANT);
        let reservation = Reservation {
            holder,
            registrants: registrants.map(|it| Registrant { host: host_at(it, 0), key: u64_at(it, 16) }).collect(),
            generation: u32_at(head, 23),
            ptpl: head[5] != 0,
            protection: head[4].into(),
        };
        let attached = attached.chunks_exact(CONTROLLER).map(|it| u16_at(it, 0)).collect();
        Some((NamespaceState { nsid: u32_at(head, 0), reservation, attached }, length))
    }
}

fn host_at(bytes: &[u8], at: usize) -> u128 {
    u128::from(u64_at(bytes, at)) | u128::from(u64_at(bytes, at + 8)) << 64
}

#[cfg(test)]
mod tests {
    use super::*;

    #[test]
    fn bytes_are_read() {
        let registrants = vec![Registrant { host: 0xa1, key: 7 }, Registrant { host: u128::MAX - 1, key: u64::MAX }];
        for holder in [Holder::Nobody, Holder::Host(3, 0xa1), Holder::EachRegistrant(6)] {
            let reservation =
                Reservation { holder, registrants: registrants.clone(), generation: 9, ptpl: true, protection: 2 };
            let one = NamespaceState { nsid: 1, reservation, attached: vec![1, 16] };
            let empty = Reservation {
                holder: Holder::Nobody,
                registrants: Vec::new(),
                generation: 0,
                ptpl: false,
                protection: 0,
            };
            let other = NamespaceState { nsid: 8, reservation: empty, attached: Vec::new() };
            let checkpoint = Checkpoint(vec![one, other]);
            let bytes = checkpoint.bytes();
            assert_eq!(Checkpoint::of(&bytes), Some(checkpoint));
            for cut in (1..bytes.len()).filter(|it| *it != bytes.len() - HEAD) {
                assert_eq!(Checkpoint::of(&bytes[..cut]), None, "{cut}");
            }
        }
        assert_eq!(Checkpoint::of(&[]), Some(Checkpoint::default()));
    }
}
