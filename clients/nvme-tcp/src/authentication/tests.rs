//! Fixed vectors, every wrong message, and 100,000 mutated ones.

use super::*;
use crate::authentication::keys::Keys;
use crate::authentication::libcrypto::digest;
use crate::bytes::put;

/// What `tests/chap_vectors.py` prints, which computes it by Python's own hashes and numbers.
const VECTORS: &str = include_str!("../../tests/vectors/dhchap.txt");
const HOST: &str = "a1000000-0000-0000-0000-000000000000 nqn.2024-01.example:a1";
const SUBSYSTEM: &str = "nqn.2024-01.example:suvmileh";
/// Secrets of a host and a controller, and another host's.
const SECRETS: [&str; 3] = [
    "DHHC-1:01:3X0j8i/J+hOalK55SyjrXPsklzadBmbcemg++I96hS3NslrP:",
    "DHHC-1:01:rrnOVbtg3xNc6EKqVlqRW2YzxNCr8gSWcae74vHUcIR7iPgb:",
    "DHHC-1:01:1aR4IC0vg5jjcfK7kB1OQ40U3mS4rcaVkNXC5f0u5zF4RzU0:",
];

fn bytes_of(digits: &str) -> Vec<u8> {
    (0..digits.len()).step_by(2).map(|at| u8::from_str_radix(&digits[at..at + 2], 16).unwrap()).collect()
}

fn hex(bytes: &[u8]) -> String {
    bytes.iter().map(|byte| format!("{byte:02x}")).collect()
}

fn sha256(bytes: &[u8]) -> String {
    hex(&digest(Hash::Sha256, bytes).unwrap())
}

/// The peers of a file of keys with one host, whose secrets these are.
fn peers(secrets: &str) -> Peers {
    let keys = Keys::of(format!("{HOST} {secrets}\n").as_bytes()).unwrap();
    let (id, name) = HOST.split_at(37);
    let host = keys.host(&crate::options::host_id(id.trim()).unwrap(), name.as_bytes()).unwrap().clone();
    Peers { host, subsystem: SUBSYSTEM.into() }
}

fn both() -> Peers {
    peers(&format!("{} {}", SECRETS[0], SECRETS[1]))
}

fn choice(hash: u8, group: u8) -> Choice {
    let hash = Hash::ALL.into_iter().find(|it| it.1 as u8 == hash).unwrap().1;
    Choice { hash, group: Group::ALL[usize::from(group)].1 }
}

fn negotiate(transaction: u16) -> Vec<u8> {
    let mut bytes = vec![0; 72];
    put(&mut bytes, 4, &transaction.to_le_bytes());
    put(&mut bytes, 7, &[1, 1, 0, 3, 6, 1, 2, 3]);
    put(&mut bytes, 42, &[0, 1, 2, 3, 4, 5]);
    bytes
}

fn success2(transaction: u16) -> Vec<u8> {
    let mut bytes = vec![0; 16];
    put(&mut bytes, 0, &[1, 4]);
    put(&mut bytes, 4, &transaction.to_le_bytes());
    bytes
}

/// What a host sends. Its challenge to the controller is empty if it has none.
struct Says<'s> {
    transaction: u16,
    response: &'s [u8],
    sequence: u32,
    challenge: &'s [u8],
    public: &'s [u8],
}

impl Says<'_> {
    fn reply(&self) -> Vec<u8> {
        let size = self.response.len();
        let mut bytes = vec![0; 16 + 2 * size];
        put(&mut bytes, 0, &[1, 2]);
        put(&mut bytes, 4, &self.transaction.to_le_bytes());
        bytes[6] = size as u8;
        bytes[8] = u8::from(!self.challenge.is_empty());
        put(&mut bytes, 10, &(self.public.len() as u16).to_le_bytes());
        put(&mut bytes, 12, &self.sequence.to_le_bytes());
        put(&mut bytes, 16, self.response);
        put(&mut bytes, 16 + size, self.challenge);
        bytes.extend_from_slice(self.public);
        bytes
    }
}

/// The host's side of a challenge: its reply, which asks the controller to authenticate itself if a challenge is given.
fn reply_to(message: &[u8], secret: usize, sequence: u32, challenge: &[u8]) -> Vec<u8> {
    let (size, transaction) = (usize::from(message[6]), crate::bytes::u16_at(message, 4));
    let choice = choice(message[8], message[9]);
    let (value, public) = message[16..].split_at(size);
    let exchange = Exchange::of(choice.group, Wiped::new(vec![0x5a; 40])).unwrap();
    let shared = exchange.as_ref().map(|it| it.shared(public).unwrap().unwrap());
    let augmented = choice.hash.augmented(shared.as_ref(), value).unwrap();
    let name = &HOST[37..];
    let key = peers(SECRETS[secret]).host.secret.key(name).unwrap();
    let parts = [
        &augmented[..],
        &message[12..16],
        &message[4..6],
        &[0],
        b"HostHost",
        name.as_bytes(),
        &[0],
        SUBSYSTEM.as_bytes(),
    ];
    let response = choice.hash.hmac(&key, &parts).unwrap();
    let public = exchange.map(|it| it.public).unwrap_or_default();
    Says { transaction, response: &response, sequence, challenge, public: &public }.reply()
}

/// Takes a message, and does the work that it makes.
fn take(one: &mut Authentication, message: &[u8], peers: &Peers) -> Option<Taken> {
    match one.take(message, Some(peers.clone())) {
        Taken::Work(work) => {
            assert_eq!((one.due(), one.proves_next()), (Due::Later, false));
            one.finish(work.run());
            None
        }
        Taken::Ready => None,
        taken => Some(taken),
    }
}

/// The message that is due, and what it leads to.
fn give(one: &mut Authentication) -> (Vec<u8>, Sent) {
    match one.due() {
        Due::Message(bytes) => (bytes, one.sent()),
        due => panic!("{due:?}"),
    }
}

/// One that has sent a challenge: it, and the challenge.
fn challenged(choice: Choice, peers: &Peers) -> (Authentication, Vec<u8>) {
    let mut one = Authentication::new(choice);
    assert!(take(&mut one, &negotiate(5), peers).is_none());
    let (message, sent) = give(&mut one);
    assert_eq!(sent, Sent::Continues);
    assert_eq!(one.due(), Due::Nothing);
    (one, message)
}

/// Has a message fail: why it has.
fn failure(one: &mut Authentication, message: &[u8], peers: &Peers) -> Explanation {
    assert!(take(one, message, peers).is_none());
    assert!(!one.proves_next());
    let transaction = one.transaction;
    let (bytes, sent) = give(one);
    match sent {
        Sent::Failed(explanation) => {
            assert_eq!(bytes, messages::failure1(transaction, explanation));
            // Nothing comes of it any more.
            assert!(take(one, &negotiate(9), peers).is_none() && take(one, &success2(5), peers).is_none());
            assert_eq!((one.due(), one.sent()), (Due::Nothing, Sent::Continues));
            explanation
        }
        sent => panic!("{sent:?} {bytes:02x?}"),
    }
}

#[test]
fn vectors() {
    for (number, line) in VECTORS.lines().enumerate() {
        let words: Vec<&str> = line.split(' ').collect();
        let byte = |at: usize| words[at].parse::<u8>().unwrap();
        let choice = choice(byte(0), byte(1));
        let peers = peers(&words[2..4].join(" "));
        let transaction = words[6].parse().unwrap();
        let [own, theirs] = [4, 5].map(|at| Exchange::of(choice.group, Wiped::new(bytes_of(words[at]))).unwrap());
        let (sequence, challenge) = (words[7].parse().unwrap(), bytes_of(words[8]));
        if let (Some(own), Some(theirs)) = (&own, &theirs) {
            let shared = own.shared(&theirs.public).unwrap().unwrap();
            assert_eq!(shared[..], theirs.shared(&own.public).unwrap().unwrap()[..]);
            assert_eq!(shared[0] == 0, number == VECTORS.lines().count() - 1, "line {number}");
        }
        let mut one = Authentication::new(choice);
        assert!(matches!(one.take(&negotiate(transaction), Some(peers)), Taken::Work(Work::Draw(it)) if it == choice));
        one.finish(Done::Drawn(Ok(Offer { choice, sequence, challenge, exchange: own })));
        assert_eq!(sha256(&give(&mut one).0), words[11], "line {number}");
        let (response, value) = (bytes_of(words[13]), bytes_of(words[10]));
        let public = theirs.map(|it| it.public).unwrap_or_default();
        let says = Says {
            transaction,
            response: &response,
            sequence: words[9].parse().unwrap(),
            challenge: &value,
            public: &public,
        };
        assert_eq!(sha256(&says.reply()), words[12], "line {number}");
        assert!(take(&mut one, &says.reply(), &both()).is_none());
        let (told, sent) = give(&mut one);
        assert_eq!((&told[16..], told[8], sent), (&bytes_of(words[14])[..], 1, Sent::Continues), "line {number}");
        assert!(matches!(take(&mut one, &success2(transaction), &both()), Some(Taken::Proved)));
    }
}

#[test]
fn each_way_succeeds() {
    for (_, hash) in Hash::ALL {
        for (_, group) in Group::ALL {
            let choice = Choice { hash, group };
            let peers = both();
            let (mut one, message) = challenged(choice, &peers);
            assert_eq!(message.len(), 16 + hash.size() + group.prime().len());
            // Without a challenge of its own the host's sequence number means nothing.
            assert!(take(&mut one, &reply_to(&message, 0, 77, &[]), &peers).is_none());
            assert!(one.proves_next());
            let (told, sent) = give(&mut one);
            assert_eq!((told[8], sent), (0, Sent::Proved));
            // It may authenticate itself again, in both directions.
            assert!(take(&mut one, &negotiate(5), &peers).is_none());
            let (again, _) = give(&mut one);
            assert_ne!(message[16..], again[16..]);
            assert!(take(&mut one, &reply_to(&again, 0, 78, &vec![7; hash.size()]), &peers).is_none());
            let (told, sent) = give(&mut one);
            assert_eq!((told[8], sent), (1, Sent::Continues));
            assert!(matches!(take(&mut one, &success2(5), &peers), Some(Taken::Proved)));
        }
    }
}

#[test]
fn what_is_offered_decides() {
    let wrong = |change: &dyn Fn(&mut Vec<u8>)| {
        let mut message = negotiate(5);
        change(&mut message);
        failure(&mut Authentication::new(choice(1, 1)), &message, &both())
    };
    assert_eq!(wrong(&|it| it[6] = 1), Explanation::SecureChannelMismatch);
    assert_eq!(wrong(&|it| it[8] = 2), Explanation::ProtocolNotUsable);
    assert_eq!(wrong(&|it| it[7] = 0), Explanation::ProtocolNotUsable);
    assert_eq!(wrong(&|it| it[7] = 2), Explanation::IncorrectPayload);
    assert_eq!(wrong(&|it| it[10] = 31), Explanation::IncorrectPayload);
    assert_eq!(wrong(&|it| it[11] = 31), Explanation::IncorrectPayload);
    assert_eq!(wrong(&|it| it[12] = 9), Explanation::HashNotUsable);
    assert_eq!(wrong(&|it| it[10] = 0), Explanation::HashNotUsable);
    assert_eq!(wrong(&|it| it[43] = 9), Explanation::GroupNotUsable);
    assert_eq!(wrong(&|it| it[11] = 1), Explanation::GroupNotUsable);
    let mut unknown = Authentication::new(choice(1, 1));
    assert!(matches!(unknown.take(&negotiate(5), None), Taken::Ready));
    assert_eq!(give(&mut unknown).1, Sent::Failed(Explanation::Failed));
}

#[test]
fn wrong_replies() {
    let peers = both();
    let wrong = |group: u8, change: &dyn Fn(&mut Vec<u8>, &[u8])| {
        let (mut one, message) = challenged(choice(1, group), &peers);
        let mut reply = reply_to(&message, 0, 7, &[9; 32]);
        change(&mut reply, &message);
        failure(&mut one, &reply, &peers)
    };
    // Another secret, a response with a bit that is wrong, and one with another transaction or sizes.
    assert_eq!(wrong(0, &|it, message| *it = reply_to(message, 2, 7, &[])), Explanation::Failed);
    assert_eq!(wrong(1, &|it, message| *it = reply_to(message, 2, 7, &[])), Explanation::Failed);
    for at in 16..48 {
        assert_eq!(wrong(0, &|it, _| it[at] ^= 1), Explanation::Failed);
    }
    assert_eq!(wrong(0, &|it, _| it[4] ^= 1), Explanation::IncorrectPayload);
    assert_eq!(wrong(0, &|it, _| it[6] = 0), Explanation::IncorrectPayload);
    assert_eq!(wrong(0, &|it, _| it[6] = 31), Explanation::IncorrectPayload);
    assert_eq!(wrong(0, &|it, _| it[6] = 33), Explanation::IncorrectPayload);
    // The controller's challenge sent back, and sequence number 0, which is for secure channels.
    assert_eq!(wrong(0, &|it, message| put(it, 48, &message[16..48])), Explanation::Failed);
    assert_eq!(wrong(1, &|it, message| put(it, 48, &message[16..48])), Explanation::Failed);
    assert_eq!(wrong(0, &|it, _| put(it, 12, &[0; 4])), Explanation::IncorrectPayload);
    // A value with the null group; impossible values, one byte less, and the controller's own sent back.
    let with_value = |it: &mut Vec<u8>, value: &[u8]| {
        it.truncate(80);
        put(it, 10, &(value.len() as u16).to_le_bytes());
        it.extend_from_slice(value);
    };
    assert_eq!(wrong(0, &|it, _| with_value(it, &[2; 256])), Explanation::IncorrectPayload);
    for group in 1..=5 {
        let prime = Group::ALL[usize::from(group)].1.prime();
        let mut values =
            [vec![0; prime.len()], vec![0; prime.len()], prime.clone(), prime.clone(), vec![0xff; prime.len()]];
        *values[1].last_mut().unwrap() = 1;
        *values[2].last_mut().unwrap() -= 1;
        for value in &values {
            assert_eq!(wrong(group, &|it, _| with_value(it, value)), Explanation::IncorrectPayload);
        }
        assert_eq!(wrong(group, &|it, _| with_value(it, &prime[1..])), Explanation::IncorrectPayload);
        assert_eq!(wrong(group, &|it, _| with_value(it, &[])), Explanation::IncorrectPayload);
    }
    assert_eq!(wrong(1, &|it, message| with_value(it, &message[48..])), Explanation::Failed);
    // The controller has no secret.
    let alone = self::peers(SECRETS[0]);
    let (mut one, message) = challenged(choice(1, 0), &alone);
    assert_eq!(failure(&mut one, &reply_to(&message, 0, 7, &[9; 32]), &alone), Explanation::Failed);
}

/// A reply that was heard is of no use with another challenge, nor another time with its own.
#[test]
fn replays() {
    let peers = both();
    let (mut one, message) = challenged(choice(1, 0), &peers);
    let reply = reply_to(&message, 0, 7, &[]);
    assert!(take(&mut one, &reply, &peers).is_none());
    assert_eq!(give(&mut one).1, Sent::Proved);
    assert_eq!(failure(&mut one, &reply, &peers), Explanation::IncorrectMessage);
    let (mut other, _) = challenged(choice(1, 0), &peers);
    assert_eq!(failure(&mut other, &reply, &peers), Explanation::Failed);
    // The response of the controller to this challenge is none to its own: a host can't send it back.
    let (mut first, challenge) = challenged(choice(1, 0), &peers);
    let (mut second, other) = challenged(choice(1, 0), &peers);
    assert!(
        take(&mut first, &reply_to(&challenge, 0, crate::bytes::u32_at(&other, 12), &other[16..48]), &peers).is_none()
    );
    let (told, _) = give(&mut first);
    let says = Says { transaction: 5, response: &told[16..48], sequence: 0, challenge: &[], public: &[] };
    assert_eq!(failure(&mut second, &says.reply(), &peers), Explanation::Failed);
}

/// In each state each message that is not due, and those that are due cut at each length.
#[test]
fn order_and_cuts() {
    let peers = both();
    let states = 6;
    for state in 0..states {
        let make = || {
            let mut one = Authentication::new(choice(1, 0));
            let mut due = negotiate(5);
            let mut works = None;
            if state >= 1 {
                works = Some(one.take(&due, Some(peers.clone())));
            }
            if state >= 2 {
                if let Some(Taken::Work(work)) = works.take() {
                    one.finish(work.run());
                }
            }
            if state >= 3 {
                due = reply_to(&give(&mut one).0, 0, 7, &[9; 32]);
            }
            if state >= 4 {
                assert!(take(&mut one, &due, &peers).is_none());
            }
            if state >= 5 {
                assert_eq!(give(&mut one).1, Sent::Continues);
                due = success2(5);
            }
            (one, due)
        };
        let says = Says { transaction: 5, response: &[1; 32], sequence: 1, challenge: &[], public: &[] };
        let all = [negotiate(5), says.reply(), success2(5), vec![1, 3, 0, 0, 5, 0, 0, 0], vec![2; 16], vec![]];
        for (number, message) in all.iter().enumerate() {
            let is_due = (state, number) == (0, 0) || (state, number) == (3, 1) || (state, number) == (5, 2);
            let (mut one, _) = make();
            if !is_due {
                assert_eq!(failure(&mut one, message, &peers), Explanation::IncorrectMessage, "{state} {number}");
            }
        }
        if [0, 3, 5].contains(&state) {
            let (_, due) = make();
            for length in 0..due.len() {
                let (mut one, due) = make();
                let wanted = if length < 2 { Explanation::IncorrectMessage } else { Explanation::IncorrectPayload };
                assert_eq!(failure(&mut one, &due[..length], &peers), wanted, "{state} {length}");
            }
        }
        let (mut one, _) = make();
        assert!(matches!(one.take(&[0, 0xf0, 0, 0, 5, 0, 1, 3], Some(peers.clone())), Taken::Ended(3)));
        assert_eq!(one.due(), Due::Nothing);
        let (mut one, _) = make();
        assert_eq!(
            failure(&mut one, &[0, 0xf0, 0], &peers),
            if [0, 3, 5].contains(&state) { Explanation::IncorrectPayload } else { Explanation::IncorrectMessage }
        );
    }
}

/// Success2 of another transaction is none.
#[test]
fn another_transaction() {
    let peers = both();
    let (mut one, message) = challenged(choice(1, 0), &peers);
    assert!(take(&mut one, &reply_to(&message, 0, 7, &[9; 32]), &peers).is_none());
    assert_eq!(give(&mut one).1, Sent::Continues);
    assert_eq!(failure(&mut one, &success2(6), &peers), Explanation::IncorrectPayload);
}

/// Work that ends after the host has sent a wrong message changes nothing.
#[test]
fn late_work() {
    let peers = both();
    let mut one = Authentication::new(choice(1, 0));
    let first = one.take(&negotiate(5), Some(peers.clone()));
    assert!(matches!(one.take(&negotiate(6), Some(peers.clone())), Taken::Ready));
    if let Taken::Work(work) = first {
        one.finish(work.run());
    }
    assert_eq!(
        give(&mut one),
        (messages::failure1(5, Explanation::IncorrectMessage), Sent::Failed(Explanation::IncorrectMessage))
    );
}

/// A generator of numbers that are the same each time: xorshift.
struct Random(u64);

impl Random {
    fn below(&mut self, most: usize) -> usize {
        self.0 ^= self.0 << 13;
        self.0 ^= self.0 >> 7;
        self.0 ^= self.0 << 17;
        (self.0 >> 11) as usize % most
    }

    /// A message with a byte changed, cut, or longer by some; or another one.
    fn mutated(&mut self, message: &[u8]) -> Vec<u8> {
        let mut bytes = message.to_vec();
        for _ in 0..=self.below(3) {
            let at = self.below(bytes.len().max(1));
            match self.below(8) {
                0 => bytes.truncate(at),
                1 => bytes.extend((0..self.below(90)).map(|it| it as u8)),
                2 if !bytes.is_empty() => bytes[at] = self.below(256) as u8,
                3 => bytes.iter_mut().take(12).skip(self.below(12)).take(1).for_each(|it| *it = self.below(256) as u8),
                4 => bytes.iter_mut().take(2).for_each(|it| *it = [0, 1, 2, 3, 4, 0xf0, 0xf1][self.below(7)]),
                _ if !bytes.is_empty() => bytes[at] ^= 1 << self.below(8),
                _ => (),
            }
        }
        bytes
    }
}

/// A host is authenticated only by a reply with the right response, transaction, sizes and value; nothing panics, and a
/// failure is final.
#[test]
fn mutated_messages() {
    let (peers, mut random, mut proofs) = (both(), Random(0x2024_0513_1207_9af3), 0);
    // Reserved bytes count for nothing, nor do the sequence number and the challenge without CVALID.
    let counts = |at: usize| !matches!(at, 2 | 3 | 7 | 9 | 12..=15) && !(48..80).contains(&at);
    let mut messages = 0;
    while messages < 100_000 {
        let mut one = Authentication::new(choice(1, u8::from(messages % 100 == 0)));
        let is_mutated = random.below(8) == 0;
        let negotiating = if is_mutated { random.mutated(&negotiate(5)) } else { negotiate(5) };
        messages += usize::from(is_mutated);
        if take(&mut one, &negotiating, &peers).is_some() {
            continue;
        }
        let (challenge, sent) = give(&mut one);
        let right = if sent == Sent::Continues { reply_to(&challenge, 0, 7, &[]) } else { negotiate(5) };
        let reply = random.mutated(&right);
        messages += 1;
        if take(&mut one, &reply, &peers).is_some() || sent != Sent::Continues {
            assert!(!one.proves_next());
            continue;
        }
        let is_right = reply.len() >= right.len()
            && (0..right.len()).all(|at| !counts(at) || reply[at] == right[at] || at == 8 && reply[8] & 1 == 0);
        assert_eq!(one.proves_next(), is_right, "{reply:02x?}");
        proofs += usize::from(is_right);
        let (_, sent) = give(&mut one);
        assert_eq!(sent == Sent::Proved, is_right);
    }
    assert!(proofs > 1000, "{proofs}");
}
