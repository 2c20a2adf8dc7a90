//! Tests of the outcomes of command capsules, and of destinations.

use nvmesim::capsules::{self, Capsule, Data, Destination, Outcome};
use nvmesim::fabrics::{Fabrics, Judged, Live, Session, Subsystem};
use nvmesim::pdu::Fatal;
use nvmesim::responses::Responses;
use nvmesim::transfers::{Completed, Part, Request, Transfers};

const FABRICS: u8 = 0x7f;
/// Values of FCTYPE.
const CONNECT: u8 = 1;
const PROPERTY_GET: u8 = 4;
const SEND: u8 = 5;
const RECEIVE: u8 = 6;
const DISCONNECT: u8 = 8;
/// PSDT 01b, and SGL Identifiers.
const SGL: u8 = 0x40;
const IN_CAPSULE: u8 = 0x01;
const TRANSPORT: u8 = 0x5a;

const SGL_LENGTH: Outcome = Outcome::Refused { sct: 0, sc: 0x0f };
const SGL_TYPE: Outcome = Outcome::Refused { sct: 0, sc: 0x11 };
const SGL_OFFSET: Outcome = Outcome::Refused { sct: 0, sc: 0x16 };
const INVALID_FIELD: Outcome = Outcome::Refused { sct: 0, sc: 0x02 };
const ID_CONFLICT: Outcome = Outcome::Refused { sct: 0, sc: 0x03 };
const SEQUENCE: Outcome = Outcome::Refused { sct: 0, sc: 0x0c };
const TRANSIENT_TRANSPORT: Outcome = Outcome::Refused { sct: 0, sc: 0x22 };
const AUTHENTICATION_REQUIRED: Outcome = Outcome::Refused { sct: 1, sc: 0x91 };
const OUT_OF_SEQUENCE: Outcome = Outcome::Breaks(Fatal { status: 2, field: 0 });
const NO_DATA: Outcome = Outcome::Ready(Data::FromController(0));

/// A command with an SGL, in a capsule with as many data.
fn capsule(opcode: u8, offset: u64, length: u32, kind: u8, data_length: u32) -> Capsule {
    let mut entry = [0; 64];
    (entry[0], entry[1], entry[2], entry[39]) = (opcode, SGL, 9, kind);
    entry[24..32].copy_from_slice(&offset.to_le_bytes());
    entry[32..36].copy_from_slice(&length.to_le_bytes());
    Capsule { entry, data_length, is_sound: true }
}

/// A command of Fabrics without data.
fn of_fabrics(kind: u8) -> Capsule {
    let mut it = capsule(FABRICS, 0, 0, 0, 0);
    it.entry[4] = kind;
    it
}

/// The commands of a connection.
struct Commands {
    responses: Responses,
    transfers: Transfers,
}

impl Commands {
    /// None, on a queue of this number of entries.
    fn new(entries: u16) -> Commands {
        let (mut responses, transfers) = (Responses::new(), Transfers::new().unwrap());
        responses.connected(entries - 1, false);
        Commands { responses, transfers }
    }

    fn take(&mut self, session: &Session, capsule: &Capsule) -> Outcome {
        capsules::take(&mut self.responses, &mut self.transfers, session, capsule)
    }
}

/// A session after Connect to a subsystem, whose hosts have to authenticate themselves or not.
fn connected(has_keys: bool, subsystem: Subsystem) -> (Fabrics, Session) {
    let (mut fabrics, mut session) = (Fabrics::new(&[0xa1], has_keys).unwrap(), Session::new(7));
    let (mut entry, mut data) = ([0; 64], [0; 1024]);
    (entry[44], data[0], data[16], data[17], data[512]) = (31, 0xa1, 0xff, 0xff, b'h');
    let judged = Judged { subsystem, ..Judged::default() };
    assert!(fabrics.connect(&mut session, &entry, &data, &judged).is_success());
    (fabrics, session)
}

/// A session of each kind.
fn sessions() -> [Session; 5] {
    let (mut fabrics, mut ended) = connected(false, Subsystem::Nvm);
    let queue = ended.clone();
    fabrics.end_session(&mut ended);
    let (_, discovery) = connected(false, Subsystem::Discovery);
    let (_, authenticating) = connected(true, Subsystem::Nvm);
    let it = [queue, discovery, ended, authenticating, Session::new(7)];
    assert_eq!(
        [&it[0], &it[1], &it[2], &it[3], &it[4]].map(Session::last),
        [Live::Queue { index: 0, qid: 0 }, Live::Discovery, Live::Ended, Live::Authenticating(0), Live::NotConnected]
    );
    it
}

/// The outcome of the first capsule of a queue.
fn first(session: &Session, capsule: &Capsule) -> Outcome {
    let mut commands = Commands::new(64);
    let outcome = commands.take(session, capsule);
    assert_eq!(commands.responses.outstanding(), [9]);
    assert_eq!(commands.transfers.count(), usize::from(matches!(outcome, Outcome::Waits(_))));
    outcome
}

#[test]
fn data_are_where_the_sgl_says() {
    let [queue, ..] = sessions();
    let of = |opcode, offset, length, kind, data| first(&queue, &capsule(opcode, offset, length, kind, data));
    assert_eq!(of(1, 0, 512, IN_CAPSULE, 512), Outcome::Ready(Data::InCapsule(0..512)));
    assert_eq!(of(1, 500, 12, IN_CAPSULE, 512), Outcome::Ready(Data::InCapsule(500..512)));
    assert_eq!(of(1, 1, 512, IN_CAPSULE, 512), SGL_LENGTH);
    assert_eq!(of(1, 512, 1, IN_CAPSULE, 512), SGL_LENGTH);
    assert_eq!(of(1, 513, 1, IN_CAPSULE, 512), SGL_OFFSET);
    assert_eq!(of(1, u64::MAX, 512, IN_CAPSULE, 512), SGL_OFFSET);
    assert_eq!(of(1, 0, 131_072, TRANSPORT, 0), Outcome::Waits(131_072));
    assert_eq!(of(1, 0, 131_073, TRANSPORT, 0), SGL_LENGTH);
    assert_eq!(of(1, 0, 131_073, 0xff, 0), SGL_LENGTH);
    assert_eq!(of(1, 0, 512, 0xff, 512), SGL_TYPE);
    assert_eq!(of(2, 0, 512, IN_CAPSULE, 512), SGL_TYPE);
    assert_eq!(of(2, 0, 131_073, TRANSPORT, 0), SGL_LENGTH);
    assert_eq!(of(2, 0, 4096, TRANSPORT, 0), Outcome::Ready(Data::FromController(4096)));
    assert_eq!(of(0, 0, u32::MAX, 0xff, 0), NO_DATA);
    assert_eq!(of(3, 0, u32::MAX, 0xff, 0), NO_DATA);
    assert_eq!((of(1, 7, 0, 0xff, 0), of(2, 7, 0, 0xff, 0)), (NO_DATA, NO_DATA));
    let mut it = capsule(0, 0, 0, 0, 0);
    for psdt in [0, 0x3f, 0x80, 0xc0, 0xff] {
        it.entry[1] = psdt;
        assert_eq!(first(&queue, &it), INVALID_FIELD);
    }
    it.entry[1] = 0x7f;
    assert_eq!(first(&queue, &it), NO_DATA);
}

#[test]
fn commands_of_fabrics_have_the_direction_of_their_type() {
    let [queue, ..] = sessions();
    let of = |kind| {
        let mut it = capsule(FABRICS, 0, 8, TRANSPORT, 0);
        it.entry[4] = kind;
        first(&queue, &it)
    };
    assert_eq!((of(SEND), of(RECEIVE)), (Outcome::Waits(8), Outcome::Ready(Data::FromController(8))));
    assert_eq!((of(PROPERTY_GET), of(DISCONNECT)), (NO_DATA, NO_DATA));
}

/// Each capsule breaks the rules after the one that decides, too.
#[test]
fn the_first_rule_that_is_broken_decides() {
    let [queue, discovery, ended, authenticating, new] = sessions();
    let mut commands = Commands::new(64);
    assert_eq!(commands.take(&new, &of_fabrics(CONNECT)), NO_DATA);
    let mut it = of_fabrics(CONNECT);
    (it.is_sound, it.entry[1]) = (false, 0);
    assert_eq!(commands.take(&new, &it), TRANSIENT_TRANSPORT);
    assert_eq!(commands.take(&authenticating, &it), AUTHENTICATION_REQUIRED);
    for kind in [0, PROPERTY_GET, SEND, RECEIVE, DISCONNECT] {
        it.entry[4] = kind;
        let is_early = !matches!(kind, SEND | RECEIVE | DISCONNECT);
        let wanted = if is_early { AUTHENTICATION_REQUIRED } else { TRANSIENT_TRANSPORT };
        assert_eq!((commands.take(&new, &it), commands.take(&authenticating, &it)), (SEQUENCE, wanted));
    }
    for kind in [CONNECT, SEND] {
        (it.entry[0], it.entry[4]) = (0, kind);
        let outcomes = [&queue, &discovery, &ended, &authenticating, &new].map(|session| commands.take(session, &it));
        assert_eq!(outcomes[..3], [TRANSIENT_TRANSPORT, TRANSIENT_TRANSPORT, TRANSIENT_TRANSPORT]);
        assert_eq!(outcomes[3..], [AUTHENTICATION_REQUIRED, SEQUENCE]);
    }
    it.is_sound = true;
    let outcomes = [&queue, &discovery, &ended].map(|session| commands.take(session, &it));
    assert_eq!(outcomes, [ID_CONFLICT, ID_CONFLICT, ID_CONFLICT]);
    it.entry[2] = 10;
    assert_eq!((commands.take(&queue, &it), commands.transfers.count()), (INVALID_FIELD, 0));
}

#[test]
fn the_data_of_connect_are_in_its_capsule() {
    let [queue, .., authenticating, new] = sessions();
    let of = |session, fabrics_type, kind| {
        let mut it = capsule(FABRICS, 0, 1024, kind, 1024);
        it.entry[4] = fabrics_type;
        first(session, &it)
    };
    assert_eq!(of(&new, CONNECT, IN_CAPSULE), Outcome::Ready(Data::InCapsule(0..1024)));
    assert_eq!(of(&new, CONNECT, TRANSPORT), SEQUENCE);
    assert_eq!(of(&queue, CONNECT, TRANSPORT), Outcome::Waits(1024));
    assert_eq!(of(&authenticating, SEND, TRANSPORT), Outcome::Waits(1024));
}

#[test]
fn a_command_that_waits_gets_its_data_by_r2t() {
    let [queue, ..] = sessions();
    let (mut commands, write) = (Commands::new(64), capsule(1, 0, 8, TRANSPORT, 0));
    assert_eq!(commands.transfers.count(), 0);
    assert_eq!((commands.take(&queue, &write), commands.transfers.count()), (Outcome::Waits(8), 1));
    assert_eq!(commands.take(&queue, &write), ID_CONFLICT);
    assert_eq!(commands.transfers.next_request(), Some(Request { cid: 9, tag: 0, length: 8 }));
    assert_eq!(commands.transfers.next_request(), None);
    let part = Part { cid: 9, tag: 0, offset: 0, length: 8, is_last: true, is_sound: true };
    let completed = Completed { entry: write.entry, length: 8, is_sound: true };
    assert_eq!(commands.transfers.take(&part), Ok(Some(completed)));
}

#[test]
fn what_a_queue_has_no_room_for_ends_its_connection() {
    let [queue, ..] = sessions();
    let (mut commands, mut it) = (Commands::new(2), capsule(1, 0, 8, TRANSPORT, 0));
    for (cid, wanted) in [(1, Outcome::Waits(8)), (2, Outcome::Waits(8)), (3, OUT_OF_SEQUENCE)] {
        it.entry[2] = cid;
        assert_eq!(commands.take(&queue, &it), wanted);
    }
    assert_eq!((commands.responses.outstanding(), commands.transfers.count()), (&[1, 2][..], 2));
    let mut commands = Commands::new(2);
    commands.responses.end();
    assert_eq!(commands.take(&queue, &of_fabrics(DISCONNECT)), OUT_OF_SEQUENCE);
    assert!(commands.responses.outstanding().is_empty());
    let mut commands = Commands::new(2);
    commands.transfers.end();
    assert_eq!(commands.take(&queue, &it), OUT_OF_SEQUENCE);
}

#[test]
fn destinations() {
    let (sequence, unproved) = (Destination::Refused { sct: 0, sc: 0x0c }, Destination::Refused { sct: 1, sc: 0x91 });
    let queue = |qid| Live::Queue { index: 2, qid };
    for (live, has_queue, wanted) in [
        (Live::NotConnected, true, sequence),
        (Live::Ended, true, sequence),
        (Live::Authenticating(2), true, unproved),
        (Live::Discovery, false, Destination::Discovery),
        (queue(0), false, sequence),
        (queue(1), false, sequence),
        (queue(0), true, Destination::Admin(2)),
        (queue(1), true, Destination::Io { index: 2, qid: 1 }),
        (Live::Queue { index: u16::MAX, qid: u16::MAX }, true, Destination::Io { index: u16::MAX, qid: u16::MAX }),
    ] {
        assert_eq!(Destination::of(live, &capsule(2, 0, 0, 0, 0).entry, has_queue), wanted);
        assert_eq!(Destination::of(live, &of_fabrics(PROPERTY_GET).entry, has_queue), Destination::Fabrics);
    }
}
