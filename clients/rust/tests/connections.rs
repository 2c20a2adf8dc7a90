//! Tests of connections, and of which connection is a queue of which controller.

use nvmesim::connection::{Connection, Stage, Verdict};
use nvmesim::fabrics::{Answer, Command, Fabrics, Judged, Live, Place, Session, Subsystem};
use nvmesim::pdu::{Fatal, Kind};
use nvmesim::OpenError;

/// ICReq for header digests.
fn request() -> [u8; 128] {
    let mut request = [0; 128];
    (request[2], request[4], request[11]) = (128, 128, 1);
    request
}

fn opened() -> Connection {
    let mut it = Connection::new();
    assert_eq!(it.take(&request()).count, 128);
    assert!(matches!(it.judge(false, false), Some(Verdict::Completes { is_sound: true, .. })));
    it
}

/// A command capsule with a header digest and four bytes of data.
fn capsule() -> Vec<u8> {
    let mut bytes = vec![0; 80];
    bytes[..8].copy_from_slice(&[4, 1, 72, 76, 80, 0, 0, 0]);
    bytes[76..].copy_from_slice(b"data");
    bytes
}

#[test]
fn however_bytes_are_cut_the_pdu_has_its_own_data() {
    let bytes = [capsule(), request().to_vec()].concat();
    for cut in 0..=80 {
        let mut it = opened();
        let (mut data, mut at) = (Vec::new(), 0);
        for end in [cut, 80, bytes.len()] {
            let taken = it.take(&bytes[at..end]);
            assert!(taken.breach.is_none() && (taken.data.is_empty() || taken.data_offset == data.len()));
            data.extend_from_slice(&bytes[at..end][taken.data]);
            at += taken.count;
        }
        assert_eq!((at, &data[..], it.stage(), it.wanted()), (80, &b"data"[..], Stage::Whole, 0));
        assert_eq!((it.kept(), it.layout().map(|it| it.kind)), (&bytes[..80], Some(Kind::CapsuleCmd)));
        assert!(matches!(it.judge(true, true), Some(Verdict::Completes { layout, .. }) if layout.data_offset == 76));
        assert!(it.judge(true, true).is_none() && it.agreed().header_digests && it.is_open());
        assert_eq!(it.take(&bytes[80..]).breach, Some(Fatal { status: 2, field: 0 }));
        assert_eq!((it.stage(), it.take(&bytes).count), (Stage::Ended, 0));
    }
}

#[test]
fn a_wrong_digest_or_a_rule_above_ends_a_connection() {
    let mut it = opened();
    it.take(&capsule());
    assert_eq!(it.refuse(Fatal { status: 4, field: 0 }), None);
    let mut other = it.clone();
    assert_eq!(other.judge(false, true), Some(Verdict::Breaks(Fatal { status: 3, field: 0 })));
    assert!(it.judge(true, true).is_some());
    assert_eq!(it.refuse(Fatal { status: 4, field: 9 }), Some(Fatal { status: 4, field: 9 }));
    assert_eq!((it.stage(), other.stage()), (Stage::Ended, Stage::Ended));
}

/// A Connect of a queue for a host and a controller.
fn asked(qid: u8, host: u8, cntlid: u16) -> ([u8; 64], [u8; 1024]) {
    let (mut entry, mut data) = ([0; 64], [0; 1024]);
    (entry[42], entry[44], data[0], data[15], data[512]) = (qid, 31, host, 1, b'h');
    data[16..18].copy_from_slice(&cntlid.to_le_bytes());
    (entry, data)
}

const HOST: u128 = 1 << 120;

#[test]
fn a_connect_makes_a_queue_and_a_disconnect_ends_it() {
    let mut fabrics = Fabrics::new(&[HOST | 0xa1, HOST | 0xb2], false).unwrap();
    let (mut admin, mut io) = (Session::new(0), Session::new(u64::MAX));
    let (entry, data) = asked(0, 0xb2, 0xffff);
    let (request, place) = fabrics.admitted(&admin, &entry, &data, &Judged::default()).unwrap();
    assert_eq!((request.host_id, request.entries, place), (HOST | 0xb2, 32, Place::Controller(1)));
    let other = Judged { subsystem: Subsystem::Other, ..Judged::default() };
    let wrong = Answer { dw0: 0x10100, sct: 1, sc: 0x82 };
    assert_eq!(fabrics.connect(&mut admin, &entry, &data, &other), wrong);
    assert_eq!((fabrics.live(&admin), admin.last()), (Live::NotConnected, Live::NotConnected));
    assert_eq!(fabrics.connect(&mut admin, &entry, &data, &Judged::default()), Answer { dw0: 2, sct: 0, sc: 0 });
    let (entry, data) = asked(4, 0xb2, 2);
    assert!(fabrics.connect(&mut io, &entry, &data, &Judged::default()).is_success());
    assert_eq!((fabrics.live(&io), fabrics.connection(1, 4)), (Live::Queue { index: 1, qid: 4 }, Some(u64::MAX)));
    let mut command = [0; 64];
    command[4] = 8;
    assert_eq!(fabrics.execute(&mut admin, &command), Err(Answer { dw0: 0, sct: 1, sc: 0x85 }));
    assert_eq!(fabrics.execute(&mut io, &command), Ok(Command::Disconnect));
    assert_eq!((io.last(), fabrics.connection(1, 4), fabrics.connection(1, 0)), (Live::Ended, None, Some(0)));
    fabrics.end_association(1);
    assert_eq!((fabrics.live(&admin), admin.last()), (Live::Ended, Live::Queue { index: 1, qid: 0 }));
}

#[test]
fn a_host_with_a_key_has_to_authenticate_itself() {
    let mut fabrics = Fabrics::new(&[HOST | 0xa1], true).unwrap();
    let mut session = Session::new(1);
    let (entry, data) = asked(0, 0xa1, 1);
    assert_eq!(fabrics.connect(&mut session, &entry, &data, &Judged::default()).dw0, 0x20001);
    assert_eq!(fabrics.live(&session), Live::Authenticating(0));
    let request = session.request().unwrap();
    assert!(fabrics.admits(0, &request, true).is_success());
    assert!(fabrics.authenticate(&mut session, true, (0, 0)).is_success());
    assert_eq!((fabrics.live(&session), session.request()), (Live::Queue { index: 0, qid: 0 }, None));
    assert!(!fabrics.admits(0, &request, true).is_success());
    fabrics.end_session(&mut session);
    assert_eq!(fabrics.connection(0, 0), None);
}

#[test]
fn more_than_sixteen_controllers_are_refused() {
    assert!(Fabrics::new(&[1; 16], false).is_ok());
    assert!(matches!(Fabrics::new(&[1; 17], false), Err(OpenError::TooMany)));
}
