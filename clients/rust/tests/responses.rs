//! Tests of the responses to the commands of a connection.

use nvmesim::responses::{status_field, Refused, Reply, Responses};

/// A queue of four entries, whose Connect got its response.
fn connected(is_flow_control_disabled: bool) -> Responses {
    let mut it = Responses::new();
    assert_eq!((it.accept(5), it.accept(6)), (Ok(false), Err(Refused::Full)));
    it.connected(3, is_flow_control_disabled);
    let sqhd = if is_flow_control_disabled { [0xff, 0xff] } else { [1, 0] };
    assert_eq!(it.respond(&Reply { cid: 5, ..Reply::default() }).unwrap()[8..10], sqhd);
    it
}

#[test]
fn each_command_has_one_response() {
    let mut it = connected(true);
    assert_eq!([7, 8, 7, 9].map(|cid| it.accept(cid)), [Ok(false), Ok(false), Ok(true), Ok(false)]);
    assert_eq!((it.accept(10), it.outstanding()), (Err(Refused::Full), &[7, 8, 7, 9][..]));
    let reply = |cid| Reply { cid, dw0: 0x0403_0201, dw1: 0x0807_0605, sct: 2, sc: 0x81 };
    let wanted = [1, 2, 3, 4, 5, 6, 7, 8, 0xff, 0xff, 0, 0, 7, 0, 0x02, 0x85];
    assert_eq!((0..3).map(|_| it.respond(&reply(7))).collect::<Vec<_>>(), [Some(wanted), Some(wanted), None]);
    assert_eq!([it.forget(8), it.forget(8)], [true, false]);
    it.end();
    assert_eq!((it.accept(1), it.outstanding()), (Err(Refused::Ended), &[9][..]));
    let mut other = it.clone();
    other.stop();
    assert_eq!((other.respond(&reply(9)), it.respond(&reply(9)).is_some()), (None, true));
}

#[test]
fn heads_count_commands() {
    let mut it = connected(false);
    let mut heads = Vec::new();
    for cid in 0..6 {
        assert_eq!(it.accept(cid), Ok(false));
        heads.push(it.respond(&Reply { cid, ..Reply::default() }).unwrap()[8]);
    }
    assert_eq!(heads, [2, 3, 0, 1, 2, 3]);
}

#[test]
fn few_statuses_may_be_retried() {
    let without: Vec<(u8, u8)> = (0..8)
        .flat_map(|sct| (0..=255).map(move |sc| (sct, sc)))
        .filter(|it| status_field(it.0, it.1) < 0x8000)
        .collect();
    assert_eq!(without, [(0, 0), (0, 0x0c), (0, 0x22), (1, 0x81), (3, 0x02)]);
    assert_eq!((status_field(0, 0x83), status_field(3, 0x02)), (0x8106, 0x0604));
}
