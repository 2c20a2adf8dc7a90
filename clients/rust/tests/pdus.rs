//! PDUs of NVMe/TCP.

use nvmesim::pdu::{Agreed, Fatal, HostData, Kind, Layout};

const NONE: Agreed = Agreed { header_digests: false, data_digests: false, alignment: 0 };
const BOTH: Agreed = Agreed { header_digests: true, data_digests: true, alignment: 1 };

fn head(kind: u8, flags: u8, hlen: u8, pdo: u8, plen: u32) -> [u8; 8] {
    let [a, b, c, d] = plen.to_le_bytes();
    [kind, flags, hlen, pdo, a, b, c, d]
}

/// A header whose field at this offset is wrong.
fn wrong(field: u32) -> Result<Layout, Fatal> {
    Err(Fatal { status: 1, field })
}

#[test]
fn a_host_s_pdus_are_laid_out() {
    let command = NONE.layout(&head(4, 0, 72, 72, 584)).unwrap();
    assert_eq!((command.kind, command.data_offset, command.data_length), (Kind::CapsuleCmd, 72, 512));
    let wanted = Layout {
        kind: Kind::H2cData,
        is_last: true,
        header: 24,
        header_digest: true,
        data_offset: 28,
        data_length: 512,
        data_digest: true,
        length: 544,
    };
    assert_eq!(BOTH.layout(&head(6, 7, 24, 28, 544)), Ok(wanted));
    assert_eq!(NONE.layout(&head(0, 0, 128, 9, 128)).map(|it| it.kind), Ok(Kind::IcReq));
    assert_eq!(NONE.layout(&head(2, 0, 24, 9, 24)).map(|it| it.kind), Ok(Kind::H2cTermReq));
}

#[test]
fn the_first_wrong_field_is_named() {
    for (it, field) in [
        (head(7, 0, 24, 0, 24), 0),
        (head(4, 4, 24, 70, 71), 2),
        (head(4, 4, 72, 70, 71), 1),
        (head(4, 0, 72, 70, 71), 4),
        (head(4, 0, 72, 70, 584), 3),
        (head(4, 0, 72, 72, 8265), 4),
        (head(6, 0, 24, 24, 131_097), 4),
    ] {
        assert_eq!(NONE.layout(&it), wrong(field));
    }
    assert_eq!(BOTH.layout(&head(4, 1, 72, 76, 592)), wrong(1));
}

#[test]
fn fields_are_read() {
    let mut request = [0; 128];
    (request[10], request[11]) = (1, 3);
    assert_eq!(Agreed::of(&request), Ok(BOTH));
    request[10] = 32;
    assert_eq!(Agreed::of(&request), Err(Fatal { status: 1, field: 10 }));
    request[8] = 1;
    assert_eq!(Agreed::of(&request), Err(Fatal { status: 6, field: 8 }));
    let mut header = [0; 24];
    (header[8], header[11], header[13], header[17]) = (1, 2, 3, 2);
    assert_eq!(HostData::of(&header, 512), Ok(HostData { cid: 1, tag: 512, offset: 768 }));
    assert_eq!(HostData::of(&header, 513), Err(Fatal { status: 1, field: 16 }));
    assert_eq!(Fatal::of(&header), Fatal { status: 1, field: 0x0300_0200 });
}

#[test]
fn headers_are_written() {
    let mut header = [0; 24];
    let layout = BOTH.response(&[7; 16], &mut header);
    assert_eq!((&header[..8], &header[8..]), (&[5, 1, 24, 0, 28, 0, 0, 0][..], &[7; 16][..]));
    assert_eq!((layout.kind, layout.header_digest, layout.length), (Kind::CapsuleResp, true, 28));
    let layout = NONE.ready(5, 6, 512, &mut header);
    assert_eq!(header, [9, 0, 24, 0, 24, 0, 0, 0, 5, 0, 6, 0, 0, 0, 0, 0, 0, 2, 0, 0, 0, 0, 0, 0]);
    assert_eq!((layout.kind, layout.length), (Kind::R2t, 24));
    let layout = BOTH.data(5, 512, &mut header).unwrap();
    assert_eq!((&header[..5], layout.data_offset, layout.length), (&[7, 7, 24, 32, 36][..], 32, 548));
    assert_eq!(NONE.data(5, u32::MAX, &mut header), None);
    assert_eq!(Agreed { alignment: 32, ..NONE }.data(5, 1, &mut header), None);
    let layout = Fatal { status: 1, field: 2 }.termination(200, &mut header);
    assert_eq!((layout.kind, layout.data_length, header[4], header[10]), (Kind::C2hTermReq, 128, 152, 2));
    let mut response = [9; 128];
    BOTH.ic_response(&mut response);
    assert_eq!((response[0], response[11], &response[12..16]), (1, 3, &[0, 0, 2, 0][..]));
}
