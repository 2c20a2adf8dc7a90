//! Tests of what a journal keeps.

use nvmesim::journal::{kept, lasts};

fn entry(opcode: u8, dw10: u8) -> [u8; 64] {
    let mut entry = [0; 64];
    (entry[0], entry[40]) = (opcode, dw10);
    entry
}

#[test]
fn commands_that_change_the_access_state_last() {
    let those = |is_admin, dw10| (0..=255).filter(|it| lasts(&entry(*it, dw10), is_admin)).collect::<Vec<u8>>();
    assert_eq!(those(false, 0), [0x0d, 0x11, 0x15]);
    assert_eq!((those(true, 0), those(true, 0x84)), (vec![0x15], vec![0x09, 0x15]));
}

#[test]
fn data_are_kept_as_far_as_they_are_read() {
    let data: Vec<u8> = [3, 0].into_iter().chain(2..64).collect();
    assert_eq!((kept(&data, false), kept(&data, true)), (&data[..16], &data[..8]));
    assert_eq!(
        (kept(&data[..8], false), kept(&data[..4], true), kept(&data[..1], true)),
        (&data[..8], &data[..4], &data[..1])
    );
    assert_eq!(kept(&[], false), [0; 0]);
}
