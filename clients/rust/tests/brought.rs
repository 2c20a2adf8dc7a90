//! Tests of commands over blocks that a program brings from its disk.

use nvmesim::{
    Attachment, Brought, Completion, Config, Controller, Executed, Namespace, Need, OpenError, Refusal, Subsystem,
};

const BLOCK: usize = 512;
const LAST: u32 = 15;

fn config(blocks: &[u64]) -> Config {
    let spaces = (1..).zip(blocks);
    Config {
        controllers: vec![Controller::new(1, 0xa1)],
        namespaces: spaces.clone().map(|(nsid, blocks)| Namespace { blocks: *blocks, nsid, shared: false }).collect(),
        attached: spaces.map(|(nsid, _)| Attachment { nsid, cntlid: 1 }).collect(),
    }
}

/// A submission queue entry on blocks of a namespace, or one that creates a queue.
fn entry(opcode: u8, nsid: u32, prp1: u64, slba: u64, blocks: u32) -> [u8; 64] {
    let mut bytes = [0; 64];
    bytes[0] = opcode;
    bytes[4..8].copy_from_slice(&nsid.to_le_bytes());
    bytes[24..32].copy_from_slice(&prp1.to_le_bytes());
    bytes[40..48].copy_from_slice(&slba.to_le_bytes());
    bytes[48..52].copy_from_slice(&blocks.saturating_sub(1).to_le_bytes());
    bytes
}

/// Enables the controller, and creates a pair of I/O queues.
fn up(subsystem: &mut Subsystem) {
    for (offset, value) in [(0x24, LAST << 16 | LAST), (0x28, 0), (0x30, 0x1000), (0x14, 0x0046_0001)] {
        subsystem.write32(1, offset, value).unwrap();
    }
    let size = u64::from(LAST << 16 | 1);
    for made in [entry(5, 0, 0x3000, 1 << 32 | size, 0), entry(1, 0, 0x2000, (1 << 16 | 1) << 32 | size, 0)] {
        assert!(subsystem.submit(1, 0, &made).unwrap().0.is_success());
    }
}

/// Has the controller fetch an entry at a place of the I/O queue.
fn fetch(subsystem: &mut Subsystem, place: u32, entry: &[u8; 64]) {
    subsystem.store(1, 0x2000 + 64 * u64::from(place), entry).unwrap();
    subsystem.write32(1, 0x1008, (place + 1) % (LAST + 1)).unwrap();
    subsystem.fetch(1, 1).unwrap();
}

/// Consumes the completion at a place.
fn consume(subsystem: &mut Subsystem, place: u32) {
    subsystem.write32(1, 0x100c, (place + 1) % (LAST + 1)).unwrap();
}

fn posted(executed: Executed) -> Completion {
    match executed {
        Executed::Posted(completion) => completion,
        other => panic!("{other:?}"),
    }
}

/// Executes the fetched command over the blocks that it needs, and stores on the disk what it wrote.
fn serve(subsystem: &mut Subsystem, disk: &mut [u8]) -> Completion {
    let need = subsystem.need(1, 0).unwrap().unwrap();
    let (first, count) = match need {
        Need::Read { first, blocks } | Need::Write { first, blocks } | Need::Zero { first, blocks } => (first, blocks),
        _ => (0, 0),
    };
    let is_read = matches!(need, Need::Read { .. });
    let place = first as usize * BLOCK..(first as usize + count as usize) * BLOCK;
    let mut room = if is_read { disk[place.clone()].to_vec() } else { vec![0xee; place.len()] };
    let brought = Brought { first, blocks: if is_read { count.into() } else { 0 }, flushes: true };
    let (executed, at_hand) = subsystem.execute_over(1, 0, &mut room, brought).unwrap();
    let written = at_hand as usize * BLOCK;
    disk[place.start..place.start + written].copy_from_slice(&room[..written]);
    posted(executed)
}

#[test]
fn a_disk_is_as_memory() {
    let spaces = config(&[5, 11]);
    let mut disk: Vec<u8> = (0..16 * BLOCK).map(|at| (at / BLOCK) as u8).collect();
    let mut memory = Subsystem::open(&spaces, &disk).unwrap();
    let mut over = Subsystem::open_brought(&spaces, 16).unwrap();
    up(&mut memory);
    up(&mut over);
    let mut state = 0x9e37_79b9_7f4a_7c15_u64;
    for at in 0..2000 {
        state = state.wrapping_mul(6_364_136_223_846_793_005).wrapping_add(1_442_695_040_888_963_407);
        let bits = state >> 20;
        let opcode = [0, 1, 1, 2, 5, 8, 0x7f][bits as usize % 7];
        let command =
            entry(opcode, 1 + (bits >> 8) as u32 % 2, 0x10000, (bits >> 16) % 12, 1 + (bits >> 24) as u32 % 4);
        let place = at % (LAST + 1);
        for subsystem in [&mut memory, &mut over] {
            subsystem.store(1, 0x10000, &[(bits >> 32) as u8 % 3; BLOCK]).unwrap();
            fetch(subsystem, place, &command);
        }
        assert_eq!(serve(&mut over, &mut disk), posted(memory.execute(1, 0).unwrap()), "{command:?}");
        let (mut left, mut right) = ([0; 4 * BLOCK], [0; 4 * BLOCK]);
        memory.load(1, 0x10000, &mut left).unwrap();
        over.load(1, 0x10000, &mut right).unwrap();
        assert!(left == right);
        consume(&mut memory, place);
        consume(&mut over, place);
    }
    let mut blocks = [vec![0; 5 * BLOCK], vec![0; 11 * BLOCK]];
    for (nsid, bytes) in (1..).zip(&mut blocks) {
        memory.read_blocks(nsid, 0, bytes).unwrap();
    }
    assert!(blocks.concat() == disk);
}

#[test]
fn what_is_not_brought_fails() {
    let mut subsystem = Subsystem::open_brought(&config(&[1 << 40, 1 << 63]), u64::MAX).unwrap();
    up(&mut subsystem);
    let mut room = [7; 2 * BLOCK];
    for (place, opcode, bytes, blocks, status, at_hand) in [
        (0, 2, 1024, 1, (2, 0x81), 1),
        (1, 1, 1023, 0, (2, 0x80), 1),
        (2, 8, 0, 0, (2, 0x80), 0),
        (3, 0, 0, 0, (2, 0x80), 0),
    ] {
        subsystem.store(1, 0x10000, &[0; 2 * BLOCK]).unwrap();
        fetch(&mut subsystem, place, &entry(opcode, 2, 0x10000, (1 << 63) - 2, 2));
        let brought = Brought { first: (1 << 40) + (1 << 63) - 2, blocks, flushes: false };
        let (executed, left) = subsystem.execute_over(1, 0, &mut room[..bytes], brought).unwrap();
        let completion = posted(executed);
        assert_eq!(((completion.sct, completion.sc), left), (status, at_hand));
    }
    assert_eq!((room[..512] == [0; 512], room[512..] == [7; 512]), (true, true));
    assert_eq!(subsystem.read_blocks(1, 0, &mut room), Err(Refusal::MediumFault));
}

#[test]
fn a_room_that_is_refused_is_unchanged() {
    let mut room = [7; BLOCK];
    let mut memory = Subsystem::open(&config(&[1]), &[0; BLOCK]).unwrap();
    let mut over = Subsystem::open_brought(&config(&[1]), 1).unwrap();
    let brought = Brought { first: 1, blocks: 1, flushes: true };
    assert_eq!(memory.execute_over(1, 0, &mut room, Brought::default()), Err(Refusal::InMemory));
    assert_eq!(over.execute_over(1, 0, &mut room, brought), Err(Refusal::Outside));
    assert_eq!(over.execute_over(2, 0, &mut room, Brought::default()), Err(Refusal::NoController));
    assert_eq!(over.execute_over(1, 0, &mut room, Brought { first: 0, ..brought }), Ok((Executed::NoSuch, 1)));
    assert_eq!(room, [7; BLOCK]);
    assert_eq!(Subsystem::open_brought(&config(&[2]), 1).err(), Some(OpenError::DoesNotFit));
}
