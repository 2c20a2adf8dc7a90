//! Tests over the library itself.

use nvmesim::{
    status_name, Attachment, Completed, Config, Controller, Executed, Fetched, Holder, Namespace, Need, OpenError,
    Placed, Refusal, Registrant, Subsystem,
};

fn config() -> Config {
    Config {
        controllers: vec![Controller::new(1, 0xa1), Controller::new(2, u128::MAX)],
        namespaces: vec![Namespace { blocks: 4, nsid: 1, shared: true }],
        attached: vec![Attachment { nsid: 1, cntlid: 1 }, Attachment { nsid: 1, cntlid: 2 }],
    }
}

fn fault(change: impl FnOnce(&mut Config)) -> Option<OpenError> {
    let mut config = config();
    change(&mut config);
    Subsystem::open(&config, &[0; 4 * 512]).err()
}

#[test]
fn a_faulty_configuration_is_refused_by_its_first_fault() {
    assert_eq!(fault(|_| ()), None);
    assert_eq!(fault(|it| it.controllers[0] = Controller::new(1, 0)), Some(OpenError::BadId));
    assert_eq!(fault(|it| it.controllers.swap(0, 1)), Some(OpenError::BadId));
    assert_eq!(fault(|it| it.namespaces[0].blocks = 0), Some(OpenError::BadSize));
    assert_eq!(fault(|it| it.namespaces[0].blocks = 5), Some(OpenError::DoesNotFit));
    assert_eq!(fault(|it| it.attached = vec![it.attached[0]; 129]), Some(OpenError::TooMany));
}

#[test]
fn a_refusal_changes_nothing() {
    let mut subsystem = Subsystem::open(&config(), &[9; 4 * 512]).unwrap();
    let mut bytes = [7; 1024];
    assert_eq!(subsystem.store(3, 0, &[1]), Err(Refusal::NoController));
    assert_eq!(subsystem.store(1, 4_194_303, &[1, 1]), Err(Refusal::Outside));
    assert_eq!(subsystem.store(1, 4_194_304, &[]), Ok(()));
    assert_eq!(subsystem.load(1, u64::MAX, &mut bytes), Err(Refusal::Outside));
    assert_eq!(subsystem.read_blocks(1, 3, &mut bytes), Err(Refusal::Outside));
    assert_eq!(subsystem.read_blocks(1, 0, &mut bytes[..511]), Err(Refusal::NotWhole));
    assert_eq!(bytes, [7; 1024]);
    assert_eq!(subsystem.read_blocks(1, 2, &mut bytes), Ok(()));
    assert_eq!(bytes, [9; 1024]);
    assert_eq!(subsystem.execute(1, 0), Ok(Executed::NoSuch));
    subsystem.power_cycle();
    assert_eq!(subsystem.read32(2, 0x1c), Ok(0));
}

#[test]
fn threads_take_turns() {
    let subsystem = std::sync::Mutex::new(Subsystem::open(&config(), &[0; 4 * 512]).unwrap());
    std::thread::scope(|threads| {
        for cntlid in [1, 2] {
            let subsystem = &subsystem;
            threads.spawn(move || {
                up(&mut subsystem.lock().unwrap(), cntlid);
                for k in 0..200 {
                    let mut held = subsystem.lock().unwrap();
                    held.store(cntlid, 0x10000, &[cntlid as u8; 512]).unwrap();
                    let write = entry(1, 1, 0x10000, k % 4, 0);
                    assert!(held.submit(cntlid, 1, &write).unwrap().0.is_success());
                }
            });
        }
    });
    let mut block = [0; 512];
    subsystem.lock().unwrap().read_blocks(1, 0, &mut block).unwrap();
    assert!(block == [1; 512] || block == [2; 512]);
}

#[test]
fn borrowed_bytes_are_returned() {
    let mut bytes = vec![5; 4 * 512];
    let mut subsystem = Subsystem::open_lent(&config(), &mut bytes).unwrap();
    let mut read = [0; 512];
    subsystem.read_blocks(1, 3, &mut read).unwrap();
    drop(subsystem);
    bytes[0] = 6;
    assert_eq!((read, bytes[0], bytes[2047]), ([5; 512], 6, 5));
}

const LAST: u32 = 15;

/// A submission queue entry of these fields.
fn entry(opcode: u8, nsid: u32, prp1: u64, dw10: u32, dw11: u32) -> [u8; 64] {
    let mut bytes = [0; 64];
    bytes[0] = opcode;
    bytes[4..8].copy_from_slice(&nsid.to_le_bytes());
    bytes[24..32].copy_from_slice(&prp1.to_le_bytes());
    bytes[40..44].copy_from_slice(&dw10.to_le_bytes());
    bytes[44..48].copy_from_slice(&dw11.to_le_bytes());
    bytes
}

/// Enables a controller, and creates a pair of I/O queues.
fn up(subsystem: &mut Subsystem, cntlid: u16) {
    for (offset, value) in [(0x24, LAST << 16 | LAST), (0x28, 0), (0x30, 0x1000), (0x14, 0x0046_0001)] {
        subsystem.write32(cntlid, offset, value).unwrap();
    }
    for made in [entry(5, 0, 0x3000, LAST << 16 | 1, 1), entry(1, 0, 0x2000, LAST << 16 | 1, 1 << 16 | 1)] {
        assert!(subsystem.submit(cntlid, 0, &made).unwrap().0.is_success());
    }
}

#[test]
fn a_command_in_one_call() {
    let mut subsystem = Subsystem::open(&config(), &[0; 4 * 512]).unwrap();
    let write = entry(1, 1, 0x10000, 3, 0);
    assert_eq!(subsystem.submit(1, 0, &write), Err(Refusal::NotReady));
    up(&mut subsystem, 1);
    assert_eq!(subsystem.submit(1, 2, &write), Err(Refusal::NoQueue));
    subsystem.store(1, 0x10000, &[0x5a; 512]).unwrap();
    let (completion, bytes) = subsystem.submit(1, 1, &write).unwrap();
    assert!(completion.is_success() && completion.name() == "Successful Completion");
    assert_eq!((bytes[8], bytes[10], bytes[14]), (1, 1, 1));
    let mut block = [0; 512];
    subsystem.read_blocks(1, 3, &mut block).unwrap();
    assert_eq!(block, [0x5a; 512]);
    let (tail, head) = (subsystem.submission_queue(1, 1).unwrap().tail, subsystem.completion_queue(1, 1).unwrap().head);
    assert_eq!((tail, head), (1, 1));
    assert_eq!(subsystem.submission_queue(1, 4), Err(Refusal::NoQueue));
    subsystem.write32(1, 0x1008, 2).unwrap();
    assert_eq!(subsystem.submit(1, 1, &write), Err(Refusal::Busy));
    subsystem.fetch(1, 1).unwrap();
    let fetched = subsystem.fetched(1).unwrap();
    assert_eq!((fetched.len(), fetched[0].qid, fetched[0].marked), (1, 1, false));
    assert_eq!(subsystem.fetched(2), Ok(vec![]));
    assert_eq!(subsystem.fetched(3), Err(Refusal::NoController));
}

#[test]
fn a_command_in_two_calls() {
    let mut subsystem = Subsystem::open(&config(), &[0; 4 * 512]).unwrap();
    up(&mut subsystem, 1);
    let (first, second) = (entry(1, 1, 0x10000, 3, 0), entry(1, 1, 0x11000, 2, 0));
    assert_eq!(subsystem.place(1, 1, &first, 0x2000, &[0]), Err(Refusal::Overlaps));
    let placed = subsystem.place(1, 1, &first, 0x10000, &[0x5a; 512]);
    assert_eq!(placed, Ok(Placed { entry_at: 0x2000, index: 0, tail: 1 }));
    assert_eq!(subsystem.place(1, 1, &second, 0x11000, &[0x5b; 512]).map(|it| it.index), Ok(1));
    let completed = subsystem.complete(1, 1).unwrap();
    assert!(matches!(completed.executed, Executed::Posted(it) if it.is_success()));
    assert_eq!((completed.cqid, completed.head, completed.entry[8], completed.entry[14]), (1, 1, 2, 1));
    let none = Completed { executed: Executed::NoSuch, entry: [0; 16], head: 0, cqid: 0 };
    assert_eq!((subsystem.complete(1, 1), subsystem.complete(3, 0)), (Ok(none), Err(Refusal::NoController)));
    assert_eq!(subsystem.complete(1, 0).map(|it| it.head), Ok(2));
    let mut blocks = [0; 1024];
    subsystem.read_blocks(1, 2, &mut blocks).unwrap();
    assert_eq!((blocks[0], blocks[1023]), (0x5b, 0x5a));
}

#[test]
fn a_need_is_known_before_its_execution() {
    let mut subsystem = Subsystem::open(&config(), &[0; 4 * 512]).unwrap();
    up(&mut subsystem, 1);
    let wanted = [
        (0x00, Need::Flush),
        (0x01, Need::Write { first: 3, blocks: 1 }),
        (0x02, Need::Read { first: 3, blocks: 1 }),
        (0x05, Need::Read { first: 3, blocks: 1 }),
        (0x08, Need::Zero { first: 3, blocks: 1 }),
        (0x7f, Need::Nothing),
    ];
    for (slot, (opcode, _)) in wanted.iter().enumerate() {
        subsystem.store(1, 0x2000 + 64 * slot as u64, &entry(*opcode, 1, 0x10000, 3, 0)).unwrap();
    }
    subsystem.write32(1, 0x1008, wanted.len() as u32).unwrap();
    for (place, (_, need)) in wanted.into_iter().enumerate() {
        assert_eq!(subsystem.need(1, place), Ok(None));
        assert_eq!(subsystem.fetch(1, 1), Ok(Fetched::Took));
        assert_eq!(subsystem.need(1, place), Ok(Some(need)));
    }
    assert_eq!(subsystem.need(3, 0), Err(Refusal::NoController));
}

#[test]
fn borrowed_bytes_are_seen() {
    let mut blocks = vec![0; 4 * 512];
    let mut subsystem = Subsystem::open_lent(&config(), &mut blocks).unwrap();
    up(&mut subsystem, 1);
    subsystem.store(1, 0x10000, &[0x5a; 512]).unwrap();
    assert_eq!(subsystem.bytes(3 * 512, 512), Some(&[0; 512][..]));
    assert!(subsystem.submit(1, 1, &entry(1, 1, 0x10000, 3, 0)).unwrap().0.is_success());
    assert_eq!(subsystem.bytes(3 * 512, 512), Some(&[0x5a; 512][..]));
    assert_eq!(subsystem.bytes(0, 2048).map(|it| it[1535..1537].to_vec()), Some(vec![0, 0x5a]));
    for (place, count) in [(0, 2049), (2049, 0), (2048, 1), (usize::MAX, 1), (1, usize::MAX)] {
        assert_eq!(subsystem.bytes(place, count), None);
    }
    assert_eq!(Subsystem::open(&config(), &[0; 4 * 512]).unwrap().bytes(0, 1), None);
}

#[test]
fn a_reservation_is_seen() {
    let mut subsystem = Subsystem::open(&config(), &[0; 4 * 512]).unwrap();
    assert!(subsystem.is_attached(2, 1) && !subsystem.is_attached(2, 2));
    assert_eq!(subsystem.reservation(2), Err(Refusal::NoNamespace));
    assert_eq!(subsystem.reservation(1).unwrap().holder, Holder::Nobody);
    up(&mut subsystem, 2);
    let keys: Vec<u8> = [0_u64, 0x22, 0x22, 0].iter().flat_map(|it| it.to_le_bytes()).collect();
    subsystem.store(2, 0x10000, &keys).unwrap();
    assert!(subsystem.submit(2, 1, &entry(0x0d, 1, 0x10000, 0, 0)).unwrap().0.is_success());
    assert!(subsystem.submit(2, 1, &entry(0x11, 1, 0x10010, 6 << 8, 0)).unwrap().0.is_success());
    let seen = subsystem.reservation(1).unwrap();
    assert_eq!(seen.holder, Holder::EachRegistrant(6));
    assert_eq!(seen.registrants, [Registrant { host: u128::MAX, key: 0x22 }]);
    assert_eq!((seen.generation, seen.ptpl), (1, false));
    assert_eq!(status_name(7, 7), "Unlisted");
}

#[test]
fn a_hint_changes_nothing() {
    let mut bytes = vec![7; 4 * 512];
    let subsystem = Subsystem::open_lent(&config(), &mut bytes).unwrap();
    for (place, count) in [(0, 2048), (2047, 4096), (2048, 1), (usize::MAX, usize::MAX), (0, 0)] {
        subsystem.prefetch(place, count);
    }
    drop(subsystem);
    assert_eq!(bytes, [7; 4 * 512]);
    Subsystem::open(&config(), &bytes).unwrap().prefetch(0, 512);
}
