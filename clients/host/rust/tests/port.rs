//! The driver over a controller in memory.

mod support;

use nvmehost::{Device, Fault, Mapped, Outcome, Port, Status, WINDOW};
use std::alloc::{alloc_zeroed, dealloc, Layout};
use std::time::Duration;
use support::{Controller, BLOCKS};

const SECOND: Duration = Duration::from_secs(1);

fn started() -> Port<Controller> {
    let mut port = Port::start(Controller::new()).unwrap();
    let asked = port.driver().ask(1).unwrap();
    port.answer(asked, SECOND).unwrap();
    port
}

/// 256 blocks that differ.
fn blocks() -> Vec<u8> {
    (0..131_072_u32).map(|it| (it / 512 + it) as u8).collect()
}

#[test]
fn what_is_written_is_read() {
    let (mut port, data) = (started(), blocks());
    assert_eq!((port.driver().controller().unwrap().mdts, port.driver().namespace(1)), (5, Ok(BLOCKS)));
    for (first, count) in [(0, 1), (10, 8), (100, 16), (200, 256), (BLOCKS - 1, 1)] {
        let own = &data[..512 * count as usize];
        let write = port.driver().write(1, first, own).unwrap();
        assert_eq!(port.answer(write, SECOND), Ok(&[][..]));
        let read = port.driver().read(1, first, count).unwrap();
        assert_eq!(port.answer(read, SECOND), Ok(own));
    }
    let same = port.driver().compare(1, 200, &data).unwrap();
    assert_eq!(port.answer(same, SECOND), Ok(&[][..]));
    let zeroes = port.driver().write_zeroes(1, 201, 1).unwrap();
    assert_eq!(port.answer(zeroes, SECOND), Ok(&[][..]));
    let differs = port.driver().compare(1, 200, &data).unwrap();
    assert_eq!(port.answer(differs, SECOND), Err(Fault::Answered(Status::COMPARE_FAILURE)));
    let flush = port.driver().flush(1).unwrap();
    assert_eq!(port.answer(flush, SECOND), Ok(&[][..]));
    assert_eq!(port.shutdown(), Ok(()));
}

#[test]
fn several_requests_wait() {
    let mut port = started();
    let tickets: Vec<_> = (0..7).map(|it| port.driver().read(1, it, 1).map(|ticket| (port.send(), ticket).1)).collect();
    assert_eq!(port.driver().read(1, 7, 1), Err(Fault::RingFull));
    port.device().wait();
    for ticket in tickets {
        let status = Status::SUCCESS;
        let done = Outcome::Done { ticket: ticket.unwrap(), status, dw0: 0, length: 512 };
        assert_eq!(port.poll(), Ok(Some(done)));
    }
    assert_eq!(port.poll(), Ok(None));
}

#[test]
fn what_the_controller_cannot_do_is_refused() {
    let mut port = started();
    assert_eq!(port.driver().read(1, BLOCKS, 1), Err(Fault::PastTheEnd));
    assert_eq!(port.driver().read(2, 0, 1), Err(Fault::NamespaceNotAsked));
    let asked = port.driver().ask(2).unwrap();
    port.answer(asked, SECOND).unwrap();
    assert_eq!((port.driver().read(2, 0, 1), port.driver().namespace(2)), (Err(Fault::NotThere), Err(Fault::NotThere)));
    let mut large = Controller::new();
    large.lbads = 12;
    let mut port = Port::start(large).unwrap();
    let asked = port.driver().ask(1).unwrap();
    port.answer(asked, SECOND).unwrap();
    assert_eq!(port.driver().read(1, 0, 1), Err(Fault::BlockSize));
    assert_eq!(Fault::BlockSize.to_string(), "its blocks do not have 512 bytes (LBADS)");
}

#[test]
fn an_expired_request_is_aborted_once() {
    let mut port = started();
    port.device().is_silent = true;
    let late = port.driver().read(1, 0, 1).unwrap();
    assert_eq!(port.answer(late, Duration::from_millis(5)), Err(Fault::NoAnswerInTime));
    assert_eq!(port.driver().read(1, 0, 1), Err(Fault::Expired));
    // Its late completion answers nothing after the reset.
    port.device().is_silent = false;
    port.device().wait();
    assert_eq!(port.reset(), Ok(()));
    assert_eq!(port.poll(), Ok(Some(Outcome::Aborted { ticket: late })));
    port.bring_up().unwrap();
    assert_eq!(port.poll(), Ok(None));
    for nsid in 0..2 {
        let asked = port.driver().ask(nsid).unwrap();
        port.answer(asked, SECOND).unwrap();
    }
    let read = port.driver().read(1, 0, 1).unwrap();
    assert_eq!(port.answer(read, SECOND), Ok(&[0; 512][..]));
}

#[test]
fn a_removed_controller_is_named() {
    let mut port = started();
    (port.device().is_removed, port.device().is_silent) = (true, true);
    let read = port.driver().read(1, 0, 1).unwrap();
    assert_eq!(port.answer(read, 30 * SECOND), Err(Fault::Removed));
    assert_eq!(port.driver().read(1, 0, 1), Err(Fault::Expired));
    assert_eq!(port.reset(), Err(Fault::Removed));
}

#[test]
fn a_mapped_device_has_bounds() {
    let layout = Layout::from_size_align(WINDOW + 4096, 4096).unwrap();
    let memory = unsafe { alloc_zeroed(layout) };
    let mut mapped = unsafe { Mapped::new(memory, memory.add(WINDOW), 4096) };
    mapped.store(WINDOW as u64 - 8, &[1, 2, 3, 4, 5, 6, 7, 8]);
    mapped.write32(4092, 9);
    let mut bytes = [0; 4];
    mapped.load(WINDOW as u64 - 4, &mut bytes);
    assert_eq!((bytes, mapped.read32(4092), mapped.read32(0)), ([5, 6, 7, 8], 9, 0));
    for (at, length) in [(WINDOW as u64 - 4, 8), (u64::MAX - 3, 4), (2, 4), (0, 3), (0, WINDOW + 4)] {
        let access = std::panic::AssertUnwindSafe(|| mapped.store(at, &vec![0; length]));
        assert!(std::panic::catch_unwind(access).is_err(), "{length} bytes at {at:#x}");
    }
    assert!(std::panic::catch_unwind(std::panic::AssertUnwindSafe(|| mapped.read32(4096))).is_err());
    unsafe { dealloc(memory, layout) }
}
