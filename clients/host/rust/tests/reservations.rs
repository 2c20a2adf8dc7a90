//! Reservations, events and Abort over a controller in memory.

mod support;

use nvmehost::{
    AcquireAction, Device, Event, EventKind, Fault, Outcome, Persistence, Port, RegisterAction, ReleaseAction,
    ReservationType, Status, Ticket,
};
use std::time::Duration;
use support::Controller;

const SECOND: Duration = Duration::from_secs(1);
const HOST: [u8; 16] = *b"identifies it - ";

fn started() -> Port<Controller> {
    let mut port = Port::start(Controller::new()).unwrap();
    let asked = port.driver().ask(1).unwrap();
    port.answer(asked, SECOND).unwrap();
    port
}

/// How a request was answered.
fn ended(port: &mut Port<Controller>, ticket: Result<Ticket, Fault>) -> Result<(), Fault> {
    port.answer(ticket?, SECOND).map(|_| ())
}

/// The type of the reservation, the key of the registrant, if there is one, and whether both outlast power.
fn reported(port: &mut Port<Controller>) -> (u8, Option<u64>, bool) {
    let report = port.driver().report(1, 32).unwrap();
    let bytes = port.answer(report, SECOND).unwrap();
    assert_eq!((bytes.len(), &bytes[80..96]), (128, &HOST[..]));
    let key = u64::from_le_bytes(bytes[72..80].try_into().unwrap());
    (bytes[4], (bytes[5] == 1).then_some(key), bytes[9] == 1)
}

#[test]
fn a_namespace_is_reserved() {
    let (mut port, kind) = (started(), ReservationType::WriteExclusiveRegistrants);
    let new = RegisterAction::Register(7);
    assert_eq!(port.driver().register(1, new, Persistence::Kept), Err(Fault::NoHostIdentifier));
    assert_eq!(port.driver().acquire(1, AcquireAction::Acquire, kind, 7), Err(Fault::NoHostIdentifier));
    assert_eq!(port.driver().release(1, ReleaseAction::Clear, 7), Err(Fault::NoHostIdentifier));
    let known = port.driver().set_host_identifier(&HOST);
    assert_eq!(ended(&mut port, known), Ok(()));
    assert_eq!(reported(&mut port), (0, None, false));
    let ticket = port.driver().register(1, new, Persistence::Kept);
    assert_eq!(ended(&mut port, ticket), Ok(()));
    let ticket = port.driver().acquire(1, AcquireAction::Acquire, kind, 8);
    assert_eq!(ended(&mut port, ticket), Err(Fault::Answered(Status::RESERVATION_CONFLICT)));
    let ticket = port.driver().acquire(1, AcquireAction::Acquire, kind, 7);
    assert_eq!(ended(&mut port, ticket), Ok(()));
    assert_eq!(reported(&mut port), (3, Some(7), true));
    let ticket = port.driver().register(1, RegisterAction::Replace(Some(8), 9), Persistence::Unchanged);
    assert_eq!(ended(&mut port, ticket), Err(Fault::Answered(Status::RESERVATION_CONFLICT)));
    let ticket = port.driver().register(1, RegisterAction::Replace(None, 9), Persistence::Unchanged);
    assert_eq!(ended(&mut port, ticket), Ok(()));
    assert_eq!(reported(&mut port), (3, Some(9), true));
    let ticket = port.driver().release(1, ReleaseAction::Release(kind), 9);
    assert_eq!(ended(&mut port, ticket), Ok(()));
    assert_eq!(reported(&mut port), (0, Some(9), true));
    let ticket = port.driver().register(1, RegisterAction::Unregister(Some(9)), Persistence::Cleared);
    assert_eq!(ended(&mut port, ticket), Ok(()));
    assert_eq!(reported(&mut port), (0, None, false));
    let ticket = port.driver().release(1, ReleaseAction::Clear, 9);
    assert_eq!(ended(&mut port, ticket), Err(Fault::Answered(Status::RESERVATION_CONFLICT)));
    let ticket = port.driver().register(1, new, Persistence::Unchanged);
    assert_eq!(ended(&mut port, ticket), Ok(()));
    let ticket = port.driver().release(1, ReleaseAction::Clear, 7);
    assert_eq!(ended(&mut port, ticket), Ok(()));
    assert_eq!(reported(&mut port), (0, None, false));
    assert_eq!(port.driver().report(1, 0), Err(Fault::BadRequest));
}

#[test]
fn a_reset_forgets_the_host() {
    let mut port = started();
    let known = port.driver().set_host_identifier(&HOST);
    assert_eq!(ended(&mut port, known), Ok(()));
    port.reset().unwrap();
    port.bring_up().unwrap();
    for nsid in 0..2 {
        let asked = port.driver().ask(nsid).unwrap();
        port.answer(asked, SECOND).unwrap();
    }
    assert_eq!(port.driver().release(1, ReleaseAction::Clear, 7), Err(Fault::NoHostIdentifier));
    assert_eq!(Fault::NoHostIdentifier.to_string(), "the controller does not have the identifier of this host");
}

#[test]
fn an_event_is_awaited() {
    let mut port = started();
    let configured = port.driver().configure_events(0x8000_01ff);
    assert_eq!(ended(&mut port, configured), Ok(()));
    assert_eq!(port.device().events, 0x8000_01ff);
    let ticket = port.driver().await_event().unwrap();
    port.send().unwrap();
    port.device().wait();
    assert_eq!(port.poll(), Ok(None));
    port.device().raise(0x80_00_06);
    let done = Outcome::Done { ticket, status: Status::SUCCESS, dw0: 0x80_00_06, length: 0 };
    assert_eq!(port.poll(), Ok(Some(done)));
    assert_eq!(port.poll(), Ok(None));
    let event = Event::new(0x80_00_06);
    assert_eq!(event, Event { kind: EventKind::Reservation, event_type: 6, info: 0, log_page: 0x80 });
    let log = port.driver().log(u32::MAX, event.log_page, false, 16).unwrap();
    assert_eq!(port.answer(log, SECOND), Ok(&[0x80; 64][..]));
    assert_eq!(port.driver().log(0, 2, true, 0), Err(Fault::BadRequest));
    let kinds = [0x01_00_00, 0x02_01_01, 0x04_00_02, 0x03_01_02, 0x81_01_06, 0x07].map(|it| Event::new(it).kind);
    let wanted = [
        EventKind::Error,
        EventKind::Health,
        EventKind::Namespaces,
        EventKind::Firmware,
        EventKind::Sanitize,
        EventKind::Other,
    ];
    assert_eq!(kinds, wanted);
}

#[test]
fn a_request_is_aborted_once() {
    let mut port = started();
    assert_eq!(port.driver().abort(Ticket(1000)), Err(Fault::NotWaiting));
    let awaited = port.driver().await_event().unwrap();
    port.send().unwrap();
    let abort = port.driver().abort(awaited).unwrap();
    port.send().unwrap();
    port.device().wait();
    let done = |ticket, status| Ok(Some(Outcome::Done { ticket, status, dw0: 0, length: 0 }));
    assert_eq!(port.poll(), done(awaited, Status::ABORT_REQUESTED));
    assert_eq!(port.poll(), done(abort, Status::SUCCESS));
    assert_eq!(port.poll(), Ok(None));
    assert_eq!(port.driver().abort(awaited), Err(Fault::NotWaiting));
}

#[test]
fn types_have_the_numbers_of_the_standard() {
    let types = [
        ReservationType::WriteExclusive,
        ReservationType::ExclusiveAccess,
        ReservationType::WriteExclusiveRegistrants,
        ReservationType::ExclusiveAccessRegistrants,
        ReservationType::WriteExclusiveAll,
        ReservationType::ExclusiveAccessAll,
    ];
    assert_eq!(types.map(ReservationType::number), [1, 2, 3, 4, 5, 6]);
}
