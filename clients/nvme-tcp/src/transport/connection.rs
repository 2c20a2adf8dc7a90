//! A connection: bytes become PDUs, PDUs become commands, and their answers go back.

use crate::authentication::Done;
use crate::bytes::first;
use crate::control::counters::Closing;
use crate::control::log::warn;
use crate::fabrics::association::HostQueue;
use crate::fault::{Fault, Outcome};
use crate::numbers::narrow;
use crate::nvme::entry::SubmissionEntry;
use crate::nvme::status::{Status, SUCCESS, TRANSIENT_TRANSPORT};
use crate::nvme::FLUSH;
use crate::target::answer::{Answer, Payload};
use crate::target::controller::Data;
use crate::target::Target;
use crate::transport::input::{Input, Rooms};
use crate::transport::output::Output;
use crate::transport::pdu::{self, Fatal, HostData, Kind, Layout, COMMON};
use crate::transport::transfers::{Part, Transfers};
use nvmesim::capsules::{self, Capsule};
use nvmesim::connection::{Connection as Framing, Stage, Verdict};
use nvmesim::fabrics::Live;
use nvmesim::responses::Reply;
use std::io::{self, Read, Write};
use std::mem;
use std::net::{Shutdown, TcpStream};
use std::time::{Duration, Instant};

/// How long a connection may take until its Connect has succeeded.
const BEFORE_CONNECT: Duration = Duration::from_secs(5);
/// Time from Connect to the host's proof. Linux 6.12 takes up to 21 seconds until it has tested a large DH group.
const BEFORE_PROOF: Duration = Duration::from_secs(120);
/// How long a discovery controller waits for a command.
const DISCOVERY_IDLE: Duration = Duration::from_secs(120);
/// How long a connection that has ended waits for its host to close it.
const BEFORE_CLOSE: Duration = Duration::from_secs(1);
/// Buffer size for received bytes: the longest PDU, and short ones after it.
pub const ROOM: usize = pdu::MOST + (64 << 10);
/// A longer PDU counts as long. With the rest of one, at most this many bytes after it are received.
const LONG: usize = 32 << 10;
const BEHIND_LONG: usize = 4 << 10;
/// Limit of unsent answers: above it no further command of the host is executed.
const OUTPUT_FULL: usize = 128 << 10;

/// Why a PDU is not executed.
enum Stop {
    /// The host has broken the transport's rules: the connection ends.
    Fatal(Fatal),
    /// The target ends.
    Fault(Fault),
}

impl From<Fatal> for Stop {
    fn from(fatal: Fatal) -> Self {
        Stop::Fatal(fatal)
    }
}

impl From<Fault> for Stop {
    fn from(fault: Fault) -> Self {
        Stop::Fault(fault)
    }
}

/// A connection of a host.
pub struct Connection {
    pub socket: TcpStream,
    pub queue: HostQueue,
    /// Which of the bytes that came are which PDU. Each byte is given to it once, in order.
    framing: Framing,
    /// Whether it sends what is queued, and receives nothing more.
    is_ending: bool,
    transfers: Transfers,
    /// The bytes of the PDU in hand, and those that were received after them.
    input: Input,
    /// What to send.
    output: Output,
    /// Whether PDUs wait until the host has taken answers, and whether they wait until work of the disk ends.
    waits: bool,
    pub waits_for_disk: bool,
    /// When the connection is closed, unless something happens before.
    deadline: Option<Instant>,
    /// Whether it is gone.
    pub is_closed: bool,
    /// Why the target closes it, if it does.
    pub closing: Option<Closing>,
}

impl Connection {
    pub fn new(socket: TcpStream, queue: HostQueue, transfers: Transfers) -> Connection {
        Connection {
            socket,
            queue,
            framing: Framing::new(),
            is_ending: false,
            transfers,
            input: Input::default(),
            output: Output::default(),
            waits: false,
            waits_for_disk: false,
            deadline: Some(Instant::now() + BEFORE_CONNECT),
            is_closed: false,
            closing: None,
        }
    }

    pub fn is_late(&self, now: Instant) -> bool {
        self.deadline.map_or(false, |deadline| now > deadline)
    }

    /// Whether to receive more, and whether there is something to send.
    pub fn wants(&self) -> (bool, bool) {
        (self.is_ending || !self.is_full() && !self.waits_for_disk, self.output.len() != 0)
    }

    /// Whether PDUs can be taken that had to wait.
    pub fn has_more(&self, target: &Target<'_>) -> bool {
        (self.waits || self.waits_for_disk)
            && !self.is_full()
            && !self.is_closed
            && !self.is_busy(target, self.input.waiting())
    }

    /// Whether the disk can't take the next command of an I/O queue now.
    fn is_busy(&self, target: &Target<'_>, bytes: &[u8]) -> bool {
        let opcode = match (bytes.first(), bytes.get(COMMON)) {
            (Some(&pdu::COMMAND_CAPSULE), Some(opcode)) => *opcode,
            _ => FLUSH,
        };
        match self.queue.session.last() {
            Live::Queue { index, qid } => qid != 0 && target.is_busy(index.into(), opcode),
            _ => false,
        }
    }

    /// Whether answers wait that are long together.
    pub fn is_full(&self) -> bool {
        self.output.len() >= OUTPUT_FULL
    }

    /// Receives what has come, and takes all PDUs that are whole.
    pub fn receive(&mut self, target: &mut Target<'_>, rooms: &mut Rooms) -> Outcome<()> {
        let most = self.most_wanted();
        match self.input.fill(rooms, most, |room| self.socket.read(room)) {
            Ok(0) => self.is_closed = true,
            Ok(_) => (),
            Err(error) if is_passing(&error) => (),
            Err(_) => self.is_closed = true,
        }
        self.take_all(target)?;
        self.input.leave(rooms);
        Ok(())
    }

    /// Limit of bytes that wait after a receive: few after an incomplete long PDU, so that little of the next one has
    /// to be moved to the front.
    fn most_wanted(&self) -> usize {
        let length = self.input.unit().len() + self.framing.wanted();
        if length > self.input.waiting().len().max(LONG) {
            ROOM.min(length + BEHIND_LONG)
        } else {
            ROOM
        }
    }

    /// Takes complete PDUs while there is space for their answers.
    pub fn take_all(&mut self, target: &mut Target<'_>) -> Outcome<()> {
        let mut input = mem::take(&mut self.input);
        let result = self.take_from(target, &mut input);
        self.waits = self.is_full();
        if self.is_ending {
            input.clear();
        }
        self.input = input;
        result
    }

    fn take_from(&mut self, target: &mut Target<'_>, input: &mut Input) -> Outcome<()> {
        self.waits_for_disk = false;
        while !self.is_ending && !self.is_full() {
            if self.is_busy(target, input.waiting()) {
                self.waits_for_disk = true;
                break;
            }
            if !self.take_one(target, input)? {
                break;
            }
        }
        Ok(())
    }

    /// Takes the bytes of the PDU in hand, and executes it if it is complete then; whether it was whole.
    fn take_one(&mut self, target: &mut Target<'_>, input: &mut Input) -> Outcome<bool> {
        if input.fresh().is_empty() {
            return Ok(false);
        }
        let taken = self.framing.take(input.fresh());
        input.taken(taken.count);
        if let Some(fatal) = taken.breach {
            self.terminate(target, fatal);
        }
        let unit = input.unit();
        match self.verdict(unit) {
            Some(Verdict::Completes { layout, is_sound }) => match self.execute(target, &layout, is_sound, unit) {
                Err(Stop::Fatal(fatal)) => {
                    self.framing.refuse(fatal);
                    self.terminate(target, fatal);
                }
                Err(Stop::Fault(fault)) => return Err(fault),
                Ok(()) => (),
            },
            Some(Verdict::Breaks(fatal)) => self.terminate(target, fatal),
            None => return Ok(false),
        }
        input.drop_unit();
        Ok(true)
    }

    /// Judges the PDU in hand by its digests, if it is whole.
    fn verdict(&mut self, unit: &[u8]) -> Option<Verdict> {
        let layout = match self.framing.stage() {
            Stage::Whole => self.framing.layout()?,
            _ => return None,
        };
        self.framing.judge(pdu::has_right_header(&layout, unit), pdu::has_right_data(&layout, unit))
    }

    /// Executes a complete PDU.
    fn execute(&mut self, target: &mut Target<'_>, layout: &Layout, is_sound: bool, unit: &[u8]) -> Result<(), Stop> {
        match layout.kind {
            Kind::IcReq => pdu::ic_response(&mut self.output, *self.framing.agreed()),
            Kind::CapsuleCmd => self.capsule(target, layout, is_sound, unit)?,
            Kind::H2cData => self.host_data(target, layout, is_sound, unit)?,
            _ => {
                let status = Fatal::of(first(unit)).status;
                target.say(format_args!("a host ends its connection, with status {status}"));
                self.is_closed = true;
            }
        }
        Ok(())
    }

    /// A command. It is executed as soon as it has its data.
    fn capsule(&mut self, target: &mut Target<'_>, layout: &Layout, is_sound: bool, unit: &[u8]) -> Result<(), Stop> {
        let data = pdu::data_in(layout, unit);
        let capsule = Capsule { entry: *first(&unit[COMMON..]), data_length: narrow(data.len()), is_sound };
        let HostQueue { session, responses, .. } = &mut self.queue;
        let outcome = self.transfers.take_capsule(responses, session, &capsule);
        let entry = capsule.entry.into();
        match outcome {
            capsules::Outcome::Breaks(fatal) => return Err(fatal.into()),
            capsules::Outcome::Refused { sct, sc } => self.answer(target, &entry, Answer::of(Status { sct, sc }))?,
            capsules::Outcome::Waits(_) => self.request_data(),
            capsules::Outcome::Ready(capsules::Data::InCapsule(range)) => {
                self.carry_out(target, &entry, Data::ToController(&data[range]))?;
            }
            capsules::Outcome::Ready(capsules::Data::FromController(length)) => {
                self.carry_out(target, &entry, Data::FromController(length))?;
            }
        }
        Ok(())
    }

    /// Asks for data of commands that wait for them.
    fn request_data(&mut self) {
        while let Some(it) = self.transfers.next_request() {
            pdu::ready_to_transfer(&mut self.output, *self.framing.agreed(), it.cid, it.tag, it.length);
        }
    }

    fn host_data(&mut self, target: &mut Target<'_>, layout: &Layout, is_sound: bool, unit: &[u8]) -> Result<(), Stop> {
        let data = pdu::data_in(layout, unit);
        let length = narrow(data.len());
        let HostData { cid, tag, offset } = HostData::of(first(unit), length)?;
        let part = Part { cid, tag, offset, length, is_last: layout.is_last, is_sound };
        if let Some(transfer) = self.transfers.take(&part, data)? {
            let entry = transfer.entry().into();
            if transfer.is_sound() {
                self.carry_out(target, &entry, Data::ToController(transfer.data(data)))?;
            } else {
                self.answer(target, &entry, Answer::of(TRANSIENT_TRANSPORT))?;
            }
            self.transfers.give_back(transfer);
            self.request_data();
        }
        Ok(())
    }

    fn carry_out(&mut self, target: &mut Target<'_>, entry: &SubmissionEntry, data: Data<'_>) -> Outcome<()> {
        let before = self.queue.session.last();
        let answer = target.carry_out(&mut self.queue, entry, data)?;
        self.follow(target, before, answer.map(|answer| (*entry, answer)))
    }

    /// Takes the result of work for its host's authentication.
    pub fn finish_work(&mut self, target: &mut Target<'_>, done: Done) -> Outcome<()> {
        if self.is_ending {
            return Ok(());
        }
        let before = self.queue.session.last();
        let answer = target.finish_work(&mut self.queue, done)?;
        self.follow(target, before, answer)
    }

    /// Answers a command, if it has an answer, and follows changes of the queue, which was this before.
    fn follow(
        &mut self,
        target: &mut Target<'_>,
        before: Live,
        answer: Option<(SubmissionEntry, Answer)>,
    ) -> Outcome<()> {
        self.set_deadline(before, Instant::now);
        if let Some((entry, answer)) = answer {
            self.answer(target, &entry, answer)?;
        }
        if self.queue.is_over {
            self.end();
        }
        Ok(())
    }

    /// Sets the deadline after a command on a queue that was this before. Nothing extends the time of a proof.
    fn set_deadline(&mut self, before: Live, now: impl FnOnce() -> Instant) {
        self.deadline = match self.queue.session.last() {
            Live::Authenticating(_) if before == Live::NotConnected => Some(now() + BEFORE_PROOF),
            Live::NotConnected | Live::Authenticating(_) | Live::Ended => self.deadline,
            Live::Discovery => Some(now() + DISCOVERY_IDLE),
            Live::Queue { .. } => None,
        };
    }

    /// Answers a command: its data, and then its completion.
    pub fn answer(&mut self, target: &mut Target<'_>, entry: &SubmissionEntry, answer: Answer) -> Outcome<()> {
        let cid = entry.command_id();
        let completion = match self.completion(cid, &answer) {
            Some(completion) => completion,
            None => return Ok(()),
        };
        target.count(&self.queue, entry, answer.status);
        if answer.status != SUCCESS {
            target.say(format_args!("command {cid} has status {}", answer.status));
        }
        self.output.take_from(&mut target.buffers);
        let (out, agreed) = (&mut self.output, *self.framing.agreed());
        match answer.data {
            Payload::None => (),
            Payload::Bytes(bytes) => pdu::controller_data::<Fault>(out, agreed, cid, bytes.len(), |room| {
                room.copy_from_slice(&bytes);
                Ok(())
            })?,
            Payload::Memory { cntlid, address, length } => {
                pdu::controller_data(out, agreed, cid, length, |room| target.machine.load(cntlid, address, room))?;
            }
        }
        pdu::response(&mut self.output, agreed, &completion);
        Ok(())
    }

    /// The completion queue entry of an answer. There is none after a termination request; or if no such command waits:
    /// that is a fault of the target, which ends the connection, since its host could take the answer for another's.
    fn completion(&mut self, cid: u16, answer: &Answer) -> Option<[u8; 16]> {
        let Status { sct, sc } = answer.status;
        let completion = self.queue.responses.respond(&Reply { dw0: answer.dw0, dw1: answer.dw1, cid, sct, sc });
        if completion.is_none() && !self.queue.responses.has_ended() {
            warn(format_args!("an answer to command {cid}, which does not wait for one, ends its connection"));
            self.closing = Some(Closing::Fault);
            self.end();
        }
        completion
    }

    /// Sends the termination request, which repeats the beginning of the PDU at fault, and ends.
    fn terminate(&mut self, target: &Target<'_>, fatal: Fatal) {
        target.say(format_args!("a connection is ended: {fatal:?}"));
        self.closing = Some(Closing::Protocol);
        // Answers to commands precede it, and may be partly sent.
        pdu::termination(&mut self.output, fatal, self.framing.kept());
        self.queue.responses.stop();
        self.end();
    }

    /// Sends what is queued, receives nothing more, and waits a moment for the host to close the connection: if the
    /// target closed it while bytes of the host are in flight, its last answers would be lost.
    pub fn end(&mut self) {
        self.is_ending = true;
        self.queue.responses.end();
        self.transfers.end();
        self.deadline = Some(Instant::now() + BEFORE_CLOSE);
    }

    /// Sends as much as the system takes. A connection that has ended waits for the answers that are due.
    pub fn send(&mut self, target: &mut Target<'_>) {
        while self.output.len() != 0 && !self.is_closed {
            match self.socket.write(self.output.waiting()) {
                Ok(count) => self.output.sent(count),
                Err(error) if error.kind() == io::ErrorKind::Interrupted => (),
                Err(error) if is_passing(&error) => return,
                Err(_) => self.is_closed = true,
            }
        }
        self.output.leave_to(&mut target.buffers);
        let is_over = self.is_ending && !target.owes(self.queue.connection());
        if is_over && self.socket.shutdown(Shutdown::Write).is_err() {
            self.is_closed = true;
        }
    }
}

/// Whether an error of a socket only means that nothing can be done now.
pub fn is_passing(error: &io::Error) -> bool {
    matches!(error.kind(), io::ErrorKind::WouldBlock | io::ErrorKind::Interrupted)
}

#[cfg(test)]
mod tests {
    use super::*;
    use crate::nvme::ENTRY;
    use nvmesim::fabrics::{Fabrics, Judged};
    use std::net::TcpListener;

    fn connection() -> Connection {
        let listener = TcpListener::bind("127.0.0.1:0").unwrap();
        let address = listener.local_addr().unwrap();
        let queue = HostQueue::new(1, address, address);
        Connection::new(TcpStream::connect(address).unwrap(), queue, Transfers::new().unwrap())
    }

    #[test]
    fn an_answer_that_nobody_waits_for_ends_its_connection() {
        let (mut it, answer) = (connection(), Answer::of(SUCCESS));
        assert_eq!(it.queue.responses.accept(7), Ok(false));
        assert!(it.completion(7, &answer).is_some());
        assert!(!it.is_ending && it.closing.is_none());
        assert!(it.completion(7, &answer).is_none());
        assert!(it.is_ending && it.closing == Some(Closing::Fault));
        let mut it = connection();
        assert_eq!(it.queue.responses.accept(7), Ok(false));
        it.queue.responses.stop();
        assert!(it.completion(7, &answer).is_none(), "after a termination request");
        assert!(!it.is_ending && it.closing.is_none());
    }

    #[test]
    fn a_proof_has_two_minutes() {
        let mut it = connection();
        let start = Instant::now();
        let at = |seconds| start + Duration::from_secs(seconds);
        let mut fabrics = Fabrics::new(&[0xa1], true).unwrap();
        let (mut entry, mut data) = ([0; ENTRY], [0; 1024]);
        (entry[44], data[0], data[16], data[17], data[512]) = (31, 0xa1, 0xff, 0xff, b'h');
        assert!(fabrics.connect(&mut it.queue.session, &entry, &data, &Judged::default()).is_success());
        it.set_deadline(Live::NotConnected, || start);
        for seconds in [1, 60, 119] {
            it.set_deadline(Live::Authenticating(0), || at(seconds));
            assert!(!it.is_late(at(seconds)));
        }
        assert!(!it.is_late(at(120)) && it.is_late(at(121)));
        assert!(fabrics.authenticate(&mut it.queue.session, true, (0, 0)).is_success());
        it.set_deadline(Live::Authenticating(0), || at(119));
        assert!(!it.is_late(at(1_000_000)));
    }
}
