//! Admin commands of a session, and what their answers may be.

use super::checker::check;
use super::queue::{Command, Completion, Lost, Pointer, Queue};
use super::{below, Session, CC, CSTS, ENABLE, KEEP_ALIVE};
use crate::world::{with, MILLISECOND};
use std::collections::BTreeMap;

/// Opcodes.
const ABORT: u8 = 0x08;
const EVENT_REQUEST: u8 = 0x0c;
const ATTACHMENT: u8 = 0x15;
/// Statuses, with their types in the third digit.
pub const SUCCESS: u16 = 0x00;
pub const INVALID_OPCODE: u16 = 0x01;
pub const INVALID_FIELD: u16 = 0x02;
pub const ID_CONFLICT: u16 = 0x03;
pub const DATA_TRANSFER: u16 = 0x04;
pub const INVALID_NAMESPACE: u16 = 0x0b;
pub const SEQUENCE: u16 = 0x0c;
pub const SGL_LENGTH: u16 = 0x0f;
pub const SGL_TYPE: u16 = 0x11;
pub const SGL_OFFSET: u16 = 0x16;
const EVENT_LIMIT: u16 = 0x105;
const ALREADY_ATTACHED: u16 = 0x118;
const NOT_ATTACHED: u16 = 0x11a;
/// A reservation of another host.
pub const CONFLICT: u16 = 0x83;
const LIST_INVALID: u16 = 0x11c;
/// Properties.
const CAP: u32 = 0x00;
const VS: u32 = 0x08;
/// The most Asynchronous Event Requests of a controller.
const MOST_REQUESTS: usize = 4;
/// Double word 0 of the events of changed namespaces, of changed access, and of reservations; and their log pages.
const EVENTS: [(u64, u8); 3] = [(0x04_0002, 0x04), (0x0c_0302, 0x0c), (0x80_0006, 0x80)];

/// What a host knows of its controller, from the time that it was enabled.
#[derive(Default)]
pub struct Known {
    /// Features as it has set them, by identifier and selector.
    pub features: BTreeMap<(u8, u32), u32>,
    /// The counters of SMART / Health Information, and the number of changes of access.
    pub health: Vec<u64>,
    pub access_changes: u64,
}

/// Double words 10 and following.
pub fn words(list: &[u32]) -> Vec<u8> {
    list.iter().flat_map(|it| it.to_le_bytes()).collect()
}

pub fn one_of<T: Copy>(list: &[T]) -> T {
    list[below(list.len())]
}

impl Session<'_> {
    /// An admin command chosen at random, whose answer is judged.
    pub fn administer(&mut self) -> Result<(), Lost> {
        self.take_events()?;
        match below(15) {
            0..=2 => self.identify(),
            3..=5 => self.read_log(),
            6..=9 => self.use_feature(),
            10..=11 => self.request_event(),
            12 => self.use_property(),
            13 => self.attach(),
            _ => self.send_wrong_admin(),
        }
    }

    /// Sends an admin command. Its answer counts as one of the run.
    pub fn ask(&mut self, command: &Command) -> Result<Completion, Lost> {
        check(|it| it.sent += 1);
        let completion = self.admin.call(command)?;
        check(|it| {
            it.answered += 1;
            *it.statuses.entry(completion.status).or_default() += 1;
        });
        Ok(completion)
    }

    /// The same, whose answer has one of these statuses.
    pub fn expect(&mut self, command: &Command, wanted: &[u16]) -> Result<Completion, Lost> {
        let completion = self.ask(command)?;
        let (status, length) = (completion.status, completion.data.len());
        if !wanted.contains(&status) {
            self.complain(&format!("{} has status {status:x}, not one of {wanted:x?}", described(command)));
        }
        if status != SUCCESS && length != 0 {
            self.complain(&format!("{} is refused, and has {length} bytes", described(command)));
        }
        Ok(completion)
    }

    /// What the target has answered is wrong.
    pub fn complain(&self, text: &str) {
        check(|it| it.violate(format!("path {}: {text}", self.path.cntlid)));
    }

    /// Asynchronous Event Requests: four are held, and no more.
    fn request_event(&mut self) -> Result<(), Lost> {
        let command = Command { opcode: EVENT_REQUEST, ..Command::default() };
        if self.admin.requests.len() < MOST_REQUESTS {
            check(|it| it.sent += 1);
            let cid = self.admin.send(&command)?;
            self.admin.requests.insert(cid);
            return Ok(());
        }
        match self.admin.requests.iter().next().copied() {
            Some(cid) if below(2) == 0 => self.send_twice(cid),
            _ => self.exceed_requests(&command),
        }
    }

    /// Keep Alive with the identifier of a request, which may have been answered by now.
    fn send_twice(&mut self, cid: u16) -> Result<(), Lost> {
        check(|it| it.sent += 1);
        self.admin.send(&Command { opcode: KEEP_ALIVE, cid: Some(cid), ..Command::default() })?;
        loop {
            let completion = self.admin.receive()?;
            match completion.status {
                SUCCESS if completion.value != 0 => self.take_event(completion),
                ID_CONFLICT if completion.cid == cid => return Ok(()),
                SUCCESS if completion.cid == cid && !self.admin.requests.contains(&cid) => return Ok(()),
                given => {
                    self.complain(&format!("a command with the identifier of an event request has status {given:x}"));
                    return Ok(());
                }
            }
        }
    }

    /// One request too many, unless an event has come meanwhile.
    fn exceed_requests(&mut self, command: &Command) -> Result<(), Lost> {
        check(|it| it.sent += 1);
        let cid = self.admin.send(command)?;
        self.admin.requests.insert(cid);
        let completion = self.admin.receive()?;
        match completion.status {
            SUCCESS => self.take_event(completion),
            EVENT_LIMIT if completion.cid == cid => drop(self.admin.requests.remove(&cid)),
            given => self.complain(&format!("one event request too many has status {given:x}")),
        }
        Ok(())
    }

    fn take_event(&mut self, completion: Completion) {
        if self.admin.requests.remove(&completion.cid) {
            self.admin.events.push(completion);
        } else {
            self.complain(&format!("an event answers command {}, which is no request", completion.cid));
        }
    }

    /// Reads the log pages of the events that have come, after which they come again.
    fn take_events(&mut self) -> Result<(), Lost> {
        for it in std::mem::take(&mut self.admin.events) {
            with(|world| *world.injected.entry("event").or_default() += 1);
            match EVENTS.iter().find(|(value, _)| *value == it.value) {
                Some((_, page)) => self.read_page_of_event(*page)?,
                None => {
                    self.complain(&format!("an event has status {:x} and double word 0 {:#x}", it.status, it.value));
                }
            }
        }
        Ok(())
    }

    /// Properties of the admin queue, right ones and wrong ones.
    fn use_property(&mut self) -> Result<(), Lost> {
        let offset = one_of(&[CAP, VS, CC, CSTS, 0x0c, 0x10, 0x20, 0x24, 0x28, 0x30, 0x38, 0x02, 0x1000, u32::MAX]);
        let (value, is_known) = match offset {
            VS => (Some(0x2_0000), true),
            CC => (Some(ENABLE), true),
            CSTS => (Some(1), true),
            _ => (None, offset == CAP),
        };
        if below(3) == 0 && offset != CC {
            let completion = self.admin.set_property(offset, ENABLE)?;
            return self.judge_property("Property Set", offset, &completion, false, None);
        }
        let completion = self.admin.property(offset)?;
        self.judge_property("Property Get", offset, &completion, is_known, value)
    }

    fn judge_property(
        &mut self,
        name: &str,
        offset: u32,
        completion: &Completion,
        is_known: bool,
        value: Option<u64>,
    ) -> Result<(), Lost> {
        let (status, given) = (completion.status, completion.value);
        if (status == SUCCESS) != is_known || is_known && value.map_or(given == 0, |it| it != given) {
            self.complain(&format!("{name} of {offset:#x} has status {status:x} and value {given:#x}"));
        }
        Ok(())
    }

    /// Detaches the namespace from the controller, and attaches it again.
    fn attach(&mut self) -> Result<(), Lost> {
        if self.path.habits.attaches && below(3) == 0 {
            self.expect(&attachment(1, 1, &[self.path.cntlid]), &[SUCCESS, NOT_ATTACHED, CONFLICT])?;
            self.rest(MILLISECOND * below(5) as u64)?;
        }
        let list = match below(6) {
            0 => vec![],
            1 => vec![self.path.cntlid, 200],
            2 => vec![self.path.cntlid; 2],
            _ => vec![self.path.cntlid],
        };
        let wanted = match list.len() {
            1 => [SUCCESS, ALREADY_ATTACHED, CONFLICT],
            _ => [LIST_INVALID, ALREADY_ATTACHED, CONFLICT],
        };
        self.expect(&attachment(0, 1, &list), &wanted)?;
        if list.len() != 1 {
            self.attach_own()?;
        }
        Ok(())
    }

    /// Undoes what another session may have left.
    pub fn restore(&mut self) -> Result<(), Lost> {
        if self.path.habits.attaches {
            self.attach_own()?;
        }
        if self.path.habits.protects {
            self.unprotect()?;
        }
        if self.path.habits.admin != 0 && below(2) == 0 {
            self.await_events()?;
            self.request_event()?;
        }
        Ok(())
    }

    /// Attaches the namespace to the controller.
    fn attach_own(&mut self) -> Result<(), Lost> {
        self.expect(&attachment(0, 1, &[self.path.cntlid]), &[SUCCESS, ALREADY_ATTACHED, CONFLICT]).map(|_| ())
    }

    /// Commands that are refused, and Abort, which aborts nothing.
    fn send_wrong_admin(&mut self) -> Result<(), Lost> {
        let page = |opcode| Command { opcode, words: words(&[0x03ff_0002, 0]), length: 4096, ..Command::default() };
        let pointer = |psdt, address, length, kind| Some(Pointer { psdt, address, length, kind });
        let (command, wanted) = match below(10) {
            0 => (Command { opcode: one_of(&[0, 1, 4, 5]), ..Command::default() }, INVALID_OPCODE),
            1 => (Command { opcode: one_of(&[0x0d, 0x10, 0x7e, 0x80, 0xc4]), ..Command::default() }, INVALID_OPCODE),
            2 => (Command { pointer: pointer(0, 0, 4096, 0x5a), ..page(0x02) }, INVALID_FIELD),
            3 => (Command { pointer: pointer(0x40, 0, 4096, 0x01), ..page(0x02) }, SGL_TYPE),
            4 => (Command { pointer: pointer(0x40, 0, 1 << 20, 0x5a), ..page(0x02) }, SGL_LENGTH),
            5 => (Command { pointer: pointer(0x40, 9_000, 64, 0x01), ..attachment(0, 1, &[1]) }, SGL_OFFSET),
            6 => (Command { pointer: pointer(0x40, 8, 4096, 0x01), ..attachment(0, 1, &[1]) }, SGL_LENGTH),
            7 => (attachment(one_of(&[2, 7]), 1, &[self.path.cntlid]), INVALID_FIELD),
            8 => (attachment(0, one_of(&[0, 77]), &[self.path.cntlid]), INVALID_NAMESPACE),
            _ => {
                let completion = self.expect(&Command { opcode: ABORT, ..Command::default() }, &[SUCCESS])?;
                if completion.value & 1 == 0 {
                    self.complain("an Abort has aborted a command");
                }
                return Ok(());
            }
        };
        self.expect(&command, &[wanted]).map(|_| ())
    }
}

/// A command before the controller is enabled.
pub fn be_early(admin: &mut Queue) -> Result<(), Lost> {
    let command = Command { opcode: 0x06, words: words(&[1]), length: 4096, ..Command::default() };
    let given = admin.call(&command)?.status;
    if given == SEQUENCE {
        return Ok(());
    }
    Err(Lost::Broken(format!("Identify of a controller that is not enabled has status {given:x}")))
}

/// A command without its data, for a message.
pub fn described(it: &Command) -> String {
    let Command { opcode, nsid, words, length, pointer, .. } = it;
    format!("opcode {opcode:#x} of namespace {nsid:#x}, words {words:x?}, length {length}, pointer {pointer:?}")
}

/// Namespace Attachment of controllers.
fn attachment(action: u32, nsid: u32, controllers: &[u16]) -> Command {
    let mut data = (controllers.len() as u16).to_le_bytes().to_vec();
    data.extend(controllers.iter().flat_map(|it| it.to_le_bytes()));
    data.resize(4096, 0);
    Command { opcode: ATTACHMENT, nsid, words: words(&[action]), data, ..Command::default() }
}
