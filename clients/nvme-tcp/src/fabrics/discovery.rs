//! Discovery controllers, by which hosts find the subsystem. None of them is a controller of the subsystem.

use crate::admin::identify;
use crate::admin::pages;
use crate::bytes::put;
use crate::fabrics::association::HostQueue;
use crate::nvme::entry::SubmissionEntry;
use crate::nvme::status::{COMMAND_SEQUENCE, INVALID_FIELD, INVALID_LOG_PAGE, INVALID_OPCODE, SUCCESS};
use crate::nvme::{GET_LOG_PAGE, IDENTIFY, KEEP_ALIVE, MOST_ENTRIES};
use crate::target::answer::Answer;
use crate::target::controller::{Data, CAP, CC, ENABLE, VS};
use crate::target::Target;
use std::net::SocketAddr;

/// The name of every discovery subsystem.
pub const NAME: &str = "nqn.2014-08.org.nvmexpress.discovery";
/// The discovery log page, and the size of its head and of each entry.
const LOG_PAGE: u8 = 0x70;
const ENTRY_BYTES: usize = 1024;
/// CC.SHN, and CSTS.SHST of a controller that is shut down.
const SHUTDOWN: u32 = 3 << 14;
const SHUT_DOWN: u64 = 2 << 2;

/// The state of a discovery controller: its identifier, and its CC.
#[derive(Clone, Copy, Debug, Default)]
pub struct Discovery {
    cntlid: u16,
    pub(super) configuration: u32,
}

impl Discovery {
    /// One that a host has connected to.
    pub fn new(cntlid: u16) -> Discovery {
        Discovery { cntlid, configuration: 0 }
    }

    fn is_ready(self) -> bool {
        self.configuration & ENABLE != 0
    }

    /// The value of a property: CAP, VS, CC or CSTS.
    pub fn property(self, offset: u64) -> u64 {
        match offset {
            // MQES, CQR, TO: ten seconds, CSS: the NVM command set.
            CAP => u64::from(MOST_ENTRIES - 1) | 1 << 16 | 20 << 24 | 1 << 37,
            VS => 0x0002_0000,
            CC => self.configuration.into(),
            _ if self.configuration & SHUTDOWN != 0 => u64::from(self.is_ready()) | SHUT_DOWN,
            _ => self.is_ready().into(),
        }
    }
}

impl Target<'_> {
    /// Executes a command of a discovery controller.
    pub fn discover(&mut self, queue: &HostQueue, entry: &SubmissionEntry, data: Data<'_>) -> Answer {
        let discovery = queue.discovery;
        let length = match data {
            Data::FromController(length) => length,
            _ => 0,
        };
        if !discovery.is_ready() {
            return Answer::of(COMMAND_SEQUENCE);
        }
        match entry.opcode() {
            KEEP_ALIVE => Answer::of(SUCCESS),
            IDENTIFY if entry.cdw10_low() == identify::CONTROLLER => {
                Answer::with(identify::discovery(discovery.cntlid, NAME, self.identity), length)
            }
            IDENTIFY => Answer::of(INVALID_FIELD),
            GET_LOG_PAGE if entry.cdw10_low() == LOG_PAGE => {
                pages::part(&self.log(queue), entry, length).unwrap_or_else(Answer::of)
            }
            GET_LOG_PAGE => Answer::of(INVALID_LOG_PAGE),
            _ => Answer::of(INVALID_OPCODE),
        }
    }

    /// The discovery log page: one entry, the subsystem.
    fn log(&self, queue: &HostQueue) -> Vec<u8> {
        let mut page = vec![0; 2 * ENTRY_BYTES];
        // GENCTR, NUMREC.
        put(&mut page, 0, &1u64.to_le_bytes());
        put(&mut page, 8, &1u64.to_le_bytes());
        let address = self.settings.advertised.unwrap_or(queue.local);
        fill(&mut page[ENTRY_BYTES..], address, &self.settings.name);
        page
    }
}

/// Fills an entry: where a subsystem of this name is.
fn fill(entry: &mut [u8], address: SocketAddr, name: &str) {
    const TCP: u8 = 3;
    const NVM_SUBSYSTEM: u8 = 2;
    // TREQ: security not specified, and hosts may do without flow control.
    const TREQ: u8 = 1 << 2;
    let family = if address.is_ipv4() { 1 } else { 2 };
    put(entry, 0, &[TCP, family, NVM_SUBSYSTEM, TREQ]);
    // PORTID, CNTLID: any, ASQSZ.
    put(entry, 4, &1u16.to_le_bytes());
    put(entry, 6, &0xffffu16.to_le_bytes());
    put(entry, 8, &32u16.to_le_bytes());
    entry[32..64].fill(b' ');
    put(entry, 32, address.port().to_string().as_bytes());
    put(entry, 256, name.as_bytes());
    entry[512..768].fill(b' ');
    put(entry, 512, address.ip().to_string().as_bytes());
}
