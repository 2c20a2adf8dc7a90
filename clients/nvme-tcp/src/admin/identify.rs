//! What Fabrics and Linux need in Identify, and the subsystem's own data leave out.

use crate::admin::access;
use crate::admin::events::{ACCESS_NOTICE, MOST_EVENTS, NAMESPACE_NOTICE};
use crate::admin::health::MOST_ERRORS;
use crate::admin::identity::Identity;
use crate::bytes::{put, u16_at, u32_at};
use crate::numbers::narrow;
use crate::nvme::{ENTRY, MOST_BLOCKS, MOST_ENTRIES, MOST_NAMESPACES};
use crate::transport::pdu::IN_CAPSULE;
use nvmesim::Namespace;

/// The size of a data structure of Identify.
pub const BYTES: usize = 4096;
/// Values of CNS.
pub const NAMESPACE: u8 = 0x00;
pub const CONTROLLER: u8 = 0x01;
pub const NAMESPACES: u8 = 0x02;
pub const DESCRIPTORS: u8 = 0x03;
/// Those of the NVM Command Set, of a namespace of any command set, of all that are configured, and of controllers.
pub const NVM_NAMESPACE: u8 = 0x05;
pub const NVM_CONTROLLER: u8 = 0x06;
pub const NVM_NAMESPACES: u8 = 0x07;
pub const ANY_NAMESPACE: u8 = 0x08;
pub const ALLOCATED_NAMESPACES: u8 = 0x10;
pub const ALLOCATED_NAMESPACE: u8 = 0x11;
pub const ATTACHED_CONTROLLERS: u8 = 0x12;
pub const CONTROLLERS: u8 = 0x13;

/// The size of a name, NQN, with its zeros.
pub const NAME: usize = 256;
/// CNTRLTYPE of a discovery controller.
const DISCOVERY: u8 = 2;
/// ONCS: Dataset Management, and the Save and Select fields of features.
const COMMANDS: u16 = 1 << 2 | 1 << 4;
/// The limit of Write Zeroes, as a power of two of pages: 65,536 blocks.
const ZEROES_LIMIT: u8 = 13;

/// Offsets of fields of Identify Controller.
mod controller_at {
    pub const SN: usize = 4;
    pub const MN: usize = 24;
    pub const FR: usize = 64;
    pub const CMIC: usize = 76;
    pub const MDTS: usize = 77;
    pub const CNTLID: usize = 78;
    pub const VER: usize = 80;
    pub const OAES: usize = 92;
    pub const CNTRLTYPE: usize = 111;
    pub const ACL: usize = 258;
    pub const AERL: usize = 259;
    pub const FRMW: usize = 260;
    pub const LPA: usize = 261;
    pub const ELPE: usize = 262;
    pub const KAS: usize = 320;
    pub const ANATT: usize = 342;
    pub const ANACAP: usize = 343;
    pub const ANAGRPMAX: usize = 344;
    pub const NANAGRPID: usize = 348;
    pub const MAXCMD: usize = 514;
    pub const ONCS: usize = 520;
    pub const VWC: usize = 525;
    pub const SGLS: usize = 536;
    pub const MNAN: usize = 540;
    pub const SUBNQN: usize = 768;
    pub const IOCCSZ: usize = 1792;
    pub const IORCSZ: usize = 1796;
    pub const MSDBD: usize = 1803;
    pub const OFCS: usize = 1804;
}

/// Offsets of fields of Identify Namespace. LBADS is that of LBA Format 0.
mod namespace_at {
    pub const NSZE: usize = 0;
    pub const NCAP: usize = 8;
    pub const NUSE: usize = 16;
    pub const NMIC: usize = 30;
    pub const RESCAP: usize = 31;
    pub const FPI: usize = 32;
    pub const DLFEAT: usize = 33;
    pub const ANAGRPID: usize = 92;
    pub const NSATTR: usize = 99;
    pub const LBADS: usize = 130;
}

/// What every Fabrics controller reports. Linux 6.1 does not connect without KAS and SGLS, and without MAXCMD it asks
/// for queues of 65,536 entries.
fn fabrics(told: &mut [u8], name: &str) {
    // KAS: the keep alive timer counts in seconds, tenths of which are its unit.
    put(told, controller_at::KAS, &10u16.to_le_bytes());
    put(told, controller_at::MAXCMD, &MOST_ENTRIES.to_le_bytes());
    // SGLS: SGLs without alignment, with offsets into the capsule, and for the transport.
    put(told, controller_at::SGLS, &(1u32 | 1 << 20 | 1 << 21).to_le_bytes());
    told[controller_at::SUBNQN..controller_at::SUBNQN + NAME].fill(0);
    put(told, controller_at::SUBNQN, name.as_bytes());
    // IOCCSZ, IORCSZ, in units of 16 bytes; MSDBD: one descriptor.
    put(told, controller_at::IOCCSZ, &narrow::<_, u32>((ENTRY + IN_CAPSULE) / 16).to_le_bytes());
    put(told, controller_at::IORCSZ, &1u32.to_le_bytes());
    told[controller_at::MSDBD] = 1;
}

/// Completes what the subsystem reports of a controller.
pub fn controller(told: &mut [u8], name: &str, identity: Identity, has_write_cache: bool) {
    fabrics(told, name);
    put(told, controller_at::SN, &identity.serial());
    let events = u32_at(told, controller_at::OAES) | NAMESPACE_NOTICE.mask | ACCESS_NOTICE.mask;
    put(told, controller_at::OAES, &events.to_le_bytes());
    // ACL: an Abort is answered at once, so four at a time are none too many; AERL.
    told[controller_at::ACL] = 3;
    told[controller_at::AERL] = narrow(MOST_EVENTS - 1);
    // FRMW: one slot, which is read-only. LPA: Log Page 05h, and offsets into pages. ELPE.
    told[controller_at::FRMW] = 1 << 1 | 1;
    told[controller_at::LPA] = 1 << 2 | 1 << 1;
    told[controller_at::ELPE] = narrow(MOST_ERRORS - 1);
    let commands = u16_at(told, controller_at::ONCS) | COMMANDS;
    put(told, controller_at::ONCS, &commands.to_le_bytes());
    // CMIC, ANATT, ANACAP, ANAGRPMAX, NANAGRPID and MNAN: Asymmetric Namespace Access, with one group.
    told[controller_at::CMIC] |= 1 << 3;
    told[controller_at::ANATT] = access::TRANSITION_SECONDS;
    told[controller_at::ANACAP] = access::CAPABILITIES;
    put(told, controller_at::ANAGRPMAX, &access::GROUP.to_le_bytes());
    put(told, controller_at::NANAGRPID, &access::GROUP.to_le_bytes());
    put(told, controller_at::MNAN, &MOST_NAMESPACES.to_le_bytes());
    // OFCS: Disconnect.
    put(told, controller_at::OFCS, &1u16.to_le_bytes());
    // VWC: an image's blocks are in the page cache of this machine until it is synced, so hosts have to flush, unless
    // each write is synced.
    told[controller_at::VWC] |= u8::from(has_write_cache);
}

/// A discovery controller.
pub fn discovery(cntlid: u16, name: &str, identity: Identity) -> Vec<u8> {
    let mut told = vec![0; BYTES];
    put(&mut told, controller_at::SN, &identity.serial());
    told[controller_at::MN..controller_at::FR].fill(b' ');
    put(&mut told, controller_at::MN, b"Multi-Host Subsystem");
    put(&mut told, controller_at::FR, b"1.0     ");
    told[controller_at::MDTS] = 5;
    put(&mut told, controller_at::CNTLID, &cntlid.to_le_bytes());
    put(&mut told, controller_at::VER, &0x0002_0000u32.to_le_bytes());
    told[controller_at::CNTRLTYPE] = DISCOVERY;
    // LPA: Get Log Page takes an offset.
    told[controller_at::LPA] = 1 << 2;
    fabrics(&mut told, name);
    told
}

/// Completes what the subsystem reports of a namespace.
pub fn namespace(told: &mut [u8]) {
    // DLFEAT: blocks that are deallocated read as zeros.
    told[namespace_at::DLFEAT] = 1;
    // ANAGRPID.
    put(told, namespace_at::ANAGRPID, &access::GROUP.to_le_bytes());
}

/// A configured namespace, attached or not: what the subsystem reports of an attached one.
pub fn allocated(it: &Namespace, is_protected: bool) -> Vec<u8> {
    let mut told = vec![0; BYTES];
    // NSZE, NCAP, NUSE; NMIC, RESCAP, NSATTR; LBADS.
    [namespace_at::NSZE, namespace_at::NCAP, namespace_at::NUSE]
        .into_iter()
        .for_each(|place| put(&mut told, place, &it.blocks.to_le_bytes()));
    put(&mut told, namespace_at::NMIC, &[it.shared.into(), 0xff]);
    told[namespace_at::NSATTR] = is_protected.into();
    told[namespace_at::LBADS] = 9;
    namespace(&mut told);
    told
}

/// The fields of a namespace that do not depend on the command set.
pub fn independent(told: &[u8]) -> Vec<u8> {
    let mut structure = vec![0; BYTES];
    // NSFEAT, NMIC, RESCAP, FPI, ANAGRPID, NSATTR, and NSTAT: it is ready.
    put(&mut structure, 0, &[0, told[namespace_at::NMIC], told[namespace_at::RESCAP], told[namespace_at::FPI]]);
    put(&mut structure, 4, &told[namespace_at::ANAGRPID..namespace_at::ANAGRPID + 4]);
    put(&mut structure, 8, &[told[namespace_at::NSATTR]]);
    structure[14] = 1;
    structure
}

/// The limits of commands of the NVM Command Set: WZSL, DMRSL and DMSL. A Dataset Management may have all 256 ranges.
pub fn limits() -> Vec<u8> {
    let mut told = vec![0; BYTES];
    told[1] = ZEROES_LIMIT;
    put(&mut told, 4, &narrow::<_, u32>(MOST_BLOCKS).to_le_bytes());
    put(&mut told, 8, &MOST_BLOCKS.to_le_bytes());
    told
}

/// The descriptors of a namespace: its UUID.
pub fn descriptors(identity: Identity, nsid: u32) -> Vec<u8> {
    const UUID: u8 = 3;
    let mut told = vec![0; BYTES];
    put(&mut told, 0, &[UUID, 16]);
    put(&mut told, 4, &identity.uuid(nsid));
    told
}
