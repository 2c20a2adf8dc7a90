//! Queue entries, whose fields have the names of NVM Express Base, Submission Queue Entry.

use crate::bytes::{put, u16_at, u32_at, u64_at};
use crate::nvme::ENTRY;

/// Offsets of fields.
const COMMAND_ID: usize = 2;
const NAMESPACE_ID: usize = 4;
const PRP1: usize = 24;
const PRP2: usize = 32;
const CDW10: usize = 40;
const CDW11: usize = 44;
const CDW12: usize = 48;
const CDW14: usize = 56;

/// A command, as a submission queue or a capsule has it.
#[derive(Clone, Copy, Debug, PartialEq, Eq)]
#[repr(transparent)]
pub struct SubmissionEntry([u8; ENTRY]);

impl SubmissionEntry {
    /// A command whose other fields are 0.
    pub fn new(opcode: u8, command_id: u16, namespace_id: u32) -> SubmissionEntry {
        let mut bytes = [0; ENTRY];
        bytes[0] = opcode;
        put(&mut bytes, COMMAND_ID, &command_id.to_le_bytes());
        put(&mut bytes, NAMESPACE_ID, &namespace_id.to_le_bytes());
        SubmissionEntry(bytes)
    }

    /// This entry with CDW10 and CDW11.
    pub fn with(mut self, cdw10: u32, cdw11: u32) -> SubmissionEntry {
        put(&mut self.0, CDW10, &cdw10.to_le_bytes());
        put(&mut self.0, CDW11, &cdw11.to_le_bytes());
        self
    }

    /// Another command in the name of this one: no data, on blocks from `slba`, whose number is one more than `nlb`.
    pub fn on_blocks(&self, opcode: u8, slba: u64, nlb: u16) -> SubmissionEntry {
        let mut other = *self;
        other.0[0] = opcode;
        other.0[PRP1..].fill(0);
        other.at_blocks(slba, nlb)
    }

    /// The same command on blocks from `slba`, whose number is one more than `nlb`.
    pub fn at_blocks(mut self, slba: u64, nlb: u16) -> SubmissionEntry {
        put(&mut self.0, CDW10, &slba.to_le_bytes());
        put(&mut self.0, CDW12, &nlb.to_le_bytes());
        self
    }

    #[inline]
    pub fn bytes(&self) -> &[u8; ENTRY] {
        &self.0
    }

    #[inline]
    pub fn opcode(&self) -> u8 {
        self.0[0]
    }

    #[inline]
    pub fn set_opcode(&mut self, opcode: u8) {
        self.0[0] = opcode;
    }

    #[inline]
    pub fn command_id(&self) -> u16 {
        u16_at(&self.0, COMMAND_ID)
    }

    #[inline]
    pub fn namespace_id(&self) -> u32 {
        u32_at(&self.0, NAMESPACE_ID)
    }

    /// FCTYPE, which the commands of Fabrics have instead of a namespace.
    #[inline]
    pub fn fabrics_type(&self) -> u8 {
        self.0[NAMESPACE_ID]
    }

    #[inline]
    pub fn set_prps(&mut self, first: u64, second: u64) {
        put(&mut self.0, PRP1, &first.to_le_bytes());
        put(&mut self.0, PRP2, &second.to_le_bytes());
    }

    #[inline]
    pub fn cdw10(&self) -> u32 {
        u32_at(&self.0, CDW10)
    }

    #[inline]
    pub fn cdw11(&self) -> u32 {
        u32_at(&self.0, CDW11)
    }

    #[inline]
    pub fn cdw12(&self) -> u32 {
        u32_at(&self.0, CDW12)
    }

    #[inline]
    pub fn cdw14(&self) -> u32 {
        u32_at(&self.0, CDW14)
    }

    /// The lowest byte of CDW10: CNS, a feature, a log page, an action, or a number of ranges.
    #[inline]
    pub fn cdw10_low(&self) -> u8 {
        self.0[CDW10]
    }

    #[inline]
    pub fn set_cdw10_low(&mut self, value: u8) {
        self.0[CDW10] = value;
    }

    /// The upper half of CDW10: CNTID of Identify, NUMDL of Get Log Page.
    #[inline]
    pub fn cdw10_upper(&self) -> u16 {
        u16_at(&self.0, CDW10 + 2)
    }

    /// SPSP0, SPSP1 and SECP of Authentication Send and Receive.
    #[inline]
    pub fn security_protocol(&self) -> [u8; 3] {
        [self.0[CDW10 + 1], self.0[CDW10 + 2], self.0[CDW10 + 3]]
    }

    /// CATTR of Connect.
    #[inline]
    pub fn connect_attributes(&self) -> u8 {
        self.0[CDW11 + 2]
    }

    /// CSI of Identify.
    #[inline]
    pub fn identify_command_set(&self) -> u8 {
        self.0[CDW11 + 3]
    }

    /// CSI of Get Log Page.
    #[inline]
    pub fn log_command_set(&self) -> u8 {
        self.0[CDW14 + 3]
    }

    /// LPOL and LPOU of Get Log Page.
    #[inline]
    pub fn log_offset(&self) -> u64 {
        u64_at(&self.0, CDW12)
    }

    /// SLBA of a command on blocks.
    #[inline]
    pub fn slba(&self) -> u64 {
        u64_at(&self.0, CDW10)
    }

    /// NLB of a command on blocks: one less than their number.
    #[inline]
    pub fn nlb(&self) -> u16 {
        u16_at(&self.0, CDW12)
    }
}

impl From<[u8; ENTRY]> for SubmissionEntry {
    #[inline]
    fn from(bytes: [u8; ENTRY]) -> SubmissionEntry {
        SubmissionEntry(bytes)
    }
}

#[cfg(test)]
mod tests {
    use super::*;

    /// An entry in which each byte is its offset.
    fn counting() -> SubmissionEntry {
        let mut bytes = [0; ENTRY];
        bytes.iter_mut().zip(0..).for_each(|(byte, at)| *byte = at);
        bytes.into()
    }

    #[test]
    fn fields_are_where_the_standard_has_them() {
        let it = counting();
        assert_eq!((it.opcode(), it.command_id()), (0, 0x0302));
        assert_eq!((it.namespace_id(), it.fabrics_type()), (0x0706_0504, 4));
        assert_eq!((it.cdw10(), it.cdw11(), it.cdw12()), (0x2b2a_2928, 0x2f2e_2d2c, 0x3332_3130));
        assert_eq!((it.cdw14(), it.cdw10_low(), it.cdw10_upper()), (0x3b3a_3938, 0x28, 0x2b2a));
        assert_eq!((it.security_protocol(), it.connect_attributes()), ([41, 42, 43], 46));
        assert_eq!((it.identify_command_set(), it.log_command_set()), (47, 59));
        assert_eq!((it.log_offset(), it.slba()), (0x3736_3534_3332_3130, 0x2f2e_2d2c_2b2a_2928));
        assert_eq!(it.nlb(), 0x3130);
    }

    #[test]
    fn what_is_put_is_what_is_read() {
        let mut it = SubmissionEntry::new(0x7f, 0x1234, 9).with(10, 11);
        assert_eq!((it.opcode(), it.command_id(), it.namespace_id()), (0x7f, 0x1234, 9));
        assert_eq!((it.cdw10(), it.cdw11(), it.cdw12()), (10, 11, 0));
        it.set_prps(1 << 40, 7);
        let prps = |it: &SubmissionEntry| (u64_at(it.bytes(), PRP1), u64_at(it.bytes(), PRP2));
        assert_eq!(prps(&it), (1 << 40, 7));
        let other = it.on_blocks(8, 1 << 33, 255);
        assert_eq!((other.opcode(), other.command_id(), other.namespace_id()), (8, 0x1234, 9));
        assert_eq!((other.slba(), other.nlb(), prps(&other)), (1 << 33, 255, (0, 0)));
    }
}
