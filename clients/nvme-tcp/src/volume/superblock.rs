//! The superblock of a volume: one page in two copies, each with a digest. At least one copy is whole at any time.

use super::refusal::Refusal;
use crate::admin::identity::Identity;
use crate::bytes::{put, text_of, u16_at, u32_at, u64_at};
use crate::digest::crc32c;
use crate::numbers::narrow;
use crate::nvme::BLOCK;
use crate::storage::aligned::{Aligned, PAGE};
use std::fs::File;
use std::io;
use std::os::unix::fs::FileExt;
use std::time::Duration;

/// What each copy begins with, and what both do while the volume is made.
pub const MAGIC: &[u8; 16] = b"nvmetcp volume\n\0";
pub const HALF: &[u8; 16] = b"nvmetcp halfway\n";
/// The version of the format. Magic, version and digest are at the same places in all versions.
const VERSION: u32 = 1;
/// The places of the copies, of the journal, and of the blocks.
pub const COPIES: [u64; 2] = [0, 64 << 10];
pub const JOURNAL_AT: u64 = 128 << 10;
pub const BLOCKS_AT: u64 = 2 << 20;
/// The places of the fields in a copy.
const VERSION_AT: usize = 16;
const DIGEST_AT: usize = 20;
const UUID_AT: usize = 24;
const SIZE_AT: usize = 40;
const REVISION_AT: usize = 48;
const EPOCH_AT: usize = 56;
const LEASE_AT: usize = 64;
const LENGTH_AT: usize = 68;
const OWNER_AT: usize = 72;
const BOOT_AT: usize = 88;
const DEVICE_AT: usize = 104;
const INODE_AT: usize = 112;
const NAME_AT: usize = 120;
const NAME: usize = 120;
const CONFIGURATION_AT: usize = 256;

/// A target that has a volume.
#[derive(Clone, Debug, PartialEq, Eq)]
pub struct Owner {
    /// A number that no other target has drawn.
    pub(super) number: [u8; 16],
    /// The start of its machine, and device and inode of the volume there.
    pub(super) boot: [u8; 16],
    pub(super) place: (u64, u64),
    /// For messages.
    pub(super) name: String,
}

#[derive(Clone, Debug, PartialEq, Eq)]
pub struct Superblock {
    pub(super) identity: Identity,
    /// The bytes of the whole volume.
    pub(super) size: u64,
    /// How often it was written.
    pub(super) revision: u64,
    /// The number of targets that have taken the volume.
    pub(super) epoch: u64,
    /// How long a target may serve after it has read that it is the owner.
    pub(super) lease: Duration,
    /// The target that has the volume; nobody if the last one has ended in order.
    pub(super) owner: Option<Owner>,
    /// The lines that describe the subsystem.
    pub(super) configuration: String,
}

/// What the page of a copy is.
#[derive(Debug, PartialEq, Eq)]
enum Copy {
    Whole(Box<Superblock>),
    Newer(u32),
    Half,
    Damaged,
    None,
}

impl Superblock {
    /// How many blocks it has room for.
    pub fn blocks(&self) -> u64 {
        self.size.saturating_sub(BLOCKS_AT) / BLOCK
    }

    /// Its page. A longer configuration than there is room for is refused.
    fn page(&self) -> io::Result<Aligned> {
        let (mut page, lines) = (Aligned::zeros(PAGE), self.configuration.as_bytes());
        if lines.len() > PAGE - CONFIGURATION_AT {
            let text = format!("the configuration has {} bytes, and a volume has room for 3840", lines.len());
            return Err(io::Error::new(io::ErrorKind::InvalidInput, text));
        }
        put(&mut page, 0, MAGIC);
        put(&mut page, VERSION_AT, &VERSION.to_le_bytes());
        put(&mut page, UUID_AT, &self.identity.0);
        for (at, number) in [(SIZE_AT, self.size), (REVISION_AT, self.revision), (EPOCH_AT, self.epoch)] {
            put(&mut page, at, &number.to_le_bytes());
        }
        put(&mut page, LEASE_AT, &narrow::<_, u32>(self.lease.as_millis()).to_le_bytes());
        put(&mut page, LENGTH_AT, &narrow::<_, u16>(lines.len()).to_le_bytes());
        if let Some(Owner { number, boot, place, name }) = &self.owner {
            put(&mut page, OWNER_AT, number);
            put(&mut page, BOOT_AT, boot);
            put(&mut page, DEVICE_AT, &place.0.to_le_bytes());
            put(&mut page, INODE_AT, &place.1.to_le_bytes());
            put(&mut page, NAME_AT, &name.as_bytes()[..name.len().min(NAME - 1)]);
        }
        put(&mut page, CONFIGURATION_AT, lines);
        let digest = crc32c(&page);
        put(&mut page, DIGEST_AT, &digest.to_le_bytes());
        Ok(page)
    }

    /// The superblock of a page whose digest is right.
    fn of(page: &[u8]) -> Option<Superblock> {
        let number: [u8; 16] = sixteen_at(page, OWNER_AT);
        let name = || String::from_utf8_lossy(text_of(&page[NAME_AT..NAME_AT + NAME])).into_owned();
        let (boot, place) = (sixteen_at(page, BOOT_AT), (u64_at(page, DEVICE_AT), u64_at(page, INODE_AT)));
        let length = usize::from(u16_at(page, LENGTH_AT));
        let lines = page.get(CONFIGURATION_AT..CONFIGURATION_AT + length)?;
        Some(Superblock {
            identity: Identity(sixteen_at(page, UUID_AT)),
            size: u64_at(page, SIZE_AT),
            revision: u64_at(page, REVISION_AT),
            epoch: u64_at(page, EPOCH_AT),
            lease: Duration::from_millis(u32_at(page, LEASE_AT).into()),
            owner: (number != [0; 16]).then(|| Owner { number, boot, place, name: name() }),
            configuration: String::from_utf8(lines.to_vec()).ok()?,
        })
    }
}

fn sixteen_at(page: &[u8], at: usize) -> [u8; 16] {
    let mut bytes = [0; 16];
    bytes.copy_from_slice(&page[at..at + 16]);
    bytes
}

impl Copy {
    fn of(page: &[u8]) -> Copy {
        if page.starts_with(HALF) {
            return Copy::Half;
        }
        if !page.starts_with(MAGIC) {
            return Copy::None;
        }
        let mut without = page.to_vec();
        put(&mut without, DIGEST_AT, &[0; 4]);
        match u32_at(page, VERSION_AT) {
            _ if crc32c(&without) != u32_at(page, DIGEST_AT) => Copy::Damaged,
            VERSION => Superblock::of(page).map_or(Copy::Damaged, |it| Copy::Whole(Box::new(it))),
            version => Copy::Newer(version),
        }
    }
}

/// The superblock of two copies, and which of them are it.
#[derive(Debug, PartialEq, Eq)]
pub struct Chosen {
    pub(super) superblock: Superblock,
    pub(super) are_whole: [bool; 2],
}

/// Chooses the newest of two copies that is whole.
fn chosen(pages: [&[u8]; 2]) -> Result<Chosen, Refusal> {
    let copies = pages.map(Copy::of);
    let version = copies.iter().find_map(|it| if let Copy::Newer(version) = it { Some(*version) } else { None });
    if let Some(version) = version {
        return Err(Refusal::Newer(version));
    }
    if copies.contains(&Copy::Half) {
        return Err(Refusal::HalfMade);
    }
    let is_damaged = copies.contains(&Copy::Damaged);
    let whole = copies.iter().filter_map(|it| if let Copy::Whole(it) = it { Some(&**it) } else { None });
    let newest = whole.max_by_key(|it| it.revision).cloned();
    let superblock = newest.ok_or(if is_damaged { Refusal::Damaged } else { Refusal::NotVolume })?;
    let are_whole = copies.map(|it| matches!(it, Copy::Whole(it) if *it == superblock));
    Ok(Chosen { superblock, are_whole })
}

/// Reads both copies, by a file that is open with O_DIRECT.
pub fn read(file: &File) -> Result<Chosen, Refusal> {
    let mut pages = [Aligned::zeros(PAGE), Aligned::zeros(PAGE)];
    for (page, place) in pages.iter_mut().zip(COPIES) {
        file.read_exact_at(page, place).map_err(|error| match error.kind() {
            io::ErrorKind::UnexpectedEof => Refusal::NotVolume,
            _ => Refusal::System(error),
        })?;
    }
    chosen([&pages[0], &pages[1]])
}

/// Writes a superblock, one copy after the other: first one that is not whole.
pub fn write(file: &File, superblock: &Superblock, are_whole: [bool; 2]) -> io::Result<()> {
    let page = superblock.page()?;
    order(are_whole).into_iter().try_for_each(|place| write_page(file, place, &page))
}

/// The places of the copies in the order in which they are written: a copy that alone is whole comes last.
fn order(are_whole: [bool; 2]) -> [u64; 2] {
    if are_whole[0] {
        [COPIES[1], COPIES[0]]
    } else {
        COPIES
    }
}

/// Has a volume refused as half a volume until its superblock is written.
pub fn write_half(file: &File) -> io::Result<()> {
    let mut page = Aligned::zeros(PAGE);
    put(&mut page, 0, HALF);
    COPIES.into_iter().try_for_each(|place| write_page(file, place, &page))
}

fn write_page(file: &File, place: u64, page: &[u8]) -> io::Result<()> {
    file.write_all_at(page, place)?;
    file.sync_all()
}

#[cfg(test)]
mod tests {
    use super::*;

    fn superblock(revision: u64) -> Superblock {
        let name = "process 7 (nvmetcp) of machine m".to_owned();
        Superblock {
            identity: Identity([7; 16]),
            size: 4 << 20,
            revision,
            epoch: 3,
            lease: Duration::from_secs(4),
            owner: Some(Owner { number: [9; 16], boot: [8; 16], place: (1, 2), name }),
            configuration: "namespace 1 blocks 64 shared\n".to_owned(),
        }
    }

    #[test]
    fn pages_are_read() {
        for owner in [superblock(1).owner, None] {
            let it = Superblock { owner, ..superblock(1) };
            assert_eq!(Copy::of(&it.page().unwrap()), Copy::Whole(Box::new(it)));
        }
        assert_eq!(superblock(1).blocks(), 4096);
        let long = Superblock { configuration: "#".repeat(PAGE - CONFIGURATION_AT + 1), ..superblock(1) };
        assert!(long.page().is_err());
    }

    #[test]
    fn the_only_whole_copy_is_written_last() {
        assert_eq!(order([true, false]), [COPIES[1], COPIES[0]]);
        assert_eq!(order([false, true]), COPIES);
    }

    #[test]
    fn each_damage_is_noticed() {
        let page = superblock(1).page().unwrap();
        for at in 0..PAGE {
            let mut damaged = page.to_vec();
            damaged[at] ^= 1;
            let wanted = if at < MAGIC.len() { Copy::None } else { Copy::Damaged };
            assert_eq!(Copy::of(&damaged), wanted, "{at}");
        }
    }

    #[test]
    fn the_newest_whole_copy_is_chosen() {
        let pages = [1, 2].map(|it| superblock(it).page().unwrap());
        let torn = [&pages[1][..UUID_AT], &pages[0][UUID_AT..]].concat();
        for (given, revision, are_whole) in [
            ([&pages[0][..], &pages[1][..]], 2, [false, true]),
            ([&pages[1], &pages[1]], 2, [true, true]),
            ([&torn, &pages[0]], 1, [false, true]),
            ([&pages[0], &[0; PAGE]], 1, [true, false]),
        ] {
            assert_eq!(chosen(given), Ok(Chosen { superblock: superblock(revision), are_whole }));
        }
        assert_eq!(chosen([&torn, &torn]), Err(Refusal::Damaged));
        assert_eq!(chosen([&[0; PAGE], &[0; PAGE]]), Err(Refusal::NotVolume));
        let mut half = [0; PAGE];
        put(&mut half, 0, HALF);
        assert_eq!(chosen([&half, &pages[0]]), Err(Refusal::HalfMade));
        let mut newer = pages[0].to_vec();
        put(&mut newer, VERSION_AT, &2u32.to_le_bytes());
        put(&mut newer, DIGEST_AT, &[0; 4]);
        let digest = crc32c(&newer);
        put(&mut newer, DIGEST_AT, &digest.to_le_bytes());
        assert_eq!(chosen([&pages[0], &newer]), Err(Refusal::Newer(2)));
    }
}
