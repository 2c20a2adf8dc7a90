//! Makes volumes: `nvmetcp format` and `nvmetcp copy`. A volume is refused until all of it is there.

use super::content::Content;
use super::lease::LEASE;
use super::log;
use super::refusal::Refusal;
use super::superblock::{self, Superblock, BLOCKS_AT, JOURNAL_AT};
use super::{is_device, open_direct};
use crate::admin::identity::Identity;
use crate::configuration::Configuration;
use crate::files::locking::Lock;
use crate::numbers::{to_u64, to_usize};
use crate::nvme::BLOCK;
use crate::storage::aligned::{Aligned, PAGE};
use crate::storage::options::Options;
use crate::storage::Image;
use std::fs;
use std::io::{self, ErrorKind};
use std::os::unix::fs::{FileExt, MetadataExt};
use std::path::Path;
use std::time::Duration;

/// How many bytes are read and written at a time.
const PIECE: usize = 1 << 20;
/// The bytes of a block device that are looked at: its beginning and its end, where others keep what they need.
const LOOKED_AT: u64 = 16 << 20;
const LOOKED_AT_END: u64 = 1 << 20;

/// How a file becomes a volume.
#[derive(Clone, Copy, Default)]
pub struct How {
    /// Whether what is there is overwritten.
    pub(super) replaces: bool,
    /// Whether locks that others hold are waited for.
    pub(super) waits: bool,
    pub(super) size: Option<u64>,
    /// How long its lease is.
    pub(super) lease: Option<Duration>,
}

/// Makes a volume with a configuration; what it prints.
pub fn format(path: &Path, configuration: &Configuration, how: How) -> Result<String, Refusal> {
    let bytes = configuration.total_blocks().checked_mul(BLOCK).and_then(|it| it.checked_add(BLOCKS_AT));
    let needed = bytes.and_then(|it| it.checked_add(to_u64(PAGE) - 1)).map(|it| it / to_u64(PAGE) * to_u64(PAGE));
    let needed = needed.ok_or(Refusal::TooSmall(how.size.unwrap_or(0), u64::MAX))?;
    let image = claim(path, needed, how)?;
    let file = open_direct(path, true)?;
    superblock::write_half(&file)?;
    log::write_first(&file, configuration)?;
    let superblock = Superblock {
        identity: Identity::random()?,
        size: image.length / to_u64(PAGE) * to_u64(PAGE),
        revision: 1,
        epoch: 0,
        lease: how.lease.unwrap_or(LEASE),
        owner: None,
        configuration: configuration.lines.clone(),
    };
    superblock::write(&file, &superblock, [false; 2])?;
    Ok(format!("{}: a volume with {} blocks\n", path.display(), superblock.blocks()))
}

/// Copies a volume that no target has, with its identity; what it prints.
pub fn copy(from: &Path, to: &Path, how: How) -> Result<String, Refusal> {
    let image = Image::open(from, Lock::shared(how.waits), &Options::default())?;
    let file = open_direct(from, false)?;
    let superblock = Content::read(&file, image.length)?.chosen.superblock;
    if let Some(owner) = superblock.owner {
        return Err(Refusal::Owned(owner.name));
    }
    let copy = claim(to, superblock.size, how)?;
    let direct = open_direct(to, true)?;
    superblock::write_half(&direct)?;
    let is_empty = !is_device(&copy.file);
    if is_empty {
        copy.file.set_len(JOURNAL_AT)?;
        copy.file.set_len(copy.length)?;
    }
    let mut piece = Aligned::zeros(PIECE);
    let mut place = JOURNAL_AT;
    while place < superblock.size {
        let count = to_usize((superblock.size - place).min(to_u64(PIECE)));
        file.read_exact_at(&mut piece[..count], place)?;
        if !is_empty || piece[..count].iter().any(|it| *it != 0) {
            copy.file.write_all_at(&piece[..count], place)?;
        }
        place += to_u64(count);
    }
    copy.file.sync_all()?;
    let superblock = Superblock { revision: superblock.revision + 1, ..superblock };
    superblock::write(&direct, &superblock, [false; 2])?;
    Ok(format!("{}: a copy with {} blocks\n", to.display(), superblock.blocks()))
}

/// Opens a file or block device and locks it, unless something is there that may not be overwritten. A file that is not
/// there is created, and an empty one gets its size.
fn claim(path: &Path, needed: u64, how: How) -> Result<Image, Refusal> {
    if let Some(size) = how.size.filter(|it| *it < needed) {
        return Err(Refusal::TooSmall(size, needed));
    }
    let has_size = fs::symlink_metadata(path).map_or(false, |it| !it.is_file() || it.len() != 0);
    let size = how.size.or(if has_size { None } else { Some(needed) });
    let mut image = Image::open(path, Lock::exclusive(how.waits), &Options { size, ..Options::default() })?;
    if image.length < needed && how.replaces && is_cut_copy(&image) {
        image.file.set_len(needed)?;
        image.length = needed;
    }
    if image.length < needed {
        return Err(Refusal::TooSmall(image.length, needed));
    }
    if !how.replaces {
        check_empty(&image)?;
    }
    Ok(image)
}

/// Whether it is a file that `copy` has cut, and then did not end.
fn is_cut_copy(image: &Image) -> bool {
    !is_device(&image.file) && superblock::read(&image.file) == Err(Refusal::HalfMade)
}

/// A refusal if there is something in a file, or at the beginning or the end of a device.
fn check_empty(image: &Image) -> Result<(), Refusal> {
    let metadata = image.file.metadata()?;
    let (is_device, end) = (is_device(&image.file), image.length);
    if !is_device && metadata.blocks() == 0 {
        return Ok(());
    }
    if super::is_volume(&image.path) && superblock::read(&image.file) != Err(Refusal::NotVolume) {
        return Err(Refusal::IsVolume);
    }
    let begin = if is_device { LOOKED_AT.min(end) } else { end };
    find_byte(image, 0, begin)?;
    find_byte(image, end.saturating_sub(LOOKED_AT_END).max(begin), end)
}

/// A refusal if there is a byte other than zero between two places.
fn find_byte(image: &Image, begin: u64, end: u64) -> Result<(), Refusal> {
    let (mut place, mut piece) = (begin, vec![0; PIECE]);
    while place < end {
        let count = to_usize((end - place).min(to_u64(PIECE)));
        image.file.read_exact_at(&mut piece[..count], place).map_err(|error| match error.kind() {
            ErrorKind::UnexpectedEof => io::Error::new(ErrorKind::UnexpectedEof, "it was cut while it was read"),
            _ => error,
        })?;
        if let Some(at) = piece[..count].iter().position(|it| *it != 0) {
            return Err(Refusal::NotEmpty(place + to_u64(at)));
        }
        place += to_u64(count);
    }
    Ok(())
}
