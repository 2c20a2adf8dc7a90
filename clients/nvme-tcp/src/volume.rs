//! A volume: one file or block device that has all that a target needs, so that it can move to another machine. A
//! superblock names its owner, a journal has what persists, and the blocks follow. One target at a time has it: by a
//! lock, by an epoch that each owner raises, and by a lease.

mod area;
pub mod commands;
mod content;
mod format;
mod lease;
mod log;
mod refusal;
mod superblock;

use self::log::VolumeLog;
use crate::admin::identity::Identity;
use crate::configuration::Configuration;
use crate::control::log::warn;
use crate::files::locking::{open_disk, place_of, Lock, DIRECT};
use crate::files::settled::settled;
use crate::journal::record::Event;
use crate::journal::state::me;
use crate::journal::{Found, Journal};
use crate::nvme::BLOCK;
use crate::storage::options::Options;
use crate::storage::{Disk, Image, ImageDisk};
use crate::system::time_since_boot;
use content::Content;
use lease::Lease;
pub use refusal::Refusal;
use std::fs::{self, File, OpenOptions};
use std::io::{self, ErrorKind, Read};
use std::os::unix::fs::{FileExt, FileTypeExt};
use std::path::Path;
use std::sync::Arc;
use std::thread;
use std::time::Duration;
use superblock::{Chosen, Owner, Superblock, BLOCKS_AT, COPIES, HALF, MAGIC};

/// The longest time that a target waits if the last owner has ended: another may have read that at the same time.
const SETTLING: Duration = Duration::from_millis(300);
/// How much longer than a lease its end is waited for, in parts of it: clocks may differ.
const MARGIN: u32 = 10;

/// How long a target waits if the last owner has ended. One whose claim takes longer waits for the whole lease instead.
fn settling(lease: Duration) -> Duration {
    lease::renewal(lease).min(SETTLING)
}

/// Whether a path is a volume, or a block device that should be one, and no CONFIG.
pub fn is_volume(path: &Path) -> bool {
    let has_magic = |file: &File, place| {
        let mut bytes = [0; 16];
        file.read_exact_at(&mut bytes, place).is_ok() && (bytes == *MAGIC || bytes == *HALF)
    };
    match open_disk(path, OpenOptions::new().read(true), 0) {
        Ok(file) if !is_device(&file) => COPIES.iter().any(|place| has_magic(&file, *place)),
        Ok(_) => true,
        Err(_) => fs::metadata(path).map_or(false, |it| it.file_type().is_block_device()),
    }
}

fn is_device(file: &File) -> bool {
    file.metadata().map_or(false, |it| it.file_type().is_block_device())
}

/// Opens the file of a superblock and a journal with O_DIRECT, so that a machine sees what another has written.
fn open_direct(path: &Path, is_written: bool) -> io::Result<File> {
    open_disk(path, OpenOptions::new().read(true).write(is_written), DIRECT).map_err(|error| match error.kind() {
        ErrorKind::InvalidInput => io::Error::new(
            ErrorKind::Unsupported,
            "its file system has no O_DIRECT, so that targets of two machines would not notice each other",
        ),
        _ => error,
    })
}

/// A volume that is open and locked, and whose owner is not this target yet.
pub struct Volume {
    pub image: Image,
    pub configuration: Configuration,
    file: File,
    chosen: Chosen,
}

/// What a target has of a volume that it owns.
pub struct Owned {
    pub journal: Journal,
    pub found: Found,
    pub lease: Arc<Lease>,
}

impl Volume {
    /// Opens a volume and locks it. Nothing is changed.
    pub fn open(path: &Path, waits: bool, options: &mut Options) -> Result<Volume, Refusal> {
        options.writes_through = true;
        let file = open_direct(path, true)?;
        options.is_direct |= is_device(&file);
        let image = Image::open(path, Lock::exclusive(waits), options)?;
        let Content { chosen, configuration, .. } = Content::read(&file, image.length)?;
        Ok(Volume { image, configuration, file, chosen })
    }

    pub fn blocks(&self) -> u64 {
        self.chosen.superblock.blocks()
    }

    /// Makes this target the owner: raises the epoch, waits until the last owner's lease has ended, and reads the
    /// journal.
    pub fn take(&mut self) -> Result<Owned, Refusal> {
        let begun = time_since_boot();
        let Chosen { superblock: before, are_whole } = settled(|| superblock::read(&self.file))?;
        if before.configuration != self.chosen.superblock.configuration {
            return Err(Refusal::Taken("format".to_owned()));
        }
        if are_whole.contains(&false) {
            warn(format_args!("{}: one copy of its superblock is damaged or older", self.image.path.display()));
        }
        let owner = self.me()?;
        let superblock = Superblock {
            revision: before.revision + 1,
            epoch: before.epoch + 1,
            owner: Some(owner.clone()),
            ..before.clone()
        };
        superblock::write(&self.file, &superblock, are_whole)?;
        self.wait_out(&before, &owner, begun);
        let lease = Lease::begin(self.file.try_clone()?, superblock.epoch, owner.number, superblock.lease)?;
        self.begin_journal(superblock, lease)
    }

    /// This process, as an owner.
    fn me(&self) -> io::Result<Owner> {
        let mut boot = String::new();
        File::open("/proc/sys/kernel/random/boot_id")?.read_to_string(&mut boot)?;
        let digits: String = boot.trim().split('-').collect();
        let boot = u128::from_str_radix(&digits, 16).map_err(|_| io::Error::from(ErrorKind::InvalidData))?;
        Ok(Owner {
            number: Identity::random()?.0,
            boot: boot.to_be_bytes(),
            place: place_of(&self.image.file.metadata()?),
            name: me().trim().to_owned(),
        })
    }

    /// Waits until the last owner serves no more. A process of this machine has ended, since its lock has. An owner that
    /// has begun at the same time, without seeing this one, has written its name within the settling time or waits for
    /// a whole lease. So this target sees it after the settling time, or it sees this target.
    fn wait_out(&self, before: &Superblock, me: &Owner, begun: Duration) {
        let ended = |it: &Owner| it.boot == me.boot && it.place == me.place;
        let is_ended = before.owner.as_ref().map_or(true, ended);
        let settling = settling(before.lease);
        if is_ended && time_since_boot().saturating_sub(begun) < settling {
            return thread::sleep(settling);
        }
        let owner = before.owner.as_ref().map_or("the last owner", |it| &it.name);
        warn(format_args!("{}: waits until the lease of {owner} has ended", self.image.path.display()));
        thread::sleep(before.lease + before.lease / MARGIN);
    }

    fn begin_journal(&self, superblock: Superblock, lease: Arc<Lease>) -> Result<Owned, Refusal> {
        let Content { kept, mut current, mut replica, .. } = Content::read_settled(&self.file, self.image.length)?;
        current.events.push(Event::Start);
        replica.follow(&[Event::Start]).map_err(|error| Refusal::Journal(error.to_string()))?;
        let (epoch, identity, file) = (superblock.epoch, superblock.identity, self.file.try_clone()?);
        let log = VolumeLog::begin(file, Arc::clone(&lease), superblock, (&kept, replica))?;
        let journal = Journal::start(Box::new(log), Box::new(Arc::clone(&lease)), epoch, identity)?;
        Ok(Owned { journal, found: Found { current, torn: kept.torn }, lease })
    }
}

/// The blocks of a volume. Nothing is written without a lease.
pub struct VolumeDisk {
    disk: ImageDisk,
    lease: Arc<Lease>,
}

impl Disk for VolumeDisk {
    fn read(&self, place: u64, room: &mut [u8]) -> io::Result<()> {
        self.disk.read(BLOCKS_AT + place, room)
    }

    fn check_open(&self) -> io::Result<()> {
        self.disk.check_open()
    }

    fn write(&self, place: u64, bytes: &[u8]) -> io::Result<()> {
        self.disk.write(BLOCKS_AT + place, bytes)
    }

    fn zero(&self, place: u64, count: u64) -> io::Result<()> {
        self.disk.zero(BLOCKS_AT + place, count)
    }

    fn sync(&self) -> io::Result<()> {
        self.disk.sync()?;
        check_lease(&self.lease)
    }

    fn blocks(&self) -> u64 {
        self.disk.blocks().saturating_sub(BLOCKS_AT / BLOCK)
    }

    fn check(&self) -> io::Result<()> {
        self.disk.check()
    }

    fn is_cached(&self) -> bool {
        self.disk.is_cached()
    }
}

impl VolumeDisk {
    pub fn new(disk: ImageDisk, lease: Arc<Lease>) -> VolumeDisk {
        let theirs = Arc::clone(&lease);
        VolumeDisk { disk: disk.permitted_by(Arc::new(move || check_lease(&theirs))), lease }
    }
}

/// Without a lease the target ends: an error of the kind that does so.
fn check_lease(lease: &Lease) -> io::Result<()> {
    lease.check().map_err(|error| io::Error::new(ErrorKind::InvalidData, error))
}

#[cfg(test)]
mod tests {
    use super::format::{format, How};
    use super::superblock::JOURNAL_AT;
    use super::*;
    use crate::journal::record::Record;
    use crate::numbers::to_u64;
    use crate::nvme::entry::SubmissionEntry;
    use crate::nvme::RESERVATION_REGISTER;
    use crate::target::controller::Data;
    use std::path::PathBuf;
    use std::time::Instant;

    const CONFIG: &[u8] = b"controller 1 host 0xa1\nnamespace 1 blocks 64 shared\nattached 1 1\n";

    /// A volume of this name in a folder whose file system has O_DIRECT.
    fn made(name: &str) -> PathBuf {
        let path = std::env::temp_dir().join(format!("nvmetcp-volume-{name}-{}", std::process::id()));
        let configuration = Configuration::read(CONFIG, 64).unwrap();
        format(&path, &configuration, How { replaces: true, ..How::default() }).unwrap();
        path
    }

    fn opened(path: &Path) -> Result<Volume, Refusal> {
        Volume::open(path, false, &mut Options::default())
    }

    /// What persists, as the volume has it.
    fn kept(path: &Path) -> (Content, crate::journal::checkpoint::Checkpoint) {
        let file = open_direct(path, false).unwrap();
        let mut content = Content::read(&file, file.metadata().unwrap().len()).unwrap();
        let checkpoint = content.replica.checkpoint();
        (content, checkpoint)
    }

    fn wait_for(journal: &Journal) {
        while journal.synced().unwrap() != journal.count {
            thread::yield_now();
        }
    }

    #[test]
    fn a_journal_never_fills() {
        let path = made("fills");
        let mut volume = opened(&path).unwrap();
        let Owned { mut journal, found, .. } = volume.take().unwrap();
        assert_eq!((journal.epoch, found.torn), (1, 0));
        let first = kept(&path).0.kept.segment;
        // Reservation Register: Replace, with IEKEY, and PTPL set.
        let entry = SubmissionEntry::new(RESERVATION_REGISTER, 0, 1).with(2 | 8 | 0xc000_0000, 0);
        for key in 1..=600u64 {
            let keys = [[0; 8], key.to_le_bytes()].concat();
            journal.follow(1, 1, &entry, Data::ToController(&keys));
            wait_for(&journal);
            if key % 37 == 0 || key == 600 {
                let reservation = &kept(&path).1 .0[0].reservation;
                assert_eq!((u64::from(reservation.generation), reservation.registrants[0].key), (key, key));
            }
        }
        assert!(kept(&path).0.kept.segment >= first + 9);
        // A batch that is longer than a segment is a part of the next checkpoint.
        for _ in 0..4000 {
            journal.follow(1, 1, &entry, Data::ToController(&[9; 16]));
        }
        wait_for(&journal);
        assert_eq!(kept(&path).1 .0[0].reservation.generation, 4600);
        assert_eq!(kept(&path).0.chosen.superblock.owner.map(|it| it.name), Some(me().trim().to_owned()));
        journal.end().unwrap().close().unwrap();
        let (content, checkpoint) = kept(&path);
        assert_eq!((content.chosen.superblock.owner, content.chosen.are_whole), (None, [true; 2]));
        drop(volume);
        let Owned { journal, .. } = opened(&path).unwrap().take().unwrap();
        let after = kept(&path);
        assert_eq!((journal.epoch, after.1), (2, checkpoint));
        // One segment is left out, in which the last owner may write.
        let (place, segment) = (content.kept.place, content.kept.segment);
        assert_eq!((after.0.kept.place, after.0.kept.segment), ((place + 2) % area::SEGMENTS, segment + 2));
        drop(journal);
        fs::remove_file(path).unwrap();
    }

    #[test]
    fn a_late_checkpoint_of_the_last_owner_is_not_taken() {
        for place in 0..area::SEGMENTS {
            let path = made("late");
            let file = open_direct(&path, true).unwrap();
            let record = Record { epoch: 0, event: Event::Checkpoint(kept(&path).1) }.bytes();
            let begin_segment = |number, place| {
                let at = JOURNAL_AT + to_u64(place % area::SEGMENTS * area::SEGMENT);
                file.write_all_at(&area::checkpoint(number, &record), at).unwrap();
            };
            begin_segment(5, place);
            let mut volume = opened(&path).unwrap();
            let owned = volume.take().unwrap();
            begin_segment(6, place + 1);
            let found = kept(&path).0.kept;
            assert_eq!((found.segment, found.place, found.records[0].epoch), (7, (place + 2) % area::SEGMENTS, 1));
            drop(owned);
            fs::remove_file(path).unwrap();
        }
    }

    #[test]
    fn a_journal_that_is_newer_than_its_superblock_is_refused() {
        let path = made("newer");
        let mut volume = opened(&path).unwrap();
        let Owned { journal, .. } = volume.take().unwrap();
        journal.end().unwrap().close().unwrap();
        let chosen = kept(&path).0.chosen;
        let older = Superblock { epoch: 0, revision: chosen.superblock.revision + 1, ..chosen.superblock };
        superblock::write(&volume.file, &older, [true; 2]).unwrap();
        drop(volume);
        let text = opened(&path).err().map(|it| it.to_string()).unwrap_or_default();
        assert!(text.starts_with("its journal: it is of epoch 1, and the superblock of 0"), "{text}");
        fs::remove_file(path).unwrap();
    }

    #[test]
    fn a_short_lease_settles_sooner() {
        let times = [1, 2, 4, 60].map(|seconds| settling(Duration::from_secs(seconds)).as_millis());
        assert_eq!(times, [125, 250, 300, 300]);
    }

    #[test]
    fn the_lease_ends_when_another_takes_the_volume() {
        let path = made("lease");
        let mut volume = opened(&path).unwrap();
        let Owned { mut journal, lease, .. } = volume.take().unwrap();
        lease.check().unwrap();
        let chosen = kept(&path).0.chosen;
        let number = [7; 16];
        let owner = chosen.superblock.owner.clone().map(|it| Owner { number, name: "another".to_owned(), ..it });
        let (epoch, revision) = (chosen.superblock.epoch + 1, chosen.superblock.revision + 1);
        let taken = Superblock { revision, epoch, owner, ..chosen.superblock };
        superblock::write(&volume.file, &taken, chosen.are_whole).unwrap();
        let begun = Instant::now();
        while lease.check().is_ok() {
            assert!(begun.elapsed() < Duration::from_secs(4));
            thread::sleep(Duration::from_millis(10));
        }
        let text = lease.check().unwrap_err().to_string();
        assert_eq!(text, "another has taken the volume over: it began epoch 2, this one 1");
        let before = fs::read(&path).unwrap();
        journal.cycle();
        while journal.synced().is_ok() {
            thread::yield_now();
        }
        let options = Options::default();
        let disk = VolumeDisk::new(opened_again(&path).disk(&options).unwrap(), Arc::clone(&lease));
        assert!(disk.write(0, &[1; 512]).is_err() && disk.zero(0, 512).is_err());
        assert!(fs::read(&path).unwrap() == before, "nothing was written");
        fs::remove_file(path).unwrap();
    }

    /// Another opening of the same file, which is locked.
    fn opened_again(path: &Path) -> Image {
        let copy = path.with_extension("copy");
        fs::copy(path, &copy).unwrap();
        let image = Image::open(&copy, Lock::exclusive(false), &Options::default()).unwrap();
        fs::remove_file(copy).unwrap();
        image
    }
}
