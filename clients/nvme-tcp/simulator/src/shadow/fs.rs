//! Files over the simulated disks.

use super::calls::{Call, CACHED, MEDIUM, SYNC};
pub use super::metadata::{metadata, FileType, Metadata, Permissions};
use crate::hosts::checker::check;
use crate::world::disk::{Kind, SECTOR};
use crate::world::meddler::Moment;
use crate::world::misdirection::Strayed;
use crate::world::{self, with, World};
use ::std::io::{self, ErrorKind, Read, Seek, SeekFrom, Write};
use ::std::path::Path;
use ::std::sync::atomic::{AtomicU64, Ordering};
use ::std::sync::Arc;

/// O_DIRECT, and the kernel's page.
const DIRECT: i32 = 0o40_000;
const PAGE: usize = 4096;
/// O_EXCL of a block device; EIO, EBUSY and EISDIR.
const ALONE: i32 = 0o200;
const INPUT_OUTPUT: i32 = 5;
const BUSY: i32 = 16;
const IS_FOLDER: i32 = 21;
/// EINVAL and EFBIG.
const INVALID: i32 = 22;
const TOO_LARGE: i32 = 27;
/// The longest file.
const LONGEST: u64 = 1 << 40;

/// An open file. Copies of it share it.
struct Open {
    inode: usize,
    number: u64,
    /// Who has opened it: a machine and a process.
    by: (usize, usize),
    is_direct: bool,
    /// Each write goes to the end of the file.
    appends: bool,
    place: AtomicU64,
    /// What the kernel makes up, such as the name of the machine.
    text: Option<Vec<u8>>,
}

pub struct File(Arc<Shared>);

struct Shared(Open);

impl Drop for Shared {
    fn drop(&mut self) {
        with(|it| {
            it.disks.unlock(self.0.number);
            it.wake_all(world::Key::Lock);
        });
    }
}

/// The checker has to know which blocks may have which values by a fault of the disk.
fn stray(name: &'static str, it: &Strayed) {
    with(|world| {
        *world.injected.entry(name).or_default() += 1;
        world.note(&format!("{name}: {} from block {} on", it.bytes.len() / SECTOR, it.block));
    });
    check(|check| check.stray(it.block, &it.bytes));
}

fn failed() -> io::Error {
    io::Error::from_raw_os_error(INPUT_OUTPUT)
}

pub(super) fn not_found() -> io::Error {
    ErrorKind::NotFound.into()
}

pub(super) fn refused() -> io::Error {
    ErrorKind::PermissionDenied.into()
}

impl Open {
    fn is_medium(&self) -> bool {
        with(|it| it.disks.inodes[self.inode].kind == Kind::BlockDevice) || self.is_direct
    }

    fn read_at(&self, room: &mut [u8], place: u64) -> io::Result<usize> {
        if let Some(text) = &self.text {
            let from = text.len().min(place as usize);
            let count = room.len().min(text.len() - from);
            room[..count].copy_from_slice(&text[from..from + count]);
            return Ok(count);
        }
        let is_medium = self.is_medium();
        let _call = Call::begin(if is_medium { &MEDIUM } else { &CACHED });
        let mut strayed = None;
        let result = with(|world| {
            let (fails, short) = (world.chances.failed_read, world.chances.short);
            if world.disks.inodes[self.inode].kind == Kind::Folder {
                return Err(io::Error::from_raw_os_error(IS_FOLDER));
            }
            if is_medium && world.happens("failed read", fails) {
                return Err(failed());
            }
            if is_medium && world.disks.fails_to_read(self.inode, place as usize, room.len()) {
                *world.injected.entry("unreadable").or_default() += 1;
                return Err(failed());
            }
            if world.disks.inodes[self.inode].kind == Kind::Random {
                room.iter_mut().for_each(|it| *it = world.random.next() as u8);
                return Ok(room.len());
            }
            if place == 0 {
                world.disks.meddle(Moment::Read, self.inode);
            }
            let length = world.disks.inodes[self.inode].data.len();
            let place = length.min(place as usize);
            let mut count = room.len().min(length - place);
            if count > PAGE && world.happens("short read", short) {
                count = PAGE * (1 + world.random.index(count / PAGE));
            }
            strayed = self.fill(world, &mut room[..count], place);
            Ok(count)
        });
        strayed.into_iter().for_each(|it| stray("misdirected read of blocks", &it));
        result
    }

    /// Reads what the disk returns, and which blocks it has read elsewhere.
    fn fill(&self, world: &mut World, room: &mut [u8], place: usize) -> Option<Strayed> {
        room.copy_from_slice(&world.disks.inodes[self.inode].data[place..place + room.len()]);
        let World { disks, random, .. } = world;
        let before = disks.misdirection.reads;
        let strayed = disks.misread(self.inode, place, room, random);
        if disks.misdirection.reads != before {
            *world.injected.entry("misread state").or_default() += 1;
            world.note(&format!("the disk reads other bytes than those at {place}"));
        }
        strayed
    }

    /// The place to which the disk writes bytes.
    fn place_of(&self, bytes: &[u8], place: usize) -> usize {
        let (written, strayed) = with(|world| {
            let World { disks, random, injected, .. } = world;
            let (written, strayed) = disks.place_of(self.inode, place, bytes, random);
            if written != place {
                *injected.entry("misdirected write").or_default() += 1;
                world.note(&format!("the disk writes {} bytes at {written} that belong at {place}", bytes.len()));
            }
            (written, strayed)
        });
        strayed.iter().for_each(|it| stray("misdirected blocks", it));
        written
    }

    /// Whether the disk writes a batch over others of the journal, instead of after them.
    fn misplaces(&self, bytes: &[u8], place: usize) -> bool {
        with(|world| {
            let World { disks, random, injected, .. } = world;
            let is_misplaced = disks.misplace_append(self.inode, place, bytes, random);
            if is_misplaced {
                *injected.entry("misdirected append").or_default() += 1;
                world.note(&format!("the disk writes {} bytes over others that belong at {place}", bytes.len()));
            }
            is_misplaced
        })
    }

    fn write_at(&self, bytes: &[u8], place: u64) -> io::Result<usize> {
        let is_medium = self.is_medium();
        let _call = Call::begin(if is_medium { &MEDIUM } else { &CACHED });
        let count = with(|world| {
            let (fails, short) = (world.chances.failed_write, world.chances.short);
            if is_medium && world.happens("failed write", fails) {
                return Err(failed());
            }
            let fails = world.chances.failed_output;
            if world.disks.inodes[self.inode].is_kept_run && world.happens("failed output", fails) {
                return Err(failed());
            }
            // One in which the process is stopped may have written a part.
            let is_stopped = is_medium && bytes.len() > PAGE && world.stop_in_write();
            let is_short = is_stopped || bytes.len() > PAGE && world.happens("short write", short);
            Ok(if is_short { PAGE * (1 + world.random.index(bytes.len() / PAGE)) } else { bytes.len() })
        })?;
        if count == bytes.len() && self.misplaces(bytes, place as usize) {
            return Ok(count);
        }
        // The kernel copies page by page, and notices a kill in between.
        let place = self.place_of(&bytes[..count], place as usize);
        let (mut at, end) = (place, place + count);
        while at < end {
            let next = end.min((at / PAGE + 1) * PAGE);
            let part = &bytes[at - place..next - place];
            with(|it| {
                it.disks.inodes[self.inode].write(at, part);
                it.disks.mend(self.inode, at, part.len());
            });
            at = next;
            if at < end {
                world::may_yield();
            }
        }
        Ok(count)
    }

    fn sync(&self) -> io::Result<()> {
        let until = with(|it| it.disks.inodes[self.inode].written());
        let _call = Call::begin(&SYNC);
        with(|world| {
            if world.disks.inodes[self.inode].kind == Kind::Random {
                return Err(io::Error::from_raw_os_error(INVALID));
            }
            let fails = world.chances.failed_sync;
            if world.happens("failed sync", fails) {
                return Err(failed());
            }
            world.disks.inodes[self.inode].sync(until);
            Ok(())
        })
    }
}

impl File {
    pub fn open(path: impl AsRef<Path>) -> io::Result<File> {
        OpenOptions::new().read(true).open(path)
    }

    pub fn create(path: impl AsRef<Path>) -> io::Result<File> {
        OpenOptions::new().write(true).create(true).truncate(true).open(path)
    }

    fn it(&self) -> &Open {
        &self.0 .0
    }

    pub fn try_clone(&self) -> io::Result<File> {
        Ok(File(Arc::clone(&self.0)))
    }

    pub fn metadata(&self) -> io::Result<Metadata> {
        Ok(Metadata::of(self.it().inode))
    }

    pub fn sync_all(&self) -> io::Result<()> {
        self.it().sync()
    }

    pub fn sync_data(&self) -> io::Result<()> {
        self.it().sync()
    }

    pub fn set_len(&self, length: u64) -> io::Result<()> {
        if length > LONGEST {
            return Err(io::Error::from_raw_os_error(TOO_LARGE));
        }
        with(|it| it.disks.inodes[self.it().inode].set_length(length as usize));
        Ok(())
    }

    pub(super) fn read_some_at(&self, room: &mut [u8], place: u64) -> io::Result<usize> {
        self.it().read_at(room, place)
    }

    pub(super) fn write_some_at(&self, bytes: &[u8], place: u64) -> io::Result<usize> {
        self.it().write_at(bytes, place)
    }

    /// flock(2).
    pub(super) fn lock(&self, is_shared: bool, waits: bool) -> io::Result<()> {
        let it = self.it();
        loop {
            if with(|world| world.disks.lock(it.inode, it.number, it.by, is_shared)) {
                return Ok(());
            }
            if !waits {
                return Err(ErrorKind::WouldBlock.into());
            }
            world::wait(world::Key::Lock, None);
        }
    }

    pub(super) fn punch_hole(&self, place: u64, count: u64) -> io::Result<()> {
        let _call = Call::begin(&MEDIUM);
        with(|it| {
            if it.disks.lacks_holes {
                return Err(ErrorKind::Unsupported.into());
            }
            it.disks.inodes[self.it().inode].zero(place as usize, count as usize);
            it.disks.mend(self.it().inode, place as usize, count as usize);
            Ok(())
        })
    }
}

impl Read for &File {
    fn read(&mut self, room: &mut [u8]) -> io::Result<usize> {
        let it = self.it();
        let count = it.read_at(room, it.place.load(Ordering::Relaxed))?;
        it.place.fetch_add(count as u64, Ordering::Relaxed);
        Ok(count)
    }
}

impl Write for &File {
    fn write(&mut self, bytes: &[u8]) -> io::Result<usize> {
        let it = self.it();
        if it.appends {
            it.place.store(with(|world| world.disks.inodes[it.inode].data.len()) as u64, Ordering::Relaxed);
        }
        let count = it.write_at(bytes, it.place.load(Ordering::Relaxed))?;
        it.place.fetch_add(count as u64, Ordering::Relaxed);
        Ok(count)
    }

    fn flush(&mut self) -> io::Result<()> {
        Ok(())
    }
}

impl Seek for &File {
    fn seek(&mut self, to: SeekFrom) -> io::Result<u64> {
        let it = self.it();
        let length = with(|world| world.disks.inodes[it.inode].data.len()) as i64;
        let place = match to {
            SeekFrom::Start(place) => place as i64,
            SeekFrom::End(by) => length + by,
            SeekFrom::Current(by) => it.place.load(Ordering::Relaxed) as i64 + by,
        };
        let place = u64::try_from(place).map_err(|_| io::Error::from(ErrorKind::InvalidInput))?;
        it.place.store(place, Ordering::Relaxed);
        Ok(place)
    }
}

impl Read for File {
    fn read(&mut self, room: &mut [u8]) -> io::Result<usize> {
        (&*self).read(room)
    }
}

impl Write for File {
    fn write(&mut self, bytes: &[u8]) -> io::Result<usize> {
        (&*self).write(bytes)
    }

    fn flush(&mut self) -> io::Result<()> {
        Ok(())
    }
}

impl Seek for File {
    fn seek(&mut self, to: SeekFrom) -> io::Result<u64> {
        (&*self).seek(to)
    }
}

#[derive(Clone, Debug, Default)]
pub struct OpenOptions {
    write: bool,
    create: bool,
    create_new: bool,
    truncate: bool,
    append: bool,
    flags: i32,
}

impl OpenOptions {
    pub fn new() -> OpenOptions {
        OpenOptions::default()
    }

    pub fn read(&mut self, _: bool) -> &mut Self {
        self
    }

    pub fn write(&mut self, it: bool) -> &mut Self {
        self.write = it;
        self
    }

    pub fn create(&mut self, it: bool) -> &mut Self {
        self.create = it;
        self
    }

    pub fn create_new(&mut self, it: bool) -> &mut Self {
        self.create_new = it;
        self
    }

    pub fn truncate(&mut self, it: bool) -> &mut Self {
        self.truncate = it;
        self
    }

    pub fn append(&mut self, it: bool) -> &mut Self {
        self.append = it;
        self
    }

    pub(super) fn set_flags(&mut self, flags: i32) {
        self.flags = flags;
    }

    pub fn open(&self, path: impl AsRef<Path>) -> io::Result<File> {
        let path = path.as_ref();
        with(|world| {
            let by = (world.machine(), world.process());
            let text = super::proc::text_of(world, path, by.0);
            let inode = match world.disks.find(path) {
                _ if world.disks.is_hidden(path) || world.disks.is_in_hidden(path) => return Err(refused()),
                _ if text.is_some() => 0,
                Some(_) if self.create_new => return Err(ErrorKind::AlreadyExists.into()),
                Some(inode) => inode,
                None if self.create || self.create_new => world.disks.create(path, Kind::File),
                None => return Err(not_found()),
            };
            if self.flags & ALONE != 0 && world.disks.inodes[inode].is_mounted {
                return Err(io::Error::from_raw_os_error(BUSY));
            }
            if self.flags & DIRECT != 0 && world.disks.inodes[inode].is_buffered {
                return Err(io::Error::from_raw_os_error(INVALID));
            }
            if self.truncate {
                world.disks.inodes[inode].set_length(0);
            }
            world.disks.meddle(Moment::Opened, inode);
            let (is_direct, appends) = (self.flags & DIRECT != 0, self.append);
            let place = AtomicU64::new(0);
            Ok(File(Arc::new(Shared(Open { inode, number: world.disks.open(), by, is_direct, appends, place, text }))))
        })
    }
}

pub fn symlink_metadata(path: impl AsRef<Path>) -> io::Result<Metadata> {
    metadata(path)
}

pub fn remove_file(path: impl AsRef<Path>) -> io::Result<()> {
    with(|it| it.disks.remove(path.as_ref())).then_some(()).ok_or_else(not_found)
}

pub fn rename(from: impl AsRef<Path>, to: impl AsRef<Path>) -> io::Result<()> {
    with(|it| it.disks.rename(from.as_ref(), to.as_ref())).then_some(()).ok_or_else(not_found)
}

pub fn create_dir_all(path: impl AsRef<Path>) -> io::Result<()> {
    with(|it| {
        if it.disks.find(path.as_ref()).is_none() {
            it.disks.create(path.as_ref(), Kind::Folder);
        }
    });
    Ok(())
}

pub fn read(path: impl AsRef<Path>) -> io::Result<Vec<u8>> {
    let mut bytes = Vec::new();
    File::open(path)?.read_to_end(&mut bytes)?;
    Ok(bytes)
}

pub fn read_to_string(path: impl AsRef<Path>) -> io::Result<String> {
    String::from_utf8(read(path)?).map_err(|_| ErrorKind::InvalidData.into())
}

pub fn write(path: impl AsRef<Path>, bytes: impl AsRef<[u8]>) -> io::Result<()> {
    File::create(path)?.write_all(bytes.as_ref())
}

#[derive(Debug, Default)]
pub struct DirBuilder;

impl DirBuilder {
    pub fn new() -> DirBuilder {
        DirBuilder
    }

    pub fn create(&self, path: impl AsRef<Path>) -> io::Result<()> {
        create_dir_all(path)
    }
}
