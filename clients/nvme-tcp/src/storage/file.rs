//! The image: a regular file or a block device, and the calls on it. Worker threads make them.
//!
//! A kill leaves each block old or new. The system copies the bytes of a `pwrite` into its page cache page by page, and
//! notices a kill between two pages. Blocks do not cross pages, in the file or in the buffer, which begins at a page.
//! With O_DIRECT the device writes whole sectors.

use super::aligned::{Aligned, PAGE};
use super::jobs::Disk;
use super::options::Options;
use crate::files::locking::{open_disk, open_regular, Lock, ALONE, DIRECT};
use crate::files::watched::{changed, Watched};
use crate::numbers::{to_u64, to_usize};
use crate::nvme::BLOCK;
use crate::system::punch_hole;
use std::fs::{self, File, OpenOptions};
use std::io::{self, ErrorKind, Seek, SeekFrom};
use std::os::unix::fs::{FileExt, FileTypeExt};
use std::path::{Path, PathBuf};
use std::sync::Arc;

/// EROFS.
const READ_ONLY_FILE_SYSTEM: i32 = 30;
/// Bytes of zeros that are written at a time.
const ZEROS: usize = 1 << 20;
const UNIT: u64 = to_u64(PAGE);

/// Whether a file can't be written: by permission, or since its file system is read-only.
pub fn is_read_only(path: &Path) -> bool {
    if fs::metadata(path).map_or(false, |it| it.permissions().readonly()) {
        return true;
    }
    match open_disk(path, OpenOptions::new().write(true), 0) {
        Ok(_) => false,
        Err(error) => {
            error.kind() == ErrorKind::PermissionDenied || error.raw_os_error() == Some(READ_ONLY_FILE_SYSTEM)
        }
    }
}

/// How many blocks an image has, which is not opened for long.
pub fn blocks_of(path: &Path) -> io::Result<u64> {
    let mut file = open_disk(path, OpenOptions::new().read(true), 0)?;
    Ok(file.seek(SeekFrom::End(0))? / BLOCK)
}

/// An image that is open and locked.
pub struct Image {
    pub path: PathBuf,
    pub file: File,
    /// It holds the lock.
    locked: File,
    /// Its bytes.
    pub length: u64,
}

impl Image {
    /// Opens an image and locks it, before anything of it is read. It is written unless the lock is shared.
    pub fn open(path: &Path, lock: Lock, options: &Options) -> io::Result<Image> {
        options.size.map_or(Ok(()), |size| create(path, size))?;
        let mut how = OpenOptions::new();
        how.read(true).write(!lock.is_shared);
        let flags = if options.is_direct { DIRECT } else { 0 };
        let locked = lock.open_disk(path, &how, flags)?;
        let is_device = locked.metadata()?.file_type().is_block_device();
        let mut file =
            if is_device && !lock.is_shared { open_disk(path, &how, flags | ALONE)? } else { locked.try_clone()? };
        let mut length = file.seek(SeekFrom::End(0))?;
        if let (Some(size), 0, false) = (options.size, length, is_device || lock.is_shared) {
            // It is empty, as a program leaves it that is killed while it creates it.
            file.set_len(size)?;
            length = size;
        }
        match options.size {
            Some(size) if size != length => {
                let text = format!("it exists and has {length} bytes, and --size asks for {size}; leave --size out");
                Err(io::Error::new(ErrorKind::AlreadyExists, text))
            }
            _ if options.is_direct && length % UNIT != 0 => {
                let text = format!("it has {length} bytes, and --direct needs a multiple of {UNIT}");
                Err(io::Error::new(ErrorKind::InvalidInput, text))
            }
            _ => Ok(Image { path: path.to_owned(), file, locked, length }),
        }
    }

    /// How many blocks it has.
    pub fn blocks(&self) -> u64 {
        self.length / BLOCK
    }

    /// The calls on it.
    pub fn disk(self, options: &Options) -> io::Result<ImageDisk> {
        let is_device = self.file.metadata()?.file_type().is_block_device();
        let watched = if is_device { None } else { Some(Watched::new(&self.path, &self.file)?) };
        let Image { file, locked, length, .. } = self;
        let (is_direct, permission) = (options.is_direct, None);
        Ok(ImageDisk { file, _locked: locked, length, watched, is_direct, permission })
    }
}

/// Creates a sparse file if there is none.
fn create(path: &Path, size: u64) -> io::Result<()> {
    let file = match open_regular(path, OpenOptions::new().write(true).create_new(true)) {
        Err(error) if error.kind() == ErrorKind::AlreadyExists => return Ok(()),
        result => result?,
    };
    if let Err(error) = file.set_len(size) {
        let _ = fs::remove_file(path);
        return Err(error);
    }
    Ok(())
}

/// Whether an image may still be written: an error once another target may have it.
pub type Permission = Arc<dyn Fn() -> io::Result<()> + Send + Sync>;

/// An image whose blocks are read and written.
pub struct ImageDisk {
    file: File,
    _locked: File,
    length: u64,
    /// Of a regular file.
    watched: Option<Watched>,
    is_direct: bool,
    permission: Option<Permission>,
}

/// An error if an image has become shorter. A write past its end would make it as long again, with zeros in it.
fn check_length(found: u64, length: u64) -> io::Result<()> {
    if found < length {
        return Err(changed(format!("it was cut to {found} bytes, of {length}")));
    }
    Ok(())
}

/// Whether O_DIRECT takes bytes as they are: whole pages, in memory too.
#[allow(clippy::as_conversions)] // An address has no other conversion.
fn is_whole(place: u64, bytes: &[u8]) -> bool {
    place % UNIT == 0 && bytes.len() % PAGE == 0 && bytes.as_ptr() as usize % PAGE == 0
}

impl ImageDisk {
    /// The whole pages around bytes, and the place of the bytes in them.
    fn around(place: u64, count: usize) -> (u64, usize, usize) {
        let first = place / UNIT * UNIT;
        let before = to_usize(place - first);
        (first, before, (before + count + PAGE - 1) / PAGE * PAGE)
    }

    /// The same disk, each of whose writing calls needs a permission.
    pub fn permitted_by(self, permission: Permission) -> ImageDisk {
        ImageDisk { permission: Some(permission), ..self }
    }

    fn check_permission(&self) -> io::Result<()> {
        self.permission.as_ref().map_or(Ok(()), |it| it())
    }

    /// Writes all bytes. The process may have been stopped before any of the calls.
    fn write_all(&self, mut bytes: &[u8], mut place: u64) -> io::Result<()> {
        while !bytes.is_empty() {
            self.check_permission()?;
            match self.file.write_at(bytes, place) {
                Ok(0) => return Err(ErrorKind::WriteZero.into()),
                Ok(count) => {
                    bytes = &bytes[count..];
                    place += to_u64(count);
                }
                Err(error) if error.kind() == ErrorKind::Interrupted => (),
                Err(error) => return Err(error),
            }
        }
        Ok(())
    }

    /// Writes zeros.
    fn write_zeros(&self, place: u64, count: u64) -> io::Result<()> {
        let zeros = Aligned::zeros(ZEROS.min(to_usize(count)));
        let (mut place, end) = (place, place + count);
        while place < end {
            let count = (end - place).min(to_u64(zeros.len()));
            self.check_open()?;
            self.write(place, &zeros[..to_usize(count)])?;
            place += count;
        }
        Ok(())
    }
}

impl Disk for ImageDisk {
    fn read(&self, place: u64, room: &mut [u8]) -> io::Result<()> {
        if !self.is_direct || is_whole(place, room) {
            return self.file.read_exact_at(room, place);
        }
        let (first, before, count) = ImageDisk::around(place, room.len());
        let mut pages = Aligned::zeros(count);
        self.file.read_exact_at(&mut pages, first)?;
        room.copy_from_slice(&pages[before..before + room.len()]);
        Ok(())
    }

    fn check_open(&self) -> io::Result<()> {
        match &self.watched {
            Some(_) => check_length(self.file.metadata()?.len(), self.length),
            None => Ok(()),
        }
    }

    fn write(&self, place: u64, bytes: &[u8]) -> io::Result<()> {
        if !self.is_direct || is_whole(place, bytes) {
            return self.write_all(bytes, place);
        }
        // The device may have sectors of a page: the rest of the pages is written as it is.
        let (first, before, count) = ImageDisk::around(place, bytes.len());
        let mut pages = Aligned::zeros(count);
        if before != 0 || count != bytes.len() {
            self.file.read_exact_at(&mut pages, first)?;
        }
        pages[before..before + bytes.len()].copy_from_slice(bytes);
        self.write_all(&pages, first)
    }

    fn zero(&self, place: u64, count: u64) -> io::Result<()> {
        self.check_open()?;
        // A device's discard does not promise zeros.
        if self.watched.is_none() {
            return self.write_zeros(place, count);
        }
        self.check_permission()?;
        match punch_hole(&self.file, place, count) {
            Err(error) if error.kind() == ErrorKind::Unsupported => self.write_zeros(place, count),
            result => result,
        }
    }

    fn sync(&self) -> io::Result<()> {
        self.file.sync_data()?;
        self.check()
    }

    fn blocks(&self) -> u64 {
        self.length / BLOCK
    }

    fn check(&self) -> io::Result<()> {
        match &self.watched {
            Some(watched) => check_length(watched.length()?, self.length),
            None => Ok(()),
        }
    }

    fn is_cached(&self) -> bool {
        self.watched.is_some() && !self.is_direct
    }
}

#[cfg(test)]
mod tests {
    use super::*;
    use std::sync::atomic::{AtomicUsize, Ordering};

    fn opened(name: &str, options: &Options) -> io::Result<(PathBuf, Image)> {
        let path = std::env::temp_dir().join(format!("nvmetcp-{name}-{}", std::process::id()));
        Image::open(&path, Lock::exclusive(false), options).map(|image| (path, image))
    }

    #[test]
    fn parts_of_pages_are_written() {
        for is_direct in [false, true] {
            let options = Options { size: Some(64 << 10), is_direct, ..Options::default() };
            let (path, image) = match opened("pages", &options) {
                // Some file systems have no O_DIRECT.
                Err(error) if is_direct && error.raw_os_error() == Some(22) => continue,
                opened => opened.unwrap(),
            };
            assert_eq!(image.blocks(), 128);
            let disk = image.disk(&options).unwrap();
            assert_eq!(disk.is_cached(), !is_direct);
            let mut wanted = vec![0; 64 << 10];
            for (at, blocks) in [(0, 128), (1, 1), (7, 1), (8, 8), (15, 2), (100, 28), (127, 1)] {
                let bytes = vec![(at + blocks) as u8; blocks * 512];
                disk.write(at as u64 * 512, &bytes).unwrap();
                wanted[at * 512..(at + blocks) * 512].copy_from_slice(&bytes);
            }
            disk.zero(3 * 512, 60 * 512).unwrap();
            wanted[3 * 512..63 * 512].fill(0);
            disk.sync().unwrap();
            for (at, blocks) in [(0, 128), (1, 7), (127, 1)] {
                let mut found = vec![1; blocks * 512];
                disk.read(at as u64 * 512, &mut found).unwrap();
                assert!(found == wanted[at * 512..(at + blocks) * 512]);
            }
            assert!(disk.read(128 * 512, &mut [0; 512]).is_err());
            assert!(fs::read(&path).unwrap() == wanted);
            fs::remove_file(path).unwrap();
        }
    }

    #[test]
    fn each_call_needs_a_permission() {
        let options = Options { size: Some(4 << 20), ..Options::default() };
        let (path, image) = opened("permission", &options).unwrap();
        fs::write(&path, vec![7; 4 << 20]).unwrap();
        let left = AtomicUsize::new(2);
        let permission = move || match left.load(Ordering::Relaxed) {
            0 => Err(ErrorKind::TimedOut.into()),
            count => {
                left.store(count - 1, Ordering::Relaxed);
                Ok(())
            }
        };
        let disk = image.disk(&options).unwrap().permitted_by(Arc::new(permission));
        assert_eq!(disk.write_zeros(0, 4 << 20).unwrap_err().kind(), ErrorKind::TimedOut);
        assert!(disk.zero(2 << 20, 512).is_err() && disk.write(2 << 20, &[1; 512]).is_err());
        let found = fs::read(&path).unwrap();
        assert!(found[..2 << 20].iter().all(|it| *it == 0) && found[2 << 20..].iter().all(|it| *it == 7));
        fs::remove_file(path).unwrap();
    }

    #[test]
    fn sizes_are_kept() {
        let options = Options { size: Some(1 << 20), ..Options::default() };
        let (path, image) = opened("sizes", &options).unwrap();
        drop(image);
        for _ in 0..2 {
            assert_eq!(opened("sizes", &options).unwrap().1.blocks(), 2048);
            fs::write(&path, []).unwrap();
        }
        assert_eq!(opened("sizes", &options).unwrap().1.blocks(), 2048);
        let other = opened("sizes", &Options { size: Some(2 << 20), ..options });
        assert!(other.err().unwrap().to_string().starts_with("it exists and has 1048576 bytes"));
        fs::write(&path, [0; 512]).unwrap();
        assert!(opened("sizes", &Options { size: None, is_direct: true, ..options }).is_err());
        fs::remove_file(path).unwrap();
    }

    #[test]
    fn a_cut_is_noticed() {
        let options = Options { size: Some(1 << 20), ..Options::default() };
        let (path, image) = opened("cut", &options).unwrap();
        let disk = image.disk(&options).unwrap();
        disk.check().unwrap();
        fs::write(&path, [0; 512]).unwrap();
        assert_eq!(disk.check().unwrap_err().kind(), ErrorKind::InvalidData);
        assert!(disk.check_open().is_err() && disk.zero(0, 512).is_err() && disk.sync().is_err());
        fs::remove_file(path).unwrap();
    }
}
