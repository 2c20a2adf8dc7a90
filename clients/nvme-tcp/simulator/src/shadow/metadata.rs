//! What is known of a file without opening it.

use super::fs::{not_found, refused};
use crate::world::disk::Kind;
use crate::world::with;
use ::std::io::{self, ErrorKind};
use ::std::path::Path;

#[derive(Clone, Debug)]
pub struct Metadata {
    pub(super) inode: usize,
    pub(super) length: u64,
    pub(super) kind: Kind,
}

#[derive(Clone, Copy, Debug)]
pub struct FileType(pub(super) Kind);

#[derive(Clone, Copy, Debug)]
pub struct Permissions(bool);

impl Permissions {
    pub fn readonly(&self) -> bool {
        self.0
    }
}

impl Metadata {
    pub(super) fn of(inode: usize) -> Metadata {
        with(|it| Metadata {
            inode,
            length: it.disks.inodes[inode].data.len() as u64,
            kind: it.disks.inodes[inode].kind,
        })
    }

    #[allow(clippy::len_without_is_empty)]
    pub fn len(&self) -> u64 {
        self.length
    }

    pub fn is_file(&self) -> bool {
        self.kind == Kind::File
    }

    pub fn is_dir(&self) -> bool {
        self.kind == Kind::Folder
    }

    pub fn file_type(&self) -> FileType {
        FileType(self.kind)
    }

    pub fn permissions(&self) -> Permissions {
        Permissions(with(|it| it.disks.inodes[self.inode].is_fixed))
    }

    /// Device nodes have no birth time.
    pub fn created(&self) -> io::Result<super::time::SystemTime> {
        if self.kind == Kind::BlockDevice {
            return Err(ErrorKind::Unsupported.into());
        }
        Ok(super::time::UNIX_EPOCH)
    }

    pub fn modified(&self) -> io::Result<super::time::SystemTime> {
        Ok(super::time::UNIX_EPOCH)
    }
}

impl FileType {
    pub fn is_file(&self) -> bool {
        self.0 == Kind::File
    }

    pub fn is_dir(&self) -> bool {
        self.0 == Kind::Folder
    }
}

pub fn metadata(path: impl AsRef<Path>) -> io::Result<Metadata> {
    if with(|it| it.disks.is_in_hidden(path.as_ref())) {
        return Err(refused());
    }
    let inode = with(|it| it.disks.find(path.as_ref())).ok_or_else(not_found)?;
    Ok(Metadata::of(inode))
}
