//! Another program, which changes a file between two calls of a process.

use super::disk::Disks;
use std::path::PathBuf;

/// The call after or before which it changes the file.
#[derive(Clone, Copy, Debug, PartialEq, Eq)]
pub enum Moment {
    /// The file was opened.
    Opened,
    /// The beginning of the file is going to be read.
    Read,
}

pub struct Meddler {
    pub path: PathBuf,
    pub moment: Moment,
    /// How many of these calls it lets pass, and how often it changes the file then.
    pub passes: usize,
    pub changes: usize,
    pub change: Box<dyn Fn(&mut Disks)>,
}

impl Disks {
    /// A process calls: another program may change the file now.
    pub fn meddle(&mut self, moment: Moment, inode: usize) {
        let mut meddler = match self.meddler.take() {
            Some(it) if it.moment == moment && self.find(&it.path) == Some(inode) => it,
            other => {
                self.meddler = other;
                return;
            }
        };
        if meddler.passes != 0 {
            meddler.passes -= 1;
        } else {
            (meddler.change)(self);
            meddler.changes -= 1;
        }
        self.meddler = Some(meddler).filter(|it| it.changes != 0);
    }
}

#[cfg(test)]
mod tests {
    use super::super::disk::Kind;
    use super::*;
    use std::path::Path;

    #[test]
    fn it_changes_a_file_at_its_moment() {
        let (mut disks, path) = (Disks::new(), Path::new("/file"));
        let inode = disks.create(path, Kind::File);
        disks.inodes[inode].fill(&[0]);
        let change: fn(&mut Disks) = |disks| {
            let inode = disks.find(Path::new("/file")).unwrap_or(0);
            disks.inodes[inode].data[0] += 1;
        };
        let (moment, change) = (Moment::Read, Box::new(change));
        disks.meddler = Some(Meddler { path: path.to_owned(), moment, passes: 1, changes: 2, change });
        let mut read = |moment, inode: usize| {
            disks.meddle(moment, inode);
            disks.inodes[inode].data.first().copied()
        };
        assert_eq!((read(Moment::Opened, inode), read(Moment::Read, 0)), (Some(0), None));
        assert_eq!([0; 4].map(|_| read(Moment::Read, inode)), [Some(0), Some(1), Some(2), Some(2)]);
        assert!(disks.meddler.is_none());
    }
}
