//! The journal of a state folder: a file that grows. It begins with the configuration.
//!
//! An incomplete batch of records at its end is dropped; any other fault refuses the journal. A target that finds records
//! of another after its own has been taken over: it ends without an answer.

use super::{newest_of, Found, Hold, Journal, Log};
use crate::configuration::Configuration;
use crate::files::locking::{open_disk, open_regular, place_of, DIRECT};
use crate::files::settled::settled;
use crate::files::watched::{changed, Watched};
use crate::journal::batch::batches;
use crate::journal::record::{current, heads, newer_version, records_of, Event, Record};
use crate::journal::state::{self, Folder};
use crate::numbers::{to_u64, to_usize};
use crate::storage::aligned::{Aligned, PAGE};
use std::fs::{File, OpenOptions};
use std::io::{self, ErrorKind, Read, Seek, SeekFrom, Write};
use std::os::unix::fs::FileExt;
use std::path::Path;
use std::sync::atomic::{AtomicU64, Ordering};
use std::sync::Arc;

/// The most bytes that are read of what another target has appended.
const MOST_OF_OTHERS: u64 = 64 << 10;
/// What a power loss leaves of each of these is old or new.
const SECTOR: usize = 512;
/// Why a journal that isn't whole is refused.
const WAS_USED: &str = "a target has used this folder, and what it kept is lost: put the journal back from a copy, or \
                        begin anew with another folder";

/// The file, as this target has left it.
struct Own {
    file: File,
    watched: Watched,
    /// How long it is, unless another target writes to it; and how long it may be while a record is written.
    length: AtomicU64,
    limit: AtomicU64,
    epoch: u64,
}

struct FolderLog {
    own: Arc<Own>,
    /// No other target has the folder.
    _folder: Folder,
}

/// Opens the journal of a folder, and appends that a target has started. It is created if no target has used the
/// folder.
pub fn open(mut folder: Folder, configuration: &Configuration) -> io::Result<(Journal, Found)> {
    let path = folder.path.join(state::JOURNAL);
    let mut options = OpenOptions::new();
    options.read(true).append(true).create(folder.identity.is_none());
    let mut file = open_regular(&path, &options).map_err(|error| match error.kind() {
        ErrorKind::NotFound => changed(format!("there is no journal: {WAS_USED}")),
        kind => io::Error::new(kind, format!("the journal: {error}")),
    })?;
    let (bytes, begin) = read_or_begin(&mut file, &folder, configuration)?;
    let (mut records, end) = records_of(&bytes, begin)?;
    let torn = bytes.len() - end;
    let epoch = newest_of(&records)?.saturating_add(1);
    let identity = folder.use_it()?;
    if torn != 0 {
        file.set_len(to_u64(end))?;
    }
    // A target that was killed may not have synced its last batch. If power is lost before the sync after the next
    // record, that batch must not be torn while the record is whole: it would be damaged, and the folder refused.
    file.sync_all()?;
    file.write_all(&Record { epoch, event: Event::Start }.bytes())?;
    file.sync_all()?;
    let length = join(&mut records, &read_from(&mut file, to_u64(end))?, epoch)?;
    let (watched, length) = (Watched::new(&path, &file)?, to_u64(end + length));
    let own = Own { file, watched, length: length.into(), limit: length.into(), epoch };
    let log = FolderLog { own: Arc::new(own), _folder: folder };
    let hold = Box::new(Arc::clone(&log.own));
    Ok((Journal::start(Box::new(log), hold, epoch, identity)?, Found { current: current(records), torn }))
}

/// Adds what is in a journal from the start of this target on, and before it what a target that has not ended appended
/// meanwhile: that counts, since its hosts were answered. How many bytes these are. An error if another target has
/// started too.
fn join(records: &mut Vec<Record>, bytes: &[u8], epoch: u64) -> io::Result<usize> {
    let (newer, length) = records_of(bytes, 0)?;
    records.extend(newer);
    if length != bytes.len() || records.iter().filter(|it| it.epoch >= epoch).count() != 1 {
        return Err(changed("another target has started over this folder at the same time".to_owned()));
    }
    newest_of(records)?;
    Ok(length)
}

/// The bytes of a journal, and the place of its first record. If no target has used the folder, a journal shorter than
/// its head is begun anew.
fn read_or_begin(file: &mut File, folder: &Folder, configuration: &Configuration) -> io::Result<(Vec<u8>, usize)> {
    let path = folder.path.join(state::JOURNAL);
    let (bytes, heads) = (settled(|| read_all(&path, file))?, heads(&configuration.lines));
    if let Some(head) = heads.iter().find(|head| bytes.starts_with(head)) {
        return Ok((bytes, head.len()));
    }
    if let Some(version) = newer_version(&bytes) {
        return Err(changed(format!("the journal has format {version}, which is newer than this program")));
    }
    let is_torn = folder.identity.is_none() && heads.iter().any(|head| is_torn(&bytes, head));
    if !is_torn && !heads.iter().any(|head| head.starts_with(&bytes)) {
        return Err(changed("the journal is of another configuration".to_owned()));
    }
    if folder.identity.is_some() {
        return Err(changed(format!("the journal has {} bytes, fewer than its head: {WAS_USED}", bytes.len())));
    }
    file.set_len(0)?;
    file.write_all(&heads[0])?;
    file.sync_all()?;
    File::open(&folder.path)?.sync_all()?;
    Ok((heads[0].clone(), heads[0].len()))
}

/// Whether bytes are what a power loss leaves of a head that was never synced: some sectors of it are zeros.
fn is_torn(bytes: &[u8], head: &[u8]) -> bool {
    let is_left = |(it, whole): (&[u8], &[u8])| whole.starts_with(it) || it.iter().all(|byte| *byte == 0);
    bytes.len() <= head.len() && bytes.chunks(SECTOR).zip(head.chunks(SECTOR)).all(is_left)
}

/// All bytes of the journal, by O_DIRECT if its file system has that: else what the system has in its memory would
/// agree with itself.
fn read_all(path: &Path, file: &mut File) -> io::Result<Vec<u8>> {
    read_direct(path, file).or_else(|_| read_from(file, 0))
}

fn read_direct(path: &Path, file: &File) -> io::Result<Vec<u8>> {
    let direct = open_disk(path, OpenOptions::new().read(true), DIRECT)?;
    let (found, length) = (direct.metadata()?, to_usize(file.metadata()?.len()));
    if place_of(&found) != place_of(&file.metadata()?) {
        return Err(ErrorKind::NotFound.into());
    }
    let (mut bytes, mut at) = (Aligned::zeros((length + PAGE - 1) / PAGE * PAGE), 0);
    while at < length {
        match direct.read_at(&mut bytes[at..], to_u64(at))? {
            0 => return Err(ErrorKind::UnexpectedEof.into()),
            count => at += count,
        }
    }
    Ok(bytes[..length].to_vec())
}

fn read_from(file: &mut File, place: u64) -> io::Result<Vec<u8>> {
    let mut bytes = Vec::new();
    file.seek(SeekFrom::Start(place))?;
    file.read_to_end(&mut bytes)?;
    Ok(bytes)
}

impl Log for FolderLog {
    /// If another target takes the folder over meanwhile, that is an error too: it may not have read the records. After
    /// an error the thread appends nothing more, so that only the last batch can be without a sync.
    fn append(&mut self, records: &[u8]) -> io::Result<()> {
        let own = &self.own;
        own.check_files()?;
        for batch in batches(records) {
            let end = own.length.load(Ordering::Relaxed) + to_u64(batch.len());
            own.limit.store(end, Ordering::Release);
            (&own.file).write_all(&batch)?;
            own.file.sync_data()?;
            own.length.store(end, Ordering::Release);
        }
        own.check_files()
    }
}

impl Hold for Arc<Own> {
    fn check(&self) -> io::Result<()> {
        self.check_length(|| Ok(self.file.metadata()?.len()))
    }

    fn check_files(&self) -> io::Result<()> {
        self.check_length(|| self.watched.length())
    }
}

impl Own {
    /// An error if the file is not as this target has left it. While the thread writes a record, the file may be longer
    /// by a part of it.
    fn check_length(&self, find: impl FnOnce() -> io::Result<u64>) -> io::Result<()> {
        let least = self.length.load(Ordering::Acquire);
        let found = find()?;
        if (least..=self.limit.load(Ordering::Acquire)).contains(&found) {
            return Ok(());
        }
        if found < least {
            return Err(changed(format!("it was cut to {found} bytes, of {least}")));
        }
        let mut bytes = vec![0; to_usize((found - least).min(MOST_OF_OTHERS))];
        self.file.read_exact_at(&mut bytes, least)?;
        let records = records_of(&bytes, 0).map_or(Vec::new(), |(records, _)| records);
        // Its own records have no start.
        let newest = records.iter().filter(|it| it.event == Event::Start).map(|it| it.epoch).max();
        Err(changed(match newest {
            Some(newest) if newest >= self.epoch => {
                format!("another target has taken its folder over: it began epoch {newest}, this one {}", self.epoch)
            }
            _ => "another program has written to it".to_owned(),
        }))
    }
}

#[cfg(test)]
mod tests {
    use super::*;

    #[test]
    fn a_torn_head_is_known() {
        let head: Vec<u8> = (0..1300_u32).map(|it| it.to_le_bytes()[0] | 1).collect();
        for sectors in [0..1, 1..2, 2..3, 0..3] {
            let mut torn = head.clone();
            torn[SECTOR * sectors.start..head.len().min(SECTOR * sectors.end)].fill(0);
            assert!(is_torn(&torn, &head) && is_torn(&torn[..700], &head), "{sectors:?}");
            torn[600] = 2;
            assert!(!is_torn(&torn, &head));
        }
        assert!(!is_torn(&[&head[..], &[0]].concat(), &head), "it is longer");
    }

    #[test]
    fn what_another_target_appends_at_a_start() {
        let [start, cycle] =
            [Event::Start, Event::Cycle].map(|event| move |epoch| Record { epoch, event: event.clone() });
        for (appended, counted) in [
            (vec![start(2)], Some(2)),
            (vec![cycle(1), start(2)], Some(3)),
            (vec![start(2), cycle(1)], Some(2)),
            (vec![start(2), start(2)], None),
            (vec![start(2), cycle(2)], None),
            (vec![start(3), start(2)], None),
            (vec![], None),
        ] {
            let bytes: Vec<u8> = appended.iter().flat_map(Record::bytes).collect();
            let mut records = vec![start(1)];
            let length = join(&mut records, &bytes, 2).ok();
            assert_eq!(length, counted.map(|_| bytes.len()), "{appended:?}");
            if let Some(count) = counted {
                assert_eq!(current(records).events.len(), count);
                assert!(join(&mut vec![start(1)], &[&bytes[..], &[7]].concat(), 2).is_err());
            }
        }
    }
}
