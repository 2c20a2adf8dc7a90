//! The journal: the commands that changed reservations, write protection or attachments, the power cycles and the
//! starts of targets, so that a target that is started again has what persists.
//!
//! The event loop gives its records to a thread, which writes and syncs all that it has. Nothing that was executed
//! after a change is answered or written to the disk before the record of that change is synced. So an incomplete batch
//! of records was never answered, and is dropped.

pub mod batch;
pub mod checkpoint;
pub mod folder;
pub mod record;
pub mod restoring;
pub mod state;

use crate::admin::identity::Identity;
use crate::fault::{Fault, Outcome};
use crate::files::watched::changed;
use crate::journal::record::{newest, Current, Event, Record};
use crate::nvme::entry::SubmissionEntry;
use crate::target::controller::Data;
use crate::waker::{self, Waker, Wakeup};
use nvmesim::journal::{kept, lasts};
use std::io::{self, ErrorKind};
use std::mem;
use std::sync::atomic::{AtomicU64, Ordering};
use std::sync::{Arc, Condvar, Mutex, MutexGuard, PoisonError};
use std::thread::{self, JoinHandle};

/// Memory for records that wait for the thread.
const ROOM: usize = 256 << 10;
/// Replaces the number of synced records after a failure.
const FAILED: u64 = u64::MAX;

/// The content of a journal that was opened.
pub struct Found {
    pub current: Current,
    /// How many bytes at its end were a part of a batch of records, and are left out.
    pub torn: usize,
}

/// Keeps records. A thread of its own calls it, which may wait for the disk.
pub trait Log: Send {
    /// Adds whole records and syncs them, unless another target has taken over.
    fn append(&mut self, records: &[u8]) -> io::Result<()>;

    /// The target ends in order, and has synced everything.
    fn close(&mut self) -> io::Result<()> {
        Ok(())
    }
}

/// Whether a target still has what it serves. The event loop calls it.
pub trait Hold {
    /// An error if another target has taken over. That is quick: it is called before anything is served.
    fn check(&self) -> io::Result<()>;

    /// An error also if another program has changed the files.
    fn check_files(&self) -> io::Result<()> {
        self.check()
    }

    /// An error if another target may have taken over. It makes no system call: it is called before each answer.
    fn check_time(&self) -> io::Result<()> {
        Ok(())
    }
}

/// What the thread has not taken yet.
struct Given {
    records: Vec<u8>,
    /// The number of records up to their end.
    count: u64,
    is_over: bool,
}

/// The records in flight to the log.
struct Queue {
    given: Mutex<Given>,
    has_more: Condvar,
    /// How many records are synced, or `FAILED`.
    synced: AtomicU64,
    failure: Mutex<Option<io::Error>>,
}

impl Queue {
    fn given(&self) -> MutexGuard<'_, Given> {
        self.given.lock().unwrap_or_else(PoisonError::into_inner)
    }

    /// Takes the records that wait in exchange for an empty buffer; the number of records up to their end. `None` once
    /// the target ends.
    fn take(&self, records: &mut Vec<u8>) -> Option<u64> {
        let waited = self.has_more.wait_while(self.given(), |it| it.records.is_empty() && !it.is_over);
        let mut given = waited.unwrap_or_else(PoisonError::into_inner);
        mem::swap(&mut given.records, records);
        if records.is_empty() {
            return None;
        }
        Some(given.count)
    }

    /// Appends records until the target ends, or one can't be kept.
    fn serve(&self, log: &mut dyn Log, waker: &Waker) {
        let mut records = Vec::with_capacity(ROOM);
        while let Some(count) = self.take(&mut records) {
            let result = log.append(&records);
            records.clear();
            let has_failed = result.is_err();
            if let Err(error) = result {
                *self.failure.lock().unwrap_or_else(PoisonError::into_inner) = Some(error);
            }
            self.synced.store(if has_failed { FAILED } else { count }, Ordering::Release);
            waker.wake();
            if has_failed {
                return;
            }
        }
    }
}

/// A journal that is kept.
pub struct Journal {
    queue: Arc<Queue>,
    thread: JoinHandle<Box<dyn Log>>,
    hold: Box<dyn Hold>,
    /// Readable when records are synced.
    pub wakeup: Wakeup,
    /// How many records were given to the thread.
    pub count: u64,
    pub epoch: u64,
    pub identity: Identity,
}

impl Journal {
    /// Starts the thread.
    pub fn start(mut log: Box<dyn Log>, hold: Box<dyn Hold>, epoch: u64, identity: Identity) -> io::Result<Journal> {
        let given = Given { records: Vec::with_capacity(ROOM), count: 0, is_over: false };
        let queue = Arc::new(Queue {
            given: Mutex::new(given),
            has_more: Condvar::new(),
            synced: AtomicU64::new(0),
            failure: Mutex::new(None),
        });
        let (waker, wakeup) = waker::pair()?;
        let theirs = Arc::clone(&queue);
        let serve = move || {
            theirs.serve(&mut *log, &waker);
            log
        };
        let thread = thread::Builder::new().name("journal".to_owned()).spawn(serve)?;
        Ok(Journal { queue, thread, hold, wakeup, count: 0, epoch, identity })
    }

    /// Appends a command that has succeeded, if it changes what is to last, with what it read of its data: a host could
    /// make the rest look like another record, or a page of them like another batch of a volume.
    pub fn follow(&mut self, cntlid: u16, qid: u16, entry: &SubmissionEntry, data: Data<'_>) {
        if lasts(entry.bytes(), qid == 0) {
            let data = if let Data::ToController(bytes) = data { kept(bytes, qid == 0) } else { &[] };
            self.give(Event::Command { cntlid, qid, entry: *entry, data: data.to_vec() });
        }
    }

    /// Appends a power cycle.
    pub fn cycle(&mut self) {
        self.give(Event::Cycle);
    }

    fn give(&mut self, event: Event) {
        self.count += 1;
        let mut given = self.queue.given();
        Record { epoch: self.epoch, event }.append_to(&mut given.records);
        given.count = self.count;
        drop(given);
        self.queue.has_more.notify_one();
    }

    /// How many records are synced.
    pub fn synced(&self) -> Outcome<u64> {
        match self.queue.synced.load(Ordering::Acquire) {
            FAILED => {
                let failure = self.queue.failure.lock().unwrap_or_else(PoisonError::into_inner).take();
                Err(Fault::Journal(failure.unwrap_or_else(|| ErrorKind::BrokenPipe.into())))
            }
            count => Ok(count),
        }
    }

    /// An error if another target has taken over, and with `all` also if another program has changed the files.
    pub fn check(&self, all: bool) -> Outcome<()> {
        let checked = if all { self.hold.check_files() } else { self.hold.check() };
        checked.map_err(Fault::Journal)
    }

    /// An error if another target may have taken over by now.
    pub fn check_time(&self) -> Outcome<()> {
        self.hold.check_time().map_err(Fault::Journal)
    }

    /// Waits until all records are synced, at the end; what they are in.
    pub fn end(self) -> Outcome<Box<dyn Log>> {
        self.queue.given().is_over = true;
        self.queue.has_more.notify_one();
        let Journal { queue, thread, .. } = self;
        let log = thread.join().map_err(|_| Fault::Journal(ErrorKind::Other.into()))?;
        let failure = queue.failure.lock().unwrap_or_else(PoisonError::into_inner).take();
        failure.map_or(Ok(log), |error| Err(Fault::Journal(error)))
    }
}

/// The newest epoch of records. An error if one of them is of an epoch that no target has started.
fn newest_of(records: &[Record]) -> io::Result<u64> {
    newest(records).map_err(|number| changed(format!("record {number} is of an epoch that no target has started")))
}

#[cfg(test)]
mod tests {
    use super::*;
    use crate::journal::record::records_of;
    use crate::nvme::RESERVATION_REGISTER;
    use std::sync::mpsc::{sync_channel, Receiver, SyncSender};

    /// A log whose appends wait until they are allowed, and pass on what they got.
    struct Gate {
        passes: Receiver<bool>,
        got: SyncSender<Vec<u8>>,
    }

    impl Log for Gate {
        fn append(&mut self, records: &[u8]) -> io::Result<()> {
            if !self.passes.recv().unwrap_or(false) {
                return Err(ErrorKind::Other.into());
            }
            self.got.send(records.to_owned()).map_err(|_| ErrorKind::BrokenPipe.into())
        }
    }

    struct Always;

    impl Hold for Always {
        fn check(&self) -> io::Result<()> {
            Ok(())
        }
    }

    #[test]
    fn records_are_synced_together_and_in_order() {
        let ((pass, passes), (got, gets)) = (sync_channel(9), sync_channel(9));
        let identity = Identity([0; 16]);
        let mut journal = Journal::start(Box::new(Gate { passes, got }), Box::new(Always), 3, identity).unwrap();
        let entry = SubmissionEntry::new(RESERVATION_REGISTER, 0, 1);
        journal.follow(1, 1, &SubmissionEntry::new(0, 0, 0), Data::None);
        assert_eq!(journal.count, 0);
        for cntlid in 1..=5 {
            journal.follow(cntlid, 1, &entry, Data::ToController(&[7; 16]));
        }
        assert_eq!((journal.count, journal.synced().unwrap()), (5, 0));
        let mut bytes = Vec::new();
        // Each pass is for one batch.
        while records_of(&bytes, 0).unwrap().0.len() < 5 {
            pass.send(true).unwrap();
            bytes.extend(gets.recv().unwrap());
        }
        while journal.synced().unwrap() != 5 {
            thread::yield_now();
        }
        let records = records_of(&bytes, 0).unwrap().0;
        let cntlids = records.iter().map(|it| match (&it.event, it.epoch) {
            (Event::Command { cntlid, .. }, 3) => *cntlid,
            _ => 0,
        });
        assert_eq!(cntlids.collect::<Vec<_>>(), [1, 2, 3, 4, 5]);
        pass.send(false).unwrap();
        journal.cycle();
        assert!(journal.end().is_err());
    }
}
