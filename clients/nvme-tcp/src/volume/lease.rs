//! The lease of a volume: how long a target may serve it. A thread renews it by reading that the superblock still names
//! this target. A target that takes the volume writes the superblock, and then waits for longer than a lease. So the
//! last owner has ended by then, even if it was stopped meanwhile.

use super::superblock::{self, Chosen};
use crate::files::watched::changed;
use crate::journal::Hold;
use crate::options::UsageError;
use crate::system::time_since_boot;
use std::fs::File;
use std::io::{self, ErrorKind};
use std::ops::RangeInclusive;
use std::sync::atomic::{AtomicU64, Ordering};
use std::sync::{Arc, Mutex, PoisonError, Weak};
use std::thread;
use std::time::Duration;

/// How long a lease is unless `--lease` gives another time, and the seconds that may be given.
pub const LEASE: Duration = Duration::from_secs(4);
const SECONDS: RangeInclusive<u64> = 1..=60;
/// How often it is renewed while it lasts.
const RENEWALS: u32 = 8;

/// The time between two renewals of a lease.
pub fn renewal(lease: Duration) -> Duration {
    lease / RENEWALS
}

/// The value of `--lease`.
pub fn lease_of(text: &str) -> Result<Duration, UsageError> {
    let seconds = text.parse().ok().filter(|it| SECONDS.contains(it));
    seconds.map(Duration::from_secs).ok_or_else(|| UsageError::Lease(text.to_owned()))
}

/// The lease of this target.
pub struct Lease {
    file: File,
    epoch: u64,
    number: [u8; 16],
    length: Duration,
    /// The nanoseconds since the machine was started at which it ends.
    until: AtomicU64,
    /// Who has the volume, if that is another target.
    lost: Mutex<Option<String>>,
}

impl Lease {
    /// Begins a lease of the target that took this epoch under this number, by a file that is open with O_DIRECT.
    pub fn begin(file: File, epoch: u64, number: [u8; 16], length: Duration) -> io::Result<Arc<Lease>> {
        let (until, lost) = (AtomicU64::new(u64::MAX), Mutex::new(None));
        let lease = Arc::new(Lease { file, epoch, number, length, until, lost });
        lease.renew();
        if lease.until.load(Ordering::Acquire) == u64::MAX {
            return Err(io::Error::new(ErrorKind::InvalidData, "the superblock can't be read again"));
        }
        lease.check()?;
        let theirs = Arc::downgrade(&lease);
        thread::Builder::new().name("lease".to_owned()).spawn(move || keep(&theirs, renewal(length)))?;
        Ok(lease)
    }

    /// Reads who has the volume. If that fails, the lease ends in time. One that has ended is not renewed.
    fn renew(&self) {
        let begun = time_since_boot();
        if begun.as_nanos() >= u128::from(self.until.load(Ordering::Acquire)) {
            return;
        }
        let found = match superblock::read(&self.file) {
            Ok(Chosen { superblock, .. }) => superblock,
            Err(_) => return,
        };
        let number = found.owner.as_ref().map(|it| it.number);
        if found.epoch == self.epoch && number == Some(self.number) {
            let until = begun.saturating_add(self.length).as_nanos();
            self.until.store(u64::try_from(until).unwrap_or(0), Ordering::Release);
            return;
        }
        let owner = found.owner.map_or_else(|| "nobody".to_owned(), |it| it.name);
        let text =
            format!("{owner} has taken the volume over: it began epoch {}, this one {}", found.epoch, self.epoch);
        self.until.store(0, Ordering::Release);
        *self.lost.lock().unwrap_or_else(PoisonError::into_inner) = Some(text);
    }

    /// An error if the lease has ended, or another target has the volume.
    pub fn check(&self) -> io::Result<()> {
        let (now, until) = (time_since_boot().as_nanos(), self.until.load(Ordering::Acquire));
        if now < u128::from(until) {
            return Ok(());
        }
        let lost = self.lost.lock().unwrap_or_else(PoisonError::into_inner).clone();
        Err(lost.map_or_else(
            || {
                let text = "the lease of the volume has ended: this process was stopped, or the storage did not answer";
                io::Error::new(ErrorKind::TimedOut, text)
            },
            changed,
        ))
    }
}

/// Renews a lease until the target ends.
fn keep(lease: &Weak<Lease>, pause: Duration) {
    loop {
        thread::sleep(pause);
        match lease.upgrade() {
            Some(lease) => lease.renew(),
            None => return,
        }
    }
}

impl Hold for Arc<Lease> {
    fn check(&self) -> io::Result<()> {
        Lease::check(self)
    }

    fn check_time(&self) -> io::Result<()> {
        Lease::check(self)
    }
}
