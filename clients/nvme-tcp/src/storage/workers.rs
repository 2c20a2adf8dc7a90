//! Threads that do the work of the disk, so that the event loop never waits for it.

use super::frames::Extent;
use super::jobs::{Disk, Done, Job, Reading};
use crate::waker::{self, Waker, Wakeup};
use std::collections::VecDeque;
use std::io;
use std::sync::mpsc::{channel, Receiver, Sender};
use std::sync::{Arc, Condvar, Mutex, MutexGuard, PoisonError};
use std::thread;

/// How many threads there are. Each does one job at a time.
pub(super) const THREADS: usize = 8;
/// How many of them read ahead at a time.
const AHEAD_THREADS: usize = 2;

/// Jobs that no thread has taken yet.
#[derive(Default)]
struct Jobs {
    list: VecDeque<Job>,
    /// Reads that no command waits for. A thread takes one if the list is empty.
    ahead: VecDeque<Reading>,
    /// How many threads read ahead.
    ahead_threads: usize,
    /// How many threads wait for a job, and whether one of them is being woken.
    idle: usize,
    is_waking: bool,
    is_over: bool,
}

impl Jobs {
    fn has_next(&self) -> bool {
        !self.list.is_empty() || !self.ahead.is_empty() && self.ahead_threads < AHEAD_THREADS
    }

    fn next(&mut self) -> Option<Job> {
        if self.has_next() && self.list.is_empty() {
            self.ahead_threads += 1;
            return self.ahead.pop_front().map(Job::Read);
        }
        self.list.pop_front()
    }

    /// Whether to wake a thread. That takes longer than a read of what the system has in memory, so a thread that was
    /// woken wakes the next one, and only if there still is a job.
    fn wakes(&mut self) -> bool {
        let wakes = self.idle != 0 && !self.is_waking && self.has_next();
        self.is_waking |= wakes;
        wakes
    }
}

/// What the threads share.
#[derive(Default)]
struct Queue {
    jobs: Mutex<Jobs>,
    has_more: Condvar,
}

impl Queue {
    fn jobs(&self) -> MutexGuard<'_, Jobs> {
        self.jobs.lock().unwrap_or_else(PoisonError::into_inner)
    }

    /// The next job after one that has ended; `None` once the target ends.
    fn next(&self, has_read_ahead: bool) -> Option<Job> {
        let mut jobs = self.jobs();
        jobs.ahead_threads -= usize::from(has_read_ahead);
        while !jobs.has_next() {
            if jobs.is_over {
                return None;
            }
            jobs.idle += 1;
            jobs = self.has_more.wait(jobs).unwrap_or_else(PoisonError::into_inner);
            jobs.idle -= 1;
            jobs.is_waking = false;
        }
        let job = jobs.next();
        self.wake(jobs);
        job
    }

    fn wake(&self, mut jobs: MutexGuard<'_, Jobs>) {
        let wakes = jobs.wakes();
        drop(jobs);
        if wakes {
            self.has_more.notify_one();
        }
    }
}

/// The event loop's side of the threads.
pub struct Workers {
    queue: Arc<Queue>,
    done: Receiver<Done>,
    /// Jobs that the threads do not have yet.
    begun: Vec<Job>,
    ahead: Vec<Reading>,
    /// Readable when a job has ended.
    pub(super) wakeup: Wakeup,
    /// How many jobs have not ended, or were not taken back yet.
    pub(super) under_way: usize,
}

impl Workers {
    /// Starts threads over a disk.
    pub fn start(disk: &Arc<dyn Disk>) -> io::Result<Workers> {
        let queue = Arc::new(Queue::default());
        let (results, done) = channel();
        let (waker, wakeup) = waker::pair()?;
        for _ in 0..THREADS {
            let (disk, queue, results, waker) =
                (Arc::clone(disk), Arc::clone(&queue), Sender::clone(&results), Waker::clone(&waker));
            let serve = move || serve(&*disk, &queue, &results, &waker);
            thread::Builder::new().name("disk".to_owned()).spawn(serve)?;
        }
        Ok(Workers { queue, done, begun: Vec::new(), ahead: Vec::new(), wakeup, under_way: 0 })
    }

    /// Begins a job. The threads have it after `hand_out`.
    pub fn begin(&mut self, job: Job) {
        self.under_way += 1;
        self.begun.push(job);
    }

    /// Begins to read blocks. Those that no command needs yet come after others.
    pub fn read(&mut self, reading: Reading) {
        if reading.is_ahead {
            self.under_way += 1;
            self.ahead.push(reading);
        } else {
            self.begin(Job::Read(reading));
        }
    }

    /// A command waits for blocks: if they were to be read ahead and no thread does yet, they are read like others. The
    /// bytes of these reads.
    pub fn hasten(&mut self, extent: Extent) -> usize {
        let mut jobs = self.queue.jobs();
        let all = jobs.ahead.drain(..).chain(self.ahead.drain(..));
        let (mut hastened, rest): (Vec<_>, Vec<_>) = all.partition(|it: &Reading| it.extent.overlaps(extent));
        jobs.ahead = rest.into();
        let bytes = hastened.iter().map(|it| it.extent.bytes()).sum();
        hastened.iter_mut().for_each(|it| it.is_ahead = false);
        self.begun.extend(hastened.into_iter().map(Job::Read));
        bytes
    }

    /// Has the threads take the jobs that were begun.
    pub fn hand_out(&mut self) {
        if self.begun.is_empty() && self.ahead.is_empty() {
            return;
        }
        let mut jobs = self.queue.jobs();
        jobs.list.extend(self.begun.drain(..));
        jobs.ahead.extend(self.ahead.drain(..));
        self.queue.wake(jobs);
    }

    /// A job that has ended, each once.
    pub fn take(&mut self) -> Option<Done> {
        let done = self.done.try_recv().ok()?;
        self.under_way -= 1;
        Some(done)
    }

    /// The next job that ends, which is waited for. `None` if there is none.
    pub fn wait(&mut self) -> Option<Done> {
        if self.under_way == 0 {
            return None;
        }
        self.hand_out();
        let done = self.done.recv().ok()?;
        self.under_way -= 1;
        Some(done)
    }
}

impl Drop for Workers {
    /// Ends the threads that have no job.
    fn drop(&mut self) {
        self.queue.jobs().is_over = true;
        self.queue.has_more.notify_all();
    }
}

/// Runs until the event loop's side is dropped.
fn serve(disk: &dyn Disk, queue: &Queue, results: &Sender<Done>, waker: &Waker) {
    let mut has_read_ahead = false;
    while let Some(mut job) = queue.next(has_read_ahead) {
        has_read_ahead = job.is_ahead();
        let result = job.run(disk);
        if results.send(Done { job, result }).is_err() {
            return;
        }
        waker.wake();
    }
}
