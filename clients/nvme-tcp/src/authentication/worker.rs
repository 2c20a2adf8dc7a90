//! A thread for computations of milliseconds, so that the event loop never waits for them.

use crate::authentication::{Done, Work};
use crate::fabrics::association::ConnectionId;
use crate::waker::{self, Waker, Wakeup};
use std::io;
use std::sync::mpsc::{channel, Receiver, Sender};
use std::sync::{Arc, Weak};
use std::thread;

/// Work for a connection. It is skipped if the connection has ended.
struct Job {
    connection: ConnectionId,
    work: Work,
    life: Weak<()>,
}

/// The result of a connection's work.
pub struct Finished {
    pub connection: ConnectionId,
    pub done: Done,
}

/// The event loop's side of the thread.
pub struct Worker {
    jobs: Sender<Job>,
    finished: Receiver<Finished>,
    /// Readable when work is finished.
    pub(super) wakeup: Wakeup,
}

impl Worker {
    pub fn start() -> io::Result<Worker> {
        let (jobs, todo) = channel::<Job>();
        let (results, finished) = channel();
        let (waker, wakeup) = waker::pair()?;
        thread::Builder::new().name("authentication".to_owned()).spawn(move || serve(&todo, &results, &waker))?;
        Ok(Worker { jobs, finished, wakeup })
    }

    /// Queues work of a connection, which is skipped once `life` is dropped.
    pub fn begin(&self, connection: ConnectionId, life: &Arc<()>, work: Work) {
        // The thread ends only after this.
        let _ = self.jobs.send(Job { connection, work, life: Arc::downgrade(life) });
    }

    /// Returns each result once.
    pub fn take_finished(&self) -> Vec<Finished> {
        self.wakeup.clear();
        self.finished.try_iter().collect()
    }
}

/// Runs until the event loop's side is dropped.
fn serve(todo: &Receiver<Job>, results: &Sender<Finished>, waker: &Waker) {
    for Job { connection, work, life } in todo {
        if life.upgrade().is_some() {
            // If nobody takes the result, there is no more work either.
            let _ = results.send(Finished { connection, done: work.run() });
            waker.wake();
        }
    }
}
