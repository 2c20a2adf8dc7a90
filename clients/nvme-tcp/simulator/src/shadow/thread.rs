//! Threads, as fibers.

use crate::world::{self, with, Key};
use ::std::io;
use ::std::sync::{Arc, Mutex, PoisonError};
pub use ::std::thread::*;
use ::std::time::Duration;

#[derive(Default)]
pub struct Builder {
    name: String,
}

/// A thread that can be waited for.
pub struct JoinHandle<T> {
    thread: usize,
    result: Arc<Mutex<Option<T>>>,
}

impl Builder {
    pub fn new() -> Builder {
        Builder::default()
    }

    pub fn name(self, name: String) -> Builder {
        Builder { name }
    }

    pub fn spawn<T: Send + 'static>(self, work: impl FnOnce() -> T + Send + 'static) -> io::Result<JoinHandle<T>> {
        let result = Arc::new(Mutex::new(None));
        let theirs = Arc::clone(&result);
        let run = move || {
            let value = work();
            *theirs.lock().unwrap_or_else(PoisonError::into_inner) = Some(value);
        };
        Ok(JoinHandle { thread: world::spawn(&self.name, Box::new(run)), result })
    }
}

impl<T> JoinHandle<T> {
    pub fn join(self) -> Result<T> {
        loop {
            if let Some(value) = self.result.lock().unwrap_or_else(PoisonError::into_inner).take() {
                return Ok(value);
            }
            if with(|it| it.has_ended(self.thread)) {
                return Err(Box::new("it has panicked"));
            }
            world::wait(Key::Fiber(self.thread), None);
        }
    }
}

pub fn sleep(time: Duration) {
    world::sleep(time);
}

pub fn yield_now() {
    world::yield_now();
}
