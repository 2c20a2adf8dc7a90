//! Wakes the event loop from other threads, by a pair of sockets of which the loop polls one.

use std::io::{self, Read, Write};
use std::os::unix::io::{AsRawFd, RawFd};
use std::os::unix::net::UnixStream;
use std::sync::atomic::{AtomicBool, Ordering};
use std::sync::Arc;

/// The event loop's side: readable after a [`Waker`] was used.
pub struct Wakeup {
    socket: UnixStream,
    is_pending: Arc<AtomicBool>,
}

/// A thread's side.
#[derive(Clone)]
pub struct Waker {
    socket: Arc<UnixStream>,
    /// Whether the loop was woken, and has not called [`Wakeup::clear`] since.
    is_pending: Arc<AtomicBool>,
}

/// Both sides.
pub fn pair() -> io::Result<(Waker, Wakeup)> {
    let (socket, theirs) = UnixStream::pair()?;
    socket.set_nonblocking(true)?;
    theirs.set_nonblocking(true)?;
    let is_pending = Arc::new(AtomicBool::new(false));
    let waker = Waker { socket: Arc::new(theirs), is_pending: Arc::clone(&is_pending) };
    Ok((waker, Wakeup { socket, is_pending }))
}

impl Waker {
    /// Wakes the loop, after the result that it will look for is there. Once is enough until it clears its side.
    pub fn wake(&self) {
        if !self.is_pending.swap(true, Ordering::SeqCst) {
            // If the socket is full, the loop has something to read already.
            let _ = (&*self.socket).write(&[1]);
        }
    }
}

impl Wakeup {
    /// Makes this side unreadable, before the results are looked for.
    pub fn clear(&self) {
        let mut bytes = [0; 64];
        while matches!((&self.socket).read(&mut bytes), Ok(count) if count == bytes.len()) {}
        // An exchange, so that this thread sees what was there before the last call of `wake`.
        self.is_pending.swap(false, Ordering::SeqCst);
    }
}

impl AsRawFd for Wakeup {
    fn as_raw_fd(&self) -> RawFd {
        self.socket.as_raw_fd()
    }
}

#[cfg(all(test, not(feature = "simulated")))]
mod tests {
    use super::*;
    use std::io::ErrorKind;

    /// How many bytes are there to read.
    fn waiting(wakeup: &Wakeup) -> usize {
        match (&wakeup.socket).read(&mut [0; 64]) {
            Ok(count) => count,
            Err(error) => {
                assert_eq!(error.kind(), ErrorKind::WouldBlock);
                0
            }
        }
    }

    #[test]
    fn wakes_once_until_it_is_cleared() {
        let (waker, wakeup) = pair().unwrap();
        waker.wake();
        waker.clone().wake();
        assert_eq!(waiting(&wakeup), 1);
        waker.wake();
        assert_eq!(waiting(&wakeup), 0);
        wakeup.clear();
        waker.wake();
        assert_eq!(waiting(&wakeup), 1);
    }

    #[test]
    fn clearing_takes_what_was_sent() {
        let (waker, wakeup) = pair().unwrap();
        waker.wake();
        wakeup.clear();
        assert_eq!(waiting(&wakeup), 0);
    }
}
