//! Listening sockets. A failure of accept(2), such as that the process has no descriptors left, is logged once, and the
//! socket is left alone for a moment: the connections wait in its queue, and the loop would find them again at once.

use crate::control::log::warn;
use crate::fault::{Fault, Outcome};
use crate::system::{Interest, Poll};
use std::io;
use std::net::{IpAddr, SocketAddr};
use std::os::unix::io::AsRawFd;
use std::time::{Duration, Instant};

/// Pause after a failure.
const PAUSE: Duration = Duration::from_millis(500);

const TO_READ: Interest = Interest { read: true, write: false };
const NOTHING: Interest = Interest { read: false, write: false };

/// A socket that listens, and its name in the poll.
pub struct Listener<S> {
    socket: S,
    name: u64,
    /// When to try again after a failure.
    paused_until: Option<Instant>,
    /// Whether it has failed since its last connection, and this is logged.
    has_failed: bool,
}

impl<S: AsRawFd> Listener<S> {
    /// A socket that does not block.
    pub fn new(socket: S, name: u64, poll: &Poll) -> io::Result<Listener<S>> {
        poll.add(&socket, name, TO_READ)?;
        Ok(Listener { socket, name, paused_until: None, has_failed: false })
    }

    /// The next connection that waits, which `accept` takes.
    pub fn next<T>(&mut self, poll: &Poll, accept: impl Fn(&S) -> io::Result<T>) -> Outcome<Option<T>> {
        match accept(&self.socket) {
            Ok(connection) => {
                self.has_failed = false;
                Ok(Some(connection))
            }
            Err(error) if matches!(error.kind(), io::ErrorKind::WouldBlock | io::ErrorKind::Interrupted) => Ok(None),
            Err(error) => {
                if !self.has_failed {
                    warn(format_args!("a connection can't be accepted, and waits: {error}"));
                }
                self.has_failed = true;
                self.paused_until = Some(Instant::now() + PAUSE);
                poll.change(&self.socket, self.name, NOTHING).map_err(Fault::System)?;
                Ok(None)
            }
        }
    }

    /// Is asked again, if the pause is over.
    pub fn resume(&mut self, poll: &Poll, now: Instant) -> Outcome<()> {
        if self.paused_until.map_or(false, |until| now >= until) {
            self.paused_until = None;
            poll.change(&self.socket, self.name, TO_READ).map_err(Fault::System)?;
        }
        Ok(())
    }

    /// Takes no more connections.
    pub fn close(self, poll: &Poll) -> io::Result<()> {
        poll.remove(&self.socket)
    }
}

/// An address as its host knows it: one of IPv4 that was reached by IPv6 is one of IPv4.
pub fn plain(address: SocketAddr) -> SocketAddr {
    match address.ip() {
        IpAddr::V6(ip) => ip.to_ipv4_mapped().map_or(address, |it| SocketAddr::from((it, address.port()))),
        IpAddr::V4(_) => address,
    }
}

#[cfg(test)]
mod tests {
    use super::*;
    use std::net::TcpListener;

    #[test]
    fn a_failure_pauses_it() {
        let mut poll = Poll::new().unwrap();
        let socket = TcpListener::bind("127.0.0.1:0").unwrap();
        let _waits = std::net::TcpStream::connect(socket.local_addr().unwrap()).unwrap();
        let mut listener = Listener::new(socket, 7, &poll).unwrap();
        // EMFILE, ENFILE, ECONNABORTED.
        for number in [24, 23, 103] {
            let fails = |_: &TcpListener| Err::<(), _>(io::Error::from_raw_os_error(number));
            assert!(listener.next(&poll, fails).unwrap().is_none() && listener.has_failed);
            let mut ready = Vec::new();
            poll.wait(0, &mut ready).unwrap();
            assert!(ready.is_empty());
            listener.resume(&poll, Instant::now()).unwrap();
            assert!(listener.paused_until.is_some());
            listener.resume(&poll, Instant::now() + PAUSE).unwrap();
            poll.wait(0, &mut ready).unwrap();
            assert_eq!((ready.len(), listener.paused_until), (1, None));
        }
        assert!(listener.next(&poll, TcpListener::accept).unwrap().is_some() && !listener.has_failed);
    }

    #[test]
    fn addresses_are_plain() {
        for (address, wanted) in
            [("[::ffff:10.0.0.1]:7", "10.0.0.1:7"), ("[::1]:7", "[::1]:7"), ("10.0.0.1:7", "10.0.0.1:7")]
        {
            assert_eq!(plain(address.parse().unwrap()), wanted.parse().unwrap());
        }
    }
}
