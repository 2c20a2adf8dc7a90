//! TCP over the simulated network.

use super::os::unix::io::AsRawFd;
use crate::world::network::Listening;
use crate::world::{self, with, Key, World};
use ::std::collections::VecDeque;
use ::std::io::{self, ErrorKind, Read, Write};
pub use ::std::net::*;

/// EMFILE.
const TOO_MANY_FILES: i32 = 24;

/// One side of a connection.
#[derive(Debug)]
pub(super) struct Socket {
    pub name: i32,
}

impl Drop for Socket {
    fn drop(&mut self) {
        with(|world| {
            let World { net, random, now, tap, .. } = world;
            net.close(self.name, *now, random);
            tap.iter_mut().for_each(|it| it.close(self.name, *now));
        });
    }
}

impl Socket {
    pub fn read(&self, room: &mut [u8]) -> io::Result<usize> {
        loop {
            let result = with(|world| {
                let is_host = world.process() == world::HOSTS;
                let World { net, random, chances, tap, now, .. } = world;
                let come = net.come(self.name);
                let side = match net.sides.get(&self.name) {
                    Some(side) => side,
                    None => return Some(Err(ErrorKind::ConnectionReset.into())),
                };
                let (ended, reset, waits) = (side.has_ended, side.is_reset, side.is_waiting);
                if come != 0 && !room.is_empty() {
                    let most = come.min(room.len());
                    let count = if random.once_in(chances.short) { 1 + random.index(most) } else { most };
                    net.read(self.name, room, count);
                    if let Some(tap) = tap.as_mut().filter(|_| is_host) {
                        tap.receive(self.name, &room[..count], *now);
                    }
                    let peer = net.sides.get(&self.name).map_or(0, |it| it.peer);
                    net.keys(peer).into_iter().for_each(|it| world.wake_all(it));
                    return Some(Ok(count));
                }
                match (reset, ended) {
                    (true, _) => Some(Err(ErrorKind::ConnectionReset.into())),
                    (_, true) => Some(Ok(0)),
                    _ if !waits => Some(Err(ErrorKind::WouldBlock.into())),
                    _ => None,
                }
            });
            match result {
                Some(result) => return result,
                None => world::wait(Key::Descriptor(self.name), None),
            };
        }
    }

    pub fn write(&self, bytes: &[u8]) -> io::Result<usize> {
        loop {
            let result = with(|world| {
                let is_host = world.process() == world::HOSTS;
                let World { net, random, now, chances, tap, .. } = world;
                let side = match net.sides.get(&self.name) {
                    Some(side) => side,
                    None => return Some(Err(ErrorKind::BrokenPipe.into())),
                };
                let (reset, waits) = (side.is_reset, side.is_waiting);
                let most = net.room(self.name).min(bytes.len());
                if reset {
                    return Some(Err(ErrorKind::ConnectionReset.into()));
                }
                if most == 0 {
                    return if waits { None } else { Some(Err(ErrorKind::WouldBlock.into())) };
                }
                let count = if random.once_in(chances.short) { 1 + random.index(most) } else { most };
                net.write(self.name, &bytes[..count], *now, random);
                if let Some(tap) = tap.as_mut().filter(|_| is_host) {
                    tap.send(self.name, &bytes[..count], *now);
                }
                Some(Ok(count))
            });
            match result {
                Some(result) => return result,
                None => world::wait(Key::Descriptor(self.name), None),
            };
        }
    }

    pub fn set_nonblocking(&self, is_set: bool) {
        with(|it| it.net.sides.get_mut(&self.name).into_iter().for_each(|it| it.is_waiting = !is_set));
    }

    pub fn shutdown(&self, how: Shutdown) -> io::Result<()> {
        with(|world| {
            let World { net, random, now, .. } = world;
            if net.sides.get(&self.name).map_or(true, |it| it.is_reset) {
                return Err(ErrorKind::NotConnected.into());
            }
            if how != Shutdown::Read {
                net.end(self.name, *now, random);
            }
            Ok(())
        })
    }
}

#[derive(Debug)]
pub struct TcpStream(pub(super) Socket);

impl TcpStream {
    /// Connects. Both sides begin at once.
    pub fn connect(address: SocketAddr) -> io::Result<TcpStream> {
        with(|world| {
            let process = world.process();
            let World { net, .. } = world;
            let found =
                net.listening.iter().find(|(_, it)| it.address == Some(address)).map(|(name, it)| (*name, it.process));
            let (listener, theirs) = found.ok_or_else(|| io::Error::from(ErrorKind::ConnectionRefused))?;
            let from = SocketAddr::from(([127, 0, 0, 1], net.port()));
            let [mine, other] = net.pair([process, theirs], [from, address], false);
            if let Some(it) = net.listening.get_mut(&listener) {
                it.waiting.push_back(other);
            }
            net.keys(listener).into_iter().for_each(|it| world.wake_all(it));
            Ok(TcpStream(Socket { name: mine }))
        })
    }

    pub fn set_nonblocking(&self, is_set: bool) -> io::Result<()> {
        self.0.set_nonblocking(is_set);
        Ok(())
    }

    pub fn set_nodelay(&self, _: bool) -> io::Result<()> {
        Ok(())
    }

    pub fn local_addr(&self) -> io::Result<SocketAddr> {
        with(|it| it.net.sides.get(&self.0.name).map(|it| it.local)).ok_or_else(|| ErrorKind::NotConnected.into())
    }

    pub fn peer_addr(&self) -> io::Result<SocketAddr> {
        with(|it| it.net.sides.get(&self.0.name).map(|it| it.remote)).ok_or_else(|| ErrorKind::NotConnected.into())
    }

    pub fn shutdown(&self, how: Shutdown) -> io::Result<()> {
        self.0.shutdown(how)
    }

    /// For hosts of the simulator: whether something can be read now.
    pub fn has_come(&self) -> bool {
        with(|it| it.net.readiness(self.0.name).0)
    }
}

impl AsRawFd for TcpStream {
    fn as_raw_fd(&self) -> i32 {
        self.0.name
    }
}

macro_rules! reads_and_writes {
    ($name:ident) => {
        impl Read for $name {
            fn read(&mut self, room: &mut [u8]) -> io::Result<usize> {
                self.0.read(room)
            }
        }

        impl Read for &$name {
            fn read(&mut self, room: &mut [u8]) -> io::Result<usize> {
                self.0.read(room)
            }
        }

        impl Write for $name {
            fn write(&mut self, bytes: &[u8]) -> io::Result<usize> {
                self.0.write(bytes)
            }

            fn flush(&mut self) -> io::Result<()> {
                Ok(())
            }
        }

        impl Write for &$name {
            fn write(&mut self, bytes: &[u8]) -> io::Result<usize> {
                self.0.write(bytes)
            }

            fn flush(&mut self) -> io::Result<()> {
                Ok(())
            }
        }
    };
}

pub(super) use reads_and_writes;

reads_and_writes!(TcpStream);

/// A socket that listens.
#[derive(Debug)]
pub(super) struct Ear {
    name: i32,
}

impl Ear {
    pub fn begin(address: Option<SocketAddr>, path: Option<String>) -> io::Result<Ear> {
        with(|world| {
            let process = world.process();
            let is_same = |it: &Listening| it.address == address && it.path == path;
            if world.net.listening.values().any(is_same) {
                return Err(ErrorKind::AddrInUse.into());
            }
            let name = world.net.descriptor();
            let waiting = VecDeque::new();
            world.net.listening.insert(name, Listening { process, address, path, waiting, poll: None });
            Ok(Ear { name })
        })
    }

    pub fn name(&self) -> i32 {
        self.name
    }

    pub fn accept(&self) -> io::Result<Socket> {
        with(|world| {
            let waits = world.net.listening.get(&self.name).map_or(false, |it| !it.waiting.is_empty());
            let fails = world.chances.failed_accept;
            if waits && world.happens("failed accept", fails) {
                return Err(io::Error::from_raw_os_error(TOO_MANY_FILES));
            }
            let name = world.net.listening.get_mut(&self.name).and_then(|it| it.waiting.pop_front());
            name.map(|name| Socket { name }).ok_or_else(|| ErrorKind::WouldBlock.into())
        })
    }
}

impl Drop for Ear {
    fn drop(&mut self) {
        with(|world| {
            let World { net, random, now, .. } = world;
            if let Some(it) = net.listening.remove(&self.name) {
                it.waiting.into_iter().for_each(|name| net.close(name, *now, random));
            }
        });
    }
}

#[derive(Debug)]
pub struct TcpListener(Ear);

impl TcpListener {
    pub fn bind(address: impl ToSocketAddrs) -> io::Result<TcpListener> {
        let address = address.to_socket_addrs()?.next();
        Ear::begin(address, None).map(TcpListener)
    }

    pub fn set_nonblocking(&self, _: bool) -> io::Result<()> {
        Ok(())
    }

    pub fn local_addr(&self) -> io::Result<SocketAddr> {
        let address = with(|it| it.net.listening.get(&self.0.name()).and_then(|it| it.address));
        address.ok_or_else(|| ErrorKind::NotConnected.into())
    }

    pub fn accept(&self) -> io::Result<(TcpStream, SocketAddr)> {
        let stream = TcpStream(self.0.accept()?);
        let address = stream.peer_addr()?;
        Ok((stream, address))
    }
}

impl AsRawFd for TcpListener {
    fn as_raw_fd(&self) -> i32 {
        self.0.name()
    }
}
