//! What is of Unix.

pub use ::std::os::raw;

pub mod unix {
    pub mod io {
        pub use ::std::os::unix::io::{AsRawFd, FromRawFd, OwnedFd, RawFd};
    }

    pub mod fs {
        //! Metadata and positions of files.

        use crate::shadow::fs::{DirBuilder, File, FileType, Metadata, OpenOptions};
        use crate::world::disk::Kind;
        use crate::world::with;
        use ::std::io::{self, ErrorKind};

        pub trait FileExt {
            fn read_at(&self, room: &mut [u8], place: u64) -> io::Result<usize>;
            fn write_at(&self, bytes: &[u8], place: u64) -> io::Result<usize>;

            fn read_exact_at(&self, room: &mut [u8], place: u64) -> io::Result<()> {
                let (mut room, mut place) = (room, place);
                while !room.is_empty() {
                    let count = self.read_at(room, place)?;
                    if count == 0 {
                        return Err(ErrorKind::UnexpectedEof.into());
                    }
                    room = &mut room[count..];
                    place += count as u64;
                }
                Ok(())
            }

            fn write_all_at(&self, bytes: &[u8], place: u64) -> io::Result<()> {
                let mut done = 0;
                while done < bytes.len() {
                    done += self.write_at(&bytes[done..], place + done as u64)?;
                }
                Ok(())
            }
        }

        impl FileExt for File {
            fn read_at(&self, room: &mut [u8], place: u64) -> io::Result<usize> {
                self.read_some_at(room, place)
            }

            fn write_at(&self, bytes: &[u8], place: u64) -> io::Result<usize> {
                self.write_some_at(bytes, place)
            }
        }

        pub trait FileTypeExt {
            fn is_block_device(&self) -> bool;
            fn is_char_device(&self) -> bool;
            fn is_fifo(&self) -> bool;
            fn is_socket(&self) -> bool;
        }

        impl FileTypeExt for FileType {
            fn is_block_device(&self) -> bool {
                self.0 == Kind::BlockDevice
            }

            fn is_char_device(&self) -> bool {
                self.0 == Kind::Random
            }

            fn is_fifo(&self) -> bool {
                false
            }

            fn is_socket(&self) -> bool {
                self.0 == Kind::Socket
            }
        }

        pub trait MetadataExt {
            fn dev(&self) -> u64;
            fn ino(&self) -> u64;
            fn mode(&self) -> u32;
            fn uid(&self) -> u32;
            fn blocks(&self) -> u64;
        }

        impl MetadataExt for Metadata {
            fn dev(&self) -> u64 {
                0xfe00
            }

            fn ino(&self) -> u64 {
                self.inode as u64 + 1
            }

            fn mode(&self) -> u32 {
                if with(|it| it.disks.inodes[self.inode].is_open) {
                    0o777 | if self.kind == Kind::Folder { 0o40_000 } else { 0o100_000 }
                } else if self.kind == Kind::Folder {
                    0o40_700
                } else {
                    0o100_600
                }
            }

            fn uid(&self) -> u32 {
                if with(|it| it.disks.inodes[self.inode].is_others) {
                    77
                } else {
                    0
                }
            }

            /// A file that was never written has none.
            fn blocks(&self) -> u64 {
                if with(|it| it.disks.inodes[self.inode].written()) == 0 {
                    0
                } else {
                    self.length / 512
                }
            }
        }

        pub trait OpenOptionsExt {
            fn custom_flags(&mut self, flags: i32) -> &mut Self;
            fn mode(&mut self, mode: u32) -> &mut Self;
        }

        impl OpenOptionsExt for OpenOptions {
            fn custom_flags(&mut self, flags: i32) -> &mut Self {
                self.set_flags(flags);
                self
            }

            fn mode(&mut self, _: u32) -> &mut Self {
                self
            }
        }

        pub trait DirBuilderExt {
            fn mode(&mut self, mode: u32) -> &mut Self;
        }

        impl DirBuilderExt for DirBuilder {
            fn mode(&mut self, _: u32) -> &mut Self {
                self
            }
        }
    }

    pub mod net {
        //! Sockets of one machine.

        use crate::shadow::net::{reads_and_writes, Ear, Shutdown, Socket};
        use crate::world::disk::Kind;
        use crate::world::{with, World};
        use ::std::io::{self, ErrorKind, Read, Write};
        use ::std::net::SocketAddr;
        use ::std::os::unix::io::AsRawFd;
        use ::std::path::Path;

        fn nowhere() -> SocketAddr {
            SocketAddr::from(([127, 0, 0, 1], 0))
        }

        #[derive(Debug)]
        pub struct UnixStream(Socket);

        impl UnixStream {
            pub fn pair() -> io::Result<(UnixStream, UnixStream)> {
                let [one, other] = with(|world| {
                    let process = world.process();
                    world.net.pair([process; 2], [nowhere(); 2], true)
                });
                Ok((UnixStream(Socket { name: one }), UnixStream(Socket { name: other })))
            }

            pub fn connect(path: impl AsRef<Path>) -> io::Result<UnixStream> {
                let wanted = path.as_ref().display().to_string();
                with(|world| {
                    let process = world.process();
                    let World { net, .. } = world;
                    let found = net.listening.iter().find(|(_, it)| it.path.as_ref() == Some(&wanted));
                    let found = found.map(|(name, it)| (*name, it.process));
                    let (listener, theirs) = found.ok_or_else(|| io::Error::from(ErrorKind::ConnectionRefused))?;
                    let [mine, other] = net.pair([process, theirs], [nowhere(); 2], true);
                    if let Some(it) = net.listening.get_mut(&listener) {
                        it.waiting.push_back(other);
                    }
                    net.keys(listener).into_iter().for_each(|it| world.wake_all(it));
                    Ok(UnixStream(Socket { name: mine }))
                })
            }

            pub fn set_nonblocking(&self, is_set: bool) -> io::Result<()> {
                self.0.set_nonblocking(is_set);
                Ok(())
            }

            pub fn shutdown(&self, how: Shutdown) -> io::Result<()> {
                self.0.shutdown(how)
            }
        }

        reads_and_writes!(UnixStream);

        impl AsRawFd for UnixStream {
            fn as_raw_fd(&self) -> i32 {
                self.0.name
            }
        }

        #[derive(Debug)]
        pub struct UnixListener(Ear);

        impl UnixListener {
            pub fn bind(path: impl AsRef<Path>) -> io::Result<UnixListener> {
                let ear = Ear::begin(None, Some(path.as_ref().display().to_string()))?;
                with(|it| it.disks.create(path.as_ref(), Kind::Socket));
                Ok(UnixListener(ear))
            }

            pub fn set_nonblocking(&self, _: bool) -> io::Result<()> {
                Ok(())
            }

            pub fn accept(&self) -> io::Result<(UnixStream, SocketAddr)> {
                Ok((UnixStream(self.0.accept()?), nowhere()))
            }
        }

        impl AsRawFd for UnixListener {
            fn as_raw_fd(&self) -> i32 {
                self.0.name()
            }
        }
    }
}
