//! Where clients come in: a Unix socket at a path.

use super::{ClientId, Peer};
use log::debug;
use mio::net::{UnixListener, UnixStream};
use mio::{Interest, Registry, Token};
use rustix::fd::OwnedFd;
use rustix::fs::{fchmod, Mode};
use rustix::net::{bind_unix, listen, socket_with, AddressFamily, Protocol, SocketAddrUnix, SocketFlags, SocketType};
use std::fs::{self, Permissions};
use std::io::{self, ErrorKind, Read, Write};
use std::os::unix::fs::{FileTypeExt, MetadataExt, PermissionsExt};
use std::path::{Path, PathBuf};

/// The owner and the group of the agent may come to its socket; so many that came may wait to be taken.
const MODE: u32 = 0o660;
const BACKLOG: i32 = 1024;

/// The connection of a client. What would wait fails with `WouldBlock`.
pub trait Stream: Read + Write {
    /// Who is at its other end.
    fn peer(&self) -> io::Result<Peer>;
}

impl Stream for UnixStream {
    fn peer(&self) -> io::Result<Peer> {
        Peer::of(self)
    }
}

/// Where clients come in.
pub trait Door {
    type Stream: Stream;

    /// The next one that came; `WouldBlock` where none waits.
    fn next(&mut self) -> io::Result<Self::Stream>;

    /// From now on the loop is told by this number that something came of a client, or that it takes more.
    fn admit(&mut self, stream: &mut Self::Stream, id: ClientId) -> io::Result<()>;

    /// Listens anew, where the socket was removed.
    fn open_again(&mut self) -> io::Result<()>;
}

/// The socket at a path, in place of one that an agent left there.
pub struct SocketDoor {
    path: PathBuf,
    /// The device and the number of the socket at the path, by which it is known again.
    own: (u64, u64),
    listener: UnixListener,
    registry: Registry,
    token: Token,
}

impl SocketDoor {
    pub fn open(path: &Path, registry: &Registry, token: Token) -> io::Result<SocketDoor> {
        let (listener, own) = bound(path, registry, token)?;
        Ok(SocketDoor { path: path.to_path_buf(), own, listener, registry: registry.try_clone()?, token })
    }
}

impl Door for SocketDoor {
    type Stream = UnixStream;

    fn next(&mut self) -> io::Result<UnixStream> {
        self.listener.accept().map(|(stream, _)| stream)
    }

    fn admit(&mut self, stream: &mut UnixStream, id: ClientId) -> io::Result<()> {
        self.registry.register(stream, Token(id), Interest::READABLE.add(Interest::WRITABLE))
    }

    fn open_again(&mut self) -> io::Result<()> {
        (self.listener, self.own) = bound(&self.path, &self.registry, self.token)?;
        Ok(())
    }
}

impl Drop for SocketDoor {
    fn drop(&mut self) {
        let is_own = identity(&self.path).map_or(false, |found| found == self.own);
        if is_own {
            if let Err(error) = fs::remove_file(&self.path) {
                debug!("{}: {error}", self.path.display());
            }
        }
    }
}

/// A socket at a path, and its identity, in place of one that an agent left there.
fn bound(path: &Path, registry: &Registry, token: Token) -> io::Result<(UnixListener, (u64, u64))> {
    if is_left(path)? {
        fs::remove_file(path)?;
    }
    let mut listener = UnixListener::from_std(listening(path)?);
    registry.register(&mut listener, token, Interest::READABLE)?;
    Ok((listener, identity(path)?))
}

/// Who may come to a socket is set before it is bound, so that at no time others may; what the umask takes of that is given back.
fn listening(path: &Path) -> io::Result<std::os::unix::net::UnixListener> {
    let socket = socket_with(AddressFamily::UNIX, SocketType::STREAM, SocketFlags::CLOEXEC, Protocol::default())?;
    fchmod(&socket, Mode::from_bits_truncate(MODE))?;
    bind_unix(&socket, &SocketAddrUnix::new(path)?)?;
    fs::set_permissions(path, Permissions::from_mode(MODE))?;
    listen(&socket, BACKLOG)?;
    let listener = std::os::unix::net::UnixListener::from(OwnedFd::from(socket));
    listener.set_nonblocking(true)?;
    Ok(listener)
}

fn identity(path: &Path) -> io::Result<(u64, u64)> {
    fs::symlink_metadata(path).map(|found| (found.dev(), found.ino()))
}

/// Whether an agent that is gone left its socket at a path. An error where an agent listens there, and where anything else is there, as a node's file that
/// was named by mistake.
pub fn is_left(path: &Path) -> io::Result<bool> {
    match fs::symlink_metadata(path) {
        Ok(found) if found.file_type().is_socket() => {}
        Ok(_) => return Err(io::Error::new(ErrorKind::AlreadyExists, "this is there, and is no socket")),
        Err(error) if error.kind() == ErrorKind::NotFound => return Ok(false),
        Err(error) => return Err(error),
    }
    match UnixStream::connect(path) {
        Err(error) if error.kind() == ErrorKind::ConnectionRefused => Ok(true),
        // where more wait to be taken than the system keeps somebody is there, too
        Err(error) if error.kind() != ErrorKind::WouldBlock => Err(error),
        _ => Err(io::Error::new(ErrorKind::AddrInUse, "another agent listens there")),
    }
}
