//! A connection to the agent, in lines.

use rustix::fd::OwnedFd;
use rustix::io::Errno;
use rustix::net::sockopt::{set_socket_timeout, Timeout};
use rustix::net::{connect_unix, socket_with, AddressFamily, Protocol, SocketAddrUnix, SocketFlags, SocketType};
use serde::Serialize;
use serde_json::Value;
use std::io::{self, BufRead, BufReader, ErrorKind, Write};
use std::net::Shutdown;
use std::os::unix::net::UnixStream;
use std::path::{Path, PathBuf};
use std::time::Duration;

/// An agent takes a connection and a request at once; one that was stopped, or hangs, does neither once the system keeps no more for it.
pub const PATIENCE: Duration = Duration::from_secs(10);

/// Where it is dropped the connection ends, whoever reads it: so the agent gives its job to another.
pub struct Connection {
    stream: UnixStream,
    lines: BufReader<UnixStream>,
    /// What came of a line whose end didn't come in time.
    begun: Vec<u8>,
}

impl Drop for Connection {
    fn drop(&mut self) {
        let _ended_before = self.stream.shutdown(Shutdown::Both);
    }
}

/// Where the agent listens: at the path that is given, or $DUMGEROK_SOCKET, or /run/dumgerok/agent.sock.
pub fn socket(given: Option<PathBuf>) -> PathBuf {
    let from_environment = || std::env::var_os("DUMGEROK_SOCKET").map(PathBuf::from);
    given.or_else(from_environment).unwrap_or_else(|| PathBuf::from("/run/dumgerok/agent.sock"))
}

impl Connection {
    /// It is an error where nothing that is said is taken for `PATIENCE`.
    pub fn open(path: &Path) -> io::Result<Connection> {
        let socket = socket_with(AddressFamily::UNIX, SocketType::STREAM, SocketFlags::CLOEXEC, Protocol::default())?;
        set_socket_timeout(&socket, Timeout::Send, Some(PATIENCE))?;
        let address = SocketAddrUnix::new(path)?;
        loop {
            match connect_unix(&socket, &address) {
                Err(Errno::INTR) => {}
                done => break done?,
            }
        }
        let stream = UnixStream::from(OwnedFd::from(socket));
        let lines = BufReader::new(stream.try_clone()?);
        Ok(Connection { stream, lines, begun: Vec::new() })
    }

    pub fn say(&mut self, request: &impl Serialize) -> io::Result<()> {
        let mut line = serde_json::to_vec(request)?;
        line.push(b'\n');
        self.stream.write_all(&line)
    }

    /// The next line of the agent. After one that didn't come in time it may be heard again.
    pub fn hear(&mut self) -> io::Result<Value> {
        self.lines.read_until(b'\n', &mut self.begun)?;
        match std::mem::take(&mut self.begun) {
            line if line.is_empty() => Err(io::Error::new(ErrorKind::UnexpectedEof, "the agent ended the connection")),
            line => Ok(serde_json::from_slice(&line)?),
        }
    }

    /// The next line that is there already, if any.
    pub fn hear_now(&mut self) -> io::Result<Option<Value>> {
        self.stream.set_nonblocking(true)?;
        let heard = self.hear();
        self.stream.set_nonblocking(false)?;
        match heard {
            Ok(line) => Ok(Some(line)),
            Err(why) if why.kind() == ErrorKind::WouldBlock => Ok(None),
            Err(why) => Err(why),
        }
    }

    /// The answer to a request; events before it are handed to `passed`.
    pub fn answer(&mut self, mut passed: impl FnMut(Value)) -> io::Result<Value> {
        loop {
            match self.hear()? {
                line if line["ok"].is_null() => passed(line),
                line => return Ok(line),
            }
        }
    }

    /// The next line behind a request. An agent that ends the connection before it has the whole request says why.
    pub fn ask(&mut self, request: &impl Serialize) -> io::Result<Value> {
        match self.say(request) {
            Ok(()) => self.hear(),
            Err(why) => self.hear().map_err(|_| why),
        }
    }

    /// A second one that hears the same connection, for a thread; then this one hears nothing more.
    pub fn reader(&mut self) -> io::Result<Connection> {
        let stream = self.stream.try_clone()?;
        let lines = std::mem::replace(&mut self.lines, BufReader::new(self.stream.try_clone()?));
        Ok(Connection { stream, lines, begun: std::mem::take(&mut self.begun) })
    }

    /// From now on it is an error where nothing comes for so long; None: it is waited for.
    pub fn be_patient_for(&mut self, patience: Option<Duration>) -> io::Result<()> {
        self.stream.set_read_timeout(patience)
    }
}
