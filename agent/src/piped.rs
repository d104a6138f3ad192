//! Programs that are asked and heard over pipes that never block.

use crate::own_session;
use mio::unix::pipe;
use mio::{Interest, Registry, Token};
use std::ffi::OsStr;
use std::io::{self, ErrorKind};
use std::process::{Child, Command, Stdio};

/// Runs a command, which becomes this program, and its pipes; its output wakes `output`.
pub fn start(program: &OsStr, command: &mut Command, registry: &Registry, output: Token) -> io::Result<(Child, pipe::Sender, pipe::Receiver)> {
    if let Some(why) = own_session::why_not(program) {
        return Err(io::Error::new(ErrorKind::NotFound, why));
    }
    let mut child = command.stdin(Stdio::piped()).stdout(Stdio::piped()).spawn()?;
    let pipes = child.stdin.take().zip(child.stdout.take());
    let (stdin, stdout) = pipes.ok_or_else(|| io::Error::new(ErrorKind::Other, "it has no pipes"))?;
    let (to, mut from) = (pipe::Sender::from(stdin), pipe::Receiver::from(stdout));
    to.set_nonblocking(true)?;
    from.set_nonblocking(true)?;
    registry.register(&mut from, output, Interest::READABLE)?;
    Ok((child, to, from))
}
