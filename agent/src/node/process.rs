//! The process `invite node`, asked and heard over pipes that never block.

use super::answer::Answer;
use super::exchange::{digits_of, Exchange};
use crate::config::Config;
use crate::{own_session, piped};
use log::error;
use mio::unix::pipe;
use mio::{Interest, Registry, Token};
use std::io::{self, ErrorKind, Read, Write};
use std::process::{Child, Command, ExitStatus};
use std::thread;
use std::time::{Duration, Instant};

/// A node that was killed has so long to be gone.
const PATIENCE_BEHIND_KILL: Duration = Duration::from_millis(250);

/// So many bytes are read at a time, so that what they say is done before more of it is held.
const MAX_AT_A_TIME: usize = 256 * 1024;

/// The process of a node, and its pipes.
pub struct NodeProcess {
    child: Child,
    input: Option<pipe::Sender>,
    /// Where the loop is told that the input has room again: only while it is full, for each read of the node would wake it.
    registry: Registry,
    input_token: Token,
    is_waiting_for_room: bool,
    output: pipe::Receiver,
    /// Whether more of its output may be waiting.
    is_readable: bool,
}

/// The program as the node, in a session of its own: a signal to the agent's terminal or process group is the agent's to answer.
fn node_command(config: &Config) -> Command {
    let mut command = own_session::command([&config.program]);
    command.arg("node").arg(&config.file).arg(config.id.to_string()).arg(config.nodes.len().to_string());
    command.arg(config.round_trip_ms.to_string());
    command.arg("--cluster").arg(&config.cluster);
    if let Some(key) = &config.key {
        command.arg("--key").arg(key);
    }
    command
}

impl NodeProcess {
    /// Starts the node, under a key in this life; its output wakes `output`, its input, once it was full, `input`.
    pub fn start(config: &Config, life: u64, registry: &Registry, input: Token, output: Token) -> io::Result<NodeProcess> {
        let mut command = node_command(config);
        if config.key.is_some() {
            command.arg("--life").arg(digits_of(life));
        }
        let (child, to, from) = piped::start(config.program.as_os_str(), &mut command, registry, output)?;
        Ok(NodeProcess {
            child,
            input: Some(to),
            registry: registry.try_clone()?,
            input_token: input,
            is_waiting_for_room: false,
            output: from,
            is_readable: false,
        })
    }

    /// Writes what the pipe takes now, to the record first. A node that is gone is noticed at its output.
    pub fn flush<A>(&mut self, exchange: &mut Exchange<A>) {
        exchange.flush_record();
        let unwritten = exchange.unwritten();
        while let (Some(input), false) = (self.input.as_mut(), unwritten.is_empty()) {
            match input.write(unwritten) {
                Ok(count) if count > 0 => drop(unwritten.drain(..count)),
                Err(error) if error.kind() == ErrorKind::Interrupted => {}
                Err(error) if error.kind() == ErrorKind::WouldBlock => return self.wait_for_room(true),
                _ => self.input = None,
            }
        }
        self.wait_for_room(false);
    }

    fn wait_for_room(&mut self, waits: bool) {
        if let (Some(input), true) = (self.input.as_mut(), waits != self.is_waiting_for_room) {
            let done = if waits {
                self.registry.register(input, self.input_token, Interest::WRITABLE)
            } else {
                self.registry.deregister(input)
            };
            match done {
                Ok(()) => self.is_waiting_for_room = waits,
                Err(why) => error!("the node's input can't be waited for: {why}"),
            }
        }
    }

    /// Something came of the node, or it ended.
    pub fn wake(&mut self) {
        self.is_readable = true;
    }

    pub fn is_readable(&self) -> bool {
        self.is_readable
    }

    /// Reads some of what the node wrote, and answers whether it goes on. Whole answers are put to `answers`, and stand in the record by then; a piece of one
    /// that has no end is dropped.
    pub fn read_answers<A>(&mut self, exchange: &mut Exchange<A>, answers: &mut Vec<Answer<A>>) -> bool {
        let goes_on = self.read_some(exchange, answers);
        exchange.flush_record();
        goes_on
    }

    fn read_some<A>(&mut self, exchange: &mut Exchange<A>, answers: &mut Vec<Answer<A>>) -> bool {
        let mut piece = [0; 16 * 1024];
        for _ in 0..MAX_AT_A_TIME / piece.len() {
            let count = match self.output.read(&mut piece) {
                Ok(0) => return false,
                Ok(count) => count,
                Err(error) if error.kind() == ErrorKind::Interrupted => continue,
                Err(error) => {
                    self.is_readable = false;
                    return error.kind() == ErrorKind::WouldBlock;
                }
            };
            if !exchange.hear(&piece[..count], answers) {
                return false;
            }
        }
        true
    }

    /// Ends its input, by which it ends, and kills it where it hasn't ended in time. One that waits for a disk that hangs can't be killed, and isn't waited for.
    pub fn end(&mut self, within: Duration) -> io::Result<ExitStatus> {
        self.input = None;
        if let Some(status) = self.wait(within)? {
            return Ok(status);
        }
        self.child.kill()?;
        let hangs = || io::Error::new(ErrorKind::TimedOut, "it was killed and isn't gone: does it wait for its disk?");
        self.wait(PATIENCE_BEHIND_KILL)?.ok_or_else(hangs)
    }

    fn wait(&mut self, within: Duration) -> io::Result<Option<ExitStatus>> {
        let until = Instant::now() + within;
        loop {
            let status = self.child.try_wait()?;
            if status.is_some() || Instant::now() >= until {
                return Ok(status);
            }
            thread::sleep(Duration::from_millis(5));
        }
    }
}
