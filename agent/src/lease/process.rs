//! The process `invite lease`, asked and heard over pipes that never block.

use super::{LeaseExchange, LeaseLine};
use crate::boot_time::BootTime;
use crate::config::Config;
use crate::{own_session, piped};
use mio::unix::pipe;
use mio::{Interest, Registry, Token};
use std::io::{self, ErrorKind, Read, Write};
use std::process::{Child, Command, ExitStatus};
use std::thread;
use std::time::{Duration, Instant};

/// So many bytes are read at a time.
const MAX_AT_A_TIME: usize = 256 * 1024;

/// A process of leases, as far as it is asked and heard.
pub trait LeasePort {
    /// Whether it has its file.
    fn is_ready(&self) -> bool;

    /// Whether a message of another machine would be taken now.
    fn has_room(&self, now: Instant) -> bool;

    /// Whether it answers nothing for so long that its leases end.
    fn hangs(&self, now: Instant) -> bool;

    /// Whether it has answered all that it was told.
    fn is_quiet(&self) -> bool;

    /// Tells it something, with the time of now.
    fn say(&mut self, word: &str, rest: &str);

    /// Writes what it takes now. One that is gone is noticed by what it says.
    fn flush(&mut self);

    /// Something came of it, or it ended.
    fn wake(&mut self);

    fn is_readable(&self) -> bool;

    /// Reads some of what it said, and answers whether it goes on.
    fn read_lines(&mut self, lines: &mut Vec<LeaseLine>) -> bool;

    /// Ends it, where it hasn't ended in time by force.
    fn end(&mut self, within: Duration) -> io::Result<Option<ExitStatus>>;
}

pub struct LeaseProcess {
    child: Child,
    input: Option<pipe::Sender>,
    registry: Registry,
    input_token: Token,
    is_waiting_for_room: bool,
    output: pipe::Receiver,
    is_readable: bool,
    exchange: LeaseExchange,
}

/// The program as the process of leases, which so many machines grant. A lease is kept for a hundred of its round trips.
fn lease_command(config: &Config, voters: u8) -> Command {
    let mut command = own_session::command([&config.program]);
    command.arg("lease").arg(config.lease_file()).arg(config.id.to_string()).arg(voters.to_string());
    command.arg((config.lease_ms / 100).to_string());
    if let Some(key) = &config.key {
        command.arg("--key").arg(key).arg("--cluster").arg(&config.cluster);
    }
    command
}

impl LeaseProcess {
    /// Starts it; its output wakes `output`, its input, once it was full, `input`.
    pub fn start(config: &Config, voters: u8, registry: &Registry, input: Token, output: Token) -> io::Result<LeaseProcess> {
        let (child, to, from) = piped::start(config.program.as_os_str(), &mut lease_command(config, voters), registry, output)?;
        Ok(LeaseProcess {
            child,
            input: Some(to),
            registry: registry.try_clone()?,
            input_token: input,
            is_waiting_for_room: false,
            output: from,
            is_readable: false,
            exchange: LeaseExchange::new(config.lease_ms),
        })
    }

    fn wait_for_room(&mut self, waits: bool) {
        if let (Some(input), true) = (self.input.as_mut(), waits != self.is_waiting_for_room) {
            let done = match waits {
                true => self.registry.register(input, self.input_token, Interest::WRITABLE),
                false => self.registry.deregister(input),
            };
            self.is_waiting_for_room = if done.is_ok() { waits } else { self.is_waiting_for_room };
        }
    }
}

impl LeasePort for LeaseProcess {
    fn is_ready(&self) -> bool {
        self.exchange.is_ready()
    }

    fn has_room(&self, now: Instant) -> bool {
        self.exchange.has_room(now)
    }

    fn hangs(&self, now: Instant) -> bool {
        self.exchange.hangs(now)
    }

    fn is_quiet(&self) -> bool {
        self.exchange.is_quiet()
    }

    fn say(&mut self, word: &str, rest: &str) {
        self.exchange.say(word, rest, BootTime::now(), Instant::now());
    }

    fn flush(&mut self) {
        let unwritten = self.exchange.unwritten();
        while let (Some(input), false) = (self.input.as_mut(), unwritten.is_empty()) {
            match input.write(unwritten) {
                Ok(count) if count > 0 => drop(unwritten.drain(..count)),
                Err(error) if error.kind() == ErrorKind::Interrupted => {}
                Err(error) if error.kind() == ErrorKind::WouldBlock => return self.wait_for_room(true),
                _ => self.input = None,
            }
        }
        self.wait_for_room(false);
    }

    fn wake(&mut self) {
        self.is_readable = true;
    }

    fn is_readable(&self) -> bool {
        self.is_readable
    }

    fn read_lines(&mut self, lines: &mut Vec<LeaseLine>) -> bool {
        let mut piece = [0; 16 * 1024];
        for _ in 0..MAX_AT_A_TIME / piece.len() {
            match self.output.read(&mut piece) {
                Ok(0) => return false,
                Ok(count) if self.exchange.hear(&piece[..count], lines) => {}
                Ok(_) => return false,
                Err(error) if error.kind() == ErrorKind::Interrupted => {}
                Err(error) => {
                    self.is_readable = false;
                    return error.kind() == ErrorKind::WouldBlock;
                }
            }
        }
        true
    }

    fn end(&mut self, within: Duration) -> io::Result<Option<ExitStatus>> {
        self.input = None;
        let until = Instant::now() + within;
        loop {
            let status = self.child.try_wait()?;
            if status.is_some() {
                return Ok(status);
            }
            if Instant::now() >= until {
                self.child.kill()?;
                return self.child.try_wait();
            }
            thread::sleep(Duration::from_millis(5));
        }
    }
}
