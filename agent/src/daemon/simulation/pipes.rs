//! The pipes between a core and its process of leases.

use super::super::core::Ports;
use super::memory::Memory;
use crate::lease::{LeaseExchange, LeaseLine, LeasePort};
use std::cell::RefCell;
use std::io;
use std::os::unix::process::ExitStatusExt;
use std::process::ExitStatus;
use std::rc::Rc;
use std::time::{Duration, Instant};

/// What a core and its process of leases have of each other.
struct Ends {
    exchange: LeaseExchange,
    /// What the process is to read, and what the core is to hear.
    written: Vec<u8>,
    said: Vec<u8>,
    is_readable: bool,
    /// Whether the process is gone, and whether the core ended it.
    is_over: bool,
    is_ended: bool,
}

/// The pipes between a core and its process of leases, as both ends have them.
#[derive(Clone)]
pub(super) struct Pipes {
    ends: Rc<RefCell<Ends>>,
    machine: Memory,
    /// Among how many machines the process votes.
    pub(super) voters: u8,
}

impl Pipes {
    pub(super) fn new(machine: &Memory, lease_ms: u64, voters: u8) -> Pipes {
        let (written, said, exchange) = (Vec::new(), Vec::new(), LeaseExchange::new(lease_ms));
        let ends = Ends { exchange, written, said, is_readable: false, is_over: false, is_ended: false };
        Pipes { ends: Rc::new(RefCell::new(ends)), machine: machine.clone(), voters }
    }

    /// Whether there is something for the process to read, and what it is.
    pub(super) fn is_written(&self) -> bool {
        !self.ends.borrow().written.is_empty()
    }

    pub(super) fn read(&self) -> Vec<u8> {
        std::mem::take(&mut self.ends.borrow_mut().written)
    }

    /// The process says this.
    pub(super) fn say(&self, bytes: &[u8]) {
        self.ends.borrow_mut().said.extend_from_slice(bytes);
    }

    /// The process is gone.
    pub(super) fn close(&self) {
        self.ends.borrow_mut().is_over = true;
    }

    /// Whether the core ended the process.
    pub(super) fn is_ended(&self) -> bool {
        self.ends.borrow().is_ended
    }
}

impl LeasePort for Pipes {
    fn is_ready(&self) -> bool {
        self.ends.borrow().exchange.is_ready()
    }

    fn has_room(&self, now: Instant) -> bool {
        self.ends.borrow().exchange.has_room(now)
    }

    fn hangs(&self, now: Instant) -> bool {
        self.ends.borrow().exchange.hangs(now)
    }

    fn is_quiet(&self) -> bool {
        self.ends.borrow().exchange.is_quiet()
    }

    fn say(&mut self, word: &str, rest: &str) {
        self.ends.borrow_mut().exchange.say(word, rest, self.machine.boot_time(), self.machine.instant());
    }

    fn flush(&mut self) {
        let ends = &mut *self.ends.borrow_mut();
        ends.written.append(ends.exchange.unwritten());
    }

    fn wake(&mut self) {
        self.ends.borrow_mut().is_readable = true;
    }

    fn is_readable(&self) -> bool {
        self.ends.borrow().is_readable
    }

    fn read_lines(&mut self, lines: &mut Vec<LeaseLine>) -> bool {
        let ends = &mut *self.ends.borrow_mut();
        ends.is_readable = false;
        let said = std::mem::take(&mut ends.said);
        ends.exchange.hear(&said, lines) && !ends.is_over
    }

    fn end(&mut self, _within: Duration) -> io::Result<Option<ExitStatus>> {
        self.ends.borrow_mut().is_ended = true;
        Ok(Some(ExitStatus::from_raw(0)))
    }
}
