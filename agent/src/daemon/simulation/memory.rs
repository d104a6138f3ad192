//! A machine, as far as its core reaches it beside its sockets: its clock, what it keeps for leases, and their process.

use super::super::core::Ports;
use super::pipes::Pipes;
use super::ports::{Cable, Came, NoNames, NoPages};
use crate::boot_time::BootTime;
use crate::config::Config;
use std::cell::{Cell, RefCell};
use std::io;
use std::rc::Rc;
use std::time::{Duration, Instant};

/// The world's time, in microseconds from its beginning.
#[derive(Clone)]
pub(super) struct Time {
    begin: Instant,
    now: Rc<Cell<u64>>,
}

impl Time {
    pub(super) fn begin() -> Time {
        Time { begin: Instant::now(), now: Rc::default() }
    }

    pub(super) fn set(&self, now: u64) {
        self.now.set(now);
    }

    pub(super) fn instant(&self) -> Instant {
        self.begin + Duration::from_micros(self.now.get())
    }
}

/// What a clock goes by that is right, in the world's time of so many.
pub(super) const RIGHT: u64 = 1 << 20;

/// A machine's clock by which leases go: from some time on it shows more by a rate.
#[derive(Clone, Copy)]
struct BootClock {
    since: u64,
    shows: u64,
    rate: u64,
}

struct Own {
    time: Time,
    clock: Cell<BootClock>,
    voters: Cell<Option<u8>>,
    /// The process of leases that was started and isn't at work yet.
    started: RefCell<Option<Pipes>>,
}

/// A machine, as far as its core reaches it.
#[derive(Clone)]
pub(super) struct Memory(Rc<Own>);

impl Memory {
    pub(super) fn new(time: &Time) -> Memory {
        let clock = Cell::new(BootClock { since: 0, shows: 0, rate: RIGHT });
        Memory(Rc::new(Own { time: time.clone(), clock, voters: Cell::new(None), started: RefCell::new(None) }))
    }

    /// What the clock shows, in microseconds.
    fn shows(&self) -> u64 {
        let BootClock { since, shows, rate } = self.0.clock.get();
        shows + (((self.0.time.now.get() - since) * rate) >> 20)
    }

    /// In whole milliseconds.
    pub(super) fn shows_ms(&self) -> u64 {
        self.shows() / 1000
    }

    /// From now on the clock goes by this rate, and shows so much more at once.
    pub(super) fn set_clock(&self, rate: u64, more: u64) {
        self.0.clock.set(BootClock { since: self.0.time.now.get(), shows: self.shows() + more, rate });
    }

    pub(super) fn instant(&self) -> Instant {
        self.0.time.instant()
    }

    /// Among how many machines it votes.
    pub(super) fn votes(&self, count: u8) {
        self.0.voters.set(Some(count));
    }

    /// The process of leases that the core started last.
    pub(super) fn take_started(&self) -> Option<Pipes> {
        self.0.started.borrow_mut().take()
    }
}

impl Ports for Memory {
    type Network = Cable;
    type Door = Came;
    type Names = NoNames;
    type Pages = NoPages;
    type Lease = Pipes;

    fn boot_time(&self) -> BootTime {
        BootTime::of_ms(0).after(Duration::from_micros(self.shows()))
    }

    fn kept_voters(&self, _config: &Config) -> Option<u8> {
        self.0.voters.get()
    }

    fn keep_voters(&self, _config: &Config, count: u8) -> io::Result<()> {
        self.votes(count);
        Ok(())
    }

    fn has_lease_file(&self, _config: &Config) -> bool {
        true
    }

    fn start_lease(&self, config: &Config, voters: u8) -> io::Result<Pipes> {
        let pipes = Pipes::new(self, config.lease_ms, voters);
        *self.0.started.borrow_mut() = Some(pipes.clone());
        Ok(pipes)
    }

    fn give_back_memory(&self) {}
}
