//! The agent: one loop over all that comes. Nothing in it blocks.

mod admin;
mod announcing;
mod answers;
mod asker;
mod core;
mod datagrams;
mod drain;
mod forwarding;
mod guard;
mod holding;
mod keyed;
mod leases;
mod looks;
mod losses;
mod opening;
mod pages;
mod refusals;
mod relaying;
mod requests;
mod signals;
#[cfg(test)]
mod simulation;
mod voters;

use self::core::{Core, Parts, Ports};
use answers::NOT_IN_HAND;
pub use asker::{Asker, Origin};
pub use signals::Beginning;

use crate::boot_time::BootTime;
use crate::config::Config;
use crate::forward::{self, read_keys, Seal};
use crate::http::{Records, Server};
use crate::lease::{read_voters, write_voters, LeaseProcess};
use crate::metrics::Metrics;
use crate::net::{Cipher, Link, Network, News};
use crate::node::{Exchange, Lane, NodeProcess};
use crate::node_file;
use crate::notify::Notify;
use crate::protocol::Reply;
use crate::record::Record;
use crate::resolver::{Names, Resolver};
use crate::service::{is_left, ClientId, Hand, SocketDoor};
use crate::system_calls::give_back_memory;
use crate::view::Majority;
use anyhow::Context;
use guard::Guard;
use leases::Leases;
use log::{debug, error, info, warn};
use looks::Looks;
use mio::event::Event;
use mio::{Events, Poll, Registry, Token, Waker};
use signals::{Signals, ENDING};
use std::collections::BTreeSet;
use std::io::{self, ErrorKind};
use std::net::SocketAddr;
use std::ops::RangeInclusive;
use std::os::unix::process::ExitStatusExt;
use std::path::PathBuf;
use std::process::ExitStatus;
use std::sync::Arc;
use std::thread;
use std::time::{Duration, Instant, SystemTime, UNIX_EPOCH};

const NODE_INPUT: Token = Token(0);
const NODE_OUTPUT: Token = Token(1);
const LINK: Token = Token(2);
const LISTENER: Token = Token(3);
const SIGNALS: Token = Token(4);
const WAKER: Token = Token(5);
const LEASE_INPUT: Token = Token(6);
const LEASE_OUTPUT: Token = Token(7);
/// Tokens from this one on are clients'.
const FIRST_CLIENT: usize = 16;

/// The statuses by which a node says what failed.
const NODE_FAILED: RangeInclusive<u8> = 1..=8;

/// The status of an agent whose node can't mount its file, and of one that lacks memory for it.
const FILE_DAMAGED: u8 = 5;
const NO_MEMORY: u8 = 1;

/// The status of an agent whose node's file is gone.
const FILE_GONE: u8 = 7;

/// The status of an agent whose node's file is older than what its node gave.
const FILE_IS_COPY: u8 = 9;

/// A node whose input ended may take so long to end: SIGTERM ends the agent within a second.
const PATIENCE_AT_END: Duration = Duration::from_millis(600);

/// What is ended behind it has at least so long.
const LEAST_PATIENCE: Duration = Duration::from_millis(20);

/// A signal that ended the node may come to the agent so much later.
const PATIENCE_FOR_OWN_SIGNAL: Duration = Duration::from_millis(200);

/// For so long an answer of the node is looked for without a sleep.
const LONGEST_LOOK: Duration = Duration::from_micros(250);

/// The sockets, threads and processes of the core.
struct Sockets {
    registry: Registry,
}

impl Ports for Sockets {
    type Network = Link;
    type Door = SocketDoor;
    type Names = Resolver;
    type Pages = Server;
    type Lease = LeaseProcess;

    fn boot_time(&self) -> BootTime {
        BootTime::now()
    }

    fn kept_voters(&self, config: &Config) -> Option<u8> {
        read_voters(&config.lease_file())
    }

    fn keep_voters(&self, config: &Config, count: u8) -> io::Result<()> {
        write_voters(&config.lease_file(), count)
    }

    fn has_lease_file(&self, config: &Config) -> bool {
        config.lease_file().exists()
    }

    fn start_lease(&self, config: &Config, voters: u8) -> io::Result<LeaseProcess> {
        LeaseProcess::start(config, voters, &self.registry, LEASE_INPUT, LEASE_OUTPUT)
    }

    fn give_back_memory(&self) {
        give_back_memory();
    }
}

pub struct Daemon {
    core: Core<Sockets>,
    poll: Poll,
    node: NodeProcess,
    guard: Guard,
    socket_guard: Guard,
    /// Whether the socket couldn't be made again.
    is_socket_gone: bool,
    looks: Looks,
    signals: Signals,
}

impl Daemon {
    /// Starts the node of a configuration that was read at this path.
    pub fn start(config: Config, path: PathBuf) -> anyhow::Result<Daemon> {
        let (now, begin, poll) = (Instant::now(), SystemTime::now(), Poll::new()?);
        let (registry, life) = (poll.registry(), forward::new_life()?);
        let signals = Signals::register(registry, SIGNALS)?;
        let waker = Arc::new(Waker::new(registry, WAKER)?);
        let seal = seal_of(&config)?;
        let socket = || format!("socket {}", config.socket.display());
        is_left(&config.socket).with_context(socket)?;
        // of two agents that begin at the same time one has the port, and the other one leaves its socket alone
        let link = Link::bind(config.listens_at(), registry, LINK)
            .map_err(|why| anyhow::anyhow!("datagrams can't be received at {}: {why}{}", config.listens_at(), hint(&config, &why)))?;
        let door = SocketDoor::open(&config.socket, registry, LISTENER).with_context(socket)?;
        let http = http_of(&config, &waker)?;
        let [guard, socket_guard] = Guard::start([&config.file, &config.socket], Arc::clone(&waker))?;
        let (process, node) = node_of(&config, life, registry, begin)?;
        let parts = Parts {
            ports: Sockets { registry: registry.try_clone()? },
            path,
            life,
            node,
            slots: node_file::slots(&config.file),
            is_ipv6: link.is_ipv6(),
            link,
            door,
            resolver: Resolver::new(waker),
            http,
            cipher: cipher_of(&config)?,
            metrics: Metrics::new(&config.cluster, &seal.fingerprints)?,
            seal,
            notify: Notify::of_environment()?,
            config,
        };
        let core = Core::new(parts, now)?;
        Ok(Daemon { core, poll, node: process, guard, socket_guard, is_socket_gone: false, looks: Looks::new(now), signals })
    }

    /// Runs until the node ends or a signal ends it; the status to exit with.
    pub fn run(mut self, beginning: &Beginning) -> anyhow::Result<u8> {
        beginning.is_over();
        match self.go_on() {
            Err(why) if self.signals.take_end() => {
                error!("{why:#}");
                Ok(self.end_by_signal(Instant::now()))
            }
            status => status,
        }
    }

    fn go_on(&mut self) -> anyhow::Result<u8> {
        let mut events = Events::with_capacity(256);
        self.core.begin(Instant::now());
        loop {
            if self.core.lets_go(Instant::now()) {
                self.node.flush(&mut self.core.node);
            }
            self.core.leases.iter_mut().for_each(Leases::flush);
            self.wait(&mut events)?;
            for event in &events {
                self.wake(event);
            }
            let goes_on = !self.node.is_readable() || self.hear();
            if let Some(status) = self.is_over(goes_on) {
                return Ok(status);
            }
            self.work(Instant::now());
        }
    }

    /// The status to exit with, where the node ended, a signal came, or the node's file is none to go on with.
    fn is_over(&mut self, goes_on: bool) -> Option<u8> {
        let is_asked = self.signals.take_end();
        if self.guard.is_gone() && goes_on && !is_asked {
            error!("{}: it was removed, or another file has its name", self.core.config.file.display());
            self.core.unusable = Some(FILE_GONE);
        }
        if goes_on && !is_asked && self.core.unusable.is_none() {
            return None;
        }
        if is_asked {
            self.core.notify.stopping();
        }
        let until = Instant::now() + PATIENCE_AT_END;
        let status = self.end_node();
        if is_asked || self.is_asked_with(status) {
            return Some(self.end_by_signal(until));
        }
        self.core.say_goodbye(Instant::now());
        self.core.unusable.filter(|_| goes_on).or_else(|| Some(status.map_or(1, ended)))
    }

    /// Ends the node; how it ended. None where it couldn't be ended, which the log is told.
    fn end_node(&mut self) -> Option<ExitStatus> {
        self.node.end(PATIENCE_AT_END).map_err(|why| error!("the node can't be ended: {why}")).ok()
    }

    /// Whether a signal is for the agent, too, whose node ended so: one to all processes may come to the node first.
    fn is_asked_with(&self, node: Option<ExitStatus>) -> bool {
        let is_by_signal = node.and_then(|status| status.signal()).map_or(false, |signal| ENDING.contains(&signal));
        self.signals.take_end() || (is_by_signal && self.signals.end_within(PATIENCE_FOR_OWN_SIGNAL))
    }

    /// The rest of an end by a signal, whose status is 0 whatever became of the node.
    fn end_by_signal(&mut self, until: Instant) -> u8 {
        // what it did meanwhile is told to those who asked for it
        self.hear();
        // the others wait for this word alone
        self.core.say_goodbye(Instant::now());
        let left = until.saturating_duration_since(Instant::now()).max(LEAST_PATIENCE);
        self.core.leases.iter_mut().for_each(|leases| leases.end(left));
        info!("ended by a signal");
        0
    }

    /// Waits until something comes or is to be done. An answer of the node comes soon, so for a moment it is looked for without a sleep.
    fn wait(&mut self, events: &mut Events) -> anyhow::Result<()> {
        let (begin, sleep) = (Instant::now(), self.core.sleep(self.node.is_readable(), Instant::now()));
        if !sleep.is_zero() && self.core.node.is_asked() && self.looks.take(begin) {
            while begin.elapsed() < LONGEST_LOOK {
                poll(&mut self.poll, events, Duration::ZERO)?;
                if !events.is_empty() {
                    return Ok(());
                }
                thread::yield_now();
            }
        }
        poll(&mut self.poll, events, whole_ms(sleep))
    }

    fn wake(&mut self, event: &Event) {
        match event.token() {
            NODE_INPUT | WAKER => {}
            LEASE_INPUT => {}
            LEASE_OUTPUT => self.core.leases.iter_mut().for_each(Leases::wake),
            NODE_OUTPUT => self.node.wake(),
            LINK => self.core.link.wake(),
            LISTENER => self.core.clients.wake_listener(),
            SIGNALS => self.signals.read(),
            Token(client) => self.core.clients.wake(client, event.is_write_closed()),
        }
    }

    /// Reads what the node answered, and answers whether it goes on.
    fn hear(&mut self) -> bool {
        let mut answers = Vec::new();
        let goes_on = self.node.read_answers(&mut self.core.node, &mut answers);
        self.core.heard(answers, Instant::now());
        goes_on
    }

    fn work(&mut self, now: Instant) {
        if self.signals.take_reload() {
            self.core.reload(now);
        }
        self.keep_socket();
        self.core.turn(now);
    }

    /// Makes the socket again where it was removed: else no client would find the agent until its next start.
    fn keep_socket(&mut self) {
        if !self.socket_guard.is_gone() {
            return;
        }
        let path = self.core.config.socket.display();
        let made = self.core.clients.listen_again();
        let is_gone = made.is_err();
        match made {
            Ok(()) => warn!("socket {path}: it was removed, and is made again"),
            Err(why) if !self.is_socket_gone => error!("socket {path}: it was removed, and can't be made again: {why}"),
            Err(_) => {}
        }
        self.is_socket_gone = is_gone;
        self.socket_guard.again();
    }
}

impl<P: Ports> Core<P> {
    /// All that may be to be done, each kind by a bounded number at a time.
    fn turn(&mut self, now: Instant) {
        if self.opening.is_some() {
            return self.open(now);
        }
        self.receive(now);
        self.hear_refusals(now);
        self.ask_unasked(now);
        self.send_on(now);
        self.tell_numbers(now);
        self.announce(now);
        self.give_up_lead(now);
        self.look_for_others(now);
        self.accept(now);
        self.obey(now);
        self.give_up_gone(now);
        self.stop_parted(now);
        self.give_again(now);
        self.try_again(now);
        self.look_up(now);
        self.serve_pages(now);
        if let Some(is_so) = self.view.news_of_majority(&self.peers, now) {
            self.tell(Reply::event("majority").with("majority", is_so));
        }
        self.beat(now);
        self.keep_leases(now);
        let ms = if self.holding.holds(now) { None } else { self.clock.tick(now) };
        if let Some(ms) = ms {
            self.node.ask(Asker::Tick, Lane::Local, format!("tick {ms}"));
        }
        self.notify.tell_ready(now);
        if self.view.is_ready && self.view.is_alive(now) {
            self.notify.lives(now);
        }
    }

    /// How long to wait for something to come, where answers of the node wait or don't. Where the node has no room its answer is waited for.
    fn sleep(&self, is_node_readable: bool, now: Instant) -> Duration {
        if let Some(opening) = &self.opening {
            return if self.link.is_readable() { Duration::ZERO } else { opening.sleep(now) };
        }
        let is_behind = is_node_readable || self.link.is_readable() || self.clients.has_more_to_take();
        if is_behind || self.clients.have_input(self.takes_requests(now)) {
            return Duration::ZERO;
        }
        let until = self
            .outbox
            .next(self.node.has_room(Lane::Local))
            .map_or(Duration::MAX, |next| next.saturating_duration_since(now));
        let majority = match self.view.majority(&self.peers) {
            Majority::Until(end) if now < end => end - now,
            _ => Duration::MAX,
        };
        let wait = |next: Option<Instant>| next.map_or(Duration::MAX, |next| next.saturating_duration_since(now));
        let of_clients = wait(self.clients.next_beat()).min(wait(self.hand.next_due()));
        let leases = self.leases.as_ref().map_or(Duration::MAX, |leases| leases.sleep(now, self.ports.boot_time()));
        let leases = leases.min(self.refusals.sleep(now)).min(self.unasked_in(now)).min(self.announcing.sleep(now)).min(self.looking.sleep(now)).min(self.notify.sleep(now));
        let clock = self.holding.left(now).unwrap_or_else(|| self.clock.sleep(now));
        clock.min(until).min(self.pace.sleep(now)).min(majority).min(of_clients).min(leases)
    }

    /// Takes clients that came; those that work on a job, or have a lease, aren't ended for them.
    fn accept(&mut self, now: Instant) {
        let (hand, leases) = (&self.hand, &self.leases);
        self.clients.accept(now, || busy(hand, leases));
    }

    /// Asks the node something else than the time.
    fn ask(&mut self, asker: Asker, text: String) {
        if !matches!(asker, Asker::Datagram { .. } | Asker::Time) {
            self.holding.end();
        }
        self.clock.asked();
        let lane = asker.lane();
        self.node.ask(asker, lane, text);
    }

    fn look_up(&mut self, now: Instant) {
        while let Some(found) = self.resolver.found() {
            match self.peers.found(found.at, &found.name, &found.addresses, now) {
                News::NoAddress => {
                    warn!("node {}: {} has no address that {} reaches", found.at, found.name, self.config.listens_at())
                }
                News::At(address) => info!("node {}: {} is {address}", found.at, found.name),
                News::Tried(address) => debug!("node {}: {} is tried at {address}", found.at, found.name),
                News::Nothing => {}
            }
        }
        if !self.resolver.is_busy() {
            if let Some((at, name)) = self.peers.next_look_up(now) {
                self.resolver.look_up(at, name);
            }
        }
    }
}

/// The clients that work on a job, or ask for a lease or have one.
fn busy<P: Ports>(hand: &Hand, leases: &Option<Leases<P>>) -> BTreeSet<ClientId> {
    hand.holders().into_iter().chain(leases.iter().flat_map(Leases::clients)).collect()
}

/// The status of the agent, where its node ended with this one though nobody ended it: that is no success, whatever the node says.
fn ended(status: ExitStatus) -> u8 {
    match (status.code(), status.signal()) {
        (Some(code), _) => error!("the node ended with status {code}"),
        (_, signal) => error!("the node was ended by signal {}", signal.unwrap_or(0)),
    }
    status.code().and_then(|code| u8::try_from(code).ok()).filter(|code| NODE_FAILED.contains(code)).unwrap_or(1)
}

fn poll(poll: &mut Poll, events: &mut Events, sleep: Duration) -> anyhow::Result<()> {
    match poll.poll(events, Some(sleep)) {
        Err(error) if error.kind() != ErrorKind::Interrupted => Err(error.into()),
        _ => Ok(()),
    }
}

/// A poll counts whole milliseconds and leaves the rest out: so it would be made again and again until the rest is over.
fn whole_ms(sleep: Duration) -> Duration {
    Duration::from_millis((sleep + Duration::from_micros(999)).as_millis() as u64)
}

/// What to look at where an address can't be had.
fn hint(config: &Config, why: &std::io::Error) -> String {
    let from = match config.listen {
        Some(_) => "`listen` has it".to_string(),
        None => format!("`nodes` has it for `id` {}, and there is no `listen`", config.id),
    };
    match why.kind() {
        ErrorKind::AddrInUse => format!(": another process has it, perhaps another agent ({from})"),
        ErrorKind::AddrNotAvailable => format!(": this machine has no such address ({from}): is `id` this machine's?"),
        _ => format!(" ({from})"),
    }
}

fn seal_of(config: &Config) -> anyhow::Result<Seal> {
    match &config.key {
        Some(key) => {
            Seal::read(key, &config.cluster, config.nodes.len()).with_context(|| format!("key {}", key.display()))
        }
        None => Ok(Seal::default()),
    }
}

/// What encrypts datagrams, where there is a key.
fn cipher_of(config: &Config) -> anyhow::Result<Cipher> {
    let path = match &config.key {
        Some(path) => path,
        None => return Ok(Cipher::default()),
    };
    let keys = read_keys(path).with_context(|| format!("key {}", path.display()))?;
    Ok(Cipher::begin(&keys, &config.cluster, config.nodes.len(), config.id)?)
}

fn http_of(config: &Config, waker: &Arc<Waker>) -> anyhow::Result<Option<Server>> {
    let start = |at: SocketAddr| {
        if !at.ip().is_loopback() {
            let record = if config.http_record { ", and in the record what jobs hold" } else { "" };
            warn!("HTTP at {at}: whoever reaches it may read names, addresses, groups and counts{record}");
        }
        let records = config.record.clone().filter(|_| config.http_record).map(Records::new);
        Server::start(at, config.page_hosts(), records, Arc::clone(waker)).with_context(|| format!("HTTP at {at}"))
    };
    config.http.map(start).transpose()
}

/// The node, and its record where the configuration has one.
fn node_of(config: &Config, life: u64, registry: &Registry, begin: SystemTime) -> anyhow::Result<(NodeProcess, Exchange<Asker>)> {
    let mut node = Exchange::new(config.id);
    let process = NodeProcess::start(config, life, registry, NODE_INPUT, NODE_OUTPUT)
        .with_context(|| format!("program {}", config.program.display()))?;
    if let Some(path) = &config.record {
        node.begin_record(Record::open(path, config).with_context(|| format!("record {}", path.display()))?);
        let since = begin.duration_since(UNIX_EPOCH).unwrap_or_default();
        node.write_down(&format!("start {}", since.as_millis()));
    }
    Ok((process, node))
}
