//! What decides, without a socket or a process: it is told the time with each turn, and reaches the world by its ports alone. The daemon runs it over sockets,
//! and the simulation in memory. Leases alone ask for the time themselves, for they go by that at which a line of theirs is handed over.

use super::announcing::Announcing;
use super::datagrams::Waiting;
use super::drain::Drain;
use super::holding::Holding;
use super::leases::Leases;
use super::losses::Looking;
use super::opening::Opening;
use super::pages::PendingJobs;
use super::{Asker, FIRST_CLIENT};
use crate::boot_time::BootTime;
use crate::clock::Clock;
use crate::config::Config;
use crate::fill::Fill;
use crate::forward::{About, Inbox, Introductions, Key, Keys, Ledger, Outbox, OwnNumbers, Seal, Submission, Token as AgentToken};
use crate::http::Pages;
use crate::lease::LeasePort;
use crate::metrics::Metrics;
use crate::net::{Backlog, Cipher, Network, Pace, Peers, Refusals};
use crate::node::{Answer, Exchange};
use crate::notify::Notify;
use crate::resolver::Names;
use crate::service::{Changes, Clients, Door, Hand};
use crate::view::View;
use std::collections::{BTreeMap, HashMap};
use std::io;
use std::path::PathBuf;
use std::time::{Duration, Instant};

/// By what a core reaches the world, beside its node, which it asks and hears in bytes.
pub(super) trait Ports {
    type Network: Network;
    type Door: Door;
    type Names: Names;
    type Pages: Pages;
    type Lease: LeasePort;

    /// The time by which leases go.
    fn boot_time(&self) -> BootTime;

    /// Among how many machines this one voted for leases, where that was kept.
    fn kept_voters(&self, config: &Config) -> Option<u8>;

    /// Keeps that.
    fn keep_voters(&self, config: &Config, count: u8) -> io::Result<()>;

    /// Whether there is a file of leases.
    fn has_lease_file(&self, config: &Config) -> bool;

    /// Starts the process of leases, which so many machines grant.
    fn start_lease(&self, config: &Config, voters: u8) -> io::Result<Self::Lease>;

    /// Gives memory back to the system that was needed for a moment.
    fn give_back_memory(&self);
}

/// What a core begins with.
pub(super) struct Parts<P: Ports> {
    pub(super) ports: P,
    pub(super) config: Config,
    /// Where that was read.
    pub(super) path: PathBuf,
    /// The name of this life of the agent.
    pub(super) life: u64,
    pub(super) node: Exchange<Asker>,
    /// How many jobs the node's journal has room for, where that is known.
    pub(super) slots: Option<u64>,
    pub(super) link: P::Network,
    /// Whether the network reaches IPv6 addresses.
    pub(super) is_ipv6: bool,
    pub(super) door: P::Door,
    pub(super) resolver: P::Names,
    pub(super) http: Option<P::Pages>,
    pub(super) seal: Seal,
    pub(super) cipher: Cipher,
    pub(super) metrics: Metrics,
    pub(super) notify: Notify,
}

pub(super) struct Core<P: Ports> {
    pub(super) ports: P,
    pub(super) config: Config,
    pub(super) path: PathBuf,
    pub(super) node: Exchange<Asker>,
    /// Under a key, the lives of the others that the node was told.
    pub(super) lives: Vec<Option<u64>>,
    /// None where the configuration has none.
    pub(super) leases: Option<Leases<P>>,
    /// The status to end with, where the node's file is none to go on with.
    pub(super) unusable: Option<u8>,
    /// What of the node's lines waits for others.
    pub(super) holding: Holding,
    pub(super) clock: Clock,
    pub(super) link: P::Network,
    /// By what datagrams are encrypted on their way.
    pub(super) cipher: Cipher,
    pub(super) backlog: Backlog<Waiting>,
    pub(super) pace: Pace,
    pub(super) peers: Peers,
    /// Whose machines refuse what is sent to them.
    pub(super) refusals: Refusals,
    pub(super) resolver: P::Names,
    pub(super) clients: Clients<P::Door>,
    /// The group whose members may ask for what changes the machine for all: its name and number.
    pub(super) admin: Option<(String, u32)>,
    pub(super) hand: Hand,
    pub(super) changes: Changes,
    pub(super) seal: Seal,
    pub(super) inbox: Inbox,
    pub(super) outbox: Outbox,
    pub(super) keys: Keys,
    /// Submissions of other agents under keys that others are asked about.
    pub(super) held: HashMap<Key, (u8, AgentToken, Submission)>,
    /// What the agents of all nodes said that these gave, and the own node's numbers.
    pub(super) ledger: Ledger,
    pub(super) numbers: OwnNumbers,
    /// Of which cluster this agent is, and the others.
    pub(super) introductions: Introductions,
    /// None once the node was asked to begin.
    pub(super) opening: Option<Opening>,
    pub(super) view: View,
    pub(super) fill: Fill,
    pub(super) metrics: Metrics,
    pub(super) notify: Notify,
    pub(super) http: Option<P::Pages>,
    pub(super) pending_jobs: PendingJobs,
    /// Whether the node is to be recorded, by the configuration or since somebody asked.
    pub(super) wants_record: bool,
    /// Since its machine is drained, when the others were told last to make a group without it.
    pub(super) draining: Option<Drain>,
    /// When the node is to look for others in place of one that led it.
    pub(super) looking: Looking,
    /// When others said last that they are drained.
    pub(super) drained: BTreeMap<u8, Instant>,
    /// Tags and events that the others are told.
    pub(super) announcing: Announcing,
    /// Listings of jobs that the node is asked for.
    pub(super) listings: usize,
}

impl<P: Ports> Core<P> {
    pub(super) fn new(parts: Parts<P>, now: Instant) -> anyhow::Result<Core<P>> {
        let Parts { ports, config, path, life, node, slots, link, is_ipv6, door, resolver, http, seal, cipher, metrics, notify } = parts;
        let (nodes, round_trip) = (config.nodes.len(), Duration::from_millis(config.round_trip_ms));
        Ok(Core {
            leases: Leases::of(&config, &ports, now),
            ports,
            node,
            lives: vec![None; nodes],
            holding: Holding::new(round_trip),
            clock: Clock::new(config.round_trip_ms, now),
            refusals: Refusals::new(nodes, round_trip),
            peers: Peers::new(config.id, &config.nodes, is_ipv6, round_trip),
            link,
            cipher,
            backlog: Backlog::new(nodes),
            pace: Pace::new(nodes, config.key.is_some(), round_trip, now),
            resolver,
            clients: Clients::at(door, FIRST_CLIENT),
            admin: config.admin()?,
            hand: Hand::default(),
            changes: Changes::new(life),
            wants_record: config.record.is_some(),
            inbox: Inbox::new(life, nodes),
            outbox: Outbox::new(life, nodes, round_trip),
            keys: Keys::new(round_trip),
            held: HashMap::new(),
            ledger: Ledger::new(nodes),
            introductions: Introductions::new(config.id, About::new(&config.cluster, &config.nodes)),
            numbers: OwnNumbers::new(life, nodes),
            opening: Some(Opening::new(round_trip, now)),
            view: View::new(&config, now),
            fill: Fill::of(slots),
            metrics,
            notify,
            seal,
            http,
            pending_jobs: PendingJobs::default(),
            listings: 0,
            announcing: Announcing::default(),
            draining: None,
            looking: Looking::default(),
            drained: BTreeMap::new(),
            unusable: None,
            config,
            path,
        })
    }

    /// What is done once, in front of the first turn.
    pub(super) fn begin(&mut self, now: Instant) {
        self.tag_own(now);
        self.warn_of_addresses();
        self.warn_of_network();
    }

    /// Whether what was asked of the node is written to it now.
    pub(super) fn lets_go(&mut self, now: Instant) -> bool {
        let holds = self.holding.holds(now);
        if !holds {
            self.holding.end();
        }
        !holds
    }

    /// The node answered. One that isn't to go on acknowledges nothing.
    pub(super) fn heard(&mut self, answers: Vec<Answer<Asker>>, now: Instant) {
        for answer in answers {
            if self.unusable.is_none() {
                self.take_answer(answer, now);
            }
        }
    }
}
