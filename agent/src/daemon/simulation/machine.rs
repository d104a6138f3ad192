//! One machine: its core, its node and its process of leases, and their disks.

use super::super::core::{Core, Parts};
use super::super::{cipher_of, seal_of, Asker};
use super::grantor::{Grantor, LeaseDisk};
use super::memory::Memory;
use super::node::{Disk, Key, Node};
use super::pipes::Pipes;
use super::ports::{Cable, Came, Connection, NoNames, Told};
use crate::config::Config;
use crate::metrics::Metrics;
use crate::node::{Answer, Closing, Exchange, JobKey, Line};
use crate::notify::Notify;
use std::collections::{BTreeMap, BTreeSet};
use std::path::{Path, PathBuf};
use std::time::Instant;

/// What the agents of all machines are told of a round trip.
const ROUND_TRIP_MS: u64 = 20;

/// A process of leases and its disk.
#[derive(Default)]
pub(super) struct LeaseSide {
    pub(super) disk: LeaseDisk,
    /// How many began or ended: what was to come of an earlier one comes to nothing.
    pub(super) life: u64,
    pub(super) pipes: Option<Pipes>,
    pub(super) process: Option<Grantor>,
    pub(super) is_reading: bool,
    /// What it said, and the core didn't hear yet; and whether the core heard its first line.
    pub(super) said: Vec<u8>,
    pub(super) is_heard: bool,
}

impl LeaseSide {
    /// The process is gone.
    pub(super) fn end(&mut self) {
        *self = LeaseSide { disk: std::mem::take(&mut self.disk), life: self.life + 1, ..LeaseSide::default() };
    }
}

pub(super) struct Machine {
    pub(super) own: u8,
    /// How often it began: what is on its way for an earlier life comes to nothing.
    pub(super) life: u64,
    pub(super) core: Option<Core<Memory>>,
    pub(super) node: Node,
    pub(super) disk: Disk,
    pub(super) memory: Memory,
    /// For how long a grant of a lease is kept.
    pub(super) lease_ms: u64,
    pub(super) lease: LeaseSide,
    pub(super) came: Came,
    pub(super) told: Told,
    /// What the node is to read, and whether it is about to.
    pub(super) unread: Vec<u8>,
    pub(super) is_reading: bool,
    /// What it said, and the core didn't hear yet.
    pub(super) said: Vec<u8>,
    /// Which of the times to wake it counts.
    pub(super) turn: u64,
    /// The jobs that the node gave the core, and which of the clients has each.
    pub(super) in_hand: BTreeSet<Key>,
    pub(super) holders: BTreeMap<Key, usize>,
    /// What watchers are told of jobs, by the node's lines.
    pub(super) lines: Vec<(&'static str, Key)>,
}

fn pair(key: JobKey) -> Key {
    (key.origin, key.id)
}

impl Machine {
    pub(super) fn new(own: u8, memory: Memory) -> Machine {
        Machine {
            own,
            life: 0,
            core: None,
            node: Node::new(own, 0, 0, false),
            disk: Disk::default(),
            memory,
            lease_ms: 0,
            lease: LeaseSide::default(),
            came: Came::default(),
            told: Told::default(),
            unread: Vec::new(),
            is_reading: false,
            said: Vec::new(),
            turn: 0,
            in_hand: BTreeSet::new(),
            holders: BTreeMap::new(),
            lines: Vec::new(),
        }
    }

    /// Begins anew over the same disk.
    pub(super) fn start(&mut self, node: Node, life: u64, key: Option<&Path>, metrics: &Metrics, now: Instant) {
        let (own, disk, lease_ms) = (self.own, std::mem::take(&mut self.disk), self.lease_ms);
        let lease = std::mem::take(&mut self.lease);
        *self = Machine { life: self.life + 1, turn: self.turn + 1, node, disk, lease, lease_ms, ..Machine::new(own, self.memory.clone()) };
        let config = config_of(own, lease_ms, key);
        let parts = Parts {
            ports: self.memory.clone(),
            path: PathBuf::new(),
            life,
            node: Exchange::new(own),
            slots: None,
            link: Cable::default(),
            is_ipv6: false,
            door: self.came.clone(),
            resolver: NoNames,
            http: None,
            seal: seal_of(&config).unwrap(),
            cipher: cipher_of(&config).unwrap().drawn_as(life),
            config,
            metrics: metrics.clone(),
            notify: Notify::of_environment().unwrap(),
        };
        let mut core = Core::new(parts, now).unwrap();
        core.begin(now);
        self.core = Some(core);
    }

    /// A client comes.
    pub(super) fn connect(&mut self, person: usize) -> Connection {
        let connection = Connection::new(person, &self.told);
        self.came.0.borrow_mut().push_back(connection.clone());
        self.core.iter_mut().for_each(|core| core.clients.wake_listener());
        connection
    }

    /// What the node answers is about to come to the core.
    pub(super) fn note(&mut self, answer: &Answer<Asker>) {
        for line in &answer.lines {
            match line {
                Line::Take(job) => {
                    self.in_hand.insert(pair(job.key));
                    self.lines.push(("take", pair(job.key)));
                }
                Line::Drop(key) => {
                    self.in_hand.remove(&pair(*key));
                    self.lines.push(("drop", pair(*key)));
                }
                Line::Gone { id } => self.lines.push(("gone", (self.own, *id))),
                _ => {}
            }
        }
        if let (Asker::Finish { key, .. }, Closing::Ok(_)) = (&answer.asker, &answer.closing) {
            self.in_hand.remove(&pair(*key));
        }
    }
}

fn config_of(own: u8, lease_ms: u64, key: Option<&Path>) -> Config {
    let text = format!(
        "cluster = \"simulated\"\nid = {own}\nnodes = [\"10.0.0.1:7000\", \"10.0.0.2:7000\", \"10.0.0.3:7000\"]\nfile = \"node\"\nround_trip_ms = {ROUND_TRIP_MS}\nlease_ms = {lease_ms}\n"
    );
    let key = key.map_or(String::new(), |key| format!("key = {key:?}\n"));
    Config::parse(&(text + &key)).unwrap()
}
