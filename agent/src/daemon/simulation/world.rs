//! The world: what happens, by a seed, and in which order.

mod acts;
mod leases;

use super::lease_model::LeaseModel;
use super::machine::Machine;
use super::memory::{Memory, Time};
use super::model::{Model, Tally};
use super::node::{Group, Key, Node};
use super::people::{Asked, Person, Role};
use crate::chance::Chance;
use crate::metrics::Metrics;
use leases::{LeaseEvent, LeasePlan};
use std::collections::hash_map::DefaultHasher;
use std::collections::{BTreeMap, VecDeque};
use std::hash::{Hash, Hasher};
use std::net::{Ipv4Addr, SocketAddr};
use std::path::PathBuf;
use std::time::{Duration, Instant};

const MACHINES: usize = 3;
const MS: u64 = 1000;

/// All that goes wrong does so until then; by the end all is to be done.
const HEALS: u64 = 5000 * MS;
const END: u64 = 90_000 * MS;

/// Clients begin once the nodes have heard each other.
const BEGINS: u64 = 900 * MS;

/// So long a submission may be without an answer: the agents' patience, and the time that it takes until one takes it.
const PATIENCE: u64 = 6500 * MS;

/// A core that wants to go on so often at one moment turns without an end.
const MOST_TURNS: usize = 100;

/// So many datagrams somebody remembers who hears all.
const OVERHEARD: usize = 300;

const SUBMITTERS: usize = 5;
const WORKERS: usize = 5;
const CANDIDATES: usize = 4;

/// By then somebody of each machine had each name who asked once nothing went wrong any more: a process that hangs has gone on, and one that ended votes again.
const LEADS: u64 = HEALS + 15_000 * MS;

/// What all runs of a thread share.
#[derive(Clone)]
pub(super) struct Bed {
    pub(super) metrics: Metrics,
    /// A file of keys.
    pub(super) key: PathBuf,
}

/// What goes wrong in a run.
#[derive(Clone, Copy)]
struct Plan {
    is_lossy: bool,
    regroups: bool,
    ends: bool,
    cuts: bool,
    drains: bool,
    /// One in so many durable commands fails; 0: none.
    fails: u64,
    slots: usize,
    /// Whether there is a key, and somebody without it who sends what he hears again, spoiled, or anything.
    has_key: bool,
}

impl Plan {
    /// One of four runs has leases; in one of eight of these clocks go wrong.
    fn of_leases(seed: u64) -> LeasePlan {
        let plan = Plan::of(seed);
        let (has_leases, is_wrong) = (seed / 32 % 4 == 0, seed / 8 % 32 == 1);
        let keeps = [300, 600, 1000, 2000][((seed / 8 + seed / 128) % 4) as usize];
        let is_calm = !plan.is_lossy && !plan.regroups && !is_wrong;
        LeasePlan { keeps: if has_leases { keeps } else { 0 }, kills: plan.ends || plan.fails > 0, is_wrong, is_calm }
    }

    fn of(seed: u64) -> Plan {
        let has_key = seed / 8 % 4 == 3;
        let calm = Plan { is_lossy: false, regroups: false, ends: false, cuts: false, drains: false, fails: 0, slots: 400, has_key };
        match seed % 8 {
            0 => calm,
            1 => Plan { is_lossy: true, ..calm },
            2 => Plan { regroups: true, ..calm },
            3 => Plan { is_lossy: true, regroups: true, ..calm },
            4 => Plan { regroups: true, ends: true, ..calm },
            5 => Plan { is_lossy: true, regroups: true, ends: true, fails: 30, ..calm },
            6 => Plan { is_lossy: true, regroups: true, cuts: true, drains: true, fails: 60, ..calm },
            _ => Plan { is_lossy: true, regroups: true, ends: true, cuts: true, drains: true, fails: 30, slots: 4, has_key },
        }
    }
}

enum Event {
    Wake { at: usize, turn: u64 },
    /// The node reads what it is asked, and its answers come.
    Reads { at: usize, life: u64 },
    Says { at: usize, life: u64, count: usize },
    Datagram { from: usize, to: usize, bytes: Vec<u8> },
    /// The network says at a machine that another one's port is nobody's.
    Refused { at: usize, by: usize },
    Enters { at: usize, life: u64, epoch: u64, group: Group },
    Regroup,
    Act(usize),
    /// The agent is killed, or ended.
    Kill(usize),
    End(usize),
    Start(usize),
    Cut,
    Mend(usize, usize),
    Heal,
    /// Jobs that were put aside are to be given again.
    Kick,
    /// Somebody without the key sends something.
    Enemy,
    Lease(LeaseEvent),
}

pub(super) struct World {
    chance: Chance,
    plan: Plan,
    bed: Bed,
    /// What was sent last.
    overheard: VecDeque<Vec<u8>>,
    time: Time,
    now: u64,
    /// What is to come, by its time and in the order in which it was put there.
    later: BTreeMap<(u64, u64), Event>,
    count: u64,
    machines: Vec<Machine>,
    people: Vec<Person>,
    model: Model,
    lease_plan: LeasePlan,
    lease_model: LeaseModel,
    /// Which group is the last one.
    epoch: u64,
    is_cut: [[bool; MACHINES]; MACHINES],
    is_healed: bool,
    hash: DefaultHasher,
    /// Whether all that is said is printed.
    is_traced: bool,
}

fn address(at: usize) -> SocketAddr {
    (Ipv4Addr::new(10, 0, 0, at as u8 + 1), 7000).into()
}

impl World {
    /// The run of a seed; what it came to, and a hash of all that was sent and told.
    pub(super) fn run(seed: u64, bed: &Bed) -> (Tally, u64) {
        let mut world = World::new(seed, bed);
        while let Some(at) = world.later.keys().next().copied() {
            if let Some(event) = world.later.remove(&at) {
                world.now = at.0;
                world.time.set(at.0);
                world.step(event);
            }
            let has_leases = world.lease_plan.keeps > 0;
            let is_led = !has_leases || world.lease_model.is_over(MACHINES);
            if world.is_healed && world.model.is_over() && is_led && world.now > HEALS + PATIENCE {
                break;
            }
            assert!(is_led || world.now < LEADS, "seed {seed}: some machine gets no lease");
            assert!(world.now < END, "seed {seed}: {}", world.left());
        }
        world.check_end();
        (Tally { leases: world.lease_model.tally, ..world.model.tally }, world.hash.finish())
    }

    fn new(seed: u64, bed: &Bed) -> World {
        let (plan, lease_plan, time) = (Plan::of(seed), Plan::of_leases(seed), Time::begin());
        let mut world = World {
            chance: Chance::of(seed),
            plan,
            bed: bed.clone(),
            overheard: VecDeque::new(),
            now: 0,
            later: BTreeMap::new(),
            count: 0,
            machines: (0..MACHINES as u8).map(|own| Machine::new(own, Memory::new(&time))).collect(),
            time,
            people: Vec::new(),
            model: Model::new(!plan.is_lossy && !plan.regroups, !plan.is_lossy && !plan.ends),
            lease_plan,
            lease_model: lease_plan.model(),
            epoch: 0,
            is_cut: Default::default(),
            is_healed: false,
            hash: DefaultHasher::new(),
            is_traced: std::env::var_os("DUMGEROK_TRACE").is_some(),
        };
        world.begin_leases();
        (0..MACHINES).for_each(|at| world.put(0, Event::Start(at)));
        world.put(300 * MS, Event::Regroup);
        world.put(HEALS, Event::Heal);
        if plan.cuts {
            world.put(BEGINS, Event::Cut);
        }
        if plan.has_key {
            world.put(BEGINS, Event::Enemy);
        }
        let candidates = if lease_plan.keeps > 0 { CANDIDATES } else { 0 };
        let roles = [(Role::Watcher, MACHINES), (Role::Submitter, SUBMITTERS), (Role::Worker, WORKERS), (Role::Candidate, candidates)];
        for (role, count) in roles {
            (0..count).for_each(|at| world.comes(role, at % MACHINES, if role == Role::Watcher { 0 } else { BEGINS }));
        }
        world
    }

    /// Which jobs aren't done, and who has them.
    fn left(&self) -> String {
        let of = |key: &Key| -> Vec<(u8, Option<usize>)> {
            let with_it = self.machines.iter().filter(|machine| machine.in_hand.contains(key));
            with_it.map(|machine| (machine.own, machine.holders.get(key).copied())).collect()
        };
        let rows = self.model.left().into_iter().map(|key| format!("{key:?} isn't done: in hand at {:?}", of(&key)));
        rows.collect::<Vec<_>>().join(", ")
    }

    fn comes(&mut self, role: Role, at: usize, delay: u64) {
        self.people.push(Person::new(role, at));
        let delay = delay + self.chance.below(200) * MS;
        self.put(delay, Event::Act(self.people.len() - 1));
    }

    fn put(&mut self, delay: u64, event: Event) {
        self.count += 1;
        self.later.insert((self.now + delay, self.count), event);
    }

    fn instant(&self) -> Instant {
        self.time.instant()
    }

    fn step(&mut self, event: Event) {
        match event {
            Event::Wake { at, turn } if turn == self.machines[at].turn => self.turn(at),
            Event::Reads { at, life } if life == self.machines[at].life => self.reads(at),
            Event::Says { at, life, count } if life == self.machines[at].life => self.says(at, count),
            Event::Wake { .. } | Event::Reads { .. } | Event::Says { .. } => {}
            Event::Datagram { from, to, bytes } => {
                if let Some(core) = &mut self.machines[to].core {
                    core.link.came.push_back((bytes, address(from)));
                    self.turn(to);
                } else if from < MACHINES {
                    self.put(MS, Event::Refused { at: from, by: to });
                }
            }
            Event::Refused { at, by } => {
                if let Some(core) = &mut self.machines[at].core {
                    core.link.refused.push_back(address(by));
                    self.turn(at);
                }
            }
            Event::Enters { at, life, epoch, group } => {
                if life == self.machines[at].life && epoch == self.epoch && self.machines[at].node.is_up() {
                    self.machines[at].node.enters(group);
                }
            }
            Event::Regroup => self.regroup(),
            Event::Act(person) => self.act(person),
            Event::Kill(at) => self.kill(at),
            Event::End(at) => self.end(at),
            Event::Start(at) => self.start(at),
            Event::Cut => self.cut(),
            Event::Mend(from, to) => self.is_cut[from][to] = false,
            Event::Heal => self.heal(),
            Event::Kick => self.kick(),
            Event::Enemy => self.enemy(),
            Event::Lease(event) => self.lease_event(event),
        }
    }

    /// A core goes on until it waits.
    fn turn(&mut self, at: usize) {
        let now = self.instant();
        for _ in 0..MOST_TURNS {
            match &mut self.machines[at].core {
                Some(core) => {
                    core.turn(now);
                    assert_eq!(core.unusable, None, "machine {at} ends");
                }
                None => return,
            }
            self.collect(at);
            let sleep = self.machines[at].core.as_ref().map_or(Duration::ZERO, |core| core.sleep(false, now));
            if !sleep.is_zero() {
                self.machines[at].turn += 1;
                let turn = self.machines[at].turn;
                return self.put(super::super::whole_ms(sleep).as_micros() as u64, Event::Wake { at, turn });
            }
        }
        panic!("machine {at} turns without an end");
    }

    /// Carries on what a core wants to be carried.
    fn collect(&mut self, at: usize) {
        let now = self.instant();
        let machine = &mut self.machines[at];
        if let Some(core) = &mut machine.core {
            let sent = std::mem::take(&mut *core.link.sent.borrow_mut());
            if core.lets_go(now) {
                machine.unread.append(core.node.unwritten());
            }
            if !machine.unread.is_empty() && !std::mem::replace(&mut machine.is_reading, true) {
                let life = machine.life;
                let delay = self.node_delay();
                self.put(delay, Event::Reads { at, life });
            }
            for (bytes, to) in sent {
                // under a key other bytes are drawn each time
                bytes.len().hash(&mut self.hash);
                // what goes elsewhere is an answer to somebody who isn't of the three
                if let Some(to) = (0..MACHINES).find(|other| address(*other) == to) {
                    self.send(at, to, bytes);
                }
            }
        }
        self.collect_leases(at);
        let told = std::mem::take(&mut *self.machines[at].told.borrow_mut());
        for (person, bytes) in told {
            bytes.hash(&mut self.hash);
            for said in self.people[person].reads(&bytes) {
                if self.is_traced {
                    println!("{} client {person} of {at} is told {said}", self.now);
                }
                self.is_told(person, &said);
            }
        }
    }

    /// How long a node takes: mostly no longer than a sync, and once in a while it hangs.
    fn node_delay(&mut self) -> u64 {
        let is_rough = !self.is_healed && self.plan.is_lossy;
        match self.chance.below(if is_rough { 400 } else { 399 }) {
            0..=379 => 100 + self.chance.below(3 * MS),
            380..=398 => 20 * MS + self.chance.below(60 * MS),
            _ => 500 * MS + self.chance.below(6000 * MS),
        }
    }

    fn send(&mut self, from: usize, to: usize, bytes: Vec<u8>) {
        if self.is_cut[from][to] {
            return;
        }
        if self.plan.has_key && self.overheard.len() == OVERHEARD {
            self.overheard.pop_front();
        }
        if self.plan.has_key {
            self.overheard.push_back(bytes.clone());
        }
        let is_rough = self.plan.is_lossy && !self.is_healed;
        let copies = if is_rough { self.chance.pick(&[1, 1, 1, 1, 1, 1, 1, 0, 2, 1]) } else { 1 };
        for _ in 0..copies {
            let late = if is_rough && self.chance.one_in(20) { self.chance.below(400) * MS } else { 0 };
            let delay = 200 + self.chance.below(if is_rough { 8 * MS } else { 600 }) + late;
            self.put(delay, Event::Datagram { from, to, bytes: bytes.clone() });
        }
    }

    /// The node answers all that it was asked until now; sometimes that comes in two pieces.
    fn reads(&mut self, at: usize) {
        let said = self.node_answers(at);
        let (life, whole) = (self.machines[at].life, said.len());
        self.machines[at].said.extend(said);
        let front = if self.chance.one_in(8) { self.chance.below(whole as u64 + 1) as usize } else { whole };
        self.put(0, Event::Says { at, life, count: front });
        if front < whole {
            let delay = self.chance.below(2 * MS);
            self.put(delay, Event::Says { at, life, count: whole - front });
        }
    }

    fn node_answers(&mut self, at: usize) -> Vec<u8> {
        let machine = &mut self.machines[at];
        if machine.node.has_failed {
            return Vec::new();
        }
        machine.is_reading = false;
        let unread = std::mem::take(&mut machine.unread);
        let mut said = String::new();
        for line in String::from_utf8(unread).unwrap().lines() {
            let answer = machine.node.answer(&mut machine.disk, line, &mut self.chance);
            if self.is_traced {
                println!("{} node {at}: {line}: {answer}", self.now);
            }
            said += &answer;
            machine.node.deeds.drain(..).for_each(|deed| self.model.take(deed, machine.life));
            if machine.node.has_failed {
                break;
            }
        }
        said.into_bytes()
    }

    /// Answers come, and the node is gone behind one that says that its device failed.
    fn says(&mut self, at: usize, count: usize) {
        let bytes: Vec<u8> = self.machines[at].said.drain(..count).collect();
        self.hears(at, &bytes);
        if self.machines[at].node.has_failed && self.machines[at].said.is_empty() {
            return self.end(at);
        }
        self.turn(at);
    }

    fn hears(&mut self, at: usize, bytes: &[u8]) {
        let (now, mut answers) = (self.instant(), Vec::new());
        let machine = &mut self.machines[at];
        let goes_on = machine.core.as_mut().map_or(true, |core| core.node.hear(bytes, &mut answers));
        assert!(goes_on);
        for answer in answers {
            let machine = &mut self.machines[at];
            machine.note(&answer);
            if let Some(core) = &mut machine.core {
                core.heard(vec![answer], now);
            }
            self.collect(at);
            self.check_watchers(at);
        }
    }

    /// Watchers were told of each line that says something of a job.
    fn check_watchers(&self, at: usize) {
        let lines = self.machines[at].lines.len();
        for person in self.people.iter().filter(|person| person.at == at && person.change.is_some()) {
            assert_eq!(person.seen, lines, "machine {at}: a watcher wasn't told of all");
        }
    }

    fn start(&mut self, at: usize) {
        if self.machines[at].core.is_some() {
            return;
        }
        let (life, now) = (self.chance.next() | 1, self.instant());
        let fails = if self.is_healed { 0 } else { self.plan.fails };
        let node = Node::new(at as u8, self.plan.slots, fails, self.plan.has_key);
        let key = self.plan.has_key.then_some(self.bed.key.as_path());
        self.machines[at].start(node, life, key, &self.bed.metrics, now);
        self.turn(at);
        self.put(400 * MS, Event::Regroup);
    }

    /// The agent and its node are gone; what the node was asked it may have read.
    fn kill(&mut self, at: usize) {
        if self.is_healed || self.machines[at].core.take().is_none() {
            return;
        }
        if self.chance.one_in(2) {
            self.node_answers(at);
        }
        self.is_gone(at);
    }

    /// The agent is ended, or its node is: it hears what the node did, and says goodbye.
    fn end(&mut self, at: usize) {
        if self.machines[at].core.is_none() || (self.is_healed && !self.machines[at].node.has_failed) {
            return;
        }
        let (said, now) = (self.node_answers(at), self.instant());
        self.machines[at].said.extend(said);
        let said = std::mem::take(&mut self.machines[at].said);
        self.hears(at, &said);
        if let Some(core) = &mut self.machines[at].core {
            core.say_goodbye(now);
        }
        self.collect(at);
        self.machines[at].core = None;
        self.is_gone(at);
    }

    fn is_gone(&mut self, at: usize) {
        self.model.tally.ends += 1;
        self.machines[at].life += 1;
        let delay = 50 * MS + self.chance.below(1500 * MS);
        self.put(delay, Event::Start(at));
        self.machines[at].lease.end();
        for person in (0..self.people.len()).filter(|person| self.people[*person].at == at).collect::<Vec<_>>() {
            self.people[person].end();
            self.lease_model.leaves(person);
        }
        self.put(100 * MS, Event::Regroup);
    }

    /// From an address of the three or another one.
    fn enemy(&mut self) {
        if self.is_healed {
            return;
        }
        let bytes = match self.overheard.len() as u64 {
            0 => self.chance.bytes(60),
            count => {
                let heard = &self.overheard[self.chance.below(count) as usize];
                match self.chance.below(3) {
                    0 => heard.clone(),
                    1 => self.chance.spoiled(heard),
                    _ => self.chance.bytes(200),
                }
            }
        };
        let (from, to) = (self.chance.below(4) as usize, self.chance.below(3) as usize);
        self.put(0, Event::Datagram { from, to, bytes });
        // what the network says has no seal
        let (at, by) = (self.chance.below(3) as usize, self.chance.below(3) as usize);
        self.put(0, Event::Refused { at, by });
        let next = self.chance.below(120) * MS;
        self.put(next, Event::Enemy);
    }

    fn cut(&mut self) {
        if self.is_healed {
            return;
        }
        let (from, to) = (self.chance.below(3) as usize, self.chance.below(3) as usize);
        self.is_cut[from][to] = true;
        let (mends, next) = (self.chance.below(2500) * MS, self.chance.below(1500) * MS);
        self.put(mends, Event::Mend(from, to));
        self.put(next, Event::Cut);
    }

    /// Those that are up make one group, or two; each node enters in its time.
    fn regroup(&mut self) {
        self.epoch += 1;
        let up: Vec<usize> = (0..MACHINES).filter(|at| self.machines[*at].core.is_some() && self.machines[*at].node.is_up()).collect();
        let is_parted = self.plan.regroups && !self.is_healed && self.chance.one_in(2);
        let alone = if is_parted { self.chance.below(3) as usize } else { MACHINES };
        let (one, other): (Vec<usize>, Vec<usize>) = up.into_iter().partition(|at| *at != alone);
        for members in [one, other].into_iter().filter(|members| !members.is_empty()) {
            self.make_group(&members);
        }
        if self.plan.regroups && !self.is_healed {
            let next = 150 * MS + self.chance.below(1500 * MS);
            self.put(next, Event::Regroup);
        }
    }

    fn make_group(&mut self, members: &[usize]) {
        let leads = if self.plan.regroups { self.chance.pick(members) } else { members[members.len() - 1] };
        let machine = &mut self.machines[leads];
        let number = machine.node.next_number(&mut machine.disk);
        let ids: Vec<u8> = members.iter().map(|at| *at as u8).collect();
        let (epoch, coordinator) = (self.epoch, leads as u8);
        for at in members {
            let life = self.machines[*at].life;
            let (first, then) = (self.chance.below(40) * MS, 40 * MS + self.chance.below(150) * MS);
            if self.chance.one_in(2) {
                let group = Group { coordinator, number, members: Vec::new() };
                self.put(first, Event::Enters { at: *at, life, epoch, group });
            }
            let group = Group { coordinator, number, members: ids.clone() };
            self.put(then, Event::Enters { at: *at, life, epoch, group });
        }
    }

    /// From now on nothing goes wrong any more, and there are further clients that do all jobs.
    fn heal(&mut self) {
        (self.is_healed, self.is_cut) = (true, Default::default());
        for at in 0..MACHINES {
            self.machines[at].node.heal();
            self.comes(Role::Helper, at, 10 * MS);
            self.sets_clock_right(at);
        }
        self.lease_model.heals();
        self.put(50 * MS, Event::Regroup);
        self.put(2000 * MS, Event::Regroup);
        self.put(500 * MS, Event::Kick);
    }

    /// A client of each machine has jobs given again that were put aside, and new ones kept there again.
    fn kick(&mut self) {
        for person in 0..self.people.len() {
            if self.people[person].role == Role::Watcher {
                self.asks(person, Asked::Other, r#""do":"kick""#);
                self.asks(person, Asked::Other, r#""do":"drain","on":false"#);
            }
        }
        self.put(3000 * MS, Event::Kick);
    }

    fn check_end(&self) {
        self.model.at_end();
        for person in &self.people {
            for asked in person.asked.values() {
                if let Asked::Submit(at, since) = asked {
                    assert!(self.now < since + PATIENCE, "submission {at} has no answer");
                }
            }
        }
    }
}
