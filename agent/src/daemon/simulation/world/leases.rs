//! The processes of leases, their machines' clocks, and the clients that ask for leases.

use super::super::super::leases::Leases;
use super::super::grantor::{Grantor, Terms};
use super::super::lease_model::{LeaseModel, NAMES};
use super::super::memory::RIGHT;
use super::super::people::Asked;
use super::super::pipes::Pipes;
use super::{Event, World, MACHINES, MS};
use serde_json::Value;

pub(super) enum LeaseEvent {
    /// The process of this life has its file.
    Begins { at: usize, life: u64 },
    /// It reads what it is told, and its answers come.
    Reads { at: usize, life: u64 },
    Says { at: usize, life: u64, count: usize },
    /// Some process is killed.
    Kill,
    /// Some clock goes wrong.
    Clock,
}

/// What goes on with leases in a run.
#[derive(Clone, Copy)]
pub(super) struct LeasePlan {
    /// For how long grants are kept; 0: there are no leases.
    pub(super) keeps: u64,
    /// Whether processes are killed, and whether clocks go wrong.
    pub(super) kills: bool,
    pub(super) is_wrong: bool,
    /// Whether nothing goes wrong but what clients do.
    pub(super) is_calm: bool,
}

impl LeasePlan {
    pub(super) fn model(&self) -> LeaseModel {
        let relies = Terms { own: 0, voters: 0, keeps: self.keeps.max(100), is_sealed: false, fails: 0 }.relies();
        LeaseModel::new(!self.is_wrong, self.is_calm, relies)
    }
}

impl World {
    pub(super) fn begin_leases(&mut self) {
        for at in 0..MACHINES {
            let shows = self.chance.below(1_000_000_000);
            self.machines[at].memory.set_clock(RIGHT, shows);
            self.sets_clock_right(at);
            self.machines[at].lease_ms = self.lease_plan.keeps;
            if self.chance.one_in(4) {
                self.machines[at].lease.disk.longest = self.lease_plan.keeps * 3 / 2;
            }
        }
        if self.lease_plan.keeps > 0 && self.lease_plan.kills {
            self.put(300 * MS, Event::Lease(LeaseEvent::Kill));
        }
        if self.lease_plan.keeps > 0 && self.lease_plan.is_wrong {
            self.put(300 * MS, Event::Lease(LeaseEvent::Clock));
        }
    }

    /// From now on a clock goes right, to one part in 32.
    pub(super) fn sets_clock_right(&mut self, at: usize) {
        let (least, most) = (RIGHT - RIGHT / 32, RIGHT + RIGHT / 32);
        let rate = match self.chance.below(4) {
            0 => least,
            1 => most,
            _ => least + self.chance.below(most - least),
        };
        self.machines[at].memory.set_clock(rate, 0);
    }

    fn shows(&self) -> Vec<u64> {
        self.machines.iter().map(|machine| machine.memory.shows_ms()).collect()
    }

    pub(super) fn lease_event(&mut self, event: LeaseEvent) {
        match event {
            LeaseEvent::Begins { at, life } if life == self.machines[at].lease.life => self.lease_begins(at),
            LeaseEvent::Reads { at, life } if life == self.machines[at].lease.life => self.lease_reads(at),
            LeaseEvent::Says { at, life, count } if life == self.machines[at].lease.life => self.lease_says(at, count),
            LeaseEvent::Kill if !self.is_healed => {
                let (at, next) = (self.chance.below(MACHINES as u64) as usize, 200 * MS + self.chance.below(2500 * MS));
                self.lease_is_killed(at);
                self.put(next, Event::Lease(LeaseEvent::Kill));
            }
            LeaseEvent::Clock if !self.is_healed => {
                let (at, next) = (self.chance.below(MACHINES as u64) as usize, 50 * MS + self.chance.below(1500 * MS));
                let rate = self.chance.pick(&[0, RIGHT / 2, RIGHT * 2, RIGHT * 5, RIGHT]);
                let more = if self.chance.one_in(3) { self.chance.below(3000 * MS) } else { 0 };
                self.machines[at].memory.set_clock(rate, more);
                self.put(next, Event::Lease(LeaseEvent::Clock));
            }
            _ => {}
        }
    }

    /// Carries on what a core wants of its process of leases.
    pub(super) fn collect_leases(&mut self, at: usize) {
        let machine = &mut self.machines[at];
        machine.core.iter_mut().filter_map(|core| core.leases.as_mut()).for_each(Leases::flush);
        if machine.lease.pipes.as_ref().map_or(false, Pipes::is_ended) {
            machine.lease.end();
        }
        if let Some(pipes) = machine.memory.take_started() {
            machine.lease.end();
            machine.lease.pipes = Some(pipes);
            let life = machine.lease.life;
            let delay = MS + self.chance.below(30 * MS);
            self.put(delay, Event::Lease(LeaseEvent::Begins { at, life }));
        }
        let lease = &mut self.machines[at].lease;
        let is_written = lease.pipes.as_ref().map_or(false, Pipes::is_written);
        if is_written && !std::mem::replace(&mut lease.is_reading, true) {
            let life = lease.life;
            let delay = self.lease_delay();
            self.put(delay, Event::Lease(LeaseEvent::Reads { at, life }));
        }
    }

    /// How long a process of leases takes: once in a while it hangs.
    fn lease_delay(&mut self) -> u64 {
        let is_rough = !self.is_healed && self.plan.is_lossy;
        match self.chance.below(if is_rough { 800 } else { 799 }) {
            0..=769 => 50 + self.chance.below(MS),
            770..=798 => 2 * MS + self.chance.below(20 * MS),
            _ => 100 * MS + self.chance.below(3000 * MS),
        }
    }

    fn lease_begins(&mut self, at: usize) {
        let machine = &mut self.machines[at];
        let fails = if self.is_healed { 0 } else { self.plan.fails };
        let voters = machine.lease.pipes.as_ref().map_or(0, |pipes| pipes.voters);
        let terms = Terms { own: machine.own, voters, keeps: machine.lease_ms, is_sealed: self.plan.has_key, fails };
        machine.lease.process = Grantor::begin(terms, &mut machine.lease.disk, &mut self.chance);
        match machine.lease.process.as_ref().map(Grantor::greeting) {
            Some(greeting) => self.lease_writes(at, &greeting),
            None => self.lease_ends(at),
        }
    }

    fn lease_reads(&mut self, at: usize) {
        let mut said = String::new();
        let lease = &mut self.machines[at].lease;
        lease.is_reading = false;
        let written = lease.pipes.as_ref().map_or_else(Vec::new, Pipes::read);
        if let Some(process) = lease.process.as_mut().filter(|process| !process.has_failed) {
            for line in String::from_utf8(written).unwrap().lines() {
                let answer = process.answer(&mut lease.disk, line, &mut self.chance);
                if self.is_traced {
                    println!("{} leases {at}: {line}: {answer}", self.now);
                }
                said += &answer;
                if process.has_failed {
                    break;
                }
            }
        }
        self.lease_writes(at, &said);
    }

    /// What a process of leases writes comes, sometimes in two pieces.
    fn lease_writes(&mut self, at: usize, said: &str) {
        let lease = &mut self.machines[at].lease;
        lease.said.extend(said.bytes());
        let (life, whole) = (lease.life, said.len());
        let front = if self.chance.one_in(8) { self.chance.below(whole as u64 + 1) as usize } else { whole };
        self.put(0, Event::Lease(LeaseEvent::Says { at, life, count: front }));
        if front < whole {
            let delay = self.chance.below(2 * MS);
            self.put(delay, Event::Lease(LeaseEvent::Says { at, life, count: whole - front }));
        }
    }

    fn lease_says(&mut self, at: usize, count: usize) {
        let lease = &mut self.machines[at].lease;
        let bytes: Vec<u8> = lease.said.drain(..count).collect();
        let (is_first, has_failed) = (!lease.is_heard, lease.said.is_empty() && lease.process.as_ref().map_or(false, |process| process.has_failed));
        let is_first = is_first && bytes.contains(&b'\n');
        lease.is_heard |= is_first;
        self.core_hears_lease(at, &bytes);
        if is_first {
            self.lease_model.begins_anew(at);
        }
        if has_failed {
            self.lease_ends(at);
        }
    }

    fn core_hears_lease(&mut self, at: usize, bytes: &[u8]) {
        let machine = &mut self.machines[at];
        machine.lease.pipes.iter().for_each(|pipes| pipes.say(bytes));
        machine.core.iter_mut().filter_map(|core| core.leases.as_mut()).for_each(Leases::wake);
        self.turn(at);
    }

    /// A process is killed: of what it wrote some may come yet.
    fn lease_is_killed(&mut self, at: usize) {
        if self.chance.one_in(2) {
            self.lease_reads(at);
        }
        let count = self.chance.below(self.machines[at].lease.said.len() as u64 + 1) as usize;
        let bytes: Vec<u8> = self.machines[at].lease.said.drain(..count).collect();
        self.machines[at].lease.pipes.iter().for_each(|pipes| pipes.say(&bytes));
        self.lease_ends(at);
    }

    fn lease_ends(&mut self, at: usize) {
        let machine = &mut self.machines[at];
        machine.lease.pipes.iter().for_each(Pipes::close);
        machine.lease.end();
        machine.core.iter_mut().filter_map(|core| core.leases.as_mut()).for_each(Leases::wake);
        self.turn(at);
    }

    /// A client that asks for leases does what is its turn; when it has the next one.
    pub(super) fn leads(&mut self, person: usize) -> u64 {
        let keeps = self.lease_plan.keeps * MS;
        let soon = keeps / 20 + self.chance.below(keeps / 8);
        self.lease_model.is_told_in_time(person, &self.shows());
        let fate = match self.lease_model.claim(person) {
            None => return self.acquires(person, soon),
            Some(claim) if claim.is_given_back => 9,
            // in the end each machine is to have each name
            Some(claim) if claim.held.is_some() && self.is_healed => self.chance.below(if claim.is_late { 4 } else { 1 }),
            Some(claim) => self.chance.below(if claim.held.is_some() { 16 } else { 64 }),
        };
        match fate {
            0 | 1 => self.gives_back(person),
            2 if !self.is_healed => self.hangs_up(person, false),
            // it asks for nothing until others wait for it
            3 if !self.is_healed => return keeps,
            _ => self.asks(person, Asked::Leases, r#""do":"leases""#),
        }
        soon
    }

    fn acquires(&mut self, person: usize, soon: u64) -> u64 {
        let at = self.people[person].at;
        let wanting = self.lease_model.wanting(at);
        let name = self.chance.pick(if wanting.is_empty() { &NAMES } else { &wanting });
        self.lease_model.asks(person, at, name);
        self.asks(person, Asked::Acquire, &format!(r#""do":"acquire","name":"{name}""#));
        soon
    }

    fn gives_back(&mut self, person: usize) {
        let name = self.lease_model.claim(person).map_or("", |claim| claim.name);
        self.lease_model.gives_back(person);
        self.asks(person, Asked::Release, &format!(r#""do":"release","name":"{name}""#));
    }

    /// An answer about leases.
    pub(super) fn is_answered_of_lease(&mut self, person: usize, asked: &Asked, said: &Value) {
        let at = self.people[person].at;
        match asked {
            Asked::Acquire if said["ok"] == true => assert_eq!(said["now_ms"].as_u64(), Some(self.shows()[at])),
            Asked::Acquire | Asked::Release => self.lease_model.ends(person),
            _ => {
                let rows = said["leases"].as_array().into_iter().flatten();
                let rows = rows.map(|row| (row["name"].as_str().unwrap(), row["epoch"].as_u64().unwrap())).collect();
                self.lease_model.are_listed(at, &rows, &self.shows());
            }
        }
    }

    /// An event of a lease.
    pub(super) fn is_told_of_lease(&mut self, person: usize, said: &Value) {
        let (name, epoch) = (said["name"].as_str().unwrap_or_default(), said["epoch"].as_u64().unwrap_or(0));
        match said["event"].as_str().unwrap_or_default() {
            "held" => {
                let (until, shows) = (said["until_ms"].as_u64().unwrap(), self.shows());
                self.lease_model.held(person, name, (epoch, until), &shows);
            }
            "lost" => self.lease_model.lost(person, name, epoch),
            "refused" => self.lease_model.is_refused(person, said["why"].as_str().unwrap_or_default()),
            _ => {}
        }
    }
}
