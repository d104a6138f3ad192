//! A stand-in for the node: it answers the lines that its agent asks, and goes by the groups that it is told of. What it keeps is on its disk.

use crate::chance::Chance;
use std::collections::{BTreeMap, BTreeSet};

/// The kinds of messages that it says and hears, as the agent tells them apart.
const QUESTION: u8 = 1;
const ANSWER: u8 = 2;
const WORK: u8 = 9;
const DONE: u8 = 10;

/// It asks the others so often whether they are there, and sends Work that isn't done so often.
const QUESTIONS_MS: u64 = 400;
const DISPATCH_MS: u64 = 300;

/// A message is sealed by so many bytes.
const SEAL: usize = 8;

/// Nobody else knows how to make it.
fn seal_of(message: &[u8]) -> [u8; SEAL] {
    let fold = |seal: u64, byte: &u8| (seal ^ u64::from(*byte)).wrapping_mul(0x0100_0000_01b3).rotate_left(23);
    message.iter().fold(0x5ea1, fold).to_be_bytes()
}

/// The node that keeps a job, and its id there.
pub(super) type Key = (u8, u64);

#[derive(Clone, Debug, PartialEq, Eq)]
pub(super) struct Job {
    pub(super) queue: u8,
    pub(super) priority: u8,
    pub(super) payload: String,
}

/// What stays where the node ends.
#[derive(Default)]
pub(super) struct Disk {
    count: u64,
    next: u64,
    pub(super) pending: BTreeMap<u64, Job>,
}

/// The group that it is in; without members as long as that is being made.
#[derive(Clone, Debug, Default, PartialEq, Eq)]
pub(super) struct Group {
    pub(super) coordinator: u8,
    pub(super) number: (u8, u64),
    pub(super) members: Vec<u8>,
}

impl Group {
    fn owner(&self, queue: u8) -> Option<u8> {
        self.members.get(usize::from(queue) % self.members.len().max(1)).copied()
    }

    fn line(&self) -> String {
        let members: Vec<String> = self.members.iter().map(u8::to_string).collect();
        let (phase, members) = if members.is_empty() { ("Election", "-".to_string()) } else { ("Normal", members.join(",")) };
        format!("group {phase} {} {}:{} {members}", self.coordinator, self.number.0, self.number.1)
    }
}

/// What the model of jobs is to know of.
pub(super) enum Deed {
    Kept(Key, Job),
    Done(Key),
}

pub(super) struct Node {
    own: u8,
    slots: usize,
    is_up: bool,
    group: Group,
    to_enter: Option<Group>,
    hand: BTreeMap<Key, Job>,
    /// Jobs that were done here in this group.
    done_here: BTreeSet<Key>,
    /// Of each so many milliseconds of its clock.
    now: u64,
    asks_at: u64,
    dispatches_at: u64,
    lines: u64,
    out: String,
    /// One in so many durable commands fails, and then the node ends; 0: none.
    fails: u64,
    /// Whether its messages are sealed.
    is_sealed: bool,
    pub(super) has_failed: bool,
    pub(super) deeds: Vec<Deed>,
}

impl Node {
    pub(super) fn new(own: u8, slots: usize, fails: u64, is_sealed: bool) -> Node {
        Node {
            own,
            slots,
            is_up: false,
            group: Group::default(),
            to_enter: None,
            hand: BTreeMap::new(),
            done_here: BTreeSet::new(),
            now: 0,
            asks_at: 0,
            dispatches_at: 0,
            lines: 0,
            out: String::new(),
            fails,
            is_sealed,
            has_failed: false,
            deeds: Vec::new(),
        }
    }

    /// Nothing of it fails any more.
    pub(super) fn heal(&mut self) {
        self.fails = 0;
    }

    /// It makes a group, as whose coordinator it counts.
    pub(super) fn next_number(&self, disk: &mut Disk) -> (u8, u64) {
        disk.count += 1;
        (self.own, disk.count)
    }

    /// It is in this group, as soon as it is asked the next time.
    pub(super) fn enters(&mut self, group: Group) {
        self.to_enter = Some(group);
    }

    pub(super) fn is_up(&self) -> bool {
        self.is_up
    }

    /// Its whole answer to a line.
    pub(super) fn answer(&mut self, disk: &mut Disk, line: &str, chance: &mut Chance) -> String {
        if line.starts_with("life ") {
            return String::new();
        }
        self.lines += 1;
        let words: Vec<&str> = line.split(' ').collect();
        if self.is_up && matches!(words[0], "tick" | "deliver") {
            self.enter(disk);
        }
        let closing = match words.as_slice() {
            ["recover"] => self.recover(disk),
            _ if !self.is_up => "refused N Down".to_string(),
            ["tick", ms] => self.tick(disk, ms.parse().unwrap()),
            ["deliver", digits] => self.deliver(disk, &hex::decode(digits).unwrap()),
            ["submit", queue, payload] => self.submit(disk, queue, payload, "0", chance),
            ["submit", queue, payload, priority] => self.submit(disk, queue, payload, priority, chance),
            ["finish", origin, id] => self.finish(disk, (origin.parse().unwrap(), id.parse().unwrap()), chance),
            ["jobs"] => self.list(disk),
            ["lost", _] | ["check"] | ["compact"] => "ok N".to_string(),
            _ => panic!("the node is asked {line:?}"),
        };
        let closing = closing.replacen('N', &self.lines.to_string(), 1);
        std::mem::take(&mut self.out) + &closing + "\n"
    }

    fn say(&mut self, line: String) {
        self.out += &line;
        self.out.push('\n');
    }

    fn send(&mut self, to: u8, kind: u8, body: &[u8]) {
        let mut message = [&[1, kind, self.own, to, 0, 0], body].concat();
        if self.is_sealed {
            message.extend(seal_of(&message));
        }
        self.say(format!("send {to} {}", hex::encode(message)));
    }

    /// Alone in a group of its own, with all jobs that it keeps.
    fn recover(&mut self, disk: &mut Disk) -> String {
        self.is_up = true;
        let number = self.next_number(disk);
        self.say(format!("keeps {} {} {}", disk.count, disk.next, disk.pending.len()));
        self.to_enter = Some(Group { coordinator: self.own, number, members: vec![self.own] });
        self.enter(disk);
        "ok N".to_string()
    }

    fn enter(&mut self, disk: &mut Disk) {
        let group = match self.to_enter.take() {
            Some(group) if group != self.group => group,
            _ => return,
        };
        for (origin, id) in std::mem::take(&mut self.hand).into_keys() {
            self.say(format!("drop {origin} {id}"));
        }
        self.say(group.line());
        self.group = group;
        self.done_here.clear();
        self.dispatch(disk);
    }

    /// Sends what it keeps to those who work on it.
    fn dispatch(&mut self, disk: &Disk) {
        self.dispatches_at = self.now + DISPATCH_MS;
        for (id, job) in &disk.pending {
            self.dispatch_one((self.own, *id), job);
        }
    }

    fn dispatch_one(&mut self, key: Key, job: &Job) {
        match self.group.owner(job.queue) {
            Some(owner) if owner == self.own => self.take(key, job.clone()),
            Some(owner) => {
                let (creator, count) = self.group.number;
                let head = [&[creator][..], &count.to_be_bytes(), &key.1.to_be_bytes(), &[job.queue, job.priority]].concat();
                self.send(owner, WORK, &[head, hex::decode(&job.payload).unwrap()].concat());
            }
            None => {}
        }
    }

    fn take(&mut self, key: Key, job: Job) {
        if !self.hand.contains_key(&key) && !self.done_here.contains(&key) {
            let payload = if job.payload.is_empty() { "-" } else { &job.payload };
            self.say(format!("take {} {} {} {payload} {}", key.0, key.1, job.queue, job.priority));
            self.hand.insert(key, job);
        }
    }

    fn tick(&mut self, disk: &Disk, ms: u64) -> String {
        self.now = ms;
        if self.asks_at <= ms {
            self.asks_at = ms + QUESTIONS_MS;
            (0..3).filter(|other| *other != self.own).collect::<Vec<u8>>().into_iter().for_each(|other| self.send(other, QUESTION, &[]));
            self.say("fired Check".to_string());
        }
        if self.dispatches_at <= ms {
            self.dispatch(disk);
        }
        let next = if disk.pending.is_empty() { self.asks_at } else { self.asks_at.min(self.dispatches_at) };
        self.say(format!("next {next}"));
        "ok N".to_string()
    }

    fn deliver(&mut self, disk: &mut Disk, message: &[u8]) -> String {
        let (message, seal) = message.split_at(message.len() - if self.is_sealed { SEAL.min(message.len()) } else { 0 });
        if self.is_sealed && (seal != seal_of(message) || message.get(3) != Some(&self.own)) {
            return "refused N Forged".to_string();
        }
        let (kind, sender) = match message {
            [1, kind, sender, _, _, _, ..] => (*kind, *sender),
            _ => return "bad N".to_string(),
        };
        match (kind, &message[6..]) {
            (QUESTION, _) => self.send(sender, ANSWER, &[]),
            (WORK, body) if body.len() >= 19 => self.take_work(sender, body),
            (DONE, body) if body.len() == 8 => self.take_done(disk, u64::from_be_bytes(body.try_into().unwrap())),
            _ => {}
        }
        "ok N".to_string()
    }

    fn take_work(&mut self, sender: u8, body: &[u8]) {
        let number = |at: usize| u64::from_be_bytes(body[at..at + 8].try_into().unwrap());
        let (group, key) = ((body[0], number(1)), (sender, number(9)));
        let job = Job { queue: body[17], priority: body[18], payload: hex::encode(&body[19..]) };
        if group != self.group.number || self.group.owner(job.queue) != Some(self.own) {
            return;
        }
        if self.done_here.contains(&key) {
            return self.send(sender, DONE, &key.1.to_be_bytes());
        }
        self.take(key, job);
    }

    fn take_done(&mut self, disk: &mut Disk, id: u64) {
        if disk.pending.remove(&id).is_some() {
            self.deeds.push(Deed::Done((self.own, id)));
            self.say(format!("gone {id}"));
        }
    }

    /// Whether the device fails in a command: the disk may hold the state before it or behind it.
    fn device_fails(&mut self, chance: &mut Chance) -> bool {
        self.has_failed = self.fails > 0 && chance.one_in(self.fails);
        self.has_failed
    }

    fn submit(&mut self, disk: &mut Disk, queue: &str, payload: &str, priority: &str, chance: &mut Chance) -> String {
        if self.group.members.is_empty() {
            return "refused N NotNormal".to_string();
        }
        if self.group.coordinator != self.own {
            return format!("refused N NotCoordinator {}", self.group.coordinator);
        }
        if disk.pending.len() >= self.slots {
            return "refused N Full".to_string();
        }
        let payload = if payload == "-" { "" } else { payload };
        let job = Job { queue: queue.parse().unwrap(), priority: priority.parse().unwrap(), payload: payload.to_string() };
        let has_failed = self.device_fails(chance);
        if has_failed && chance.one_in(2) {
            return "fault N Device".to_string();
        }
        let id = disk.next;
        disk.next += 1;
        disk.pending.insert(id, job.clone());
        self.deeds.push(Deed::Kept((self.own, id), job.clone()));
        if has_failed {
            return "fault N Device".to_string();
        }
        self.dispatch_one((self.own, id), &job);
        format!("ok N id {id}")
    }

    fn finish(&mut self, disk: &mut Disk, key: Key, chance: &mut Chance) -> String {
        if !self.hand.contains_key(&key) {
            return "refused N UnknownJob".to_string();
        }
        if key.0 != self.own {
            self.send(key.0, DONE, &key.1.to_be_bytes());
        } else if self.device_fails(chance) {
            if chance.one_in(2) {
                disk.pending.remove(&key.1);
                self.deeds.push(Deed::Done(key));
            }
            return "fault N Device".to_string();
        } else {
            self.take_done(disk, key.1);
        }
        self.hand.remove(&key);
        self.done_here.insert(key);
        "ok N".to_string()
    }

    fn list(&mut self, disk: &Disk) -> String {
        let word = |job: &Job| if job.payload.is_empty() { "-".to_string() } else { job.payload.clone() };
        let pending: Vec<String> = disk.pending.iter().map(|(id, job)| format!("pending {id} {} {} {}", job.queue, word(job), job.priority)).collect();
        let hand: Vec<String> = self.hand.iter().map(|((origin, id), job)| format!("hand {origin} {id} {} {} {}", job.queue, word(job), job.priority)).collect();
        pending.into_iter().chain(hand).for_each(|line| self.say(line));
        "ok N".to_string()
    }
}
