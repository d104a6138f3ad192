//! What clients do, and what they are told.

use super::super::node::Key;
use super::super::people::key_of;
use super::{Asked, Event, Role, World, MACHINES, MS, PATIENCE};
use serde_json::Value;

/// So many keys are in use.
const KEYS: u64 = 5;

/// Lines that are no requests.
const RUBBISH: [&[u8]; 5] = [b"\n", b"{}\n", b"[1,2]\n", b"{\"do\":\"dance\"}\n", b"\xff\xfe{\n"];

impl World {
    /// A client does what is its turn.
    pub(super) fn act(&mut self, person: usize) {
        let role = self.people[person].role;
        let has_left = self.people[person].is_leaving && self.people[person].asked.is_empty();
        if self.people[person].connection.is_none() || has_left {
            self.comes_in(person);
        } else if !self.people[person].is_leaving {
            match role {
                Role::Watcher => {}
                Role::Submitter => self.submits(person),
                Role::Worker | Role::Helper => self.works(person),
                Role::Candidate => {
                    let next = self.leads(person);
                    return self.put(next, Event::Act(person));
                }
            }
        }
        let is_over = self.is_healed && matches!(role, Role::Submitter) && self.people[person].asked.is_empty();
        if !is_over {
            let delay = match role {
                Role::Helper => 20 * MS + self.chance.below(100 * MS),
                _ => 30 * MS + self.chance.below(500 * MS),
            };
            self.put(delay, Event::Act(person));
        }
    }

    /// Connects, where the agent is there.
    fn comes_in(&mut self, person: usize) {
        if self.people[person].role == Role::Submitter {
            self.people[person].at = self.chance.below(MACHINES as u64) as usize;
        }
        let at = self.people[person].at;
        if self.machines[at].core.is_none() {
            return;
        }
        let connection = self.machines[at].connect(person);
        self.people[person].begin(connection);
        if self.people[person].role == Role::Watcher {
            self.asks(person, Asked::Watch, r#""do":"watch""#);
        }
        self.turn(at);
    }

    /// Writes a request, sometimes in two pieces.
    pub(super) fn asks(&mut self, person: usize, asked: Asked, words: &str) {
        if self.people[person].connection.is_none() {
            return;
        }
        let line = self.people[person].asks(asked, words);
        if self.is_traced {
            println!("{} client {person} of {} asks {}", self.now, self.people[person].at, String::from_utf8_lossy(&line));
        }
        let cut = if self.chance.one_in(10) { self.chance.below(line.len() as u64) as usize } else { 0 };
        self.writes(person, &line[..cut]);
        self.writes(person, &line[cut..]);
    }

    fn writes(&mut self, person: usize, bytes: &[u8]) {
        let at = self.people[person].at;
        let id = match &self.people[person].connection {
            Some(connection) if !bytes.is_empty() => {
                connection.0.borrow_mut().written.extend(bytes);
                connection.0.borrow().id
            }
            _ => return,
        };
        if let (Some(core), Some(id)) = (&mut self.machines[at].core, id) {
            core.clients.wake(id, false);
        }
        self.turn(at);
    }

    /// Ends its connection, or says by half of it that it asks for nothing more.
    pub(super) fn hangs_up(&mut self, person: usize, by_half: bool) {
        let at = self.people[person].at;
        let id = match &self.people[person].connection {
            Some(connection) => {
                let mut ends = connection.0.borrow_mut();
                (ends.is_ended, ends.has_hung_up) = (true, !by_half);
                ends.id
            }
            None => return,
        };
        self.people[person].is_leaving = true;
        if !by_half {
            self.machines[at].holders.retain(|_, holder| *holder != person);
            self.people[person].end();
            self.lease_model.leaves(person);
        }
        if let (Some(core), Some(id)) = (&mut self.machines[at].core, id) {
            core.clients.wake(id, !by_half);
        }
        self.turn(at);
    }

    fn submits(&mut self, person: usize) {
        if self.is_healed {
            return;
        }
        match self.chance.below(24) {
            0 => self.hangs_up(person, self.count % 2 == 0),
            1 => self.writes_rubbish(person),
            2 => self.asks(person, Asked::Other, r#""do":"status""#),
            3 => self.asks(person, Asked::Other, r#""do":"jobs""#),
            4 if self.plan.drains => {
                let is_on = self.chance.one_in(3);
                self.asks(person, Asked::Other, &format!(r#""do":"drain","on":{is_on}"#));
            }
            5 if self.plan.ends && self.chance.one_in(3) => {
                let (at, is_killed) = (self.people[person].at, self.chance.one_in(2));
                self.put(0, if is_killed { Event::Kill(at) } else { Event::End(at) });
            }
            _ if self.people[person].asked.len() < 3 => self.submits_one(person),
            _ => {}
        }
    }

    fn writes_rubbish(&mut self, person: usize) {
        let bytes = self.chance.pick(&RUBBISH);
        self.writes(person, bytes);
    }

    fn submits_one(&mut self, person: usize) {
        let key = self.chance.one_in(3).then(|| self.chance.below(KEYS));
        let (queue, priority) = (self.chance.below(16) as u8, self.chance.pick(&[0, 0, 0, 7, 255]));
        let submission = self.model.submit(key, queue, priority, self.now);
        let payload = self.model.submissions[submission].job.payload.clone();
        let key = key.map_or(String::new(), |key| format!(r#","key":"k{key}""#));
        let words = format!(r#""do":"submit","queue":{queue},"priority":{priority},"hex":"{payload}"{key}"#);
        self.asks(person, Asked::Submit(submission, self.now), &words);
    }

    fn works(&mut self, person: usize) {
        let is_helper = self.people[person].role == Role::Helper;
        let waits = self.people[person].asked.values().any(|asked| matches!(asked, Asked::Take | Asked::Finish(..)));
        match self.people[person].holds {
            _ if waits && !is_helper && !self.is_healed && self.chance.one_in(40) => self.hangs_up(person, false),
            _ if waits => {}
            None if is_helper || self.chance.one_in(2) => self.asks(person, Asked::Take, r#""do":"take","wait":true"#),
            None => {
                let queues: Vec<u64> = (0..6).map(|_| self.chance.below(16)).collect();
                let wait = self.chance.one_in(2);
                self.asks(person, Asked::Take, &format!(r#""do":"take","queues":{queues:?},"wait":{wait}"#));
            }
            Some(key) => self.ends_job(person, key, is_helper),
        }
    }

    fn ends_job(&mut self, person: usize, key: Key, is_helper: bool) {
        let (origin, id) = key;
        let words = format!(r#""do":"finish","origin":{origin},"id":{id}"#);
        let fate = if is_helper || self.is_healed { 0 } else { self.chance.below(16) };
        match fate {
            12 | 13 => {
                let (after, at) = (self.chance.below(1500), self.people[person].at);
                self.let_go(at, person, key);
                self.asks(person, Asked::Finish(key, false), &format!(r#"{words},"ok":false,"after_ms":{after}"#));
            }
            14 => {
                let at = self.people[person].at;
                self.let_go(at, person, key);
                self.asks(person, Asked::Finish(key, false), &format!(r#"{words},"ok":false,"aside":true"#));
            }
            15 => self.hangs_up(person, false),
            _ => {
                self.model.finish(key);
                self.asks(person, Asked::Finish(key, true), &words);
            }
        }
        if fate == 11 && self.chance.one_in(2) {
            self.ends_another(person);
        }
    }

    /// Says of a job that another client of the machine works on that it is done.
    fn ends_another(&mut self, person: usize) {
        let at = self.people[person].at;
        let other = self.machines[at].holders.iter().find(|(_, holder)| **holder != person).map(|(key, _)| *key);
        if let Some(key) = other {
            self.model.finish(key);
            let force = self.chance.one_in(2);
            self.asks(person, Asked::Other, &format!(r#""do":"finish","origin":{},"id":{},"force":{force}"#, key.0, key.1));
        }
    }

    /// A client works on a job no more.
    fn let_go(&mut self, at: usize, person: usize, key: Key) {
        if self.machines[at].holders.get(&key) == Some(&person) {
            self.machines[at].holders.remove(&key);
        }
        if self.people[person].holds == Some(key) {
            self.people[person].holds = None;
        }
    }

    /// A client is told a line.
    pub(super) fn is_told(&mut self, person: usize, said: &Value) {
        let at = self.people[person].at;
        if self.people[person].connection.is_none() {
            return;
        }
        match self.people[person].answered(said) {
            Some(Asked::Submit(submission, since)) => {
                assert!(self.now < since + PATIENCE, "submission {submission} has its answer late");
                match said["ok"].as_bool() {
                    Some(true) => self.model.told_kept(submission, key_of(said), self.now),
                    _ => self.model.told_refused(submission, said["may_be_kept"] != true, &said.to_string()),
                }
            }
            Some(Asked::Take) if said["ok"] == true => self.is_given(person, said),
            Some(Asked::Finish(key, is_done)) => {
                let is_over = said["ok"] == true || said["error"] == "UnknownJob" || said["error"] == "NotYours";
                if is_done && is_over {
                    self.let_go(at, person, key);
                }
            }
            Some(Asked::Watch) => {
                self.people[person].change = said["change"].as_u64();
                self.people[person].seen = self.machines[at].lines.len();
            }
            Some(asked @ (Asked::Acquire | Asked::Release | Asked::Leases)) => self.is_answered_of_lease(person, &asked, said),
            Some(Asked::Take | Asked::Other) => {}
            None => self.is_told_of(person, said),
        }
    }

    /// A client is given a job: one that the node gave, and that no other client works on.
    fn is_given(&mut self, person: usize, said: &Value) {
        let (at, key) = (self.people[person].at, key_of(said));
        self.model.given(key, said["payload"].as_str().unwrap());
        assert!(self.machines[at].in_hand.contains(&key), "machine {at}: {key:?} is given, and the node didn't give it");
        let other = self.machines[at].holders.insert(key, person).filter(|other| *other != person);
        assert_eq!(other, None, "machine {at}: {key:?} is given, and another client works on it");
        self.people[person].holds = Some(key);
    }

    /// An event.
    fn is_told_of(&mut self, person: usize, said: &Value) {
        let (at, event) = (self.people[person].at, said["event"].as_str().unwrap_or_default());
        if self.people[person].role == Role::Candidate {
            return self.is_told_of_lease(person, said);
        }
        if event == "stop" {
            self.model.tally.stopped += 1;
            return self.let_go(at, person, key_of(said));
        }
        if let Some(change) = self.people[person].change {
            assert_eq!(said["change"].as_u64(), Some(change + 1), "machine {at}: a watcher missed a change");
            self.people[person].change = Some(change + 1);
        }
        if ["take", "drop", "gone"].contains(&event) {
            let line = self.machines[at].lines.get(self.people[person].seen);
            assert_eq!(line.map(|(word, key)| (*word, *key)), Some((event, key_of(said))), "machine {at}: a watcher is told of another line");
            self.people[person].seen += 1;
        }
    }
}
