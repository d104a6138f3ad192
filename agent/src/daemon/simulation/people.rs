//! The clients: those that submit, those that work, those that ask for leases, and one at each machine that watches.

use super::node::Key;
use super::ports::Connection;
use serde_json::Value;
use std::collections::BTreeMap;

/// What a client asked.
pub(super) enum Asked {
    /// Which submission, and when.
    Submit(usize, u64),
    Take,
    /// Whether a job is said to be done, or is given back.
    Finish(Key, bool),
    Watch,
    Acquire,
    Release,
    Leases,
    Other,
}

#[derive(Clone, Copy, Debug, PartialEq, Eq)]
pub(super) enum Role {
    Watcher,
    Submitter,
    Worker,
    /// One that asks for leases.
    Candidate,
    /// One that takes all queues, and does each job soon.
    Helper,
}

pub(super) struct Person {
    pub(super) role: Role,
    pub(super) at: usize,
    pub(super) connection: Option<Connection>,
    unread: Vec<u8>,
    pub(super) asked: BTreeMap<u64, Asked>,
    last: u64,
    pub(super) holds: Option<Key>,
    /// Whether it asks for nothing more, and waits for its answers.
    pub(super) is_leaving: bool,
    /// Of a watcher: the last change that it was told, and how many of the machine's lines it was told.
    pub(super) change: Option<u64>,
    pub(super) seen: usize,
}

impl Person {
    pub(super) fn new(role: Role, at: usize) -> Person {
        let (unread, asked) = (Vec::new(), BTreeMap::new());
        Person { role, at, connection: None, unread, asked, last: 0, holds: None, is_leaving: false, change: None, seen: 0 }
    }

    /// It is connected anew: nothing of before counts.
    pub(super) fn begin(&mut self, connection: Connection) {
        *self = Person { connection: Some(connection), last: self.last, ..Person::new(self.role, self.at) };
    }

    /// Its connection is gone.
    pub(super) fn end(&mut self) {
        *self = Person { last: self.last, ..Person::new(self.role, self.at) };
    }

    /// The line of a request.
    pub(super) fn asks(&mut self, asked: Asked, words: &str) -> Vec<u8> {
        self.last += 1;
        self.asked.insert(self.last, asked);
        format!("{{\"request\":{},{words}}}\n", self.last).into_bytes()
    }

    /// Of what it is told, the whole lines.
    pub(super) fn reads(&mut self, bytes: &[u8]) -> Vec<Value> {
        self.unread.extend_from_slice(bytes);
        let whole = self.unread.iter().rposition(|byte| *byte == b'\n').map_or(0, |at| at + 1);
        let rest = self.unread.split_off(whole);
        let lines = std::mem::replace(&mut self.unread, rest);
        lines.split(|byte| *byte == b'\n').filter(|line| !line.is_empty()).map(|line| serde_json::from_slice(line).unwrap()).collect()
    }

    /// What an answer is to, by its tag.
    pub(super) fn answered(&mut self, said: &Value) -> Option<Asked> {
        let tag = said["request"].as_u64()?;
        Some(self.asked.remove(&tag).unwrap_or_else(|| panic!("{said} is to nothing that was asked")))
    }
}

/// The job that a line names.
pub(super) fn key_of(said: &Value) -> Key {
    (said["origin"].as_u64().unwrap() as u8, said["id"].as_u64().unwrap())
}
