//! The lines of the socket as types. What a later agent adds is passed over.

use super::Back;
use serde::{Deserialize, Serialize};
use serde_json::Value;

/// The node that keeps a job, and the id that it gave it.
#[derive(Clone, Copy, Debug, PartialEq, Eq, PartialOrd, Ord, Hash, Serialize, Deserialize)]
pub struct JobKey {
    pub origin: u8,
    pub id: u64,
}

#[derive(Clone, Debug, PartialEq, Eq, Serialize)]
pub struct Submission {
    pub queue: u8,
    pub priority: u8,
    /// At most 400 bytes, as hex digits.
    hex: String,
    #[serde(skip_serializing_if = "Option::is_none")]
    key: Option<String>,
}

impl Submission {
    pub fn new(queue: u8, payload: impl AsRef<[u8]>) -> Submission {
        Submission::of_hex(queue, hex::encode(payload))
    }

    /// Of a payload by its hex digits.
    pub fn of_hex(queue: u8, digits: String) -> Submission {
        Submission { queue, priority: 0, hex: digits, key: None }
    }

    /// Jobs of greater priority are given first.
    pub fn with_priority(self, priority: u8) -> Submission {
        Submission { priority, ..self }
    }

    /// Made again under its key within ten minutes it is the same job.
    pub fn with_key(self, key: impl Into<String>) -> Submission {
        Submission { key: Some(key.into()), ..self }
    }

    pub fn has_key(&self) -> bool {
        self.key.is_some()
    }
}

#[derive(Clone, Debug, PartialEq, Eq, Serialize)]
#[serde(tag = "do", rename_all = "lowercase")]
pub enum Request<'a> {
    Status,
    Members,
    Jobs {
        queue: Option<u8>,
        skip: usize,
        limit: usize,
    },
    Submit(&'a Submission),
    Take {
        #[serde(skip_serializing_if = "<[u8]>::is_empty")]
        queues: &'a [u8],
        wait: bool,
    },
    Finish {
        #[serde(flatten)]
        job: JobKey,
        ok: bool,
        #[serde(skip_serializing_if = "Option::is_none")]
        after_ms: Option<u64>,
        #[serde(skip_serializing_if = "std::ops::Not::not")]
        aside: bool,
        /// Also where another client works on it.
        #[serde(skip_serializing_if = "std::ops::Not::not")]
        force: bool,
    },
    Kick {
        queue: Option<u8>,
        origin: Option<u8>,
        id: Option<u64>,
    },
    Drain {
        on: bool,
    },
    Watch {
        since: Option<u64>,
        #[serde(skip_serializing_if = "Option::is_none")]
        every_ms: Option<u64>,
    },
    Compact,
    Record {
        on: bool,
    },
    Acquire {
        name: &'a str,
    },
    Release {
        name: &'a str,
    },
    Leases,
}

impl Request<'_> {
    pub fn finish(job: JobKey) -> Request<'static> {
        Request::Finish { job, ok: true, after_ms: None, aside: false, force: false }
    }

    pub fn give_back(job: JobKey, back: Back) -> Request<'static> {
        let (after_ms, aside) = match back {
            Back::After(after) => (Some(after.as_millis() as u64), false),
            Back::Aside => (None, true),
        };
        Request::Finish { job, ok: false, after_ms, aside, force: false }
    }
}

/// The node's group.
#[derive(Clone, Debug, PartialEq, Eq, Deserialize)]
pub struct Group {
    pub cluster: String,
    pub node: u8,
    pub nodes: u8,
    pub phase: String,
    pub coordinator: u8,
    /// To be compared for equality alone.
    pub group: String,
    pub members: Vec<u8>,
    /// Whose jobs the node works on.
    pub queues: Vec<u8>,
    pub is_coordinator: bool,
    /// Advice, and no lock.
    pub majority: bool,
    pub alive: bool,
    pub change: u64,
}

/// The state of the node and its agent.
#[derive(Clone, Debug, PartialEq, Eq, Deserialize)]
pub struct State {
    #[serde(flatten)]
    pub group: Group,
    /// Another one at each start of the agent.
    pub life: String,
    pub pending: u64,
    pub pending_max: Option<u64>,
    pub in_hand: u64,
    pub aside: u64,
    pub submissions: u64,
    pub draining: bool,
}

#[derive(Clone, Debug, PartialEq, Eq, Deserialize)]
pub struct Member {
    pub node: u8,
    pub name: String,
    pub address: Option<String>,
    pub is_self: bool,
    pub in_group: bool,
    pub coordinates: bool,
    pub queues: Vec<u8>,
    pub heard_ms: Option<u64>,
}

/// A job as its lines have it.
#[derive(Clone, Debug, PartialEq, Eq, Deserialize)]
pub struct Given {
    #[serde(flatten)]
    pub key: JobKey,
    pub queue: u8,
    pub priority: u8,
    /// Hex digits.
    pub payload: String,
    /// How often the agent gave it; in the answer to `take` alone.
    #[serde(default)]
    pub attempt: u32,
}

/// An event of `watch`.
#[derive(Clone, Debug, PartialEq, Eq)]
pub enum Change {
    State(Box<State>),
    Group(Box<Group>),
    Majority(bool),
    Take(Given),
    Drop(JobKey),
    Gone(JobKey),
    Aside(JobKey),
    /// Nothing changed; whether the node is alive.
    Beat(bool),
    /// One of a later agent, or one that can't be read.
    Other(Value),
}

impl Change {
    pub(crate) fn of(line: Value) -> Change {
        fn read<T: for<'a> Deserialize<'a>>(line: &Value) -> Option<T> {
            T::deserialize(line).ok()
        }
        let known = match line["event"].as_str().unwrap_or_default() {
            "state" => read(&line).map(Box::new).map(Change::State),
            "group" => read(&line).map(Box::new).map(Change::Group),
            "majority" => line["majority"].as_bool().map(Change::Majority),
            "take" => read(&line).map(Change::Take),
            "drop" => read(&line).map(Change::Drop),
            "gone" => read(&line).map(Change::Gone),
            "aside" => read(&line).map(Change::Aside),
            "beat" => line["alive"].as_bool().map(Change::Beat),
            _ => None,
        };
        known.unwrap_or(Change::Other(line))
    }
}

#[cfg(test)]
mod tests {
    use super::*;
    use serde_json::json;

    #[test]
    fn requests_are_those_of_the_page() {
        let job = JobKey { origin: 1, id: 7 };
        let submission = Submission::new(3, "hi").with_priority(9).with_key("k");
        for (request, line) in [
            (Request::Status, json!({"do": "status"})),
            (
                Request::Submit(&submission),
                json!({"do": "submit", "queue": 3, "priority": 9, "hex": "6869", "key": "k"}),
            ),
            (Request::Take { queues: &[], wait: true }, json!({"do": "take", "wait": true})),
            (Request::Take { queues: &[1, 3], wait: false }, json!({"do": "take", "queues": [1, 3], "wait": false})),
            (Request::Acquire { name: "lead" }, json!({"do": "acquire", "name": "lead"})),
            (Request::Release { name: "lead" }, json!({"do": "release", "name": "lead"})),
            (Request::finish(job), json!({"do": "finish", "origin": 1, "id": 7, "ok": true})),
            (
                Request::give_back(job, Back::Aside),
                json!({"do": "finish", "origin": 1, "id": 7, "ok": false, "aside": true}),
            ),
            (
                Request::Watch { since: None, every_ms: Some(200) },
                json!({"do": "watch", "since": null, "every_ms": 200}),
            ),
        ] {
            assert_eq!(serde_json::to_value(&request).unwrap(), line);
        }
    }

    #[test]
    fn events_are_read_and_those_of_later_agents_are_kept_as_they_are() {
        let key = JobKey { origin: 1, id: u64::MAX };
        let take = Given { key, queue: 3, priority: 0, payload: "6869".to_string(), attempt: 0 };
        let odd = json!({"event": "new", "change": 7, "more": [1]});
        for (line, change) in [
            (
                json!({"event": "take", "origin": 1, "id": u64::MAX, "queue": 3, "priority": 0, "payload": "6869", "change": 5, "more": 1}),
                Change::Take(take),
            ),
            (json!({"event": "gone", "origin": 1, "id": u64::MAX, "change": 6}), Change::Gone(key)),
            (json!({"event": "beat", "change": 6, "alive": false}), Change::Beat(false)),
            (odd.clone(), Change::Other(odd)),
        ] {
            assert_eq!(Change::of(line), change);
        }
    }
}
