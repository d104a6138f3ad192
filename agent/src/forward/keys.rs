//! Keys of submissions: one that is made again under its key within ten minutes is one job, at whichever machine. The agent whose node is asked to keep it, or
//! that answers for it, remembers its job; the others are told it, and are asked before a key counts as new.

use crate::node::JobKey;
use serde::{Deserialize, Serialize};
use sha2::{Digest, Sha256};
use std::collections::{BTreeSet, HashMap, VecDeque};
use std::time::{Duration, Instant};

/// A job is remembered for so long, of so many keys: of more the oldest ones are forgotten.
const MEMORY: Duration = Duration::from_secs(600);
const MAX_REMEMBERED: usize = 16_384;

/// Other agents are waited for for so many round trips; one that doesn't answer knows nothing of it.
const PATIENCE: u32 = 10;
const MIN_PATIENCE: Duration = Duration::from_millis(200);

/// So many keys may be asked about or be on their way to the node at a time.
const MAX_OPEN: usize = 4096;

/// Stands for a key: the first bytes of its hash.
#[derive(Clone, Copy, Debug, PartialEq, Eq, Hash, Serialize, Deserialize)]
pub struct Key(u64, u64);

impl Key {
    pub fn of(text: &str) -> Key {
        let digest = Sha256::digest(text);
        let half = |at: usize| digest[at..at + 8].iter().fold(0, |number, byte| number << 8 | u64::from(*byte));
        Key(half(0), half(8))
    }
}

/// What an agent knows of a key that another one asks about.
#[derive(Clone, Copy, Debug, PartialEq, Eq, Serialize, Deserialize)]
#[serde(rename_all = "lowercase")]
pub enum Knows {
    Nothing,
    /// Its node is asked to keep the job now.
    Busy,
    Kept(JobKey),
}

/// What is to be done with a submission under a key.
#[derive(Debug, PartialEq, Eq)]
pub enum Turn {
    /// The node is to be asked.
    Keep,
    /// These others are to be asked, and then it is to be tried again.
    AskOthers(Vec<u8>),
    Wait,
    /// It is kept already.
    Known(JobKey),
}

enum Open {
    /// These others didn't answer yet.
    Others {
        silent: BTreeSet<u8>,
        until: Instant,
    },
    Node,
}

pub struct Keys {
    patience: Duration,
    known: HashMap<Key, JobKey>,
    /// Until when each is known, in that order.
    order: VecDeque<(Instant, Key)>,
    open: HashMap<Key, Open>,
}

impl Keys {
    pub fn new(round_trip: Duration) -> Keys {
        let patience = (round_trip * PATIENCE).max(MIN_PATIENCE);
        Keys { patience, known: HashMap::new(), order: VecDeque::new(), open: HashMap::new() }
    }

    /// The job of a key.
    pub fn job(&mut self, key: Key, now: Instant) -> Option<JobKey> {
        while let Some((until, oldest)) = self.order.front().copied() {
            if until > now && self.order.len() <= MAX_REMEMBERED {
                break;
            }
            self.known.remove(&oldest);
            self.order.pop_front();
        }
        self.known.get(&key).copied()
    }

    /// What is to be done with a submission that the own node would be asked to keep; `others` are the agents that are heard.
    pub fn turn(&mut self, key: Key, others: &[u8], now: Instant) -> Turn {
        if let Some(job) = self.job(key, now) {
            return Turn::Known(job);
        }
        match self.open.get_mut(&key) {
            Some(Open::Node) => Turn::Wait,
            Some(Open::Others { silent, until }) if !silent.is_empty() && *until > now => {
                Turn::AskOthers(silent.iter().copied().collect())
            }
            Some(open) => {
                *open = Open::Node;
                Turn::Keep
            }
            None => self.begin(key, others, now),
        }
    }

    fn begin(&mut self, key: Key, others: &[u8], now: Instant) -> Turn {
        if self.open.len() >= MAX_OPEN {
            let patience = self.patience;
            // of those about which nobody asked again
            self.open.retain(|_, open| !matches!(open, Open::Others { until, .. } if *until + patience <= now));
            if self.open.len() >= MAX_OPEN {
                return Turn::Wait;
            }
        }
        if others.is_empty() {
            self.open.insert(key, Open::Node);
            return Turn::Keep;
        }
        self.open.insert(key, Open::Others { silent: others.iter().copied().collect(), until: now + self.patience });
        Turn::AskOthers(others.to_vec())
    }

    /// Another agent says what it knows; whether there is nobody left to be waited for.
    pub fn answered(&mut self, from: u8, key: Key, knows: Knows, now: Instant) -> bool {
        let patience = self.patience;
        let (silent, until) = match self.open.get_mut(&key) {
            Some(Open::Others { silent, until }) if silent.contains(&from) => (silent, until),
            _ => return false,
        };
        match knows {
            Knows::Busy => *until = now + patience,
            Knows::Nothing => drop(silent.remove(&from)),
            Knows::Kept(job) => {
                self.open.remove(&key);
                self.remember(key, job, now);
                return true;
            }
        }
        silent.is_empty()
    }

    /// The node answered: the job that it keeps, if it does.
    pub fn settled(&mut self, key: Key, kept: Option<JobKey>, now: Instant) {
        self.open.remove(&key);
        if let Some(job) = kept {
            self.remember(key, job, now);
        }
    }

    /// A job is kept under this key. The first one that was told counts.
    pub fn remember(&mut self, key: Key, job: JobKey, now: Instant) {
        if self.job(key, now).is_none() {
            self.known.insert(key, job);
            self.order.push_back((now + MEMORY, key));
        }
    }

    /// What another agent is told that asks.
    pub fn knows(&mut self, key: Key, now: Instant) -> Knows {
        match (self.job(key, now), self.open.get(&key)) {
            (Some(job), _) => Knows::Kept(job),
            (None, Some(Open::Node)) => Knows::Busy,
            (None, _) => Knows::Nothing,
        }
    }
}

#[cfg(test)]
mod tests {
    use super::*;

    const JOB: JobKey = JobKey { origin: 1, id: 7 };
    const OTHER: JobKey = JobKey { origin: 2, id: 9 };

    fn keys() -> (Keys, Key, Instant) {
        (Keys::new(Duration::from_millis(20)), Key::of("a"), Instant::now())
    }

    #[test]
    fn a_key_is_new_once_all_others_said_so_or_their_time_is_over() {
        let (mut keys, key, now) = keys();
        assert_eq!(keys.turn(key, &[1, 2], now), Turn::AskOthers(vec![1, 2]));
        assert!(
            !keys.answered(1, key, Knows::Nothing, now)
                && !keys.answered(1, key, Knows::Nothing, now)
                && !keys.answered(3, key, Knows::Kept(OTHER), now)
        );
        assert_eq!(keys.turn(key, &[1, 2], now), Turn::AskOthers(vec![2]), "who was lost on the way is asked again");
        assert!(keys.answered(2, key, Knows::Nothing, now));
        assert_eq!((keys.turn(key, &[1, 2], now), keys.turn(key, &[1, 2], now)), (Turn::Keep, Turn::Wait));
        keys.settled(key, None, now);
        assert_eq!(keys.turn(key, &[1], now), Turn::AskOthers(vec![1]), "it wasn't kept");
        assert_eq!(keys.turn(key, &[1], now + MIN_PATIENCE - Duration::from_millis(1)), Turn::AskOthers(vec![1]));
        assert_eq!(keys.turn(key, &[1], now + MIN_PATIENCE), Turn::Keep);
        assert_eq!(keys.turn(Key::of("b"), &[], now), Turn::Keep, "there is nobody else");
    }

    #[test]
    fn the_job_of_a_key_is_known_for_its_time() {
        let (mut keys, key, now) = keys();
        keys.turn(key, &[], now);
        assert_eq!(keys.knows(key, now), Knows::Busy);
        keys.settled(key, Some(JOB), now);
        assert_eq!((keys.turn(key, &[1], now), keys.knows(key, now)), (Turn::Known(JOB), Knows::Kept(JOB)));
        keys.remember(key, OTHER, now + Duration::from_secs(1));
        let end = now + MEMORY;
        assert_eq!(keys.job(key, end - Duration::from_millis(1)), Some(JOB), "the first one counts");
        assert_eq!((keys.job(key, end), keys.knows(key, end), keys.known.len()), (None, Knows::Nothing, 0));
    }

    #[test]
    fn what_another_agent_knows_counts() {
        let (mut keys, key, now) = keys();
        keys.turn(key, &[1, 2], now);
        let later = now + MIN_PATIENCE / 2;
        assert!(!keys.answered(2, key, Knows::Busy, later), "whose node is asked now is waited for");
        keys.answered(1, key, Knows::Nothing, later);
        assert_eq!(keys.turn(key, &[1, 2], now + MIN_PATIENCE), Turn::AskOthers(vec![2]));
        assert!(keys.answered(2, key, Knows::Kept(JOB), later));
        assert_eq!(keys.turn(key, &[1, 2], later), Turn::Known(JOB));
    }

    #[test]
    fn memory_is_bounded() {
        let (mut keys, _, now) = keys();
        let text = |at: usize| Key::of(&at.to_string());
        (0..MAX_REMEMBERED + 2).for_each(|at| keys.remember(text(at), JOB, now));
        assert_eq!((keys.job(text(0), now), keys.job(text(MAX_REMEMBERED + 1), now)), (None, Some(JOB)));
        assert!(keys.known.len() <= MAX_REMEMBERED && keys.known.len() == keys.order.len());
        (0..MAX_OPEN).for_each(|at| drop(keys.turn(text(at + MAX_REMEMBERED * 2), &[1], now)));
        assert_eq!(keys.turn(Key::of("one more"), &[1], now), Turn::Wait);
        assert_eq!(
            keys.turn(Key::of("one more"), &[1], now + MIN_PATIENCE * 2),
            Turn::AskOthers(vec![1]),
            "nobody asked about those any more"
        );
    }
}
