//! How often jobs were given, also over groups in which another node has them: of so many jobs, of those that were given last.

use crate::node::JobKey;
use std::collections::{BTreeMap, HashMap};

/// More than a node keeps jobs that aren't done.
const MAX_REMEMBERED: usize = 8192;

#[derive(Clone, Copy, Debug, Default, PartialEq, Eq)]
pub struct Memory {
    pub attempts: u32,
    pub is_aside: bool,
    /// When it was given last, in the order of all.
    turn: u64,
}

#[derive(Default)]
pub struct Attempts {
    jobs: HashMap<JobKey, Memory>,
    by_turn: BTreeMap<u64, JobKey>,
    turn: u64,
}

impl Attempts {
    pub fn of(&self, key: JobKey) -> Memory {
        self.jobs.get(&key).copied().unwrap_or_default()
    }

    /// A job is given; how often it was.
    pub fn given(&mut self, key: JobKey) -> u32 {
        self.turn += 1;
        let memory = self.jobs.entry(key).or_default();
        memory.attempts = memory.attempts.saturating_add(1);
        let (attempts, last) = (memory.attempts, std::mem::replace(&mut memory.turn, self.turn));
        self.by_turn.remove(&last);
        self.by_turn.insert(self.turn, key);
        if self.jobs.len() > MAX_REMEMBERED {
            let oldest = self.by_turn.iter().next().map(|(turn, key)| (*turn, *key));
            if let Some((turn, key)) = oldest {
                self.by_turn.remove(&turn);
                self.jobs.remove(&key);
            }
        }
        attempts
    }

    pub fn put_aside(&mut self, key: JobKey) {
        if let Some(memory) = self.jobs.get_mut(&key) {
            memory.is_aside = true;
        }
    }

    /// It is done, or counted anew.
    pub fn forget(&mut self, key: JobKey) {
        if let Some(memory) = self.jobs.remove(&key) {
            self.by_turn.remove(&memory.turn);
        }
    }
}

#[cfg(test)]
mod tests {
    use super::*;

    #[test]
    fn jobs_that_were_given_last_are_remembered() {
        let (mut attempts, key) = (Attempts::default(), |id: usize| JobKey { origin: 1, id: id as u64 });
        (0..MAX_REMEMBERED).for_each(|id| assert_eq!(attempts.given(key(id)), 1));
        assert_eq!(attempts.given(key(0)), 2);
        assert_eq!(attempts.given(key(MAX_REMEMBERED)), 1);
        assert_eq!([0, 1, 2].map(|id| attempts.of(key(id)).attempts), [2, 0, 1]);
        attempts.put_aside(key(0));
        assert!(attempts.of(key(0)).is_aside && !attempts.of(key(2)).is_aside);
        attempts.forget(key(0));
        assert_eq!((attempts.of(key(0)), attempts.given(key(0))), (Memory::default(), 1));
        assert_eq!((attempts.jobs.len(), attempts.by_turn.len()), (MAX_REMEMBERED, MAX_REMEMBERED));
    }
}
