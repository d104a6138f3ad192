//! What holds of jobs, whatever befalls machines, nodes and the network: a model beside the world, which is told all that happens and panics where it mustn't.

use super::lease_model::LeaseTally;
use super::node::{Deed, Job, Key};
use std::collections::{BTreeMap, BTreeSet};

/// What came of a submission, as its client was told.
#[derive(Clone, Copy, Debug, PartialEq, Eq)]
pub(super) enum Fate {
    /// Nothing yet, or its client is gone.
    Untold,
    Kept(Key),
    /// Surely no node keeps it.
    Refused,
    /// Some node may keep it.
    Doubted,
}

pub(super) struct Submission {
    /// Those of one key are one job.
    pub(super) key: Option<u64>,
    pub(super) job: Job,
    pub(super) fate: Fate,
    /// When it was made, and when its client was told of its job.
    since: u64,
    told: Option<u64>,
}

/// How many of each were seen.
#[derive(Clone, Copy, Debug, Default)]
pub(super) struct Tally {
    pub(super) kept: usize,
    pub(super) refused: usize,
    pub(super) doubted: usize,
    pub(super) given: usize,
    pub(super) stopped: usize,
    pub(super) keyed: usize,
    pub(super) ends: usize,
    pub(super) leases: LeaseTally,
}

impl Tally {
    pub(super) fn add(&mut self, other: Tally) {
        self.kept += other.kept;
        self.refused += other.refused;
        self.doubted += other.doubted;
        self.given += other.given;
        self.stopped += other.stopped;
        self.keyed += other.keyed;
        self.ends += other.ends;
        self.leases.add(other.leases);
    }
}

#[derive(Default)]
pub(super) struct Model {
    pub(super) submissions: Vec<Submission>,
    /// All jobs that ever were on a disk, each with its submission.
    kept: BTreeMap<Key, usize>,
    /// Of each submission, who keeps it in which life of its machine.
    keepers: BTreeSet<(usize, u8, u64)>,
    done: BTreeSet<Key>,
    /// Jobs that some client said to be done.
    finished: BTreeSet<Key>,
    /// Whether one that leads leads for good, and whether all agents hear each other and none begins anew.
    is_calm: bool,
    all_hear: bool,
    pub(super) tally: Tally,
}

impl Model {
    pub(super) fn new(is_calm: bool, all_hear: bool) -> Model {
        Model { is_calm, all_hear, ..Model::default() }
    }

    /// A client submits this; by its payload it is known again.
    pub(super) fn submit(&mut self, key: Option<u64>, queue: u8, priority: u8, now: u64) -> usize {
        let at = self.submissions.len();
        let job = Job { queue, priority, payload: format!("{at:08x}") };
        self.submissions.push(Submission { key, job, fate: Fate::Untold, since: now, told: None });
        at
    }

    /// Something is on a node's disk, in this life of its machine.
    pub(super) fn take(&mut self, deed: Deed, life: u64) {
        match deed {
            Deed::Kept(key, job) => {
                let at = usize::from_str_radix(&job.payload, 16).unwrap();
                assert_eq!(self.submissions[at].job, job, "another job is kept than was submitted");
                assert_ne!(self.submissions[at].fate, Fate::Refused, "submission {at} is kept as {key:?}, and its client was surely refused");
                assert_eq!(self.kept.insert(key, at), None, "{key:?} is given twice");
                assert!(self.keepers.insert((at, key.0, life)), "submission {at} is kept twice by node {}", key.0);
            }
            Deed::Done(key) => {
                assert!(self.finished.contains(&key), "{key:?} is done, and nobody said so");
                self.done.insert(key);
            }
        }
    }

    /// A client says that a job is done.
    pub(super) fn finish(&mut self, key: Key) {
        self.finished.insert(key);
    }

    pub(super) fn told_kept(&mut self, at: usize, job: Key, now: u64) {
        let (own, other) = (&self.submissions[at], self.kept.get(&job).copied());
        let other = other.unwrap_or_else(|| panic!("submission {at} is told to be {job:?}, which nobody keeps"));
        let is_own = other == at || (own.key.is_some() && own.key == self.submissions[other].key);
        assert!(is_own, "submission {at} is told to be {job:?}, which is submission {other}");
        // two that are made at once where two lead may be two jobs; one that is made behind them is one of these
        let is_told = |one: &Submission| own.key.is_some() && one.key == own.key && one.told.map_or(false, |told| told < own.since);
        if self.all_hear && self.submissions.iter().any(is_told) {
            assert!(other != at && self.submissions[other].since < own.since, "submission {at} is made again under its key, and is another job");
        }
        self.submissions[at].told = Some(now);
        self.tally.kept += 1;
        self.tally.keyed += usize::from(other != at);
        self.settle(at, Fate::Kept(job));
    }

    pub(super) fn told_refused(&mut self, at: usize, is_sure: bool, why: &str) {
        let is_kept = self.kept.values().any(|other| *other == at);
        assert!(!(is_sure && is_kept), "submission {at} is kept, and its client was surely refused: {why}");
        (self.tally.refused, self.tally.doubted) = (self.tally.refused + usize::from(is_sure), self.tally.doubted + usize::from(!is_sure));
        self.settle(at, if is_sure { Fate::Refused } else { Fate::Doubted });
    }

    fn settle(&mut self, at: usize, fate: Fate) {
        assert_eq!(self.submissions[at].fate, Fate::Untold, "submission {at} is answered twice");
        self.submissions[at].fate = fate;
    }

    /// A client is given a job.
    pub(super) fn given(&mut self, key: Key, payload: &str) {
        let at = self.kept.get(&key).unwrap_or_else(|| panic!("{key:?} is given, and nobody keeps it"));
        assert_eq!(self.submissions[*at].job.payload, payload, "{key:?} is given with another payload");
        self.tally.given += 1;
    }

    /// Whether all that is kept is done.
    pub(super) fn is_over(&self) -> bool {
        self.done.len() == self.kept.len()
    }

    pub(super) fn left(&self) -> Vec<Key> {
        self.kept.keys().filter(|key| !self.done.contains(key)).copied().collect()
    }

    /// What is to hold at the end of a run.
    pub(super) fn at_end(&self) {
        let of_key = |key: u64| self.kept.values().filter(|at| self.submissions[**at].key == Some(key)).count();
        let keys: BTreeSet<u64> = self.submissions.iter().filter_map(|one| one.key).collect();
        for key in keys.into_iter().filter(|_| self.is_calm) {
            assert!(of_key(key) <= 1, "key {key} has {} jobs", of_key(key));
        }
        for one in &self.submissions {
            if let Fate::Kept(key) = one.fate {
                assert!(self.done.contains(&key), "{key:?} is acknowledged and isn't done in the end");
            }
        }
    }
}
