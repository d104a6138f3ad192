//! What holds of leases, by what agents tell their clients: a model beside the world, which is told all that happens and panics where it mustn't.

use std::collections::{BTreeMap, BTreeSet};

/// The names that are asked for.
pub(super) const NAMES: [&str; 2] = ["a", "b"];

/// A client that holds is told that it lost so long behind the time at the latest: a process that hangs is waited for, and one that ends is started again.
const TOLD_MS: u64 = 12_000;

/// What a client asked for, from then on until it gave it back or was told nothing more.
pub(super) struct Claim {
    number: u64,
    at: usize,
    pub(super) name: &'static str,
    /// The greatest epoch that anybody was told when it was asked for.
    floor: u64,
    /// Under which epoch it is held, and until when by the machine's clock.
    pub(super) held: Option<(u64, u64)>,
    /// The greatest epoch under which it was lost.
    lost: u64,
    /// Whether it was given back, and that isn't answered yet: its client relies on nothing any more.
    pub(super) is_given_back: bool,
    /// Whether it was asked for when nothing went wrong any more.
    pub(super) is_late: bool,
}

/// How many of each were seen.
#[derive(Clone, Copy, Debug, Default)]
pub(super) struct LeaseTally {
    pub(super) held: usize,
    pub(super) renewed: usize,
    pub(super) raised: usize,
    pub(super) lost: usize,
    pub(super) given_back: usize,
    pub(super) silent: usize,
    pub(super) begun: usize,
}

impl LeaseTally {
    pub(super) fn counts(&self) -> [usize; 7] {
        [self.held, self.renewed, self.raised, self.lost, self.given_back, self.silent, self.begun]
    }

    pub(super) fn add(&mut self, other: LeaseTally) {
        self.held += other.held;
        self.renewed += other.renewed;
        self.raised += other.raised;
        self.lost += other.lost;
        self.given_back += other.given_back;
        self.silent += other.silent;
        self.begun += other.begun;
    }
}

#[derive(Default)]
pub(super) struct LeaseModel {
    /// Whether clocks go right, and whether nothing goes wrong but what clients do.
    is_right: bool,
    is_calm: bool,
    /// For how long a lease is relied on, in milliseconds of its machine.
    relies: u64,
    last: u64,
    claims: BTreeMap<usize, Claim>,
    /// Who is gone or is told nothing more may rely on what it was told: at which machine, on which name, until when.
    left: Vec<(usize, &'static str, u64)>,
    /// Of each name the greatest epoch that was told, and of each epoch which claim has it.
    greatest: BTreeMap<&'static str, u64>,
    owners: BTreeMap<(&'static str, u64), u64>,
    is_healed: bool,
    /// At which machine somebody had which name who asked once nothing went wrong any more.
    given: BTreeSet<(usize, &'static str)>,
    pub(super) tally: LeaseTally,
}

impl LeaseModel {
    pub(super) fn new(is_right: bool, is_calm: bool, relies: u64) -> LeaseModel {
        LeaseModel { is_right, is_calm, relies, ..LeaseModel::default() }
    }

    pub(super) fn claim(&self, person: usize) -> Option<&Claim> {
        self.claims.get(&person)
    }

    /// A client asks for a name.
    pub(super) fn asks(&mut self, person: usize, at: usize, name: &'static str) {
        self.last += 1;
        let floor = self.greatest.get(name).copied().unwrap_or(0);
        let claim = Claim { number: self.last, at, name, floor, held: None, lost: 0, is_given_back: false, is_late: self.is_healed };
        assert!(self.claims.insert(person, claim).is_none());
    }

    /// A client relies on its lease no more, and is about to say so.
    pub(super) fn gives_back(&mut self, person: usize) {
        if let Some(claim) = self.claims.get_mut(&person) {
            self.tally.given_back += usize::from(claim.held.is_some());
            (claim.is_given_back, claim.held) = (true, None);
        }
    }

    /// What it asked for isn't taken, or was given back: it is told of it no more.
    pub(super) fn ends(&mut self, person: usize) {
        self.claims.remove(&person);
    }

    /// A client is gone, or is told nothing more of its lease: it may rely on what it was told.
    pub(super) fn leaves(&mut self, person: usize) {
        if let Some(claim) = self.claims.remove(&person) {
            self.left.extend(claim.held.map(|(_, until)| (claim.at, claim.name, until)));
        }
    }

    /// A client that fell silent is told that its lease goes to another one.
    pub(super) fn is_refused(&mut self, person: usize, why: &str) {
        assert_eq!(why, "Silent");
        self.tally.silent += 1;
        self.leaves(person);
    }

    fn claim_of(&self, person: usize, name: &str) -> &Claim {
        let claim = self.claims.get(&person).filter(|claim| claim.name == name);
        claim.unwrap_or_else(|| panic!("client {person} is told of the lease {name}, which it doesn't ask for"))
    }

    /// A client is told that it holds, while the machines' clocks show this.
    pub(super) fn held(&mut self, person: usize, name: &str, (epoch, until): (u64, u64), shows: &[u64]) {
        let claim = self.claim_of(person, name);
        let (at, name, number, before) = (claim.at, claim.name, claim.number, claim.held);
        if claim.is_given_back {
            return;
        }
        assert!(epoch > claim.floor, "{name} is held under {epoch}, and was asked for when {} was told", claim.floor);
        assert!(epoch > claim.lost, "{name} is held under {epoch}, and was lost under {}", claim.lost);
        assert!(before.map_or(true, |old| old.0 < epoch || (old.0 == epoch && old.1 <= until)), "{name} under {epoch} until {until} is behind {before:?}");
        assert!(until <= shows[at] + self.relies, "{name} is held until {until} at {}", shows[at]);
        assert_eq!(*self.owners.entry((name, epoch)).or_insert(number), number, "two have {name} under {epoch}");
        if self.is_right && shows[at] < until {
            self.is_alone(person, name, epoch, shows);
        }
        match before {
            None => self.tally.held += 1,
            Some((old, _)) if old < epoch => self.tally.raised += 1,
            Some(_) => self.tally.renewed += 1,
        }
        let greatest = self.greatest.entry(name).or_default();
        *greatest = epoch.max(*greatest);
        if let Some(claim) = self.claims.get_mut(&person) {
            claim.held = Some((epoch, until));
            if claim.is_late && shows[at] < until {
                self.given.insert((at, name));
            }
        }
    }

    /// Nobody else may rely on the name now, and nobody was told of a greater epoch.
    fn is_alone(&self, person: usize, name: &str, epoch: u64, shows: &[u64]) {
        let others = self.claims.iter().filter(|(other, claim)| **other != person && claim.name == name);
        let others = others.filter_map(|(_, claim)| Some((claim.at, claim.held?.1)));
        let left = self.left.iter().filter(|left| left.1 == name).map(|(at, _, until)| (*at, *until));
        for (at, until) in others.chain(left) {
            assert!(until <= shows[at], "client {person} holds {name}, and another one at {at} until {until}, where it is {}", shows[at]);
        }
        let greatest = self.greatest.get(name).copied().unwrap_or(0);
        assert!(greatest <= epoch, "{name} is held under {epoch} behind {greatest}");
    }

    /// A client is told that it lost its lease.
    pub(super) fn lost(&mut self, person: usize, name: &str, epoch: u64) {
        let claim = self.claim_of(person, name);
        if claim.is_given_back {
            return;
        }
        assert_eq!(claim.held.map(|held| held.0), Some(epoch), "{name} is told as lost under {epoch}");
        assert!(!self.is_calm, "{name} is lost, and nothing went wrong");
        self.tally.lost += 1;
        if let Some(claim) = self.claims.get_mut(&person) {
            (claim.held, claim.lost) = (None, epoch);
        }
    }

    /// A machine tells what leases it has: those that its clients hold are among them.
    pub(super) fn are_listed(&self, at: usize, rows: &BTreeSet<(&str, u64)>, shows: &[u64]) {
        for claim in self.claims.values().filter(|claim| claim.at == at) {
            // what is left is told in whole milliseconds
            if let Some((epoch, _)) = claim.held.filter(|(_, until)| shows[at] + 1 < *until) {
                assert!(rows.contains(&(claim.name, epoch)), "machine {at} doesn't say that {} is held under {epoch}: {rows:?}", claim.name);
            }
        }
    }

    /// The process of leases of a machine is another one, and its agent heard that: whoever held there was told that it lost.
    pub(super) fn begins_anew(&mut self, at: usize) {
        self.tally.begun += 1;
        for claim in self.claims.values().filter(|claim| claim.at == at) {
            assert_eq!(claim.held, None, "machine {at}: {} is held, and its process is another one", claim.name);
        }
    }

    /// Whoever held is told in time that it doesn't.
    pub(super) fn is_told_in_time(&self, person: usize, shows: &[u64]) {
        let claim = self.claims.get(&person).filter(|_| self.is_right);
        if let Some((claim, (_, until))) = claim.and_then(|claim| Some((claim, claim.held?))) {
            assert!(shows[claim.at] < until + TOLD_MS, "client {person} isn't told that it lost {}", claim.name);
        }
    }

    /// Nothing goes wrong any more.
    pub(super) fn heals(&mut self) {
        self.is_healed = true;
    }

    /// The names that nobody of a machine had yet who asked since then.
    pub(super) fn wanting(&self, at: usize) -> Vec<&'static str> {
        NAMES.into_iter().filter(|name| self.is_healed && !self.given.contains(&(at, name))).collect()
    }

    /// Whether somebody of each of so many machines who asked since then had each name.
    pub(super) fn is_over(&self, machines: usize) -> bool {
        self.given.len() == NAMES.len() * machines
    }
}
