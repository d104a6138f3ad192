//! The numbers that a node gave, as its agent tells them to the others. They keep them over its lives, and tell it: a node whose file holds lesser ones began
//! from a copy, and would give them again.

use serde::{Deserialize, Serialize};
use std::time::{Duration, Instant};

/// The greatest count of a node's groups, and the id of its next job. Each is in the node's file before it is told, and rises with the lives of the node.
#[derive(Clone, Copy, Debug, Default, PartialEq, Eq, PartialOrd, Ord, Serialize, Deserialize)]
pub struct Numbers {
    pub count: u64,
    pub next: u64,
}

/// What an agent told in one of its lives.
#[derive(Clone, Copy, Debug, PartialEq, Eq, Serialize, Deserialize)]
pub struct Told {
    pub life: u64,
    #[serde(flatten)]
    pub numbers: Numbers,
}

/// Of so many lives of an agent the greatest numbers are kept: of those of one life, and of all others.
const LIVES: usize = 2;

/// What the agents of all nodes told.
pub struct Ledger(Vec<Vec<Told>>);

impl Ledger {
    pub fn new(nodes: usize) -> Ledger {
        Ledger(vec![Vec::new(); nodes])
    }

    pub fn note(&mut self, node: u8, told: Told) {
        let lives = match self.0.get_mut(usize::from(node)) {
            Some(lives) => lives,
            None => return,
        };
        match lives.iter_mut().find(|known| known.life == told.life) {
            Some(known) => known.numbers = known.numbers.max(told.numbers),
            None => lives.push(told),
        }
        lives.sort_unstable_by_key(|known| std::cmp::Reverse(known.numbers));
        lives.truncate(LIVES);
    }

    pub fn of(&self, node: u8) -> Vec<Told> {
        self.0.get(usize::from(node)).cloned().unwrap_or_default()
    }
}

/// An agent that doesn't have the numbers of now is told them again after so long, and each time after twice as long as before.
const PAUSE: Duration = Duration::from_secs(1);
const MOST_DOUBLINGS: u32 = 6;

/// What another agent has of the own node's numbers.
#[derive(Clone, Copy, Default)]
struct Listener {
    has_answered: bool,
    has: Numbers,
    told: Option<(Instant, Numbers)>,
    tries: u32,
}

/// The own node's numbers, and what the others say of them.
pub struct OwnNumbers {
    life: u64,
    /// Those behind the recovery, whose count is a new one; None before.
    first: Option<Numbers>,
    now: Numbers,
    /// The greatest that were told in other lives, and in this one.
    before: Numbers,
    within: Numbers,
    listeners: Vec<Listener>,
}

impl OwnNumbers {
    pub fn new(life: u64, nodes: usize) -> OwnNumbers {
        let none = Numbers::default();
        OwnNumbers { life, first: None, now: none, before: none, within: none, listeners: vec![Listener::default(); nodes] }
    }

    /// The node mounted its file, and made a group.
    pub fn mounted(&mut self, numbers: Numbers) {
        (self.first, self.now) = (self.first.or(Some(numbers)), numbers);
    }

    pub fn made_group(&mut self, count: u64) {
        self.now.count = self.now.count.max(count);
    }

    pub fn kept_job(&mut self, id: u64) {
        self.now.next = self.now.next.max(id.saturating_add(1));
    }

    /// Another agent answered with what it was told.
    pub fn answered(&mut self, from: u8, told: &[Told]) {
        let own = told.iter().filter(|told| told.life == self.life).map(|told| told.numbers).max();
        for told in told {
            let greatest = if told.life == self.life { &mut self.within } else { &mut self.before };
            *greatest = Numbers { count: greatest.count.max(told.numbers.count), next: greatest.next.max(told.numbers.next) };
        }
        if let Some(listener) = self.listeners.get_mut(usize::from(from)) {
            (listener.has_answered, listener.has) = (true, own.unwrap_or_default());
            if listener.has == self.now {
                listener.tries = 0;
            }
        }
    }

    pub fn has_answered(&self, node: u8) -> bool {
        self.listeners.get(usize::from(node)).map_or(false, |listener| listener.has_answered)
    }

    /// What is to be told another agent now. A new count is told at once.
    pub fn news_for(&mut self, node: u8, now: Instant) -> Option<Numbers> {
        let (numbers, listener) = (self.first.and(Some(self.now))?, self.listeners.get_mut(usize::from(node))?);
        let pause = PAUSE * 2u32.pow(listener.tries.min(MOST_DOUBLINGS));
        let is_new = |(at, told): (Instant, Numbers)| told.count != numbers.count || now.saturating_duration_since(at) >= pause;
        if listener.has == numbers || !listener.told.map_or(true, is_new) {
            return None;
        }
        listener.tries = if listener.told.map_or(false, |(_, told)| told == numbers) { listener.tries + 1 } else { 0 };
        listener.told = Some((now, numbers));
        Some(numbers)
    }

    /// The greatest numbers that were told of the node, where its file holds lesser ones than it had then. What was told in another life was in the file
    /// before this recovery, which makes a greater count; what was told in this one is at most what the node has now.
    pub fn given_before(&self) -> Option<Numbers> {
        let first = self.first?;
        let is_older = self.before.count >= first.count || self.before.next > first.next;
        let has_fallen = self.within.count > self.now.count || self.within.next > self.now.next;
        let (one, other) = (self.before, self.within);
        (is_older || has_fallen).then(|| Numbers { count: one.count.max(other.count), next: one.next.max(other.next) })
    }
}

#[cfg(test)]
mod tests {
    use super::*;

    fn told(life: u64, count: u64, next: u64) -> Told {
        Told { life, numbers: Numbers { count, next } }
    }

    /// The own numbers in life 9, of a file with this count and next id before the recovery, where these were told.
    fn given_before(count: u64, next: u64, all: &[Told]) -> Option<Numbers> {
        let mut own = OwnNumbers::new(9, 2);
        own.answered(1, all);
        assert_eq!(own.given_before(), None, "nothing is mounted yet");
        own.mounted(Numbers { count: count + 1, next });
        own.given_before()
    }

    #[test]
    fn a_file_that_holds_what_was_told_before_is_no_copy() {
        for all in [vec![], vec![told(1, 7, 3)], vec![told(1, 7, 0), told(2, 5, 3)], vec![told(9, 8, 3)], vec![told(9, 8, 3), told(1, 7, 3)]] {
            assert_eq!(given_before(7, 3, &all), None, "{all:?}");
        }
    }

    #[test]
    fn a_file_that_holds_less_is_one() {
        for all in [vec![told(1, 8, 3)], vec![told(1, 7, 4)], vec![told(9, 9, 3)], vec![told(9, 8, 4)], vec![told(9, 8, 3), told(1, 8, 0)]] {
            assert!(given_before(7, 3, &all).is_some(), "{all:?}");
        }
        assert_eq!(given_before(7, 3, &[told(1, 20, 0), told(2, 6, 30)]), Some(Numbers { count: 20, next: 30 }));
    }

    #[test]
    fn the_greatest_of_one_life_and_of_all_others_are_kept_in_any_order() {
        let all = [told(1, 5, 0), told(2, 9, 4), told(3, 7, 2), told(2, 6, 1), told(1, 6, 0)];
        for turn in 0..all.len() {
            let mut ledger = Ledger::new(2);
            (0..all.len()).for_each(|at| ledger.note(1, all[(at + turn) % all.len()]));
            assert_eq!((ledger.of(1), ledger.of(0)), (vec![told(2, 9, 4), told(3, 7, 2)], vec![]));
            ledger.note(2, all[0]);
            assert_eq!(ledger.of(2), [], "no node has this number");
        }
    }

    #[test]
    fn another_agent_is_told_until_it_has_the_numbers_and_a_count_at_once() {
        let (begin, mut own) = (Instant::now(), OwnNumbers::new(9, 3));
        let at = |ms: u64| begin + Duration::from_millis(ms);
        assert_eq!(own.news_for(1, begin), None, "nothing is mounted yet");
        own.mounted(Numbers { count: 8, next: 3 });
        let times: Vec<u64> = (0..8000).filter(|ms| own.news_for(1, at(*ms)).is_some()).collect();
        assert_eq!(times, [0, 1000, 3000, 7000]);
        own.answered(1, &[told(9, 8, 3)]);
        assert_eq!((own.news_for(1, at(90_000)), own.has_answered(1), own.has_answered(2)), (None, true, false));
        own.kept_job(3);
        assert_eq!(own.news_for(1, at(90_001)), Some(Numbers { count: 8, next: 4 }));
        own.kept_job(7);
        let times: Vec<u64> = (90_002..92_000).filter(|ms| own.news_for(1, at(*ms)).is_some()).collect();
        assert_eq!(times, [91_001]);
        own.made_group(11);
        assert_eq!(own.news_for(1, at(92_000)), Some(Numbers { count: 11, next: 8 }));
        own.answered(1, &[]);
        assert!(own.news_for(1, at(93_000)).is_some(), "an agent that began anew has nothing");
        assert_eq!(own.news_for(3, at(93_000)), None, "no node has this number");
    }
}
