//! The changes that watchers are told, numbered without a gap. Each life of the agent begins at a number of its own: a change of an earlier one is known to
//! be none of this one.

use crate::protocol::Reply;
use std::collections::VecDeque;
use std::time::{Duration, Instant};

/// So many changes are kept for a watcher that comes back, and of so many bytes together: it is told them at once.
const MAX_KEPT: usize = 1024;
const MAX_BYTES: usize = 128 * 1024;

/// Numbers have 48 bits, so that each language has them whole.
const SPARE_BITS: u32 = 16;

#[derive(Default)]
pub struct Changes {
    /// The number at which this life of the agent began.
    first: u64,
    /// The number of the last change.
    last: u64,
    kept: VecDeque<Vec<u8>>,
    bytes: usize,
}

impl Changes {
    /// In a life of this name.
    pub fn new(life: u64) -> Changes {
        let first = life >> SPARE_BITS;
        Changes { first, last: first, ..Changes::default() }
    }

    /// The name of the agent's life: each start has another one.
    pub fn life(&self) -> String {
        format!("{:012x}", self.first)
    }

    pub fn last(&self) -> u64 {
        self.last
    }

    /// Numbers a change; its line.
    pub fn put(&mut self, event: Reply) -> Vec<u8> {
        self.last += 1;
        let line = event.with("change", self.last).line();
        self.bytes += line.len();
        self.kept.push_back(line.clone());
        while self.kept.len() > MAX_KEPT || self.bytes > MAX_BYTES {
            self.bytes -= self.kept.pop_front().map_or(self.bytes, |oldest| oldest.len());
        }
        line
    }

    /// The lines of all changes behind this one; None where some of them aren't kept any more, or it is none of this agent's life.
    pub fn behind(&self, since: u64) -> Option<impl Iterator<Item = &Vec<u8>>> {
        let missing = usize::try_from(self.last.checked_sub(since)?).ok()?;
        let first = self.kept.len().checked_sub(missing)?;
        Some(self.kept.iter().skip(first))
    }
}

/// The beats of a watcher, by which it knows that the agent lives where nothing changes.
pub struct Beats {
    every: Duration,
    next: Instant,
}

impl Beats {
    /// Of one that was told the state now.
    pub fn new(every: Duration, now: Instant) -> Beats {
        Beats { every, next: now + every }
    }

    pub fn next(&self) -> Instant {
        self.next
    }

    /// Whether one is due; then the next one is, so much later.
    pub fn take(&mut self, now: Instant) -> bool {
        let is_due = self.next <= now;
        if is_due {
            self.next = now + self.every;
        }
        is_due
    }
}

#[cfg(test)]
mod tests {
    use super::*;

    #[test]
    fn a_beat_is_due_once_in_each_interval() {
        let (now, every) = (Instant::now(), Duration::from_millis(200));
        let mut beats = Beats::new(every, now);
        let taken: Vec<u32> = (0..=10).filter(|tenth| beats.take(now + *tenth * every / 2)).collect();
        assert_eq!(taken, [2, 4, 6, 8, 10]);
        assert_eq!(beats.next(), now + every * 6);
        let late = now + every * 20;
        assert!(beats.take(late) && !beats.take(late), "those that were missed aren't made up for");
    }

    #[test]
    fn none_is_missed() {
        let mut changes = Changes::default();
        for _ in 0..MAX_KEPT + 2 {
            changes.put(Reply::event("group"));
        }
        let last = changes.last();
        assert_eq!(changes.behind(last).unwrap().count(), 0);
        let lines: Vec<_> = changes.behind(last - 2).unwrap().collect();
        assert!(String::from_utf8_lossy(lines[0]).contains(&format!("\"change\":{}", last - 1)));
        assert_eq!(changes.behind(last - MAX_KEPT as u64).unwrap().count(), MAX_KEPT);
        assert!(changes.behind(last - MAX_KEPT as u64 - 1).is_none());
        assert!(changes.behind(last + 1).is_none());
    }

    #[test]
    fn those_of_another_life_are_none_of_this_one() {
        let lives = [u64::MAX, 1 << 40, 0].map(|life| {
            let mut changes = Changes::new(life);
            (0..9).for_each(|_| drop(changes.put(Reply::event("group"))));
            changes
        });
        for (at, changes) in lives.iter().enumerate() {
            let known: Vec<bool> = lives.iter().map(|life| changes.behind(life.last() - 1).is_some()).collect();
            assert_eq!(known, [0, 1, 2].map(|other| other == at));
            assert!(changes.last() < 1 << 53);
        }
        assert_eq!([0, 1, 2].map(|at: usize| lives[at].life()), ["ffffffffffff", "000001000000", "000000000000"]);
    }

    #[test]
    fn long_ones_are_fewer() {
        let mut changes = Changes::default();
        let put = |changes: &mut Changes| changes.put(Reply::event("take").with("payload", "f".repeat(800))).len();
        let length = (0..MAX_KEPT).map(|_| put(&mut changes)).max().unwrap_or(0);
        let all = changes.behind(changes.last() - (MAX_BYTES / length) as u64).unwrap().map(Vec::len).sum::<usize>();
        assert!(all <= MAX_BYTES && all > MAX_BYTES - 2 * length, "{all}");
        assert!(changes.behind(0).is_none());
    }
}
