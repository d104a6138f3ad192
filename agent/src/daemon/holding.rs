//! A check asks all nodes, and those that are near answer at almost the same time: what they say is written to the node at once, so that it wakes once.

use std::collections::BTreeSet;
use std::time::{Duration, Instant};

/// What answers a check waits for so long for what else does; not at all where a round trip is shorter than so many times as long.
const LONGEST: Duration = Duration::from_millis(1);
const LEAST_ROUND_TRIP: u32 = 20;

pub(super) struct Holding {
    longest: Duration,
    /// What is to come, by its sender and its kind.
    awaited: BTreeSet<(u8, &'static str)>,
    until: Option<Instant>,
}

impl Holding {
    pub(super) fn new(round_trip: Duration) -> Holding {
        let longest = if round_trip >= LONGEST * LEAST_ROUND_TRIP { LONGEST } else { Duration::ZERO };
        Holding { longest, awaited: BTreeSet::new(), until: None }
    }

    /// A check asks a node, which answers. A member of the own group asks back with that.
    pub(super) fn asked(&mut self, node: u8, is_member: bool) {
        self.awaited.insert((node, "Coordinator"));
        if is_member {
            self.awaited.insert((node, "AreYouThere"));
        }
    }

    /// A message is to be written. Until what else is awaited has come it may wait, unless nobody awaits it.
    pub(super) fn came(&mut self, node: u8, kind: &'static str, now: Instant) {
        let waits = self.awaited.remove(&(node, kind)) && !self.awaited.is_empty();
        self.until = waits.then(|| self.until.unwrap_or(now + self.longest));
    }

    /// Something is to be written that doesn't wait, and all before it.
    pub(super) fn end(&mut self) {
        self.until = None;
    }

    /// Whether what is to be written waits yet.
    pub(super) fn holds(&self, now: Instant) -> bool {
        self.until.map_or(false, |until| now < until)
    }

    /// For how long it does; none where nothing is held.
    pub(super) fn left(&self, now: Instant) -> Option<Duration> {
        self.until.map(|until| until.saturating_duration_since(now))
    }
}

#[cfg(test)]
mod tests {
    use super::*;

    const QUARTER: Duration = Duration::from_micros(250);

    #[test]
    fn what_answers_a_check_waits_for_the_rest_and_a_millisecond_at_most() {
        let now = Instant::now();
        let mut holding = Holding::new(Duration::from_millis(20));
        for (node, is_member) in [(1, true), (2, true), (3, false)] {
            holding.asked(node, is_member);
        }
        holding.came(1, "Coordinator", now);
        holding.came(1, "AreYouThere", now + QUARTER);
        assert_eq!(holding.left(now + QUARTER), Some(LONGEST - QUARTER), "since the first of them");
        assert!(holding.holds(now + QUARTER) && !holding.holds(now + LONGEST));
        for (node, kind, is_so) in [(3, "Coordinator", true), (2, "AreYouThere", true), (2, "Coordinator", false)] {
            holding.end();
            holding.came(node, kind, now);
            assert_eq!(holding.holds(now), is_so, "{kind} of {node}");
        }
    }

    #[test]
    fn nothing_else_waits_nor_anything_where_a_round_trip_is_short() {
        let now = Instant::now();
        let mut holding = Holding::new(Duration::from_millis(20));
        holding.asked(1, false);
        holding.asked(2, false);
        for (kind, is_so) in [("AreYouThere", false), ("Coordinator", true), ("Invitation", false)] {
            holding.came(1, kind, now);
            assert_eq!(holding.holds(now), is_so, "{kind}: with what nobody awaits all leaves that came before");
        }
        let mut holding = Holding::new(Duration::from_millis(19));
        holding.asked(1, true);
        holding.came(1, "Coordinator", now);
        assert!(!holding.holds(now));
    }
}
