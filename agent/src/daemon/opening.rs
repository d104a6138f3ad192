//! Before the node is asked anything the other agents are asked what it gave before. Until they answered, or their time is over, nothing is taken that would
//! have to be acknowledged.

use super::core::{Core, Ports};
use super::Asker;
use std::time::{Duration, Instant};

/// They are waited for for so many round trips, and asked again each round trip.
const PATIENCE: u32 = 5;
const LEAST_PATIENCE: Duration = Duration::from_millis(100);
const MOST_PATIENCE: Duration = Duration::from_secs(1);

pub(super) struct Opening {
    until: Instant,
    /// When those that didn't answer are asked again.
    next: Instant,
    pause: Duration,
}

impl Opening {
    pub(super) fn new(round_trip: Duration, now: Instant) -> Opening {
        let patience = (round_trip * PATIENCE).clamp(LEAST_PATIENCE, MOST_PATIENCE);
        Opening { until: now + patience, next: now, pause: patience / PATIENCE }
    }

    pub(super) fn sleep(&self, now: Instant) -> Duration {
        self.next.min(self.until).saturating_duration_since(now)
    }
}

impl<P: Ports> Core<P> {
    /// Goes on with the opening, and asks the node to begin where that is over.
    pub(super) fn open(&mut self, now: Instant) {
        let (until, is_due) = match &mut self.opening {
            Some(opening) => {
                let is_due = opening.next <= now;
                if is_due {
                    opening.next = now + opening.pause;
                }
                (opening.until, is_due)
            }
            None => return,
        };
        self.receive(now);
        self.look_up(now);
        let silent: Vec<u8> = self.peers.others().filter(|node| !self.numbers.has_answered(*node)).collect();
        if silent.is_empty() || now >= until {
            self.opening = None;
            return self.ask(Asker::Start, "recover".to_string());
        }
        // one whose name wasn't found yet is asked once it is
        for node in silent.into_iter().filter(|_| is_due) {
            if self.peers.address(node).is_some() {
                self.say_hello(node, None, now);
            }
        }
    }
}

#[cfg(test)]
mod tests {
    use super::*;

    #[test]
    fn others_are_waited_for_for_some_round_trips() {
        let now = Instant::now();
        for (round_trip, patience) in [(1, 100), (20, 100), (100, 500), (60_000, 1000)] {
            let opening = Opening::new(Duration::from_millis(round_trip), now);
            assert_eq!((opening.until - now, opening.sleep(now)), (Duration::from_millis(patience), Duration::ZERO));
            assert_eq!(opening.pause * PATIENCE, opening.until - now);
        }
    }
}
