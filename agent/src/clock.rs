//! The node's clock: when it is told the time, and what time that is.

use std::time::{Duration, Instant};

/// It is told the time so often at least, and by that asked whether it lives.
const LONGEST_SLEEP: Duration = Duration::from_secs(1);

const SHORTEST_SLEEP: Duration = Duration::from_millis(1);

/// Tells a node the time: where it says when something is due, then and behind all else that it is asked; else twice a round trip.
pub struct Clock {
    began: Instant,
    round_trip_ms: u64,
    /// Whether the node says when something is due.
    says_next: bool,
    /// Whether it is being told the time: one tick is on the way at a time.
    is_ticking: bool,
    /// Whether it was asked something since it was told the time last.
    was_asked: bool,
    next: Instant,
}

impl Clock {
    pub fn new(round_trip_ms: u64, now: Instant) -> Clock {
        Clock { began: now, round_trip_ms, says_next: false, is_ticking: false, was_asked: false, next: now }
    }

    /// The node's time, in milliseconds.
    pub fn node_ms(&self, now: Instant) -> u64 {
        now.saturating_duration_since(self.began).as_millis() as u64
    }

    /// When the node's clock shows this time.
    fn at(&self, node_ms: u64) -> Instant {
        self.began.checked_add(Duration::from_millis(node_ms)).unwrap_or(self.began)
    }

    fn pause(&self) -> Duration {
        if self.says_next {
            LONGEST_SLEEP
        } else {
            Duration::from_micros((500 * self.round_trip_ms).max(1000)).min(LONGEST_SLEEP)
        }
    }

    /// The node is asked something else than the time.
    pub fn asked(&mut self) {
        self.was_asked = true;
    }

    /// Whether nothing is due at the node: it may be told the time in front of something, which is to be read before what is over is made of it.
    pub fn is_nothing_due(&self, now: Instant) -> bool {
        self.says_next && now < self.next
    }

    /// The time that the node is to be told now, if any.
    pub fn tick(&mut self, now: Instant) -> Option<u64> {
        let is_due = now >= self.next || (self.says_next && self.was_asked);
        if self.is_ticking || !is_due {
            return None;
        }
        (self.is_ticking, self.was_asked) = (true, false);
        self.next = now + self.pause();
        Some(self.node_ms(now))
    }

    /// The tick was answered; `due` is when the node says that something is due.
    pub fn ticked(&mut self, due: Option<u64>, now: Instant) {
        self.is_ticking = false;
        self.says_next |= due.is_some();
        let due = due.map_or(self.next, |due| self.at(due).max(now + SHORTEST_SLEEP));
        self.next = due.min(now + self.pause());
    }

    /// How long nothing is to be told, unless something comes. While a tick is on the way its answer is waited for.
    pub fn sleep(&self, now: Instant) -> Duration {
        if self.is_ticking {
            LONGEST_SLEEP
        } else if self.says_next && self.was_asked {
            Duration::ZERO
        } else {
            self.next.saturating_duration_since(now)
        }
    }
}

#[cfg(test)]
mod tests {
    use super::*;

    fn after(now: Instant, ms: u64) -> Instant {
        now + Duration::from_millis(ms)
    }

    #[test]
    fn without_next_it_ticks_twice_a_round_trip() {
        let now = Instant::now();
        let mut clock = Clock::new(20, now);
        assert_eq!(clock.tick(now), Some(0));
        assert_eq!(clock.tick(after(now, 50)), None, "one tick is on the way at a time");
        clock.ticked(None, after(now, 2));
        assert_eq!(clock.tick(after(now, 9)), None);
        assert_eq!(clock.tick(after(now, 10)), Some(10));
    }

    #[test]
    fn it_tells_true_milliseconds_whatever_the_link() {
        let now = Instant::now();
        let mut clock = Clock::new(5, now);
        assert_eq!(clock.tick(after(now, 100)), Some(100));
        clock.ticked(Some(120), after(now, 100));
        assert_eq!(clock.tick(after(now, 119)), None);
        assert_eq!(clock.tick(after(now, 121)), Some(121));
    }

    #[test]
    fn with_next_it_sleeps_until_then_and_ticks_behind_all_else() {
        let now = Instant::now();
        let mut clock = Clock::new(20, now);
        clock.tick(now);
        assert!(!clock.is_nothing_due(now), "no node said yet when something is due");
        clock.ticked(Some(700), now);
        assert!(clock.is_nothing_due(after(now, 699)) && !clock.is_nothing_due(after(now, 700)), "700");
        assert_eq!(clock.tick(after(now, 500)), None);
        clock.asked();
        assert_eq!(clock.sleep(after(now, 500)), Duration::ZERO);
        assert_eq!(clock.tick(after(now, 500)), Some(500));
        clock.ticked(Some(90_000), after(now, 500));
        assert_eq!(clock.sleep(after(now, 500)), LONGEST_SLEEP);
        clock.tick(after(now, 1500));
        clock.ticked(None, after(now, 1500));
        assert_eq!(clock.sleep(after(now, 1500)), LONGEST_SLEEP, "nothing is due");
    }
}
