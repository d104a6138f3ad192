//! How often an answer of the node is looked for without a sleep.

use std::time::{Duration, Instant};

const WINDOW: Duration = Duration::from_millis(100);

/// So many looks in each window at most: where the node is busy all the time they take one part in a hundred of a processor.
const MOST: u32 = 4;

pub struct Looks {
    since: Instant,
    count: u32,
}

impl Looks {
    pub fn new(now: Instant) -> Looks {
        Looks { since: now, count: 0 }
    }

    /// Whether one more may be taken now.
    pub fn take(&mut self, now: Instant) -> bool {
        if now.saturating_duration_since(self.since) >= WINDOW {
            *self = Looks::new(now);
        }
        self.count = self.count.saturating_add(1);
        self.count <= MOST
    }
}

#[cfg(test)]
mod tests {
    use super::*;

    #[test]
    fn four_are_taken_in_a_tenth_of_a_second() {
        let now = Instant::now();
        let mut looks = Looks::new(now);
        let taken = |looks: &mut Looks, ms: u64| looks.take(now + Duration::from_millis(ms));
        assert_eq!((0..20).filter(|ms| taken(&mut looks, *ms)).count(), 4);
        assert!(!taken(&mut looks, 99));
        assert_eq!((100..120).filter(|ms| taken(&mut looks, *ms)).count(), 4);
    }
}
