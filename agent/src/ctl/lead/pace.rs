//! How many leases are waited for at a time. The messages of many keep each other waiting, and an answer that comes late is none: so where none is had, fewer
//! are asked for, and others.

use crate::boot_time::BootTime;
use std::collections::BTreeSet;
use std::time::Duration;

const MOST: usize = 8;

pub struct Pace {
    most: usize,
    since: BootTime,
    /// The last that was asked for.
    last: String,
}

impl Pace {
    pub fn new(now: BootTime) -> Pace {
        Pace { most: MOST, since: now, last: String::new() }
    }

    /// One that was waited for is had.
    pub fn had(&mut self, now: BootTime) {
        (self.most, self.since) = ((self.most + 1).min(MOST), now);
    }

    /// Whether those that are waited for are to make room for others, of which so many aren't asked for yet: where none was had for as long as a grant is kept.
    /// Those of a machine that is gone aren't to be had before that is over, and then all at once.
    pub fn is_late(&mut self, waits: usize, others: usize, kept: Duration, now: BootTime) -> bool {
        if waits == 0 || others == 0 {
            self.since = now;
        }
        let is_late = now.since(self.since) >= kept;
        if is_late {
            (self.most, self.since) = ((self.most / 2).max(1), now);
        }
        is_late
    }

    /// Those of some names that are to be asked for now, while so many are waited for: from the one behind the last on.
    pub fn next(&mut self, names: &BTreeSet<String>, waits: usize) -> Vec<String> {
        let behind = names.iter().filter(|name| **name > self.last);
        let before = names.iter().filter(|name| **name <= self.last);
        let next: Vec<String> = behind.chain(before).take(self.most.saturating_sub(waits)).cloned().collect();
        self.last = next.last().cloned().unwrap_or_else(|| std::mem::take(&mut self.last));
        next
    }
}

#[cfg(test)]
mod tests {
    use super::*;

    #[test]
    fn fewer_are_asked_for_where_none_is_had_and_others() {
        let (at, kept, names) = (BootTime::of_ms, Duration::from_secs(2), (10..30).map(|number| number.to_string()).collect::<BTreeSet<_>>());
        let mut pace = Pace::new(at(0));
        let asked = |pace: &mut Pace, waits| pace.next(&names, waits).iter().map(|name| name.parse().unwrap()).collect::<Vec<u32>>();
        assert_eq!(asked(&mut pace, 0), (10..18).collect::<Vec<_>>());
        assert!(asked(&mut pace, 8).is_empty() && !pace.is_late(8, 12, kept, at(1999)));
        assert!(pace.is_late(8, 12, kept, at(2000)) && !pace.is_late(8, 12, kept, at(3999)));
        assert_eq!(asked(&mut pace, 0), [18, 19, 20, 21], "half as many, and others");
        assert!(pace.is_late(4, 16, kept, at(4000)) && pace.is_late(2, 18, kept, at(6000)) && pace.is_late(1, 19, kept, at(8000)));
        assert_eq!(asked(&mut pace, 0), [22], "one at least");
        pace.had(at(8100));
        assert_eq!(asked(&mut pace, 0), [23, 24], "and one more for each that is had");
        assert!(!pace.is_late(2, 0, kept, at(19_000)), "where there are no others those that are waited for stay");
        (0..20).for_each(|_| pace.had(at(19_000)));
        assert_eq!(asked(&mut pace, 0), [25, 26, 27, 28, 29, 10, 11, 12]);
    }
}
