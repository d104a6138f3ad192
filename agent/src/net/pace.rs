//! Messages that leave a few at a time, for the socket of another machine may hold few.

use super::Backlog;
use std::time::{Duration, Instant};

/// So many bytes leave in such a time: those of some turns fit into the least socket, where the agent there has no processor for as long.
const AT_A_TIME: usize = 16 * 1024;
const TURN: Duration = Duration::from_millis(5);

/// So many leave where something else waits behind them, and all of them once it has waited for so many round trips: a question is given up after 10.
const AT_A_TIME_IN_HASTE: usize = 3 * AT_A_TIME;
const PATIENCE: u32 = 4;

/// The bytes by which a Work names its group.
pub type GroupBytes = [u8; 9];

struct Waiting {
    to: u8,
    message: Vec<u8>,
    /// None where it is no Work.
    group: Option<GroupBytes>,
}

/// What comes of a message.
#[derive(Debug, PartialEq, Eq)]
pub enum Leaves {
    Now,
    Later,
    Never,
}

/// Work waits for its turn. All else leaves before it, or, where messages are sealed, behind the Work that was sealed earlier: a receiver takes none whose
/// stamp is below one that it took.
pub struct Pace {
    is_in_order: bool,
    patience: Duration,
    waiting: Backlog<Waiting>,
    /// Of each node the group of the Work that was said last.
    groups: Vec<Option<GroupBytes>>,
    /// How many wait that are no Work, and until when the first of them has patience.
    others: usize,
    until: Option<Instant>,
    began: Instant,
    /// Bytes that left in this turn.
    sent: usize,
}

impl Pace {
    pub fn new(nodes: usize, is_in_order: bool, round_trip: Duration, now: Instant) -> Pace {
        let (patience, groups) = (round_trip * PATIENCE, vec![None; nodes]);
        Pace { is_in_order, patience, waiting: Backlog::new(nodes), groups, others: 0, until: None, began: now, sent: 0 }
    }

    /// A message to a node; `group` is that of a Work. Whether it leaves now; and how many are dropped that waited: Work of a group that is over, or all of it
    /// where there is no room for something else.
    pub fn put(&mut self, to: u8, message: &[u8], group: Option<GroupBytes>, now: Instant) -> (Leaves, u64) {
        let peer = usize::from(to);
        let waits = group.is_some() || (self.is_in_order && !self.waiting.is_empty_of(peer));
        if !waits || peer >= self.groups.len() {
            return (Leaves::Now, 0);
        }
        let is_over = group.is_some() && self.groups[peer].is_some() && self.groups[peer] != group;
        self.groups[peer] = group.or(self.groups[peer]);
        let dropped = if is_over { self.waiting.retain(peer, |one| one.group.is_none()) } else { 0 };
        let one = Waiting { to, message: message.to_vec(), group };
        if self.waiting.put(peer, one, message.len()).is_none() {
            self.count_other(group, now);
            return (Leaves::Later, dropped);
        }
        match group {
            Some(_) if self.is_in_order => (Leaves::Never, dropped),
            Some(_) => (Leaves::Now, dropped),
            // what waits is below it then
            None => (Leaves::Now, dropped + self.waiting.retain(peer, |one| one.group.is_none())),
        }
    }

    fn count_other(&mut self, group: Option<GroupBytes>, now: Instant) {
        if group.is_none() {
            self.others += 1;
            if self.until.is_none() {
                self.until = Some(now + self.patience);
            }
        }
    }

    /// The next message that may leave now, and to whom.
    pub fn next(&mut self, now: Instant) -> Option<(u8, Vec<u8>)> {
        if now.saturating_duration_since(self.began) >= TURN {
            (self.began, self.sent) = (now, 0);
        }
        let most = match self.until {
            Some(until) if until <= now => usize::MAX,
            Some(_) => AT_A_TIME_IN_HASTE,
            None => AT_A_TIME,
        };
        let next = if self.sent < most { self.waiting.take()? } else { return None };
        self.sent += next.message.len();
        if next.group.is_none() {
            self.others -= 1;
            self.until = self.until.filter(|_| self.others > 0);
        }
        Some((next.to, next.message))
    }

    /// How long until one may leave.
    pub fn sleep(&self, now: Instant) -> Duration {
        if self.waiting.is_empty() {
            return Duration::MAX;
        }
        (self.began + TURN).saturating_duration_since(now)
    }
}

#[cfg(test)]
mod tests {
    use super::*;

    const ROUND_TRIP: Duration = Duration::from_millis(20);
    const GROUP: Option<GroupBytes> = Some([1; 9]);

    /// How many leave in each of some turns.
    fn counts(pace: &mut Pace, now: Instant, turns: u32) -> Vec<usize> {
        (0..turns).map(|turn| std::iter::from_fn(|| pace.next(now + TURN * turn)).count()).collect()
    }

    #[test]
    fn a_burst_leaves_over_some_turns_and_all_else_before_it() {
        let now = Instant::now();
        let mut pace = Pace::new(2, false, ROUND_TRIP, now);
        assert_eq!((pace.sleep(now), pace.next(now)), (Duration::MAX, None));
        (0..100).for_each(|_| assert_eq!(pace.put(1, &[0; 480], GROUP, now), (Leaves::Later, 0)));
        assert_eq!(pace.put(1, b"other", None, now), (Leaves::Now, 0));
        assert_eq!((counts(&mut pace, now, 3), pace.sleep(now + TURN * 2)), (vec![35, 35, 30], Duration::MAX));
        assert_eq!(pace.put(2, &[7], GROUP, now), (Leaves::Now, 0), "no node has this number");
    }

    #[test]
    fn under_a_key_all_leaves_in_its_order_and_sooner_where_something_else_waits() {
        let now = Instant::now();
        let mut pace = Pace::new(3, true, ROUND_TRIP, now);
        assert_eq!(pace.put(1, b"other", None, now), (Leaves::Now, 0), "nothing waits");
        for at in 0..300u16 {
            let group = if at == 200 { None } else { GROUP };
            let message = [&at.to_be_bytes()[..], &[0; 478]].concat();
            assert_eq!(pace.put(1, &message, group, now), (Leaves::Later, 0));
        }
        assert_eq!(pace.put(2, b"other", None, now), (Leaves::Now, 0), "to another node it is before nothing");
        let mut left: Vec<u8> = Vec::new();
        let counts: Vec<usize> = (0..5).map(|turn| {
            let one_turn: Vec<_> = std::iter::from_fn(|| pace.next(now + TURN * turn)).collect();
            left.extend(one_turn.iter().flat_map(|(_, message)| message[..2].to_vec()));
            one_turn.len()
        }).collect();
        assert_eq!(counts, [103, 98, 35, 35, 29]);
        assert_eq!(left, (0..300u16).flat_map(u16::to_be_bytes).collect::<Vec<u8>>());
    }

    #[test]
    fn what_waits_before_something_else_for_long_leaves_at_once() {
        let now = Instant::now();
        let mut pace = Pace::new(2, true, Duration::from_millis(1), now);
        (0..1000).for_each(|_| assert_eq!(pace.put(1, &[0; 480], GROUP, now).0, Leaves::Later));
        assert_eq!(pace.put(1, b"other", None, now), (Leaves::Later, 0));
        assert_eq!(counts(&mut pace, now, 3), [103, 898, 0]);
    }

    #[test]
    fn work_of_a_group_that_is_over_is_dropped() {
        for is_in_order in [false, true] {
            let now = Instant::now();
            let mut pace = Pace::new(2, is_in_order, ROUND_TRIP, now);
            (0..10).for_each(|_| assert_eq!(pace.put(1, &[1; 480], GROUP, now), (Leaves::Later, 0)));
            let other = pace.put(1, b"other", None, now).0;
            assert_eq!(pace.put(1, &[2; 480], Some([2; 9]), now), (Leaves::Later, 10));
            let left: Vec<usize> = std::iter::from_fn(|| pace.next(now)).map(|(_, message)| message.len()).collect();
            assert_eq!((other, left), if is_in_order { (Leaves::Later, vec![5, 480]) } else { (Leaves::Now, vec![480]) });
        }
    }

    #[test]
    fn without_room_nothing_overtakes_what_was_sealed_before() {
        let now = Instant::now();
        let mut pace = Pace::new(2, true, ROUND_TRIP, now);
        let kept = (0..).take_while(|_| pace.put(1, &[0; 1000], GROUP, now).0 == Leaves::Later).count() as u64;
        assert_eq!(pace.put(1, &[0; 1000], GROUP, now), (Leaves::Never, 0));
        assert_eq!(pace.put(1, &[0; 1000], None, now), (Leaves::Now, kept));
        assert_eq!(pace.next(now), None);
    }
}
