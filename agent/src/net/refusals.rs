//! Peers whose machines answer that nobody has their port: their agents were killed. Such an answer of the network has no seal, and whoever knows the addresses
//! can make one up. So it is believed of nobody: by it a peer is asked for an answer, and given up where the questions are refused and nothing comes of it.

use std::time::{Duration, Instant};

/// An answer is waited for so many round trips, and so long at least, and is asked for twice in that time.
const ROUND_TRIPS: u32 = 5;
const LEAST: Duration = Duration::from_millis(100);

/// So many refusals are needed, with that by which it began; where they don't come a peer is asked for so many times as long.
const ENOUGH: u32 = 3;
const LONGEST: u32 = 10;

/// A peer that answered isn't asked by a refusal for so long.
const PAUSE: Duration = Duration::from_millis(500);

/// What is known of a peer by refusals.
#[derive(Clone, Copy)]
enum Known {
    /// Nothing, since it was never heard, or was given up.
    Gone,
    /// It was heard. Refusals say something from then on.
    There(Instant),
    /// It is asked, since when, when last, and how often that was refused.
    Asked { begin: Instant, last: Instant, count: u32 },
}

/// What is to be done by refusals.
#[derive(Clone, Copy, Debug, PartialEq, Eq)]
pub enum Step {
    Ask(u8),
    GiveUp(u8),
}

pub struct Refusals {
    patience: Duration,
    known: Vec<Known>,
    /// When each of them was asked last though nothing was refused.
    greeted: Vec<Option<Instant>>,
}

impl Refusals {
    pub fn new(nodes: usize, round_trip: Duration) -> Refusals {
        Refusals { patience: (round_trip * ROUND_TRIPS).max(LEAST), known: vec![Known::Gone; nodes], greeted: vec![None; nodes] }
    }

    /// Something came of a peer, from itself or through another one.
    pub fn heard(&mut self, node: u8, now: Instant) {
        if let Some(known) = self.known.get_mut(usize::from(node)) {
            *known = match *known {
                Known::Gone => Known::There(now),
                Known::There(from) => Known::There(from),
                Known::Asked { .. } => Known::There(now + PAUSE),
            };
        }
    }

    /// A peer said that it ends, or its place has another machine or none: what is refused there says nothing.
    pub fn leave(&mut self, node: u8) {
        if let Some(known) = self.known.get_mut(usize::from(node)) {
            *known = Known::Gone;
        }
    }

    /// What was sent to a peer was refused. Whether it is to be asked now.
    pub fn refused(&mut self, node: u8, now: Instant) -> bool {
        let known = match self.known.get_mut(usize::from(node)) {
            Some(known) => known,
            None => return false,
        };
        match *known {
            Known::Asked { begin, last, count } => *known = Known::Asked { begin, last, count: count.saturating_add(1) },
            Known::There(from) if now >= from => {
                *known = Known::Asked { begin: now, last: now, count: 1 };
                return true;
            }
            _ => {}
        }
        false
    }

    /// A peer is asked, so that it is refused where its port is nobody's.
    pub fn greets(&mut self, node: u8, now: Instant) {
        if let Some(greeted) = self.greeted.get_mut(usize::from(node)) {
            *greeted = Some(now);
        }
    }

    pub fn greeted(&self, node: u8) -> Option<Instant> {
        self.greeted.get(usize::from(node)).copied().flatten()
    }

    /// When there is something to be done by them.
    pub fn sleep(&self, now: Instant) -> Duration {
        let due = |known: &Known| match known {
            Known::Asked { last, .. } => Some((*last + self.patience / 2).saturating_duration_since(now)),
            _ => None,
        };
        self.known.iter().filter_map(due).min().unwrap_or(Duration::MAX)
    }

    /// What is to be done now.
    pub fn steps(&mut self, now: Instant) -> Vec<Step> {
        let patience = self.patience;
        let step = |(node, known): (u8, &mut Known)| match *known {
            Known::Asked { begin, count, .. } if now >= begin + patience && count >= ENOUGH => {
                *known = Known::Gone;
                Some(Step::GiveUp(node))
            }
            Known::Asked { begin, .. } if now >= begin + patience * LONGEST => {
                *known = Known::There(now);
                None
            }
            Known::Asked { begin, last, count } if now >= last + patience / 2 => {
                *known = Known::Asked { begin, last: now, count };
                Some(Step::Ask(node))
            }
            _ => None,
        };
        (0..).zip(&mut self.known).filter_map(step).collect()
    }
}

#[cfg(test)]
mod tests {
    use super::*;
    use crate::chance::{Chance, TURNS};

    const ROUND_TRIP: Duration = Duration::from_millis(20);

    fn ms(ms: u64) -> Duration {
        Duration::from_millis(ms)
    }

    fn heard(now: Instant) -> Refusals {
        let mut refusals = Refusals::new(4, ROUND_TRIP);
        refusals.heard(1, now);
        refusals
    }

    #[test]
    fn who_is_refused_and_silent_is_asked_and_given_up_once() {
        let now = Instant::now();
        let mut refusals = heard(now);
        assert!(refusals.refused(1, now) && !refusals.refused(1, now + ms(1)));
        assert_eq!((refusals.steps(now + ms(49)), refusals.sleep(now + ms(49))), (vec![], ms(1)));
        assert_eq!(refusals.steps(now + ms(50)), [Step::Ask(1)]);
        assert!(!refusals.refused(1, now + ms(51)));
        assert_eq!((refusals.steps(now + ms(99)), refusals.sleep(now + ms(99))), (vec![], ms(1)));
        assert_eq!(refusals.steps(now + ms(100)), [Step::GiveUp(1)]);
        assert!(!refusals.refused(1, now + ms(101)) && refusals.steps(now + ms(900)).is_empty(), "once");
        assert_eq!(refusals.sleep(now + ms(900)), Duration::MAX);
        refusals.heard(1, now + ms(1000));
        assert!(refusals.refused(1, now + ms(1000)), "it came again");
    }

    #[test]
    fn who_answers_is_not_given_up_however_much_is_refused() {
        let (now, mut chance) = (Instant::now(), Chance::of(1));
        let mut refusals = heard(now);
        let mut asked = 0;
        // somebody makes refusals up all the time, and each question is answered in a round trip
        let mut answer = None;
        for at in 0..TURNS {
            let now = now + ms(at);
            for _ in 0..chance.below(3) {
                if refusals.refused(1, now) {
                    answer = Some(at + 20);
                }
            }
            if answer.map_or(false, |due| due <= at) {
                answer = None;
                asked += 1;
                refusals.heard(1, now);
            }
            for step in refusals.steps(now) {
                assert_eq!(step, Step::Ask(1));
            }
        }
        assert!(asked > 0 && asked <= TURNS / 500 + 1, "{asked}");
    }

    #[test]
    fn one_refusal_gives_nobody_up_nor_do_any_of_one_that_was_never_heard() {
        let now = Instant::now();
        let mut refusals = heard(now);
        assert!(refusals.refused(1, now));
        let steps: Vec<Step> = (1..3000).flat_map(|at| refusals.steps(now + ms(at))).collect();
        assert_eq!(steps, [Step::Ask(1); 19], "it is asked for a second");
        assert!((0..100).all(|at| !refusals.refused(2, now + ms(at)) && !refusals.refused(200, now)) && refusals.steps(now + ms(4000)).is_empty());
        refusals.heard(3, now);
        refusals.leave(3);
        assert!(!refusals.refused(3, now), "it said that it ends");
    }

    #[test]
    fn slow_networks_are_waited_for() {
        let now = Instant::now();
        let mut refusals = Refusals::new(2, Duration::from_millis(200));
        refusals.heard(1, now);
        assert!(refusals.refused(1, now));
        assert!((1..9).all(|at| !refusals.refused(1, now + ms(at))));
        assert_eq!([499, 500, 999, 1000].map(|at| refusals.steps(now + ms(at)).first().copied()), [None, Some(Step::Ask(1)), None, Some(Step::GiveUp(1))]);
    }
}
