//! The jobs in the node's hand: which client works on each, how often each was given, and which wait.

use super::attempts::{Attempts, Memory};
use super::parted::{Parted, PartedJobs};
use super::ClientId;
use crate::node::{Job, JobKey};
use crate::protocol::{Tag, Wanted};
use serde::Serialize;
use std::collections::{BTreeMap, BTreeSet};
use std::time::{Duration, Instant};

/// A job whose client ended without finishing it is given behind all others for so long, and each time for twice as long.
const FIRST_REST: Duration = Duration::from_millis(500);
const LONGEST_REST: Duration = Duration::from_secs(30);

/// A job as a client is told of it.
#[derive(Clone, Debug, PartialEq, Eq, Serialize)]
pub struct Given {
    pub origin: u8,
    pub id: u64,
    pub queue: u8,
    pub priority: u8,
    pub payload: String,
}

impl Given {
    pub fn of(job: &Job) -> Given {
        let JobKey { origin, id } = job.key;
        Given { origin, id, queue: job.queue, priority: job.priority, payload: job.payload.hex().to_string() }
    }
}

/// A job that a client takes, and how often this agent gave it, this time included.
#[derive(Clone, Debug, PartialEq, Eq, Serialize)]
pub struct Taken {
    #[serde(flatten)]
    pub job: Given,
    pub attempt: u32,
}

#[derive(Clone, Copy, Debug, PartialEq, Eq)]
enum State {
    /// Nobody works on it, since then. As long as it rests it is given where there is no other one alone.
    Free {
        since: Instant,
        rests_until: Instant,
    },
    /// Nobody is given it before this time.
    Delayed {
        until: Instant,
    },
    /// Nobody is given it until somebody kicks it.
    Aside,
    Held(ClientId),
}

struct InHand {
    job: Job,
    state: State,
}

impl InHand {
    fn holder(&self) -> Option<ClientId> {
        match self.state {
            State::Held(client) => Some(client),
            _ => None,
        }
    }
}

/// How a client gives a job back.
#[derive(Clone, Copy, Debug, PartialEq, Eq)]
pub enum Back {
    After(Duration),
    Aside,
}

#[derive(Default)]
pub struct Hand {
    jobs: BTreeMap<JobKey, InHand>,
    /// Those that wait for their time, by it.
    delayed: BTreeSet<(Instant, JobKey)>,
    attempts: Attempts,
    parted: PartedJobs,
}

impl Hand {
    /// A job came in hand: of whoever works on it still, else of anybody from then on. Who said meanwhile that it is done, and by which request.
    pub fn take(&mut self, job: Job, from: Instant, now: Instant) -> Option<(ClientId, Tag)> {
        let parted = self.parted.take_back(job.key);
        let state = match &parted {
            _ if self.attempts.of(job.key).is_aside => State::Aside,
            Some(parted) => State::Held(parted.client),
            None if from > now => State::Delayed { until: from },
            None => State::Free { since: now, rests_until: now },
        };
        if let State::Delayed { until } = state {
            self.delayed.insert((until, job.key));
        }
        self.jobs.insert(job.key, InHand { job, state });
        parted.and_then(|parted| Some((parted.client, parted.finish?)))
    }

    /// For how long a job has had nobody who works on it, at most. Those that wait for their time or are put aside don't count.
    pub fn unheld(&self, now: Instant) -> Duration {
        let free = |in_hand: &InHand| match in_hand.state {
            State::Free { since, .. } => Some(since),
            _ => None,
        };
        self.jobs.values().filter_map(free).min().map_or(Duration::ZERO, |since| now.saturating_duration_since(since))
    }

    /// A job went to another node, or comes back before then: so long its client, if any, may work on.
    pub fn part(&mut self, key: JobKey, until: Instant) {
        let queue = self.jobs.get(&key).map(|in_hand| in_hand.job.queue);
        if let (Some(queue), Some(client)) = (queue, self.remove(key)) {
            self.parted.put(key, queue, client, until);
        }
    }

    /// The jobs that left and don't come back, with the clients that work on them: this node has their queue no more, or the time is over.
    pub fn take_parted(&mut self, may_come: impl Fn(u8) -> bool, now: Instant) -> Vec<(JobKey, Parted)> {
        self.parted.take_over(may_come, now)
    }

    /// A client ends its work on a job that left: whether that waits until the job is back. Where it isn't done the job is anybody's who is given it.
    pub fn end_parted(&mut self, key: JobKey, client: ClientId, done: Option<&Tag>) -> bool {
        match done {
            Some(tag) => self.parted.finish(key, client, tag),
            None => {
                self.parted.leave(key, client);
                false
            }
        }
    }

    fn remove(&mut self, key: JobKey) -> Option<ClientId> {
        let in_hand = self.jobs.remove(&key)?;
        if let State::Delayed { until } = in_hand.state {
            self.delayed.remove(&(until, key));
        }
        in_hand.holder()
    }

    /// A job is done; the client that works on it, if any.
    pub fn finish(&mut self, key: JobKey) -> Option<ClientId> {
        self.attempts.forget(key);
        self.remove(key)
    }

    /// The client that works on a job, where it is another one than this.
    pub fn other_holder(&self, key: JobKey, client: ClientId) -> Option<ClientId> {
        self.jobs.get(&key).and_then(InHand::holder).filter(|holder| *holder != client)
    }

    pub fn count(&self) -> usize {
        self.jobs.len()
    }

    pub fn count_aside(&self) -> usize {
        self.jobs.values().filter(|in_hand| in_hand.state == State::Aside).count()
    }

    /// The clients that work on a job.
    pub fn holders(&self) -> BTreeSet<ClientId> {
        self.jobs.values().filter_map(InHand::holder).chain(self.parted.clients()).collect()
    }

    pub fn count_held(&self) -> usize {
        self.jobs.values().filter(|in_hand| in_hand.holder().is_some()).count()
    }

    /// How often a job that is in hand was given, and whether it is put aside.
    pub fn attempts(&self, key: JobKey) -> Memory {
        self.attempts.of(key)
    }

    /// Gives a client the next job that nobody works on: those that rest last, the greatest priority first, then the least id.
    pub fn give(&mut self, client: ClientId, wanted: Wanted, now: Instant) -> Option<Taken> {
        let order = |in_hand: &InHand| {
            let is_resting = match in_hand.state {
                State::Free { rests_until, .. } => rests_until > now,
                State::Delayed { until } if until <= now => false,
                _ => return None,
            };
            let Job { key, priority, .. } = &in_hand.job;
            wanted.has(in_hand.job.queue).then_some((is_resting, u8::MAX - priority, key.id, key.origin))
        };
        let next =
            self.jobs.values().filter_map(|in_hand| order(in_hand).map(|order| (order, in_hand.job.key))).min()?;
        self.hold(next.1, client)
    }

    fn hold(&mut self, key: JobKey, client: ClientId) -> Option<Taken> {
        let in_hand = self.jobs.get_mut(&key)?;
        if let State::Delayed { until } = in_hand.state {
            self.delayed.remove(&(until, key));
        }
        in_hand.state = State::Held(client);
        Some(Taken { job: Given::of(&in_hand.job), attempt: self.attempts.given(key) })
    }

    /// Gives a client this job, which came now, where anybody may have it.
    pub fn give_this(&mut self, key: JobKey, client: ClientId) -> Option<Taken> {
        self.jobs.get(&key).filter(|in_hand| matches!(in_hand.state, State::Free { .. }))?;
        self.hold(key, client)
    }

    /// A client ended: what it worked on may be given to another. Whether there was any.
    pub fn give_up(&mut self, client: ClientId, now: Instant) -> bool {
        self.parted.give_up(client);
        let mut has_freed = false;
        for in_hand in self.jobs.values_mut().filter(|in_hand| in_hand.holder() == Some(client)) {
            let doublings = self.attempts.of(in_hand.job.key).attempts.saturating_sub(1).min(6);
            let rest = (FIRST_REST * 2u32.pow(doublings)).min(LONGEST_REST);
            in_hand.state = State::Free { since: now, rests_until: now + rest };
            has_freed = true;
        }
        has_freed
    }

    /// A job is given back; the client that worked on it, if any. None where it isn't in hand.
    pub fn give_back(&mut self, key: JobKey, back: Back, now: Instant) -> Option<Option<ClientId>> {
        let in_hand = self.jobs.get_mut(&key)?;
        let holder = in_hand.holder();
        if let State::Delayed { until } = in_hand.state {
            self.delayed.remove(&(until, key));
        }
        match back {
            Back::After(after) => {
                in_hand.state = State::Delayed { until: now + after };
                self.delayed.insert((now + after, key));
            }
            Back::Aside => {
                in_hand.state = State::Aside;
                self.attempts.put_aside(key);
            }
        }
        Some(holder)
    }

    /// Jobs of these queues that were put aside, or this one alone, may be given again, and are counted anew; how many those are.
    pub fn kick(&mut self, wanted: Wanted, only: Option<JobKey>, now: Instant) -> usize {
        let is_meant = |job: &Job| wanted.has(job.queue) && only.map_or(true, |key| key == job.key);
        let mut count = 0;
        for in_hand in self.jobs.values_mut().filter(|in_hand| in_hand.state == State::Aside && is_meant(&in_hand.job))
        {
            in_hand.state = State::Free { since: now, rests_until: now };
            self.attempts.forget(in_hand.job.key);
            count += 1;
        }
        count
    }

    /// Whether the time of a job that was given back has come; from then on it is as one that came now.
    pub fn take_due(&mut self, now: Instant) -> bool {
        let mut is_any = false;
        while let Some((until, key)) = self.delayed.iter().next().copied().filter(|(until, _)| *until <= now) {
            self.delayed.remove(&(until, key));
            if let Some(in_hand) = self.jobs.get_mut(&key) {
                (in_hand.state, is_any) = (State::Free { since: until, rests_until: until }, true);
            }
        }
        is_any
    }

    /// When the time of the next one comes, or that of one that left is over.
    pub fn next_due(&self) -> Option<Instant> {
        let delayed = self.delayed.iter().next().map(|(until, _)| *until);
        delayed.into_iter().chain(self.parted.next_over()).min()
    }
}

#[cfg(test)]
mod tests {
    use super::*;
    use crate::node::Payload;

    const ALL: Wanted = Wanted::ALL;

    fn key(id: u64) -> JobKey {
        JobKey { origin: 0, id }
    }

    fn hand(now: Instant, jobs: &[(u64, u8, u8)]) -> Hand {
        let mut hand = Hand::default();
        for (id, queue, priority) in jobs {
            hand.take(Job { key: key(*id), queue: *queue, payload: Payload::default(), priority: *priority }, now, now);
        }
        hand
    }

    fn id(taken: Option<Taken>) -> Option<(u64, u32)> {
        taken.map(|taken| (taken.job.id, taken.attempt))
    }

    #[test]
    fn each_job_has_one_holder_at_a_time() {
        let now = Instant::now();
        let after = |seconds| now + Duration::from_secs(seconds);
        assert_eq!(Hand::default().unheld(now), Duration::ZERO);
        let mut hand = hand(now, &[(0, 1, 0), (1, 1, 9), (2, 2, 0)]);
        assert_eq!(id(hand.give(7, ALL, now)), Some((1, 1)), "the greatest priority first");
        assert_eq!(id(hand.give(7, Wanted::of(&[2, 3]), now)), Some((2, 1)));
        assert_eq!(id(hand.give(8, ALL, now)), Some((0, 1)));
        assert_eq!(id(hand.give(9, ALL, now)), None);
        assert_eq!(hand.unheld(after(9)), Duration::ZERO, "each is held");
        assert!(hand.give_up(7, after(5)) && !hand.give_up(7, after(6)));
        assert_eq!(hand.unheld(after(9)), Duration::from_secs(4));
        assert_eq!(
            id(hand.give(9, Wanted::of(&[2]), after(5))),
            Some((2, 2)),
            "handed to another where its holder ended"
        );
        assert_eq!((hand.finish(key(0)), hand.finish(key(0))), (Some(8), None));
        assert_eq!((hand.count(), hand.count_held(), hand.holders()), (2, 1, BTreeSet::from([9])));
        assert_eq!((id(hand.give_this(key(1), 4)), id(hand.give_this(key(1), 5))), (Some((1, 2)), None));
    }

    #[test]
    fn a_job_whose_client_ends_each_time_keeps_no_other_from_its_turn() {
        let (now, ms) = (Instant::now(), Duration::from_millis);
        let mut hand = hand(now, &[(0, 1, 9), (1, 1, 0), (2, 1, 0)]);
        assert_eq!(id(hand.give(7, ALL, now)), Some((0, 1)));
        hand.give_up(7, now);
        assert_eq!(id(hand.give(8, ALL, now)), Some((1, 1)), "though it is of greater priority");
        hand.give_up(8, now + ms(100));
        assert_eq!(id(hand.give(9, ALL, now + ms(100))), Some((2, 1)));
        assert_eq!(
            id(hand.give(9, ALL, now + ms(100))),
            Some((0, 2)),
            "where there is no other one it is given at once"
        );
        hand.give_up(9, now + ms(100));
        assert_eq!(
            id(hand.give(9, ALL, now + ms(599))),
            Some((0, 3)),
            "of those that rest the one of greater priority"
        );
        hand.give_up(9, now + ms(600));
        assert_eq!(id(hand.give(9, ALL, now + ms(600))), Some((1, 2)), "which rests twice as long each time");
        hand.give_up(9, now + ms(2600));
        assert_eq!(id(hand.give(9, ALL, now + ms(2600))), Some((0, 4)), "and has its turn behind that");
    }

    #[test]
    fn a_job_that_is_given_back_waits_for_its_time() {
        let (now, ms) = (Instant::now(), Duration::from_millis);
        let mut hand = hand(now, &[(0, 1, 0)]);
        assert_eq!(hand.give_back(key(9), Back::Aside, now), None);
        hand.give(7, ALL, now);
        assert_eq!([7, 8].map(|client| hand.other_holder(key(0), client)), [None, Some(7)]);
        assert_eq!(hand.give_back(key(0), Back::After(ms(300)), now), Some(Some(7)));
        assert_eq!(
            (hand.next_due(), id(hand.give(8, ALL, now + ms(299))), hand.count_held()),
            (Some(now + ms(300)), None, 0)
        );
        assert_eq!(hand.unheld(now + ms(299)), Duration::ZERO, "it waits for its time");
        assert_eq!((hand.take_due(now + ms(299)), hand.take_due(now + ms(300)), hand.next_due()), (false, true, None));
        assert_eq!((hand.unheld(now + ms(400)), id(hand.give(8, ALL, now + ms(400)))), (ms(100), Some((0, 2))));
        assert!(!hand.give_up(7, now), "it isn't its first client's any more");
        hand.give_back(key(0), Back::After(ms(900)), now);
        hand.give_back(key(0), Back::After(ms(100)), now);
        assert_eq!((hand.next_due(), hand.delayed.len()), (Some(now + ms(100)), 1), "the last word counts");
        hand.part(key(0), now);
        assert_eq!((hand.next_due(), hand.take_due(now + ms(9000))), (None, false));
    }

    #[test]
    fn a_job_that_comes_back_in_time_is_its_client_s_as_before() {
        let (now, ms) = (Instant::now(), Duration::from_millis);
        let mut hand = hand(now, &[(0, 1, 0), (1, 2, 0), (2, 3, 0)]);
        (0..2).for_each(|_| drop(hand.give(7, ALL, now)));
        (0..3).for_each(|id| hand.part(key(id), now + ms(900)));
        assert_eq!((hand.count(), hand.holders(), hand.next_due()), (0, BTreeSet::from([7]), Some(now + ms(900))));
        let job = |id, queue| Job { key: key(id), queue, payload: Payload::default(), priority: 0 };
        hand.take(job(0, 1), now + ms(500), now);
        assert_eq!((hand.other_holder(key(0), 8), hand.attempts(key(0)).attempts), (Some(7), 1));
        assert_eq!(hand.take_parted(|queue| queue == 1, now).len(), 1, "it is another node's");
        hand.take(job(1, 2), now + ms(500), now);
        assert_eq!((id(hand.give(8, ALL, now)), hand.next_due()), (None, Some(now + ms(500))), "a half made group's");
        assert!(hand.take_due(now + ms(500)));
        assert_eq!(id(hand.give(8, ALL, now + ms(500))), Some((1, 2)));
    }

    #[test]
    fn a_job_that_is_put_aside_is_given_to_nobody_until_it_is_kicked() {
        let now = Instant::now();
        let mut hand = hand(now, &[(0, 1, 0), (1, 2, 0)]);
        for _ in 0..2 {
            let taken = hand.give(7, ALL, now).unwrap();
            hand.give_back(key(taken.job.id), Back::Aside, now);
        }
        assert_eq!(
            (id(hand.give(7, ALL, now)), hand.count_aside(), hand.unheld(now + Duration::from_secs(9))),
            (None, 2, Duration::ZERO)
        );
        let job = Job { key: key(0), queue: 1, payload: Payload::default(), priority: 0 };
        hand.part(key(0), now);
        hand.take(job, now, now);
        assert_eq!((hand.count_aside(), hand.attempts(key(0)).attempts), (2, 1), "also where it went and came back");
        assert_eq!((hand.kick(Wanted::of(&[3]), None, now), hand.kick(ALL, Some(key(1)), now)), (0, 1));
        assert_eq!((id(hand.give(7, ALL, now)), hand.kick(ALL, None, now)), (Some((1, 1)), 1));
        assert_eq!(id(hand.give(7, ALL, now)), Some((0, 1)), "counted anew");
        hand.finish(key(0));
        assert_eq!((hand.count(), hand.attempts(key(0)).attempts), (1, 0));
    }
}
