//! Which of the others are reached by themselves, and which through another one. A peer that was heard long ago, and to whom something is to be said, is asked
//! for an answer. Where none comes it is silent, and what is said to it goes through one that isn't, too. Whoever gets something so, and is told that its sender
//! doesn't hear it, does the same.

use std::time::{Duration, Instant};

/// A peer that wasn't heard by itself for so long, or for so many round trips, is silent. Members of a group that is at rest hear each other's questions twice in
/// that time. It is asked for an answer from two thirds of it on.
const SILENCE: Duration = Duration::from_secs(3);
const ROUND_TRIPS: u32 = 100;

/// Through whom a peer was heard last is known for so long.
const LASTING: Duration = Duration::from_secs(5);

/// While no way through another one is known each of them is tried for so long, with so many datagrams at most.
const TRY: Duration = Duration::from_millis(200);
const MOST_IN_A_TRY: u32 = 64;

/// While one is known a peer is tried by itself so often. So often one is asked for an answer, which it is given time for.
const PAUSE: Duration = Duration::from_millis(500);

/// So many datagrams of each peer are carried on in a tenth of a second at most.
const TURN: Duration = Duration::from_millis(100);
const MOST_IN_A_TURN: u32 = 256;

/// That a peer isn't reached by itself is told no more often.
const TOLD: Duration = Duration::from_secs(60);

/// How a peer is reached.
#[derive(Clone, Default)]
struct Way {
    /// When a datagram of it came last from itself.
    heard: Option<Instant>,
    /// When something was first said to it, and when it was last sent something at its own address.
    first: Option<Instant>,
    sent: Option<Instant>,
    /// When its agent was asked for an answer since it was heard, first and last.
    asked: Option<(Instant, Instant)>,
    /// Through whom a datagram of it came last, and when.
    through: Option<(u8, Instant)>,
    /// When it last said so that it doesn't hear this one.
    is_deaf: Option<Instant>,
    /// Who is tried now, since when and with how many datagrams.
    tries: Option<(u8, Instant, u32)>,
    /// When an operator was last told that it isn't reached by itself, and whether that wasn't taken back since.
    told: Option<(Instant, bool)>,
    /// Since when it has had a turn of what is carried on for it, and how many datagrams that were.
    carried: Option<(Instant, u32)>,
}

/// What is to be done to send something to a peer.
#[derive(Clone, Copy, Debug, PartialEq, Eq)]
pub struct Sending {
    /// It is sent to the peer's own address.
    pub is_direct: bool,
    /// And to this one, to be carried on.
    pub through: Option<u8>,
    /// Whether the sender is to say so that it doesn't hear the peer.
    pub is_deaf: bool,
    /// Its agent is asked for an answer: what is sent to it may want none.
    pub asks: bool,
}

pub struct Ways {
    own: u8,
    silence: Duration,
    ways: Vec<Way>,
}

fn is_within(at: Option<Instant>, time: Duration, now: Instant) -> bool {
    at.map_or(false, |at| now.saturating_duration_since(at) < time)
}

impl Ways {
    pub fn new(own: u8, nodes: usize, round_trip: Duration) -> Ways {
        Ways { own, silence: (round_trip * ROUND_TRIPS).max(SILENCE), ways: vec![Way::default(); nodes] }
    }

    /// Another machine has this place, or none.
    pub fn forget(&mut self, node: usize) {
        if let Some(way) = self.ways.get_mut(node) {
            *way = Way::default();
        }
    }

    /// A datagram of a peer came from itself.
    pub fn heard(&mut self, node: u8, now: Instant) {
        if let Some(way) = self.ways.get_mut(usize::from(node)) {
            (way.heard, way.asked) = (Some(now), None);
        }
    }

    /// One came through another peer; whether it says that it doesn't hear this one.
    pub fn heard_through(&mut self, node: u8, through: u8, is_deaf: bool, now: Instant) {
        if let Some(way) = self.ways.get_mut(usize::from(node)) {
            way.through = Some((through, now));
            way.is_deaf = if is_deaf { Some(now) } else { None };
        }
    }

    /// When a peer was last sent something at its own address.
    pub fn sent(&self, node: u8) -> Option<Instant> {
        self.ways.get(usize::from(node)).and_then(|way| way.sent)
    }

    /// Whether a peer doesn't answer by itself.
    fn is_silent(&self, node: u8, now: Instant) -> bool {
        self.ways.get(usize::from(node)).map_or(true, |way| {
            let is_old = !is_within(way.heard.or(way.first), self.silence, now);
            is_old && way.asked.map_or(false, |(first, _)| !is_within(Some(first), PAUSE, now))
        })
    }

    /// Whether it was heard by itself, and isn't silent.
    fn is_reached(&self, node: u8, now: Instant) -> bool {
        self.ways.get(usize::from(node)).map_or(false, |way| way.heard.is_some()) && !self.is_silent(node, now)
    }

    /// Through whom a peer is reached that isn't by itself.
    pub fn through(&self, node: u8, now: Instant) -> Option<u8> {
        let way = self.ways.get(usize::from(node))?;
        let is_needed = self.is_silent(node, now) || is_within(way.is_deaf, self.silence, now);
        way.through.filter(|(_, at)| is_needed && is_within(Some(*at), LASTING, now)).map(|(through, _)| through)
    }

    /// What an operator is to be told of the way to a peer: through whom it is reached, or that it is so by itself again.
    pub fn news(&mut self, node: u8, now: Instant) -> Option<Option<u8>> {
        let (through, silence) = (self.through(node, now), self.silence);
        let way = self.ways.get_mut(usize::from(node))?;
        match (through, way.told) {
            (None, Some((at, true))) if way.heard > Some(at) && !is_within(way.is_deaf, silence, now) => {
                way.told = Some((at, false));
                Some(None)
            }
            (Some(_), told) if !told.map_or(false, |(at, is_so)| is_so || is_within(Some(at), TOLD, now)) => {
                way.told = Some((now, true));
                Some(through)
            }
            _ => None,
        }
    }

    /// Something is to be sent to a peer; these others are there.
    pub fn sends(&mut self, to: u8, others: impl Iterator<Item = u8>, now: Instant) -> Sending {
        let (is_silent, own, silence) = (self.is_silent(to, now), self.own, self.silence);
        let known = self.through(to, now).filter(|through| self.is_reached(*through, now));
        let is_needed = is_silent || self.ways.get(usize::from(to)).map_or(false, |way| is_within(way.is_deaf, silence, now));
        let through = match known {
            None if is_needed => {
                let reached: Vec<u8> = others.filter(|other| *other != to && *other != own && self.is_reached(*other, now)).collect();
                self.tried_now(to, &reached, now)
            }
            known => known,
        };
        let way = match self.ways.get_mut(usize::from(to)) {
            Some(way) => way,
            None => return Sending { is_direct: true, through: None, is_deaf: false, asks: false },
        };
        let is_direct = known.is_none() || !is_within(way.sent, PAUSE, now);
        if is_direct {
            way.sent = Some(now);
        }
        way.first = way.first.or(Some(now));
        let (is_old, first) = (!is_within(way.heard, silence * 2 / 3, now), way.asked.map(|(first, _)| first));
        let asks = is_old && !is_within(way.asked.map(|(_, last)| last), PAUSE, now);
        if asks {
            way.asked = Some((first.unwrap_or(now), now));
        }
        Sending { is_direct, through, is_deaf: is_silent, asks }
    }

    /// The one of these that is tried now as a way to a peer, where it may be sent one datagram more: each in turn.
    fn tried_now(&mut self, to: u8, reached: &[u8], now: Instant) -> Option<u8> {
        let way = self.ways.get_mut(usize::from(to))?;
        let (last, begin, count) = way.tries.filter(|(last, ..)| reached.contains(last)).unwrap_or((u8::MAX, now, MOST_IN_A_TRY));
        if last != u8::MAX && is_within(Some(begin), TRY, now) {
            way.tries = Some((last, begin, count + 1));
            return (count < MOST_IN_A_TRY).then_some(last);
        }
        let next = reached.iter().find(|other| **other > last || last == u8::MAX).or_else(|| reached.first()).copied()?;
        way.tries = Some((next, now, 1));
        Some(next)
    }

    /// Whether a datagram of a peer for another one is carried on: where that one is reached, and not too many are.
    pub fn carries(&mut self, from: u8, to: u8, now: Instant) -> bool {
        let is_for_another = from != to && from != self.own && to != self.own && self.is_reached(to, now);
        match self.ways.get_mut(usize::from(from)) {
            Some(way) if is_for_another => {
                let (begin, count) = way.carried.filter(|(begin, _)| is_within(Some(*begin), TURN, now)).unwrap_or((now, 0));
                way.carried = Some((begin, count + 1));
                count < MOST_IN_A_TURN
            }
            _ => false,
        }
    }
}

#[cfg(test)]
mod tests {
    use super::*;

    const ROUND_TRIP: Duration = Duration::from_millis(20);
    const DIRECT: Sending = Sending { is_direct: true, through: None, is_deaf: false, asks: false };

    fn ms(ms: u64) -> Duration {
        Duration::from_millis(ms)
    }

    fn ways(now: Instant) -> Ways {
        let mut ways = Ways::new(0, 4, ROUND_TRIP);
        (1..4).for_each(|node| ways.heard(node, now));
        ways
    }

    #[test]
    fn a_peer_that_answers_is_sent_to_itself_alone() {
        let now = Instant::now();
        let mut ways = ways(now);
        for at in (0..100_000).step_by(1100) {
            assert_eq!(ways.sends(1, 1..4, now + ms(at)), DIRECT, "{at}");
            ways.heard(1, now + ms(at + 20));
        }
        // one to whom something is said seldom is asked, and answers
        for at in (0..100_000).step_by(30_000) {
            assert_eq!(ways.sends(2, 1..4, now + ms(200_000 + at)), Sending { asks: true, ..DIRECT });
            ways.heard(2, now + ms(200_400 + at));
            assert_eq!(ways.sends(2, 1..4, now + ms(202_300 + at)), DIRECT);
        }
        assert_eq!(ways.through(1, now), None);
    }

    #[test]
    fn one_that_is_silent_is_asked_and_then_sent_to_through_others_in_turn() {
        let now = Instant::now();
        let mut ways = ways(now);
        let mut sent = |at: u64| {
            (2..4).for_each(|node| ways.heard(node, now + ms(at)));
            ways.sends(1, 1..4, now + ms(at))
        };
        assert_eq!([sent(100), sent(1990), sent(2000), sent(2400)], [DIRECT, DIRECT, Sending { asks: true, ..DIRECT }, DIRECT]);
        assert_eq!([sent(2500), sent(2990)], [Sending { asks: true, ..DIRECT }, DIRECT]);
        let through = |at: u64, sent: &mut dyn FnMut(u64) -> Sending| {
            let sending = sent(at);
            assert!(sending.is_direct && sending.is_deaf);
            sending.through
        };
        assert_eq!([3000, 3100, 3210, 3400, 3420].map(|at| through(at, &mut sent)), [2, 2, 3, 3, 2].map(Some));
        assert_eq!((0..100).filter(|_| through(3430, &mut sent).is_some()).count(), 63, "no more than so many");
    }

    #[test]
    fn one_that_was_never_heard_is_given_as_much_time() {
        let now = Instant::now();
        let mut ways = Ways::new(0, 4, ROUND_TRIP);
        ways.heard(2, now + ms(2000));
        let through = [0, 600, 2900, 3000].map(|at| ways.sends(1, 1..4, now + ms(at)).through);
        assert_eq!(through, [None, None, None, Some(2)]);
        ways.heard(2, now + ms(9000));
        assert_eq!((ways.sends(3, 1..4, now + ms(9000)), ways.sends(1, 1..4, now + ms(9000)).through), (Sending { asks: true, ..DIRECT }, Some(2)));
    }

    #[test]
    fn where_a_way_is_known_it_is_taken_and_the_peer_itself_is_tried_once_in_a_while() {
        let now = Instant::now();
        let mut ways = ways(now);
        ways.sends(1, 1..4, now + ms(2500));
        let mut sent = |at: u64| {
            (2..4).for_each(|node| ways.heard(node, now + ms(at)));
            ways.heard_through(1, 3, false, now + ms(at));
            let sending = ways.sends(1, 1..4, now + ms(at));
            assert_eq!((ways.through(1, now + ms(at)), sending.is_deaf), (Some(3), true));
            (sending.is_direct, sending.through)
        };
        assert_eq!([4000, 4100, 4400, 4500, 4510].map(&mut sent), [(true, Some(3)), (false, Some(3)), (false, Some(3)), (true, Some(3)), (false, Some(3))]);
        ways.heard(1, now + ms(4600));
        assert_eq!((ways.sends(1, 1..4, now + ms(5200)).through, ways.through(1, now + ms(5200))), (None, None), "it is heard again");
    }

    #[test]
    fn one_that_does_not_hear_this_one_is_answered_the_way_that_it_came() {
        let now = Instant::now();
        let mut ways = ways(now);
        ways.heard_through(1, 2, true, now);
        let sending = ways.sends(1, 1..4, now + ms(100));
        assert_eq!((sending.through, sending.is_deaf, ways.through(1, now + ms(100))), (Some(2), false, Some(2)));
        ways.heard_through(1, 2, false, now + ms(200));
        assert_eq!((ways.sends(1, 1..4, now + ms(300)).through, ways.through(1, now + ms(300))), (None, None), "it does");
    }

    #[test]
    fn an_operator_is_told_once_in_a_while() {
        let now = Instant::now();
        let mut ways = ways(now);
        ways.sends(1, 1..4, now + ms(2500));
        let mut news = |at: u64, through: Option<u8>| {
            match through {
                Some(through) => ways.heard_through(1, through, false, now + ms(at)),
                None => ways.heard(1, now + ms(at)),
            }
            ways.sends(1, 1..4, now + ms(at));
            ways.news(1, now + ms(at))
        };
        assert_eq!([news(2600, None), news(5200, Some(2)), news(5800, Some(2)), news(6000, Some(3))], [None, None, Some(Some(2)), None]);
        assert_eq!([news(7000, None), news(7100, None)], [Some(None), None]);
        assert_eq!([news(9700, Some(2)), news(10_400, Some(2)), news(66_000, Some(2))], [None, None, Some(Some(2))]);
    }

    #[test]
    fn what_is_carried_on_is_for_one_that_is_reached_and_not_too_much() {
        let now = Instant::now();
        let mut ways = ways(now);
        assert!([(1, 1), (1, 0), (0, 1), (1, 9), (9, 1)].into_iter().all(|(from, to)| !ways.carries(from, to, now)));
        assert_eq!((0..1000).filter(|_| ways.carries(1, 2, now)).count(), 256);
        assert!(ways.carries(3, 2, now) && ways.carries(1, 2, now + TURN));
        ways.sends(2, 1..4, now + ms(3000));
        assert!(ways.carries(1, 2, now + ms(3400)), "it may answer yet");
        assert!(!ways.carries(1, 2, now + ms(3500)), "it is silent here, too");
        assert!(!Ways::new(0, 4, ROUND_TRIP).carries(1, 2, now), "it was never heard");
    }

    #[test]
    fn slow_networks_are_waited_for() {
        let now = Instant::now();
        let mut ways = Ways::new(0, 3, Duration::from_millis(200));
        (1..3).for_each(|node| ways.heard(node, now));
        let asks = [0, 13_300, 13_400].map(|at| ways.sends(1, 1..3, now + ms(at)).asks);
        ways.heard(2, now + ms(19_000));
        let through = [19_900, 20_000].map(|at| ways.sends(1, 1..3, now + ms(at)).through);
        assert_eq!((asks, through), ([false, false, true], [None, Some(2)]));
        ways.forget(1);
        assert_eq!(ways.sends(1, 1..3, now + ms(40_000)), Sending { asks: true, ..DIRECT });
    }
}
