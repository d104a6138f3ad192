//! Which machines' agents answer nothing. Shards go by that before the group does: it gives a silent member up later than that one's leases end. A machine that is
//! wrongly taken for silent loses nothing by it: the others ask for its leases, and are refused for as long as it renews them.

use std::time::{Duration, Instant};

/// Their questions have numbers from this one on: those of a change of voters have lesser ones.
const FIRST: u64 = 1 << 32;

/// Who leaves so many in a row without an answer is silent.
const ROW: u64 = 6;

pub struct Silence {
    /// The others are asked until so long behind the last question of a client here: as long as a grant is kept.
    lasts: Duration,
    /// When a client asked last.
    wanted: Option<Instant>,
    /// When the others were asked last, by the question of which number, and since when without a gap.
    asked: Option<Instant>,
    serial: u64,
    since: Instant,
    answered: Vec<Option<Instant>>,
}

impl Silence {
    /// Of a cluster of so many places, where grants are kept for so long.
    pub fn new(places: usize, lasts: Duration, now: Instant) -> Silence {
        Silence { lasts, wanted: None, asked: None, serial: FIRST, since: now, answered: vec![None; places] }
    }

    /// The others are asked so often.
    fn pause(&self) -> Duration {
        self.lasts / 8
    }

    /// One that answered nothing for so long is silent. Its leases last for as long at least, and as a rule for longer.
    fn patience(&self) -> Duration {
        self.pause() * ROW as u32
    }

    /// A client asks who is silent.
    pub fn want(&mut self, now: Instant) {
        self.wanted = Some(now);
    }

    /// When the others are to be asked.
    pub fn sleep(&self, now: Instant) -> Duration {
        let is_wanted = self.wanted.map_or(false, |wanted| now.saturating_duration_since(wanted) < self.lasts);
        match self.asked {
            _ if !is_wanted => Duration::MAX,
            Some(asked) => (asked + self.pause()).saturating_duration_since(now),
            None => Duration::ZERO,
        }
    }

    /// The others are asked now; the number of the question. Behind a time in which nobody was asked, or this machine was stopped, all have their time anew.
    pub fn ask(&mut self, now: Instant) -> u64 {
        let has_gap = self.asked.map_or(true, |asked| now.saturating_duration_since(asked) > self.patience() / 2);
        self.serial += 1;
        if has_gap {
            self.since = now;
        }
        self.asked = Some(now);
        self.serial
    }

    /// A machine's agent answers the question of this number. What was asked before the last six says nothing of now.
    pub fn answered(&mut self, node: u8, serial: u64, now: Instant) {
        let is_late = serial.saturating_add(ROW) <= self.serial || serial > self.serial;
        if let Some(answered) = self.answered.get_mut(usize::from(node)).filter(|_| !is_late) {
            *answered = Some(now);
        }
    }

    /// Those of these, the other machines, that are silent; none where no more than half of all are heard, for then it is this one that is cut off.
    pub fn silent(&self, others: &[u8], now: Instant) -> Vec<u8> {
        let heard = |node: u8| self.answered.get(usize::from(node)).copied().flatten().map_or(self.since, |answered| answered.max(self.since));
        let is_asked = self.asked.map_or(false, |asked| now.saturating_duration_since(asked) <= self.patience() / 2);
        let silent: Vec<u8> = others.iter().copied().filter(|node| is_asked && now.saturating_duration_since(heard(*node)) >= self.patience()).collect();
        let all = others.len() + 1;
        if 2 * (all - silent.len()) > all {
            silent
        } else {
            Vec::new()
        }
    }
}

#[cfg(test)]
mod tests {
    use super::*;

    const NOBODY: [u8; 0] = [];

    /// Asks each 250 ms from one time to another one, and these answer.
    fn asked(silence: &mut Silence, start: Instant, from: u64, to: u64, answer: &[u8]) {
        for ms in (from..=to).step_by(250) {
            let now = start + Duration::from_millis(ms);
            silence.want(now);
            let serial = silence.ask(now);
            answer.iter().for_each(|node| silence.answered(*node, serial, now));
        }
    }

    #[test]
    fn one_that_answers_nothing_for_three_quarters_of_a_lease_is_silent() {
        let start = Instant::now();
        let (mut silence, at) = (Silence::new(4, Duration::from_secs(2), start), |ms: u64| start + Duration::from_millis(ms));
        asked(&mut silence, start, 0, 1000, &[1, 2]);
        asked(&mut silence, start, 1250, 2500, &[1]);
        assert_eq!(silence.silent(&[1, 2], at(2499)), NOBODY);
        assert_eq!(silence.silent(&[1, 2], at(2500)), [2]);
        let serial = silence.ask(at(2750));
        [serial - 6, serial + 1, 1].iter().for_each(|late| silence.answered(2, *late, at(2760)));
        assert_eq!(silence.silent(&[1, 2], at(2760)), [2], "no answers, or of long ago");
        silence.answered(2, serial - 5, at(2770));
        assert_eq!(silence.silent(&[1, 2], at(2770)), NOBODY);
    }

    #[test]
    fn one_that_hears_no_more_than_half_takes_nobody_for_silent() {
        let start = Instant::now();
        for (others, answer, silent) in [(&[1, 2][..], &[][..], &[][..]), (&[1], &[], &[]), (&[1, 2, 3], &[1], &[]), (&[1, 2, 3], &[1, 2], &[3]), (&[1, 2, 3, 4], &[1, 2], &[3, 4])] {
            let mut silence = Silence::new(5, Duration::from_secs(2), start);
            asked(&mut silence, start, 0, 1500, answer);
            assert_eq!(silence.silent(others, start + Duration::from_millis(1500)), silent, "{others:?} {answer:?}");
        }
    }

    #[test]
    fn behind_a_gap_all_have_their_time_anew() {
        let start = Instant::now();
        let (mut silence, at) = (Silence::new(3, Duration::from_secs(2), start), |ms: u64| start + Duration::from_millis(ms));
        asked(&mut silence, start, 0, 1000, &[1, 2]);
        assert_eq!(silence.silent(&[1, 2], at(9000)), NOBODY, "nobody was asked lately");
        asked(&mut silence, start, 9000, 10_250, &[1]);
        assert_eq!(silence.silent(&[1, 2], at(10_499)), NOBODY);
        asked(&mut silence, start, 10_500, 10_500, &[1]);
        assert_eq!(silence.silent(&[1, 2], at(10_500)), [2]);
    }

    #[test]
    fn others_are_asked_while_a_client_wants_to_know() {
        let start = Instant::now();
        let (mut silence, at) = (Silence::new(3, Duration::from_secs(2), start), |ms: u64| start + Duration::from_millis(ms));
        assert_eq!(silence.sleep(start), Duration::MAX);
        silence.want(start);
        assert_eq!(silence.sleep(start), Duration::ZERO);
        silence.ask(start);
        assert_eq!((silence.sleep(at(100)), silence.sleep(at(250))), (Duration::from_millis(150), Duration::ZERO));
        assert_eq!((silence.sleep(at(1999)), silence.sleep(at(2000))), (Duration::ZERO, Duration::MAX));
    }
}
