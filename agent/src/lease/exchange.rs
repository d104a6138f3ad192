//! What is said to the process of leases and heard of it, as bytes: the pipes are those of `LeaseProcess`.

use super::LeaseLine;
use crate::boot_time::BootTime;
use log::warn;
use std::collections::VecDeque;
use std::time::{Duration, Instant};

/// So many bytes may wait for the process to read them; messages beyond that are lost.
const ROOM: usize = 256 * 1024;

/// Where it is behind with so many lines, and the oldest waits for longer than answers to a request are waited for, messages are lost: those that waited would
/// come too late, and have all behind them come too late. Who sent them asks again.
const MOST_BEHIND: usize = 16;

/// It hangs where its oldest line waits for so many times as long: a quarter of the time for which it keeps a grant.
const HANGS: u32 = 6;

/// Its longest line is far shorter.
const MAX_LINE: usize = 64 * 1024;

pub struct LeaseExchange {
    unwritten: Vec<u8>,
    unread: Vec<u8>,
    /// When those lines were said that have no `next` behind them yet.
    unanswered: VecDeque<Instant>,
    /// How long answers to a request are waited for at least: four round trips.
    patience: Duration,
    /// Whether it has its file: the first time may be told it.
    is_ready: bool,
}

fn is_behind(unanswered: &VecDeque<Instant>, patience: Duration, now: Instant) -> bool {
    let is_late = unanswered.front().map_or(false, |oldest| now.saturating_duration_since(*oldest) > patience);
    is_late && unanswered.len() >= MOST_BEHIND
}

fn is_hung(unanswered: &VecDeque<Instant>, patience: Duration, now: Instant) -> bool {
    unanswered.front().map_or(false, |oldest| now.saturating_duration_since(*oldest) > patience * HANGS)
}

impl LeaseExchange {
    /// With a process that keeps grants for so long.
    pub fn new(lease_ms: u64) -> LeaseExchange {
        let (unwritten, unread, unanswered) = (Vec::new(), Vec::new(), VecDeque::new());
        LeaseExchange { unwritten, unread, unanswered, patience: Duration::from_millis(lease_ms / 25), is_ready: false }
    }

    pub fn is_ready(&self) -> bool {
        self.is_ready
    }

    pub fn has_room(&self, now: Instant) -> bool {
        self.is_ready && self.unwritten.len() < ROOM && !is_behind(&self.unanswered, self.patience, now)
    }

    pub fn hangs(&self, now: Instant) -> bool {
        is_hung(&self.unanswered, self.patience, now)
    }

    pub fn is_quiet(&self) -> bool {
        self.unanswered.is_empty()
    }

    /// Something is said at this time.
    pub fn say(&mut self, word: &str, rest: &str, boot: BootTime, now: Instant) {
        let gap = if rest.is_empty() { "" } else { " " };
        self.unwritten.extend_from_slice(format!("{word} {}{gap}{rest}\n", boot.ms()).as_bytes());
        self.unanswered.push_back(now);
    }

    /// What is to be written to the process.
    pub fn unwritten(&mut self) -> &mut Vec<u8> {
        &mut self.unwritten
    }

    /// The process said this. Answers whether it is to go on: none of its lines has no end.
    pub fn hear(&mut self, bytes: &[u8], lines: &mut Vec<LeaseLine>) -> bool {
        self.unread.extend_from_slice(bytes);
        let whole = self.unread.iter().rposition(|byte| *byte == b'\n').map_or(0, |at| at + 1);
        let rest = self.unread.split_off(whole);
        let unread = std::mem::replace(&mut self.unread, rest);
        for text in String::from_utf8_lossy(&unread).lines() {
            let line = LeaseLine::read(text);
            match &line {
                Some(LeaseLine::Process { .. }) => self.is_ready = true,
                Some(LeaseLine::Next { .. }) => drop(self.unanswered.pop_front()),
                Some(_) => {}
                None => warn!("a line of the process of leases can't be read: {text:.60}"),
            }
            lines.extend(line);
        }
        let is_short = self.unread.len() <= MAX_LINE;
        if !is_short {
            warn!("the process of leases wrote a line of more than {MAX_LINE} bytes");
        }
        is_short
    }
}

#[cfg(test)]
mod tests {
    use super::*;

    #[test]
    fn behind_are_many_lines_of_which_one_is_old() {
        let (ms, now) = (Duration::from_millis, Instant::now());
        for (count, age, is_so) in [(0, 0, false), (15, 900, false), (16, 81, true), (16, 80, false), (400, 10, false)] {
            let unanswered = (0..count).map(|_| now).collect();
            assert_eq!(is_behind(&unanswered, ms(80), now + ms(age)), is_so, "{count} {age}");
        }
    }

    #[test]
    fn one_hangs_whose_oldest_line_waits_for_a_quarter_of_a_lease() {
        let (ms, now) = (Duration::from_millis, Instant::now());
        for (lines, age, is_so) in [(vec![], 9_000, false), (vec![0], 480, false), (vec![0, 400], 481, true), (vec![400], 481, false)] {
            let unanswered = lines.iter().map(|at| now + ms(*at)).collect();
            assert_eq!(is_hung(&unanswered, ms(80), now + ms(age)), is_so, "{lines:?} {age}");
        }
    }
}
