//! What becomes of the requests that a kill left without an answer: what the next process finds says how many counted, and what is said of jobs later, which.

use crate::judge::doubt::{ends, is_open, puts, Seen};
use crate::judge::RecordError;
use super::effect::keys_of;
use super::{lines_of, History, PlacedLine};
use serde_json::{json, Map};
use std::collections::VecDeque;

/// A request makes a node begin fewer groups: so many timers fire at most by one.
const MAX_GROUPS: u64 = 16;

/// What a process found in the node's file when it mounted it.
pub(super) struct Found {
    /// So many groups were begun unseen since the file was mounted before.
    groups: u64,
    count: u64,
    next: u64,
    /// So many jobs were ended unseen.
    ended: usize,
    /// The requests in doubt; none where the trace begins.
    doubts: Option<Vec<String>>,
}

impl Found {
    fn doubts(&self) -> Vec<&str> {
        self.doubts.iter().flatten().map(String::as_str).collect()
    }
}

/// The answer by which a node says that it mounted its file.
pub(super) struct Recovery {
    /// What it keeps, in the words of the answer.
    pub(super) keeps: String,
    pub(super) answer: String,
    pub(super) last: String,
}

/// A recovery of which it isn't known yet which requests in doubt counted.
pub(super) struct Waiting {
    recovery: Recovery,
    found: Found,
    /// The lines behind it, and what they say of jobs.
    pub(super) lines: Vec<PlacedLine>,
    seen: Seen,
}

impl History {
    pub(super) fn read_all(&mut self, mut left: VecDeque<PlacedLine>) -> Result<(), RecordError> {
        while let Some((place, line)) = left.pop_front() {
            if let Some(waiting) = &mut self.waiting {
                let is_known = waiting.seen.hears(self.own, &line);
                waiting.lines.push((place, line));
                if is_known {
                    self.go_on(&mut left)?;
                }
            } else {
                self.read_now(place, &line)?;
            }
        }
        Ok(())
    }

    /// Settles what waits by what was said since. The lines that waited are those to be read first.
    pub(super) fn go_on(&mut self, left: &mut VecDeque<PlacedLine>) -> Result<(), RecordError> {
        if let Some(Waiting { recovery, found, lines, seen }) = self.waiting.take() {
            lines.into_iter().rev().for_each(|line| left.push_front(line));
            self.settle(&recovery, &found, &seen)?;
        }
        Ok(())
    }

    /// The file was mounted: what became of the requests in doubt is known at once, or by later lines.
    pub(super) fn recovered(&mut self, recovery: Recovery) -> Result<(), RecordError> {
        let found = self.found(&recovery.keeps).ok_or_else(|| self.no_state(&recovery))?;
        let seen = Seen::default();
        if is_open(self.own, &found.doubts(), self.next..found.next, &self.pending, found.ended) {
            self.waiting = Some(Waiting { recovery, found, lines: Vec::new(), seen });
            return Ok(());
        }
        self.settle(&recovery, &found, &seen)
    }

    fn no_state(&self, recovery: &Recovery) -> RecordError {
        RecordError::NoState { node: usize::from(self.own), keeps: recovery.keeps.clone() }
    }

    /// What the numbers of a file that was mounted say. None where nothing in doubt brings them about.
    fn found(&mut self, keeps: &str) -> Option<Found> {
        let numbers: Vec<u64> = keeps.split(' ').filter_map(|word| word.parse().ok()).collect();
        let (count, next, pending) = match numbers.as_slice() {
            [count, next, pending] => (self.own_count(*count), *next, *pending),
            _ => return None,
        };
        let doubts = std::mem::take(&mut self.doubts);
        // what stands before the first one is before the begin of the trace
        if !std::mem::replace(&mut self.has_begun, true) {
            return Some(Found { groups: 0, count, next, ended: 0, doubts: None });
        }
        let groups = count.checked_sub(self.count)?.checked_sub(1)?;
        if groups > MAX_GROUPS.saturating_mul(doubts.len() as u64) {
            return None;
        }
        let known = next.checked_sub(self.next)?.checked_add(self.pending.len() as u64)?;
        let ended = usize::try_from(known.checked_sub(pending)?).ok()?;
        Some(Found { groups, count, next, ended, doubts: Some(doubts) })
    }

    /// Puts what became of the requests in doubt, by what was said of jobs since where that had to be known.
    fn settle(&mut self, recovery: &Recovery, found: &Found, seen: &Seen) -> Result<(), RecordError> {
        let first = self.places.len();
        let lines: Vec<&str> = lines_of(&recovery.answer).collect();
        let texts = self.told.says("recover", &lines, keys_of("recover", "recover", false)).map_err(|why| self.untrue(why))?;
        if found.doubts.is_some() {
            let others = self.put_finished(found, seen).ok_or_else(|| self.no_state(recovery))?;
            self.put_crash(found.groups);
            self.put_doubts(found, seen, others).ok_or_else(|| self.no_state(recovery))?;
        }
        (self.count, self.next, self.is_up) = (found.count, found.next, true);
        self.follow(&lines).ok_or_else(|| self.fault(&recovery.last))?;
        match self.places.len() > first {
            true => self.tell(&texts),
            false => self.told.owes(texts),
        }
        Ok(())
    }

    /// The process ended, when the node was told the time last. Each group that it began unseen is one of a recovery that failed behind it.
    fn put_crash(&mut self, groups: u64) {
        self.put("crash", "", &[], Map::new());
        self.timed();
        for place in 0..=groups {
            let mut fields = Map::new();
            fields.insert("kept".to_string(), json!(place > 0));
            if place < groups {
                fields.insert("fault".to_string(), json!("raise"));
            }
            self.put("recover", "", &[], fields);
        }
    }

    /// Jobs of its own that the node finished unseen it had in hand when it ended, and it sends nothing for them: so these stand before that. Those that
    /// others ended are left.
    fn put_finished<'f>(&mut self, found: &'f Found, seen: &Seen) -> Option<Vec<(u64, &'f str)>> {
        let ended = ends(self.own, &found.doubts(), &self.pending, found.ended, seen)?;
        let (own, others): (Vec<_>, Vec<_>) = ended.into_iter().partition(|(_, request)| request.starts_with("finish "));
        self.put_ends(own)?;
        Some(others)
    }

    /// The other commands in doubt that counted stand behind the recovery, where the node is alone: what they made it send there is nothing, as nothing of it left
    /// the machine.
    fn put_doubts(&mut self, found: &Found, seen: &Seen, others: Vec<(u64, &str)>) -> Option<()> {
        let put = puts(&found.doubts(), self.next..found.next, seen)?;
        for (id, request) in (self.next..).zip(put) {
            let fields = self.fields_of("submit", request)?;
            self.put("submit", request, &[], fields);
            self.pending.insert(id);
            self.told.takes_early(id, request);
        }
        self.put_ends(others)
    }

    fn put_ends(&mut self, ended: Vec<(u64, &str)>) -> Option<()> {
        for (id, request) in ended {
            let name = request.split(' ').next()?;
            let fields = self.fields_of(name, request)?;
            self.put(name, request, &[], fields);
            self.pending.remove(&id);
        }
        Some(())
    }
}
