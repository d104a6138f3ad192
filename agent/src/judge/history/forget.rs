//! Of a history that grows, what has to be kept. Where a node stands again as it stood some entries before, and each of these sent only what an entry that is kept
//! sent before, they are forgotten, once they were taken and compared with what was told: any entry that comes later is possible with them exactly where it is
//! without them, and each message that may come is one that an entry which is left sent. So what repeats takes no room, and what changes a group, a task or jobs stays.

use super::effect::{Effect, Standing};
use super::History;
use crate::judge::order::Message;
use std::collections::HashSet;

/// An entry of which it isn't known yet whether it is kept for good.
struct Mark {
    /// So many bytes its text has.
    length: usize,
    effect: Effect,
    sent: Vec<Message>,
}

#[derive(Default)]
pub(super) struct Kept {
    /// So many entries are kept for good, with so many bytes, and how the node stands behind them.
    base: usize,
    bytes: usize,
    standing: Standing,
    /// The entries behind these.
    marks: Vec<Mark>,
    /// What those that are kept sent.
    said: HashSet<Message>,
    /// Of each entry its number among all that there were.
    numbers: Vec<u32>,
    forgotten: usize,
}

impl Kept {
    pub fn put(&mut self, length: usize, sent: Vec<Message>) {
        let number = self.numbers.len() + self.forgotten;
        self.numbers.push(u32::try_from(number).unwrap_or(u32::MAX));
        self.marks.push(Mark { length, effect: Effect::Other, sent });
    }

    /// The text of the last entry has so many bytes more.
    pub fn lengthen(&mut self, more: usize) {
        self.marks.last_mut().into_iter().for_each(|mark| mark.length += more);
    }

    /// What the last entry makes of its node.
    pub fn means(&mut self, effect: Effect) {
        if let Some(mark) = self.marks.last_mut() {
            mark.effect = effect;
        }
    }

    /// How many messages are kept to look for.
    pub fn messages(&self) -> usize {
        self.said.len()
    }

    /// Chooses of the first marks those that stay, in their order; how many of these stay for good, and how the node stands behind these.
    fn choose(&mut self, count: usize) -> (Vec<usize>, usize, Standing) {
        let mut standing = self.standing.clone();
        let (mut stay, mut firm) = (Vec::new(), (0, standing.clone()));
        let mut seen = vec![(standing.clone(), 0)];
        for (at, mark) in self.marks.iter().enumerate().take(count) {
            stay.push(at);
            let is_new = mark.sent.iter().any(|message| !self.said.contains(message));
            let after = standing.after(&mark.effect);
            let goes_on = after.is_some() && !is_new;
            standing = after.unwrap_or_default();
            if !goes_on {
                self.said.extend(&mark.sent);
                firm = (stay.len(), standing.clone());
                seen = vec![(standing.clone(), stay.len())];
            } else if let Some(length) = seen.iter().find(|(before, _)| *before == standing).map(|(_, length)| *length) {
                stay.truncate(length);
                seen.retain(|(_, other)| *other <= length);
            } else {
                seen.push((standing.clone(), stay.len()));
            }
        }
        (stay, firm.0, firm.1)
    }
}

impl History {
    /// Of the first `taken` entries, which were judged and compared, those are forgotten that nothing later rests on.
    pub fn forget(&mut self, taken: usize) {
        let count = taken.saturating_sub(self.kept.base).min(self.kept.marks.len());
        let (stay, firm, standing) = self.kept.choose(count);
        let mut stays = vec![false; count];
        stay.iter().for_each(|at| stays[*at] = true);
        stays.resize(self.kept.marks.len(), true);
        if stay.len() < count {
            self.keep(&stays);
        }
        let firm: Vec<Mark> = self.kept.marks.drain(..firm).collect();
        self.kept.standing = standing;
        self.kept.base += firm.len();
        self.kept.bytes += firm.iter().map(|mark| mark.length + 1).sum::<usize>();
    }

    /// Drops the entries behind the firm ones that don't stay.
    fn keep(&mut self, stays: &[bool]) {
        let (base, begin) = (self.kept.base, self.kept.bytes.min(self.entries.len()));
        let tail = self.entries.split_off(begin);
        let mut from = 0;
        for (mark, stays) in self.kept.marks.iter().zip(stays) {
            if *stays {
                // a comma stands between two entries: at the end of the firm ones there is one, where others follow
                let comma = if self.entries.is_empty() || self.entries.ends_with(',') { "" } else { "," };
                self.entries.push_str(comma);
                self.entries.push_str(&tail[from..from + mark.length]);
            }
            from += mark.length + 1;
        }
        if self.entries.ends_with(',') {
            self.entries.pop();
        }
        let mut chosen = stays.iter();
        self.kept.marks.retain(|_| chosen.next() == Some(&true));
        retain_from(&mut self.places, base, stays);
        retain_from(&mut self.kept.numbers, base, stays);
        self.kept.forgotten += stays.iter().filter(|stays| !**stays).count();
        if self.entries.capacity() > 2 * self.entries.len() {
            self.entries.shrink_to(self.entries.len() + self.entries.len() / 4);
        }
    }

    /// How many bytes the entries have of which it isn't known yet whether they are kept for good.
    pub fn unsettled(&self) -> usize {
        self.entries.len().saturating_sub(self.kept.bytes)
    }

    /// The number of an entry among all that there were.
    pub fn number(&self, entry: usize) -> usize {
        self.kept.numbers.get(entry).map_or(entry + self.kept.forgotten, |number| *number as usize)
    }

    /// How many entries were forgotten.
    pub fn forgotten(&self) -> usize {
        self.kept.forgotten
    }
}

/// Drops those from a place on that don't stay.
fn retain_from<T>(all: &mut Vec<T>, base: usize, stays: &[bool]) {
    let tail = all.split_off(base);
    all.extend(tail.into_iter().zip(stays).filter(|(_, stays)| **stays).map(|(one, _)| one));
}
