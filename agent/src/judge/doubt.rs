//! What a kill left in doubt: requests that stand in the record without an answer. The node did some of them, the first ones: nothing that they made it say left
//! its agent, so all that is left of them is in its file. How many jobs they put and ended is known by what the next process found there; which ones, where
//! not all did, by what it says of its jobs then.

use std::collections::{BTreeMap, BTreeSet};
use std::ops::Range;

/// The places of a message's kind and body, in its digits.
const KIND: Range<usize> = 2..4;
const BODY: usize = 12;
/// A group is spelled by so many digits, an id by so many.
const GROUP: usize = 18;
const ID: usize = 16;

/// The words of a job behind its id, as `submit` and `take` have them: queue, payload and, but for 0, the priority.
pub type Words = String;

/// The jobs of a node's own that a record names from some place on, up to the end of the first answer in which it dispatches: it names each pending one there.
#[derive(Default)]
pub struct Seen {
    /// The words are missing of one that was only said to be gone.
    jobs: BTreeMap<u64, Option<Words>>,
    dispatches: bool,
}

impl Seen {
    /// Reads the next line. Whether it is the last that counts.
    pub fn hears(&mut self, own: u8, line: &str) -> bool {
        match line.split_once(' ') {
            Some(("ok", _)) => return self.dispatches,
            Some(("fired", "dispatch")) => self.dispatches = true,
            Some(("gone", id)) => self.name(id.parse().ok(), None),
            Some(("pending", job)) => self.name_job(job),
            Some(("take", job)) => self.name_job(job.strip_prefix(&format!("{own} ")).unwrap_or_default()),
            Some(("send", rest)) => self.name_sent(rest.split(' ').nth(1).unwrap_or_default()),
            _ => {}
        }
        false
    }

    fn name(&mut self, id: Option<u64>, words: Option<Words>) {
        if let Some(id) = id {
            let known = self.jobs.entry(id).or_default();
            *known = known.take().or(words);
        }
    }

    fn name_job(&mut self, job: &str) {
        if let Some((id, words)) = job.split_once(' ') {
            self.name(id.parse().ok(), Some(plain(words)));
        }
    }

    /// A Work that this node sends is of a job that it keeps.
    fn name_sent(&mut self, digits: &str) {
        if let Some((id, words)) = work_of(digits) {
            self.name(Some(id), Some(words));
        }
    }

    fn may_be(&self, id: u64, words: &str) -> bool {
        self.jobs.get(&id).and_then(Option::as_ref).map_or(true, |known| *known == plain(words))
    }
}

/// The job of a Work, by its id at its sender; none of another message.
fn work_of(digits: &str) -> Option<(u64, Words)> {
    let is_urgent = match digits.get(KIND)? {
        "09" => false,
        "0b" => true,
        _ => return None,
    };
    let number = |digits: &str| u64::from_str_radix(digits, 16).ok();
    let (id, rest) = split(digits.get(BODY + GROUP..)?, ID)?;
    let (queue, rest) = split(rest, 2)?;
    let (priority, rest) = if is_urgent { split(rest, 2)? } else { ("00", rest) };
    let (length, rest) = split(rest, 4)?;
    let payload = rest.get(..2 * usize::try_from(number(length)?).ok()?)?;
    Some((number(id)?, plain(&format!("{} {payload} {}", number(queue)?, number(priority)?))))
}

/// The first `count` digits, and those behind them.
fn split(digits: &str, count: usize) -> Option<(&str, &str)> {
    Some((digits.get(..count)?, digits.get(count..)?))
}

/// A job's words in one spelling: no payload is a dash in lines and nothing in messages, and a priority of 0 is left out in lines.
pub fn plain(words: &str) -> Words {
    let mut words: Vec<&str> = words.split(' ').collect();
    if words.get(2) == Some(&"0") {
        words.pop();
    }
    if words.get(1) == Some(&"-") {
        words[1] = "";
    }
    words.join(" ")
}

/// Whether more requests may have put jobs, or ended some, than the file says that did, and some did: then it goes by what is said of jobs later on.
pub fn is_open(own: u8, requests: &[&str], ids: Range<u64>, pending: &BTreeSet<u64>, ended: usize) -> bool {
    let (put, may_put) = (ids.end.saturating_sub(ids.start), submissions(requests).count() as u64);
    (0 < put && put < may_put) || (0 < ended && ended < ends_of(own, requests, pending).len())
}

/// The submissions among the requests that put the jobs of these ids. None where there are none such.
pub fn puts<'r>(requests: &[&'r str], ids: Range<u64>, seen: &Seen) -> Option<Vec<&'r str>> {
    let is_all = submissions(requests).count() as u64 == ids.end.checked_sub(ids.start)?;
    if is_all {
        return Some(submissions(requests).map(|(request, _)| request).collect());
    }
    let mut left = submissions(requests);
    ids.map(|id| left.find(|(_, words)| seen.may_be(id, words)).map(|(request, _)| request)).collect()
}

/// The requests that ended `count` of the jobs that were pending, each with the job's id. None where there are none such.
pub fn ends<'r>(own: u8, requests: &[&'r str], pending: &BTreeSet<u64>, count: usize, seen: &Seen) -> Option<Vec<(u64, &'r str)>> {
    let mut ends = ends_of(own, requests, pending);
    if ends.len() > count && count > 0 {
        // one that is named later on was still pending
        ends.retain(|(id, _)| !seen.jobs.contains_key(id));
    }
    if ends.len() < count {
        return None;
    }
    ends.truncate(count);
    Some(ends)
}

/// The submissions among requests, each with the words of its job.
fn submissions<'a, 'r>(requests: &'a [&'r str]) -> impl Iterator<Item = (&'r str, &'r str)> + 'a {
    requests.iter().filter_map(|request| Some((*request, request.strip_prefix("submit ")?)))
}

/// The requests that may have ended pending jobs, one for each.
fn ends_of<'r>(own: u8, requests: &[&'r str], pending: &BTreeSet<u64>) -> Vec<(u64, &'r str)> {
    let mut named = BTreeSet::new();
    let named_once = |request: &&'r str| ended_by(own, request).filter(|id| pending.contains(id) && named.insert(*id)).map(|id| (id, *request));
    requests.iter().filter_map(named_once).collect()
}

/// The own job that a request may end.
pub fn ended_by(own: u8, request: &str) -> Option<u64> {
    match request.split_once(' ')? {
        ("finish", job) => job.strip_prefix(&format!("{own} "))?.parse().ok(),
        ("deliver", digits) if digits.get(KIND) == Some("0a") => u64::from_str_radix(digits.get(BODY..BODY + ID)?, 16).ok(),
        _ => None,
    }
}
