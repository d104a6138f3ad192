//! Judges the records of a cluster that goes on. The program keeps nothing from one judgement to the next, so each is of the whole: it may take as long as it
//! takes, and the next begins as much later. What it says of a beginning holds of the whole: an entry that can't be never could.

use super::commands::print;
use super::program::{culprit, told_otherwise, unread};
use super::Failure;
use crate::judge::{Following, RecordError};
use crate::say::say;
use std::collections::HashMap;
use std::io::{self, Write};
use std::path::{Path, PathBuf};
use std::process::{Command, Stdio};
use std::thread;
use std::time::{Duration, Instant, SystemTime};

/// Records are looked at again after so long at least.
const PAUSE: Duration = Duration::from_millis(200);

const MEGABYTE: usize = 1_000_000;

pub struct Follower<'a> {
    pub program: &'a Path,
    /// Where numbers for a monitor are written.
    pub metrics: Option<&'a Path>,
    /// So long a message may have come of which the record of its sender has nothing.
    pub patience: Duration,
    /// So many megabytes of entries are kept at most.
    pub most: usize,
}

/// What is known by now.
#[derive(Default)]
struct Known {
    /// Of each node the number of the entry that waits first, and since when.
    waits: HashMap<usize, (usize, Instant)>,
    /// How long the last judgement took, and when it was.
    took: Duration,
    judged: Option<SystemTime>,
    is_alarmed: bool,
}

impl Known {
    /// Notes of each node the entry that waits first; and gives the one that did for longest, if that is longer than the patience. While not all lines that were
    /// read are entries nobody's time passes: what is waited for may stand there.
    fn waited(&mut self, firsts: impl Iterator<Item = (usize, usize)>, are_all: bool, patience: Duration) -> Option<(usize, usize)> {
        let now = Instant::now();
        let since = |node, entry| self.waits.get(&node).filter(|(before, _)| are_all && *before == entry).map_or(now, |(_, since)| *since);
        self.waits = firsts.map(|(node, entry)| (node, (entry, since(node, entry)))).collect();
        let longest = self.waits.iter().filter(|(_, (_, since))| now - *since > patience).min_by_key(|(node, (_, since))| (*since, **node));
        longest.map(|(node, (entry, _))| (*node, *entry))
    }
}

impl Follower<'_> {
    /// Follows the records until something in them can't have been: that is said, and the status is 1.
    pub fn follow(&self, files: &[PathBuf]) -> Result<(), Failure> {
        let mut following = Following::of(files).map_err(unread)?;
        let mut known = Known::default();
        loop {
            let is_new = match following.read() {
                Err(why @ RecordError::Untrue { .. }) => return self.untold(&following, &mut known, &why),
                read => read.map_err(unread)?,
            };
            let is_begun = following.absent().is_empty();
            if is_begun && (is_new || !known.waits.is_empty()) {
                let begun = Instant::now();
                let culprit = self.judged(&mut following, &mut known)?;
                (known.took, known.judged) = (begun.elapsed(), Some(SystemTime::now()));
                known.is_alarmed = culprit.is_some();
                self.tell(&following, &known)?;
                if let Some((node, entry)) = culprit {
                    return self.alarmed(&following, node, entry);
                }
            } else if known.judged.is_none() {
                self.tell(&following, &known)?;
            }
            if following.bytes() > self.most.saturating_mul(MEGABYTE) {
                return Err(Failure::NotDone(format!("the entries are more than {} MB: follow records that begin anew", self.most)));
            }
            if !following.has_more() {
                thread::sleep(PAUSE.max(known.took));
            }
        }
    }

    /// The node and the entry that can't have been, if any: by the program, or since its message stands in no record for too long. Where there is none, what nothing rests
    /// on any more is forgotten.
    fn judged(&self, following: &mut Following, known: &mut Known) -> Result<Option<(usize, usize)>, Failure> {
        let (verdict, _) = self.asked(following, &["trace", "--ongoing"], Stdio::null())?;
        if let Some(culprit) = culprit(&verdict) {
            return Ok(Some(culprit));
        }
        let mut words = verdict.split_whitespace();
        if !matches!(words.next(), Some("Run" | "Ongoing")) {
            return Err(Failure::NotDone(format!("the program says {:?} of the records", verdict.trim_end())));
        }
        let mut taken = vec![0; following.entries().len()];
        words.filter_map(|word| word.parse::<usize>().ok()).for_each(|node| taken[node] += 1);
        let waiting = following.entries().into_iter().zip(&taken).enumerate().filter(|(_, (entries, taken))| *taken < entries);
        let firsts = waiting.map(|(node, (_, taken))| (node, following.number(node, *taken)));
        let longest = known.waited(firsts, !following.is_waiting(), self.patience.max(following.least_patience()));
        if longest.is_none() {
            following.forget(&taken);
        }
        Ok(longest.map(|(node, _)| (node, taken[node])))
    }

    /// What the program prints of the entries so far, and says on standard error.
    fn asked(&self, following: &Following, words: &[&str], errors: Stdio) -> Result<(String, String), Failure> {
        let named = |why: io::Error| Failure::Usage(format!("{}: {why}", self.program.display()));
        let mut child = Command::new(self.program).args(words).stdin(Stdio::piped()).stdout(Stdio::piped()).stderr(errors).spawn().map_err(named)?;
        if let Some(input) = child.stdin.take() {
            // where it doesn't read to the end its status says why
            let _unread = following.writer()(&mut io::BufWriter::new(input));
        }
        let done = child.wait_with_output().map_err(named)?;
        let text = |bytes: &[u8]| String::from_utf8_lossy(bytes).into_owned();
        Ok((text(&done.stdout), text(&done.stderr)))
    }

    /// A line says what its node can't have said.
    fn untold(&self, following: &Following, known: &mut Known, why: &RecordError) -> Result<(), Failure> {
        known.is_alarmed = true;
        self.tell(following, known)?;
        print(&format!("alarm: {why}\n"))?;
        Err(Failure::Program { status: 1, why: None })
    }

    fn alarmed(&self, following: &Following, node: usize, entry: usize) -> Result<(), Failure> {
        let place = following.place(node, entry).map_or_else(String::new, |(path, line)| format!(", which ends in {}, line {line}", path.display()));
        print(&format!("alarm: look first at node {node}, entry {}{place}\n", following.number(node, entry)))?;
        // and why, on standard error
        let (_, why) = self.asked(following, &["trace"], Stdio::piped())?;
        say(numbered(&why, |node, entry| following.number(node, entry)));
        let (turns, _) = self.asked(following, &["trace", "--turns"], Stdio::null())?;
        told_otherwise(turns.lines(), node, entry, || following.told(node, entry)).into_iter().for_each(|why| say(format_args!("dumgerokctl: {why}")));
        Err(Failure::Program { status: 1, why: None })
    }

    /// Writes the numbers, so that a reader never finds a part of them.
    fn tell(&self, following: &Following, known: &Known) -> Result<(), Failure> {
        let path = match self.metrics {
            Some(path) => path,
            None => return Ok(()),
        };
        let beside = path.with_extension("new");
        let written = std::fs::File::create(&beside).and_then(|mut file| file.write_all(metrics(following, known).as_bytes()));
        written.and_then(|()| std::fs::rename(&beside, path)).map_err(Failure::Output)
    }
}

/// What the program says of entries, with their numbers among all that there were: `.. node N, entry K ..` or `node N: entry K ..`.
fn numbered(said: &str, number: impl Fn(usize, usize) -> usize) -> String {
    let mut words: Vec<String> = said.trim_end().split(' ').map(str::to_string).collect();
    for at in 0..words.len().saturating_sub(3) {
        let is_entry = words[at].ends_with("node") && words[at + 2] == "entry";
        let digits = words[at + 3].chars().take_while(char::is_ascii_digit).count();
        if let (true, Ok(node), Ok(entry)) = (is_entry, words[at + 1].trim_end_matches([',', ':']).parse(), words[at + 3][..digits].parse()) {
            words[at + 3] = format!("{}{}", number(node, entry), &words[at + 3][digits..]);
        }
    }
    words.join(" ")
}

/// The numbers, as Prometheus reads them.
fn metrics(following: &Following, known: &Known) -> String {
    let judged = known.judged.and_then(|time| time.duration_since(SystemTime::UNIX_EPOCH).ok()).unwrap_or_default();
    let rows = [
        ("alarm", "1 where something can't have been", f64::from(u8::from(known.is_alarmed))),
        ("entries", "Entries read", (following.entries().iter().sum::<usize>() + following.forgotten()) as f64),
        ("forgotten_entries", "Of these, entries on which nothing rests any more", following.forgotten() as f64),
        ("entry_bytes", "What the others take", following.bytes() as f64),
        ("unheard_agents", "Agents that don't answer", following.unheard() as f64),
        ("absent_nodes", "Nodes whose records don't begin yet", following.absent().len() as f64),
        ("waiting_nodes", "Nodes of which an entry waits for a message", known.waits.len() as f64),
        ("last_seconds", "How long the last judgement took", known.took.as_secs_f64()),
        ("last_timestamp_seconds", "When it was over", judged.as_secs_f64()),
    ];
    let row = |(name, help, value): &(&str, &str, f64)| {
        format!("# HELP dumgerok_judge_{name} {help}\n# TYPE dumgerok_judge_{name} gauge\ndumgerok_judge_{name} {value}\n")
    };
    rows.iter().map(row).collect()
}

#[cfg(test)]
mod tests {
    use super::*;

    #[test]
    fn entries_are_named_by_their_numbers_among_all() {
        let said = "invite: no order takes all entries: look first at node 1, entry 0\nnode 0: entry 1 waits for 01020100000101\nnode 1: entry 0 (deliver) can't be\n";
        let whole = "invite: no order takes all entries: look first at node 1, entry 10\nnode 0: entry 1 waits for 01020100000101\nnode 1: entry 10 (deliver) can't be";
        assert_eq!(numbered(said, |node, entry| 10 * node + entry), whole);
        assert_eq!(numbered("invite: no memory\n", |_, _| 0), "invite: no memory");
    }

    #[test]
    fn no_time_passes_while_lines_wait_to_be_entries() {
        let mut known = Known::default();
        let mut waited = |entry, are_all| {
            let said = known.waited([(1, entry)].into_iter(), are_all, Duration::ZERO);
            thread::sleep(Duration::from_millis(2));
            said
        };
        assert_eq!([waited(4, true), waited(4, true), waited(5, true), waited(5, true)], [None, Some((1, 4)), None, Some((1, 5))]);
        assert_eq!([waited(5, false), waited(5, false), waited(5, true)], [None, None, Some((1, 5))]);
    }
}
