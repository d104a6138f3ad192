//! A file of a record: its lines, which are read from there as often as they are wanted, and what has to be known of them before a trace is made.

use super::records::{Head, RecordError};
use super::store::Span;
use std::borrow::Cow;
use std::collections::BTreeSet;
use std::fs::File;
use std::io::{self, BufRead, BufReader, Read};
use std::ops::Range;
use std::path::{Path, PathBuf};

/// So much of a file is read at a time.
const PIECE: usize = 64 * 1024;

/// Where a message has its sender, in hex digits.
const SENDER: Range<usize> = 4..6;

/// The node that said what was brought by a line.
fn sender_of(line: &str) -> Option<usize> {
    let digits = line.strip_prefix("> deliver ")?.get(SENDER)?;
    usize::from_str_radix(digits, 16).ok()
}

/// Whole lines, one by one. A last line without a line feed was cut off where the agent was killed.
struct Lines<R> {
    from: BufReader<R>,
    line: Vec<u8>,
    /// So many bytes were read of them.
    length: u64,
}

impl<R: Read> Lines<R> {
    fn of(from: R) -> Lines<R> {
        Lines { from: BufReader::with_capacity(PIECE, from), line: Vec::new(), length: 0 }
    }

    fn next(&mut self) -> io::Result<Option<Cow<'_, str>>> {
        self.line.clear();
        self.from.read_until(b'\n', &mut self.line)?;
        if self.line.pop() != Some(b'\n') {
            return Ok(None);
        }
        self.length += self.line.len() as u64 + 1;
        Ok(Some(String::from_utf8_lossy(self.line.strip_suffix(b"\r").unwrap_or(&self.line))))
    }
}

/// What has to be known of lines before a trace is made.
#[derive(Default)]
pub struct Found {
    /// Whether they begin with the start of a process; none where there is no line.
    pub begins: Option<bool>,
    /// The line that says what the node's file kept when it was mounted first.
    pub keeps: Option<String>,
    /// Whether the record ended somewhere, and the node ran on.
    pub is_ended: bool,
    /// The nodes of which messages came.
    pub senders: BTreeSet<usize>,
}

impl Found {
    fn hears(&mut self, line: &str) {
        self.begins.get_or_insert_with(|| line.starts_with("start"));
        self.is_ended |= line == "off";
        if self.keeps.is_none() && line.starts_with("keeps ") {
            self.keeps = Some(line.to_string());
        }
        self.senders.extend(sender_of(line));
    }
}

pub struct Part {
    pub head: Head,
    pub path: PathBuf,
    pub found: Found,
    file: File,
    /// Where its whole lines behind the first one stand.
    lines: Range<u64>,
}

impl Part {
    /// Looks through so much of a file.
    pub fn of(path: &Path, file: File, length: u64) -> Result<Part, RecordError> {
        let unreadable = |why| RecordError::Unreadable { path: path.to_path_buf(), why };
        let mut lines = Lines::of((&file).take(length));
        let head = lines.next().map_err(unreadable)?.and_then(|line| Head::read(&line));
        let head = head.ok_or_else(|| RecordError::NoRecord(path.to_path_buf()))?;
        let (begin, mut found) = (lines.length, Found::default());
        while let Some(line) = lines.next().map_err(unreadable)? {
            found.hears(&line);
        }
        let lines = begin..lines.length;
        Ok(Part { head, path: path.to_path_buf(), found, file, lines })
    }

    /// Gives on the lines behind the first one, each with its number, from 1.
    pub fn read(&self, mut heard: impl FnMut(u32, &str) -> Result<(), RecordError>) -> Result<(), RecordError> {
        let mut lines = Lines::of(Span::of(&self.file, self.lines.clone()));
        for number in 2.. {
            match lines.next().map_err(|why| RecordError::Unreadable { path: self.path.clone(), why })? {
                Some(line) => heard(number, &line)?,
                None => break,
            }
        }
        Ok(())
    }

    #[cfg(test)]
    pub fn of_bytes(bytes: &[u8]) -> Result<Part, RecordError> {
        use std::io::{Seek, Write};
        let folder = std::env::temp_dir();
        let mut file = super::store::unnamed(&folder)?;
        file.write_all(bytes)?;
        file.rewind()?;
        Part::of(&folder, file, bytes.len() as u64)
    }
}

#[cfg(test)]
mod tests {
    use super::super::records::MAX_NODES;
    use super::*;
    use crate::chance::{Chance, TURNS};
    use std::io::ErrorKind;

    fn lines_of(part: &Part) -> Vec<(u32, String)> {
        let mut lines = Vec::new();
        let heard = |number, line: &str| {
            lines.push((number, line.to_string()));
            Ok(())
        };
        part.read(heard).unwrap();
        lines
    }

    #[test]
    fn heads_that_no_agent_writes() {
        for (head, is_read) in [
            ("node 1 of 2 part 1", true),
            ("node 0 of 99999999999 part 1", false),
            ("node 2 of 2 part 1", false),
            ("node 0 of 0 part 1", false),
            ("node -1 of 2 part 1", false),
            ("node 0 of 2 part 18446744073709551616", false),
        ] {
            let text = format!("# dumgerok record 1 {head} cluster c\nstart\n");
            assert_eq!(Part::of_bytes(text.as_bytes()).is_ok(), is_read, "{head}");
        }
    }

    #[test]
    fn whole_lines_are_read_as_often_as_they_are_wanted() {
        let part = Part::of_bytes(b"# dumgerok record 1 node 1 of 2 part 1 cluster c\nstart 7\r\n> deliver 010100\nkeeps 1 5 0\nkeeps 2 5 0\n\xff\n> deliver 0101").unwrap();
        let lines = [(2, "start 7"), (3, "> deliver 010100"), (4, "keeps 1 5 0"), (5, "keeps 2 5 0"), (6, "\u{fffd}")].map(|(number, line)| (number, line.to_string()));
        assert_eq!([lines_of(&part), lines_of(&part)], [lines.to_vec(), lines.to_vec()]);
        let Found { begins, keeps, is_ended, senders } = &part.found;
        assert_eq!((*begins, keeps.as_deref(), *is_ended, senders.iter().copied().collect()), (Some(true), Some("keeps 1 5 0"), false, vec![0]));
        // what was there when it was looked through is gone
        part.file.set_len(60).unwrap();
        let why = part.read(|_, _| Ok(()));
        assert!(matches!(&why, Err(RecordError::Unreadable { why, .. }) if why.kind() == ErrorKind::UnexpectedEof), "{why:?}");
    }

    #[test]
    fn whatever_a_file_holds_is_read_or_refused() {
        let mut chance = Chance::of(17);
        for _ in 0..TURNS {
            let odd = chance.odd(&["# dumgerok record 1 node 1 of 2 part 1 cluster c d\nstart\n> tick 1\nok"], 200);
            if let Ok(part) = Part::of_bytes(&odd) {
                let Head { node, nodes, part: number, cluster } = &part.head;
                let said = format!("# dumgerok record 1 node {node} of {nodes} part {number} cluster {cluster}");
                assert_eq!(Head::read(&said), Some(part.head.clone()));
                assert!(*nodes <= MAX_NODES && lines_of(&part).len() <= odd.len());
            }
        }
    }
}
