//! Records that grow: what their agents append is read as it comes. The entries are kept, and not the records; and of the entries those that are still needed.

use super::growing::Growing;
use super::history::{History, Place};
use super::message::Begin;
use super::records::{in_order, Head};
use super::remote::{is_agent, Remote};
use super::source::{first_line, Files, Source};
use super::{told_in, write_histories, RecordError};
use std::io::{self, Write};
use std::path::{Path, PathBuf};
use std::sync::Arc;
use std::time::Duration;

/// A record of which so many bytes of entries aren't settled yet is read on once others are.
const MAX_UNSETTLED: usize = 8_000_000;

/// What somebody named: a file of a record, or an agent that serves it.
enum Named {
    File(PathBuf),
    Agent(Remote),
}

impl Named {
    fn of(path: &Path) -> Result<(Head, Named), RecordError> {
        if let Some(url) = path.to_str().filter(|word| is_agent(word)) {
            return Remote::begin(url).map(|(head, remote)| (head, Named::Agent(remote)));
        }
        let line = first_line(path).map_err(|why| RecordError::Unreadable { path: path.to_path_buf(), why })?;
        let head = Head::read(&line).ok_or_else(|| RecordError::NoRecord(path.to_path_buf()))?;
        Ok((head, Named::File(path.to_path_buf())))
    }
}

/// What the record of a node is read from; none where nothing was named.
fn source_of(node: usize, named: Vec<(Head, Named)>) -> Result<Option<Source>, RecordError> {
    let (mut paths, count) = (Vec::new(), named.len());
    for (head, one) in named {
        match one {
            Named::File(path) => paths.push(path),
            Named::Agent(remote) if count == 1 => return Ok(Some(Source::Agent(remote))),
            Named::Agent(_) => return Err(RecordError::Twice { node, part: head.part }),
        }
    }
    Ok(Some(paths).filter(|paths| !paths.is_empty()).map(|paths| Source::Files(Files::new(paths))))
}

/// The records of a cluster that goes on.
pub struct Following {
    records: Vec<Option<Growing>>,
    /// Once all have begun: the history of each node.
    histories: Vec<History>,
}

impl Following {
    /// Begins to follow the files of all nodes, in any order, and their agents. Parts that come later are found beside them.
    pub fn of(paths: &[PathBuf]) -> Result<Following, RecordError> {
        let named = paths.iter().map(|path| Named::of(path)).collect::<Result<Vec<_>, _>>()?;
        let records = in_order(named, |named| &named.0)?.into_iter().enumerate();
        let growing = |(node, named)| source_of(node, named).map(|source| source.map(|source| Growing::new(node, source)));
        Ok(Following { records: records.map(growing).collect::<Result<_, _>>()?, histories: Vec::new() })
    }

    /// Reads what was appended; whether there was anything.
    pub fn read(&mut self) -> Result<bool, RecordError> {
        let mut is_new = false;
        if self.histories.is_empty() {
            for record in self.records.iter_mut().flatten() {
                is_new |= record.look_for_begin()?;
            }
            self.begin_all();
        }
        let passes_over = self.passes_over();
        for (record, history) in self.records.iter_mut().zip(&mut self.histories) {
            if let Some(record) = record.as_mut().filter(|_| !passes_over || history.unsettled() < MAX_UNSETTLED) {
                let node = record.node;
                is_new |= record.read(|place, line| heard(node, history, place, line))?;
            }
        }
        Ok(is_new)
    }

    /// Whether those are passed over of which much waits: where there is more to read of others, on whom they wait.
    fn passes_over(&self) -> bool {
        let mut all = self.records.iter().zip(&self.histories);
        all.any(|(record, history)| record.as_ref().map_or(false, |record| record.has_more) && history.unsettled() < MAX_UNSETTLED)
    }

    /// Once all nodes have begun, their messages can be read: by what each began with.
    fn begin_all(&mut self) {
        if self.absent().is_empty() {
            let begins: Arc<[Begin]> = self.records.iter().map(|record| record.as_ref().and_then(|record| record.begin).unwrap_or_default()).collect();
            self.histories = (0..).zip(&self.records).map(|(own, _)| History::new(own, Arc::clone(&begins))).collect();
        }
    }

    /// The nodes whose records have no start of them yet.
    pub fn absent(&self) -> Vec<usize> {
        self.records.iter().flatten().filter(|record| record.begin.is_none()).map(|record| record.node).collect()
    }

    /// What was told of an entry, as it says it.
    pub fn told(&self, node: usize, entry: usize) -> String {
        told_in(self.histories.get(node).map_or("", History::entries), entry)
    }

    /// How many entries each node has.
    pub fn entries(&self) -> Vec<usize> {
        self.histories.iter().map(|history| history.places().len()).collect()
    }

    /// Whether of some node more may stand in its record than became entries: as what it sent since a kill, of which it isn't known yet what became of it, or while
    /// its agent doesn't answer.
    pub fn is_waiting(&self) -> bool {
        self.histories.iter().any(History::is_waiting) || self.records.iter().flatten().any(Growing::is_behind)
    }

    /// Whether there is more in the records than was read at once.
    pub fn has_more(&self) -> bool {
        self.records.iter().flatten().any(|record| record.has_more)
    }

    /// So long a message has to be missing at least: all that was said before it came is read by then.
    pub fn least_patience(&self) -> Duration {
        self.records.iter().flatten().map(Growing::lag).max().unwrap_or_default()
    }

    /// How many agents don't answer.
    pub fn unheard(&self) -> usize {
        self.records.iter().flatten().filter(|record| record.is_unheard).count()
    }

    /// How many bytes the trace has, with the lines that wait.
    pub fn bytes(&self) -> usize {
        self.histories.iter().map(History::bytes).sum()
    }

    /// Of the entries that were taken, so many of each node, those are forgotten on which nothing rests that may come.
    pub fn forget(&mut self, taken: &[usize]) {
        self.histories.iter_mut().zip(taken).for_each(|(history, taken)| history.forget(*taken));
    }

    /// The number of a node's entry among all that there were.
    pub fn number(&self, node: usize, entry: usize) -> usize {
        self.histories.get(node).map_or(entry, |history| history.number(entry))
    }

    /// How many entries were forgotten.
    pub fn forgotten(&self) -> usize {
        self.histories.iter().map(History::forgotten).sum()
    }

    /// What writes the trace as JSON, without an order: another thread may do that.
    pub fn writer<W: Write>(&self) -> impl FnOnce(&mut W) -> io::Result<()> + Send + '_ {
        let histories = &self.histories;
        move |out| {
            write_histories(out, histories.iter().map(History::entries))?;
            write!(out, "}}")?;
            out.flush()
        }
    }

    /// The file and the line of an entry, from 1.
    pub fn place(&self, node: usize, entry: usize) -> Option<(&PathBuf, u32)> {
        let (part, line) = self.histories.get(node)?.places().get(entry)?;
        Some((self.records.get(node)?.as_ref()?.paths.get(*part as usize)?, *line))
    }
}

fn heard(node: usize, history: &mut History, place: Place, line: &str) -> Result<(), RecordError> {
    if line == "off" {
        return Err(RecordError::Ended { node });
    }
    history.reads(place, line)
}

#[cfg(test)]
mod tests {
    use super::*;
    use std::fs::{self, OpenOptions};

    fn trace(following: &Following) -> serde_json::Value {
        let mut bytes = Vec::new();
        following.writer()(&mut bytes).unwrap();
        serde_json::from_slice(&bytes).unwrap()
    }

    #[test]
    fn what_is_appended_is_read_once_its_line_is_whole() {
        let folder = std::env::temp_dir().join(format!("dumgerok-following-{}", std::process::id()));
        fs::create_dir_all(&folder).unwrap();
        let head = |node: usize, part: u64| format!("# dumgerok record 1 node {node} of 3 part {part} cluster c\n");
        let begin = |node: usize| format!("start\n> recover\ngroup Normal {node} {node}:101 {node}\nkeeps 101 5 0\nok 1\n");
        let paths: Vec<PathBuf> = (0..2).map(|node| folder.join(format!("{node}.1"))).collect();
        let append = |path: &PathBuf, text: &str| OpenOptions::new().append(true).create(true).open(path).unwrap().write_all(text.as_bytes()).unwrap();
        append(&paths[0], &format!("{}{}", head(0, 1), begin(0)));
        append(&paths[1], &format!("{}start\n> recover\n", head(1, 1)));
        let mut following = Following::of(&paths).unwrap();
        assert!(following.read().unwrap());
        assert_eq!((following.absent(), following.entries()), (vec![1], vec![]));
        append(&paths[1], "group Normal 1 1:101 1\nkeeps 101 5 0\nok 1\n> tick 9\nfired check\nsend 0 010101000000\nok");
        assert!(following.read().unwrap());
        // the tick isn't answered before its last line is whole
        assert_eq!((following.absent(), following.entries()), (vec![], vec![0, 0, 0]));
        assert!(!following.read().unwrap());
        append(&paths[1], " 2\n");
        assert!(following.read().unwrap());
        let told = serde_json::json!({"dropped": "", "group": "Normal 1 1:1 1"});
        assert_eq!(trace(&following), serde_json::json!({"histories": [[], [{"do": "check", "sent": ["010101000000"], "told": told}], []], "nodes": 3}));
        assert_eq!(following.place(1, 0), Some((&paths[1], 10)));
        // the next part is found beside it
        let next = folder.join("1.2");
        append(&next, &format!("{}> submit 3 6869\nok 3 id 5\n", head(1, 2)));
        assert!(following.read().unwrap());
        assert_eq!((following.entries(), following.place(1, 1)), (vec![0, 2, 0], Some((&next, 3))));
        append(&next, "off\n");
        assert_eq!(following.read().map_err(|why| why.to_string()), Err(RecordError::Ended { node: 1 }.to_string()));
        fs::remove_dir_all(&folder).unwrap();
    }
}
