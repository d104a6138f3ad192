//! Record files, put together.

use super::history::Place;
use super::part::{Found, Part};
use std::env;
use std::fs::File;
use std::io;
use std::path::{Path, PathBuf};
use thiserror::Error;

/// So many nodes a cluster has at most.
pub const MAX_NODES: usize = 128;

#[derive(Debug, Error)]
pub enum RecordError {
    #[error("{path}: {why}")]
    Unreadable { path: PathBuf, why: io::Error },
    #[error("{0}: this is no record of a node")]
    NoRecord(PathBuf),
    #[error("the records are of {nodes} places, and none is of node {missing}, which others heard")]
    Missing { nodes: usize, missing: usize },
    #[error("of node {node} part {part} is missing")]
    Gap { node: usize, part: u64 },
    #[error("of node {node} part {part} is given twice")]
    Twice { node: usize, part: u64 },
    #[error("these are records of two clusters, {0:?} and {1:?}")]
    Clusters(String, String),
    #[error("the record of node {node} can't be judged: {what} where it begins")]
    NoBegin { node: usize, what: &'static str },
    #[error("the record of node {node} can't be judged: it ends somewhere, and the node ran on")]
    Ended { node: usize },
    #[error("the record of node {node}: its file said {keeps:?} when it was mounted, which nothing that stands before can have brought about, unless lines are lost there, as by a loss of power")]
    NoState { node: usize, keeps: String },
    #[error("the record of node {node}: {line:?} can't be read")]
    Line { node: usize, line: String },
    #[error("http://{host}: {why}")]
    Away { host: String, why: io::Error },
    #[error("http://{host} serves no record: it wants `record` and `http_record`")]
    Unserved { host: String },
    #[error("{}: it was deleted before it was read", path.display())]
    Deleted { path: PathBuf },
    #[error("{folder}: {0}", folder = env::temp_dir().display())]
    Unstored(#[from] io::Error),
    #[error("no run: in {}, line {}, node {node} told {why}", path.display(), place.1)]
    Untrue { node: usize, place: Place, path: PathBuf, why: String },
}

impl RecordError {
    /// With the name of the file, of those that the record has.
    pub fn in_one_of(self, paths: &[PathBuf]) -> RecordError {
        match self {
            RecordError::Untrue { node, place, why, .. } => {
                let path = paths.get(place.0 as usize).cloned().unwrap_or_default();
                RecordError::Untrue { node, place, path, why }
            }
            other => other,
        }
    }
}

/// All that was recorded of one node; of a place that nobody heard of there is nothing.
pub struct NodeRecord {
    pub node: usize,
    /// Its files. What stands in them is read from there: records may be larger than the memory.
    parts: Vec<Part>,
}

impl NodeRecord {
    /// Whether there is a file of it.
    pub fn is_there(&self) -> bool {
        !self.parts.is_empty()
    }

    /// The names of its files.
    pub fn paths(&self) -> Vec<PathBuf> {
        self.parts.iter().map(|part| part.path.clone()).collect()
    }

    /// What has to be known of the lines of its files, in their order.
    pub fn found(&self) -> impl Iterator<Item = &Found> {
        self.parts.iter().map(|part| &part.found)
    }

    /// Gives on the lines, each with where it stands.
    pub fn read(&self, mut heard: impl FnMut(Place, &str) -> Result<(), RecordError>) -> Result<(), RecordError> {
        (0..).zip(&self.parts).try_for_each(|(number, part)| part.read(|line, words| heard((number, line), words)))
    }

    #[cfg(test)]
    pub fn of_text(node: usize, text: &str) -> NodeRecord {
        let whole = format!("# dumgerok record 1 node {node} of {} part 1 cluster c\n{text}", node + 1);
        NodeRecord { node, parts: vec![Part::of_bytes(whole.as_bytes()).unwrap()] }
    }

    #[cfg(test)]
    pub fn of_nothing(node: usize) -> NodeRecord {
        NodeRecord { node, parts: Vec::new() }
    }
}

/// What the first line of a file says.
#[derive(Clone, Debug, PartialEq, Eq)]
pub struct Head {
    pub node: usize,
    pub nodes: usize,
    pub part: u64,
    pub cluster: String,
}

impl Head {
    pub fn read(line: &str) -> Option<Head> {
        let words: Vec<&str> = line.split(' ').collect();
        match words.as_slice() {
            ["#", "dumgerok", "record", "1", "node", node, "of", nodes, "part", part, "cluster", cluster @ ..] => {
                let head = Head { node: node.parse().ok()?, nodes: nodes.parse().ok()?, part: part.parse().ok()?, cluster: cluster.join(" ") };
                Some(head).filter(|head| (1..=MAX_NODES).contains(&head.nodes) && head.node < head.nodes)
            }
            _ => None,
        }
    }
}

/// Puts the heads of files in order: those of a node by their parts, of which none lacks and none is there twice. Of all nodes there is a list.
pub fn in_order<T>(mut files: Vec<T>, head_of: fn(&T) -> &Head) -> Result<Vec<Vec<T>>, RecordError> {
    if let Some(two) = files.windows(2).find(|two| head_of(&two[0]).cluster != head_of(&two[1]).cluster) {
        return Err(RecordError::Clusters(head_of(&two[0]).cluster.clone(), head_of(&two[1]).cluster.clone()));
    }
    files.sort_by_key(|file| (head_of(file).node, head_of(file).part));
    let nodes = files.iter().map(|file| head_of(file).nodes).max().unwrap_or(0);
    let mut all: Vec<Vec<T>> = (0..nodes).map(|_| Vec::new()).collect();
    for file in files {
        let (node, part) = (head_of(&file).node, head_of(&file).part);
        if let Some(last) = all[node].last().map(|last| head_of(last).part) {
            if last == part {
                return Err(RecordError::Twice { node, part });
            }
            if last.saturating_add(1) != part {
                return Err(RecordError::Gap { node, part: last.saturating_add(1) });
            }
        }
        all[node].push(file);
    }
    Ok(all)
}

/// A file, and where it ends now.
fn opened(path: &Path) -> Result<(&Path, File, u64), RecordError> {
    let file = File::open(path).and_then(|file| Ok((file.metadata()?.len(), file)));
    let (length, file) = file.map_err(|why| RecordError::Unreadable { path: path.to_path_buf(), why })?;
    Ok((path, file, length))
}

/// Looks through the files of all nodes of a cluster, in any order. Where their agents go on writing all are read up to where they end at the beginning.
pub fn read(paths: &[PathBuf]) -> Result<Vec<NodeRecord>, RecordError> {
    let files = paths.iter().map(|path| opened(path)).collect::<Result<Vec<_>, _>>()?;
    let parts = files.into_iter().map(|(path, file, length)| Part::of(path, file, length)).collect::<Result<Vec<_>, _>>()?;
    let records: Vec<NodeRecord> = in_order(parts, |part| &part.head)?.into_iter().enumerate().map(|(node, parts)| NodeRecord { node, parts }).collect();
    let nodes = records.len();
    // a place that nobody heard had no machine, or one that did nothing that the others saw
    let is_heard = |node: usize| records.iter().flat_map(NodeRecord::found).any(|found| found.senders.contains(&node));
    match records.iter().find(|record| !record.is_there() && is_heard(record.node)) {
        Some(missing) => Err(RecordError::Missing { nodes, missing: missing.node }),
        None => Ok(records),
    }
}

#[cfg(test)]
mod tests {
    use super::*;
    use std::fs;

    #[test]
    fn files_that_are_no_records_of_one_cluster() {
        let folder = std::env::temp_dir().join(format!("dumgerok-parts-{}", std::process::id()));
        fs::create_dir_all(&folder).unwrap();
        let file = |name: &str, head: &str| {
            let path = folder.join(name);
            fs::write(&path, format!("# dumgerok record 1 {head}\nstart\n")).unwrap();
            path
        };
        let first = file("0", "node 0 of 2 part 1 cluster a b");
        let heard = file("4", "node 0 of 2 part 1 cluster a b\nstart\n> deliver 010101000000\nok 2");
        let other = file("1", "node 1 of 2 part 1 cluster a b");
        let third = file("2", "node 1 of 2 part 3 cluster a b");
        let foreign = file("3", "node 1 of 2 part 1 cluster a");
        let said = |files: &[&PathBuf]| {
            let files: Vec<PathBuf> = files.iter().map(|file| (*file).clone()).collect();
            read(&files).map_or_else(|why| why.to_string(), |records| records.len().to_string())
        };
        assert_eq!(said(&[&other, &first]), "2");
        assert_eq!(said(&[&other, &first, &first]), "of node 0 part 1 is given twice");
        assert_eq!(said(&[&first, &third, &other]), "of node 1 part 2 is missing");
        assert_eq!((said(&[&first]), said(&[&heard, &other])), ("2".to_string(), "2".to_string()));
        assert_eq!(said(&[&heard]), "the records are of 2 places, and none is of node 1, which others heard");
        assert_eq!(said(&[&first, &foreign]), "these are records of two clusters, \"a b\" and \"a\"");
        fs::remove_dir_all(&folder).unwrap();
    }
}
