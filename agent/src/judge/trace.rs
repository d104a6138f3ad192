//! The trace of a cluster. It may be far larger than the records that it is made of: it isn't kept in memory.

use super::history::{History, Place};
use super::message::Begin;
use super::notes::{Note, Notes, Since};
use super::records::{NodeRecord, RecordError};
use super::store::{Store, Stored};
use super::{order, told_in};
use std::io::{self, Read, Write};
use std::ops::Range;
use std::path::PathBuf;
use std::sync::Arc;

/// No clock of a machine that runs says less, in milliseconds since 1970; a record that has no time counts from the beginning of a process.
const LEAST_TIME: u64 = 1_000_000_000_000;

/// Entries are stored once there are so many bytes of them.
const PIECE: usize = 64 * 1024;

/// The trace of a cluster: the history of each node, and the order of all turns where one is found.
pub struct Trace {
    nodes: Vec<Node>,
    /// The entries of all nodes, those of one with commas between them.
    entries: Stored,
    notes: Stored,
    order: Option<Stored>,
    has_times: bool,
}

/// The files of a node, and where its entries stand, and what was noted of them.
struct Node {
    paths: Vec<PathBuf>,
    entries: Range<u64>,
    notes: Range<u64>,
    since: Since,
}

impl Trace {
    /// Of the records of all nodes, in their order. With times each entry says when it was.
    pub fn of(records: Vec<NodeRecord>, begins: &Arc<[Begin]>, has_times: bool) -> Result<Trace, RecordError> {
        let (mut entries, mut notes) = (Store::new()?, Store::new()?);
        let nodes = (0..).zip(records).map(|(own, record)| Node::of(own, &record, begins, &mut entries, &mut notes));
        let nodes = nodes.collect::<Result<Vec<_>, _>>()?;
        let mut trace = Trace { nodes, entries: entries.end()?, notes: notes.end()?, order: None, has_times };
        let sendings = trace.nodes.iter().map(|node| node.since.sendings).sum();
        let (mut order, turns) = (Store::new()?, || trace.nodes.iter().map(|node| node.since.turns(trace.notes_of(node))).collect());
        if order::of(turns, sendings, &mut order)? {
            trace.order = Some(order.end()?);
        }
        Ok(trace)
    }

    fn notes_of(&self, node: &Node) -> Notes<'_> {
        Notes::of(self.notes.span(node.notes.clone()))
    }

    /// The files of an entry's node, where it stands there, and where its text is.
    fn find(&self, node: usize, entry: usize) -> Option<(&[PathBuf], Place, Range<u64>)> {
        let node = self.nodes.get(node)?;
        let mut begin = node.entries.start;
        for (number, note) in self.notes_of(node).enumerate() {
            let Note { place, length, .. } = note.ok()?;
            let end = begin + length as u64;
            if number == entry {
                return Some((&node.paths, place, begin..end));
            }
            begin = end + 1;
        }
        None
    }

    /// The file and the line of an entry, from 1: there what it says was over.
    pub fn place(&self, node: usize, entry: usize) -> Option<(&PathBuf, u32)> {
        let (paths, (part, line), _) = self.find(node, entry)?;
        Some((paths.get(part as usize)?, line))
    }

    /// What was told of an entry, as it says it.
    pub fn told(&self, node: usize, entry: usize) -> String {
        let mut text = String::new();
        if let Some((_, _, range)) = self.find(node, entry) {
            // what can't be read isn't said
            let _read = self.entries.span(range).read_to_string(&mut text);
        }
        told_in(&text, 0)
    }

    /// Writes it as JSON.
    pub fn write(&self, out: &mut impl Write) -> io::Result<()> {
        write!(out, "{{\"histories\":[")?;
        for (number, node) in self.nodes.iter().enumerate() {
            write!(out, "{}[", if number == 0 { "" } else { "," })?;
            self.write_entries(node, out)?;
            write!(out, "]")?;
        }
        write!(out, "],\"nodes\":{}", self.nodes.len())?;
        if let Some(order) = &self.order {
            write!(out, ",\"order\":\"")?;
            io::copy(&mut order.all(), out)?;
            write!(out, "\"")?;
        }
        write!(out, "}}")?;
        out.flush()
    }

    fn write_entries(&self, node: &Node, out: &mut impl Write) -> io::Result<()> {
        let mut entries = self.entries.span(node.entries.clone());
        if !self.has_times {
            return io::copy(&mut entries, out).map(|_| ());
        }
        let (mut entries, mut text) = (entries.buffered(), Vec::new());
        for (number, (note, time)) in self.notes_of(node).zip(node.since.times()).enumerate() {
            // with the comma before it
            let begin = usize::from(number > 0);
            text.resize(begin + note?.length, 0);
            entries.read_exact(&mut text)?;
            let (comma, entry) = text.split_at(begin);
            out.write_all(comma)?;
            match entry.split_first() {
                Some((brace, fields)) if time >= LEAST_TIME => {
                    out.write_all(&[*brace])?;
                    write!(out, "\"at\":{time},")?;
                    out.write_all(fields)?;
                }
                _ => out.write_all(entry)?,
            }
        }
        Ok(())
    }
}

impl Node {
    /// Reads the record of a node, and stores its entries and what was noted of them.
    fn of(own: u8, record: &NodeRecord, begins: &Arc<[Begin]>, entries: &mut Store, notes: &mut Store) -> Result<Node, RecordError> {
        let (from, noted_from) = (entries.length(), notes.length());
        let (paths, mut history) = (record.paths(), History::noted(own, Arc::clone(begins)));
        let mut heard = |place, line: &str| {
            history.reads(place, line)?;
            if history.unstored() > PIECE {
                history.store(entries, notes)?;
            }
            Ok(())
        };
        record.read(&mut heard).and_then(|()| history.end()).map_err(|why| why.in_one_of(&paths))?;
        history.store(entries, notes)?;
        Ok(Node { paths, entries: from..entries.length(), notes: noted_from..notes.length(), since: history.into_since() })
    }
}
