//! Makes one trace of the records of a cluster's nodes, which `invite trace` judges.

mod doubt;
mod follow;
mod growing;
mod history;
mod message;
mod notes;
mod order;
mod part;
mod records;
mod remote;
mod source;
mod store;
mod told;
mod trace;
mod why;

pub use follow::Following;
pub use records::{read, NodeRecord, RecordError};
pub use trace::Trace;
pub use why::Why;

use message::Begin;
use serde::de::IgnoredAny;
use serde_json::{Deserializer, Value};
use std::io::{self, Write};

/// What was told of an entry, of those that stand in a text with commas between them.
fn told_in(mut entries: &str, entry: usize) -> String {
    for _ in 0..entry {
        let mut values = Deserializer::from_str(entries).into_iter::<IgnoredAny>();
        values.next();
        entries = entries.get(values.byte_offset() + 1..).unwrap_or_default();
    }
    let entry = Deserializer::from_str(entries).into_iter::<Value>().next();
    entry.and_then(Result::ok).map_or_else(String::new, |entry| entry["told"].to_string())
}

/// Writes the beginning of a trace: all but its order and its end.
fn write_histories<'a>(out: &mut impl Write, histories: impl ExactSizeIterator<Item = &'a str>) -> io::Result<()> {
    let nodes = histories.len();
    write!(out, "{{\"histories\":[")?;
    for (node, entries) in histories.enumerate() {
        write!(out, "{}[{entries}]", if node == 0 { "" } else { "," })?;
    }
    write!(out, "],\"nodes\":{nodes}")
}

/// The trace of the records of all nodes, in their order. With times each entry says when it was, which no judgement needs.
pub fn trace_of(records: Vec<NodeRecord>, has_times: bool) -> Result<Trace, RecordError> {
    let begins = records.iter().map(begin_of).collect::<Result<Vec<Begin>, _>>()?;
    Trace::of(records, &begins.into(), has_times)
}

/// What the file of a node kept when its record began: a trace begins with count 1 and id 0.
fn begin_of(record: &NodeRecord) -> Result<Begin, RecordError> {
    if !record.is_there() {
        return Ok(Begin::default());
    }
    let fault = |what| RecordError::NoBegin { node: record.node, what };
    if record.found().find_map(|found| found.begins) == Some(false) {
        return Err(fault("the node ran already"));
    }
    if record.found().any(|found| found.is_ended) {
        return Err(RecordError::Ended { node: record.node });
    }
    match record.found().find_map(|found| found.keeps.as_deref()) {
        Some(keeps) => kept_at(record.node, keeps),
        None => Err(fault("it has no start of the node")),
    }
}

/// What a file kept, by the line that the first recovery prints.
fn kept_at(node: usize, keeps: &str) -> Result<Begin, RecordError> {
    let fault = |what| RecordError::NoBegin { node, what };
    let numbers: Vec<u64> = keeps.split(' ').filter_map(|word| word.parse().ok()).collect();
    match numbers.as_slice() {
        [count, next, 0] => Ok(Begin { count: count.saturating_sub(1), id: *next }),
        [_, _, _] => Err(fault("the node kept jobs already")),
        _ => Err(fault("it has no start of the node")),
    }
}

#[cfg(test)]
mod tests {
    use super::*;
    use crate::chance::{Chance, TURNS};

    fn written(trace: &Trace) -> serde_json::Value {
        let mut bytes = Vec::new();
        trace.write(&mut bytes).unwrap();
        serde_json::from_slice(&bytes).unwrap()
    }

    fn said(lines: &str) -> String {
        let record = NodeRecord::of_text(0, lines);
        trace_of(vec![record, NodeRecord::of_nothing(1)], false).map_or_else(|why| why.to_string(), |trace| written(&trace)["nodes"].to_string())
    }

    #[test]
    fn entries_are_told_when_they_were() {
        let begin = "start 1764000000000\n> recover\ngroup Normal 0 0:101 0\nkeeps 101 5 0\nok 1\n";
        let lines = format!("{begin}> submit 3 6869\nok 2 id 5\n> tick 9\nfired check\nok 3\n> finish 0 5\ngone 5\nok 4\n> tick 12\nok 5\n> finish 0 5\nok 6\n");
        let at = |has_times| {
            let trace = written(&trace_of(vec![NodeRecord::of_text(0, &lines)], has_times).unwrap());
            trace["histories"][0].as_array().unwrap().iter().map(|entry| entry["at"].as_u64()).collect::<Vec<_>>()
        };
        assert_eq!(at(true), [9, 9, 12, 12].map(|ms| Some(1764000000000 + ms)));
        assert_eq!(at(false), [None; 4]);
    }

    #[test]
    fn what_an_entry_tells_is_found_among_the_others() {
        let lines = "start\n> recover\ngroup Normal 0 0:101 0\nkeeps 101 5 0\nok 1\n> check\nok 2\n> check\nok 3\n> submit 3 6869\ntake 0 5 3 6869\nok 4 id 5\n> finish 0 5\ngone 5\nok 5\n";
        let trace = trace_of(vec![NodeRecord::of_text(0, lines)], true).unwrap();
        let told = [0, 1, 2, 3, 4].map(|entry| trace.told(0, entry));
        assert_eq!(told, [r#"{"dropped":"","group":"Normal 0 0:1 0"}"#, "null", r#"{"id":"0","took":"0 0 3 6869;"}"#, r#"{"gone":"0;"}"#, ""]);
        assert_eq!(trace.told(1, 0), "");
    }

    #[test]
    fn what_is_stored_piece_by_piece_is_one_trace() {
        let jobs = 3000;
        let begin = |node: usize| format!("start 1764000000000\n> recover\ngroup Normal {node} {node}:101 {node}\nkeeps 101 5 0\nok 1\n");
        let turn = |node: usize, job: u64| format!("> submit 3 6869\ntake {node} {job} 3 6869\nok {} id {job}\n> tick {job}\nok {}\n", 2 * job - 8, 2 * job - 7);
        let record = |node: usize| NodeRecord::of_text(node, &(begin(node) + &(5..5 + jobs).map(|job| turn(node, job)).collect::<String>()));
        let trace = trace_of(vec![record(0), record(1)], true).unwrap();
        let value = written(&trace);
        let entry = |node: usize, job: u64| serde_json::json!({"at": 1764000000005 + job, "do": "submit", "payload": "6869", "queue": 3, "sent": [], "told": {"id": job.to_string(), "took": format!("{node} {job} 3 6869;")}});
        for (node, job) in [(0, 1), (0, 1500), (1, 1), (1, 2999)] {
            let place = job as usize;
            assert_eq!(value["histories"][node][place], entry(node, job));
            assert_eq!((trace.told(node, place), trace.place(node, place).unwrap().1), (entry(node, job)["told"].to_string(), 9 + 5 * job as u32));
        }
        assert_eq!((value["histories"][1].as_array().unwrap().len(), trace.place(1, 3000), trace.told(1, 3000)), (3000, None, String::new()));
        let order: String = (0..6000).map(|turn| format!("{} - ", turn % 2)).collect();
        assert_eq!(value["order"], order.trim_end());
    }

    #[test]
    fn a_record_that_lacks_a_part_of_the_run_is_not_judged() {
        let start = "start\n> recover\ngroup Normal 0 0:101 0\nkeeps 101 5 0\nok 1\n";
        assert_eq!(said(start), "2");
        let begin = |what: &str| format!("the record of node 0 can't be judged: {what} where it begins");
        assert_eq!(said(&format!("> tick 9\nok 7\n{start}")), begin("the node ran already"));
        assert_eq!(said(&start.replace("5 0", "5 1")), begin("the node kept jobs already"));
        assert_eq!(said(""), begin("it has no start of the node"));
        let ended = "the record of node 0 can't be judged: it ends somewhere, and the node ran on";
        assert_eq!(said(&format!("{start}off\n{start}")), ended);
    }

    #[test]
    fn whatever_a_record_holds_is_judged_or_refused() {
        let begin = "start 1764000000000\n> recover\ngroup Normal 0 0:101 0\nkeeps 101 5 0\nok 1\n";
        let right = format!("{begin}> submit 3 6869\ntake 0 5 3 6869\nok 2 id 5\n> tick 9\nfired check\nsend 1 010101000000\nok 3\n> deliver 010101010000\nok 4\n> finish 0 5\ngone 5\nok 5\nstart 2\n> recover\nkeeps 102 6 0\nok 1\n");
        assert_eq!(said(&right), "2");
        let (mut chance, mut taken) = (Chance::of(16), 0);
        for _ in 0..TURNS {
            taken += usize::from(said(&chance.odd_text(&[&right], 300)) == "2");
        }
        assert!(taken > 50, "{taken}");
    }
}
