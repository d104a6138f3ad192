//! A trace that the proved program has read already: so its entries have the fields that docs/SIMULATION.md says.

use super::order::Recorded;
use serde_json::{Map, Value};
use std::collections::HashMap;

/// How the mark of an entry looks: it was refused, done, its disk failed or its node crashed, or its node came back.
#[derive(Clone, Copy, Debug, PartialEq, Eq)]
pub enum Look {
    Rest,
    Done,
    Fail,
    Rise,
}

impl Look {
    pub fn name(self) -> &'static str {
        match self {
            Look::Rest => "rest",
            Look::Done => "done",
            Look::Fail => "fail",
            Look::Rise => "rise",
        }
    }
}

/// An entry of a history. Messages are named by their place among those of the trace.
#[derive(Debug, PartialEq)]
pub struct Entry {
    /// What was done, as the trace says it.
    pub name: String,
    pub look: Look,
    pub brought: Option<usize>,
    pub sent: Vec<usize>,
    /// When it was, in milliseconds since 1970, where the trace says so.
    pub at: Option<u64>,
    /// Its other fields.
    pub fields: Map<String, Value>,
}

impl Entry {
    /// One that was brought nothing, and sent nothing.
    pub fn of(name: &str, look: Look) -> Entry {
        Entry { name: name.to_string(), look, brought: None, sent: Vec::new(), at: None, fields: Map::new() }
    }
}

#[derive(Default)]
pub struct Trace {
    pub histories: Vec<Vec<Entry>>,
    /// The digits of each message, once each.
    pub messages: Vec<String>,
    /// The turns of the recorded order, up to the first that can't be read.
    pub order: Vec<Recorded>,
}

impl Trace {
    pub fn read(text: &[u8]) -> serde_json::Result<Trace> {
        let whole: Value = serde_json::from_slice(text)?;
        let mut trace = Trace::default();
        let mut places = HashMap::new();
        for history in list(&whole["histories"]) {
            let entries = list(history).iter().map(|entry| trace.entry(&mut places, entry)).collect();
            trace.histories.push(entries);
        }
        let words: Vec<&str> = whole["order"].as_str().unwrap_or_default().split_whitespace().collect();
        trace.order = words.chunks_exact(2).map_while(|turn| Some((turn[0].parse().ok()?, turn[1].parse().ok()))).collect();
        Ok(trace)
    }

    fn entry(&mut self, places: &mut HashMap<String, usize>, entry: &Value) -> Entry {
        let name = entry["do"].as_str().unwrap_or_default();
        let look = match name {
            "none" => Look::Rest,
            "crash" => Look::Fail,
            _ if entry.get("fault").is_some() => Look::Fail,
            "recover" => Look::Rise,
            _ => Look::Done,
        };
        let brought = if name == "deliver" { entry["msg"].as_str().map(|digits| self.place(places, digits)) } else { None };
        let sent = list(&entry["sent"]).iter().filter_map(Value::as_str).map(|digits| self.place(places, digits)).collect();
        let is_other = |(key, _): &(&String, &Value)| !["do", "msg", "sent", "at"].contains(&key.as_str());
        let fields = entry.as_object().into_iter().flatten().filter(is_other).map(|(key, value)| (key.clone(), value.clone())).collect();
        Entry { brought, sent, at: entry["at"].as_u64(), fields, ..Entry::of(name, look) }
    }

    /// The place of a message, however its digits are written.
    fn place(&mut self, places: &mut HashMap<String, usize>, digits: &str) -> usize {
        let messages = &mut self.messages;
        *places.entry(digits.to_ascii_lowercase()).or_insert_with_key(|digits| {
            messages.push(digits.clone());
            messages.len() - 1
        })
    }
}

fn list(value: &Value) -> &[Value] {
    value.as_array().map_or(&[], Vec::as_slice)
}

#[cfg(test)]
mod tests {
    use super::*;
    use crate::chance::{Chance, TURNS};
    use serde_json::json;

    #[test]
    fn entries_of_each_look() {
        let text = r#"{"nodes":2,"order":"0 - 1 7 0 x y 1 2 3","histories":[[{"do":"none","fault":"device","sent":[]},{"do":"check","at":1764000000007,"sent":["0A","0b"]},
            {"do":"recover","kept":true,"sent":[]},{"do":"recover","kept":false,"fault":"mount","sent":[]},{"do":"crash","sent":[]}],
            [{"do":"deliver","msg":"0a","msg":"0B","sent":[]},{"do":"submit","msg":"0a","fault":"device","sent":[]}]]}"#;
        let trace = Trace::read(text.as_bytes()).unwrap();
        let looks: Vec<Vec<&str>> = trace.histories.iter().map(|history| history.iter().map(|entry| entry.look.name()).collect()).collect();
        assert_eq!(looks, [vec!["rest", "done", "rise", "fail", "fail"], vec!["done", "fail"]]);
        assert_eq!(trace.histories[0][1], Entry { sent: vec![0, 1], at: Some(1764000000007), ..Entry::of("check", Look::Done) });
        assert_eq!(Value::from(trace.histories[0][3].fields.clone()), json!({"kept": false, "fault": "mount"}));
        // of equal keys the last counts, and a message is one however it is written
        assert_eq!((trace.histories[1][0].brought, trace.histories[1][1].brought), (Some(1), None));
        assert_eq!(trace.messages, ["0a", "0b"]);
        assert_eq!(trace.order, [(0, None), (1, Some(7)), (0, None)]);
    }

    #[test]
    fn whatever_is_given_as_a_trace_is_read_or_refused() {
        let right = r#"{"histories":[[{"do":"submit","queue":3,"sent":["01090100001600"]},{"do":"deliver","brought":"010102000000","sent":[],"at":7}],[]],"nodes":2,"order":[[0,0],[1,0]]}"#;
        let mut chance = Chance::of(21);
        for _ in 0..TURNS {
            let odd = chance.odd(&[right], 200);
            if let Ok(trace) = Trace::read(&odd) {
                assert!(trace.histories.iter().map(Vec::len).sum::<usize>() + trace.messages.len() + trace.order.len() <= odd.len());
            }
        }
        assert!(Trace::read("[".repeat(100_000).as_bytes()).is_err());
    }
}
