//! What the program says of a file, as JSON.

use serde_json::{json, Map, Value};

/// Names of which there may be more lines than one.
const LISTED: [&str; 2] = ["broken", "hint"];

fn value(word: &str) -> Value {
    word.parse::<u64>().map_or_else(|_| Value::from(word), Value::from)
}

/// Lines of a name and its value, as one object; the jobs of each queue that has some stand in `queues`, and what is broken or hints at something in lists.
pub fn inspected(text: &str) -> String {
    let mut found = Map::new();
    let mut queues = Map::new();
    for (name, word) in text.lines().filter_map(|line| line.split_once(' ')) {
        match name.strip_prefix("queue_") {
            Some(queue) => drop(queues.insert(queue.to_string(), value(word))),
            None if LISTED.contains(&name) => {
                if let Value::Array(all) = found.entry(name).or_insert_with(|| json!([])) {
                    all.push(Value::from(word));
                }
            }
            None => drop(found.insert(name.to_string(), value(word))),
        };
    }
    if found.contains_key("jobs") {
        found.insert("queues".to_string(), Value::Object(queues));
    }
    format!("{}\n", Value::Object(found))
}

/// A line `job ID QUEUE HEX P`; P is left out where it is 0, and a dash stands for no bytes.
fn job(line: &str) -> Option<Value> {
    let words: Vec<&str> = line.split(' ').collect();
    let (id, queue, digits, priority) = match words[..] {
        ["job", id, queue, digits] => (id, queue, digits, "0"),
        ["job", id, queue, digits, priority] => (id, queue, digits, priority),
        _ => return None,
    };
    let payload = if digits == "-" { "" } else { digits };
    Some(json!({"id": value(id), "queue": value(queue), "priority": value(priority), "payload": payload}))
}

/// The jobs, an object a line; where the file has none that can be read, what is damaged.
pub fn exported(text: &str) -> String {
    let lines = text.lines().map(|line| job(line).map_or_else(|| inspected(line), |job| format!("{job}\n")));
    lines.collect()
}

#[cfg(test)]
mod tests {
    use super::*;

    #[test]
    fn what_a_file_holds() {
        let whole = "kind node\nnode 2\nnodes 3\nslots 4\nused 3\ncount 18446744073709551615\nnext 2\njobs 2\nqueue_3 1\nqueue_15 1\n";
        let read: Value = serde_json::from_str(&inspected(whole)).unwrap();
        let wanted = json!({"kind": "node", "node": 2, "nodes": 3, "slots": 4, "used": 3, "count": u64::MAX, "next": 2, "jobs": 2, "queues": {"3": 1, "15": 1}});
        assert_eq!(read, wanted);
        let damaged: Value = serde_json::from_str(&inspected("kind store\ncount none\ndamaged_journal 5\n")).unwrap();
        assert_eq!(damaged, json!({"kind": "store", "count": "none", "damaged_journal": 5}));
        let broken: Value = serde_json::from_str(&inspected("broken counter_slots 4 9\nbroken sealed_behind 12\nhint job_differs 3\n")).unwrap();
        assert_eq!(broken, json!({"broken": ["counter_slots 4 9", "sealed_behind 12"], "hint": ["job_differs 3"]}));
    }

    #[test]
    fn jobs_of_a_file() {
        let lines: Vec<Value> = exported("job 4 3 -\njob 7 15 6869 255\n")
            .lines()
            .map(|line| serde_json::from_str(line).unwrap())
            .collect();
        let wanted = [
            json!({"id": 4, "queue": 3, "priority": 0, "payload": ""}),
            json!({"id": 7, "queue": 15, "priority": 255, "payload": "6869"}),
        ];
        assert_eq!(lines, wanted);
        assert_eq!(
            (exported(""), exported("damaged_journal 5\n")),
            (String::new(), "{\"damaged_journal\":5}\n".to_string())
        );
    }
}
