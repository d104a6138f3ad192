//! What the agent answered, for a person.

use super::table::table;
use serde_json::Value;

fn word(value: &Value) -> String {
    match value {
        Value::Null => "-".to_string(),
        Value::String(text) => text.clone(),
        Value::Bool(true) => "yes".to_string(),
        Value::Bool(false) => "no".to_string(),
        Value::Array(all) if all.is_empty() => "-".to_string(),
        Value::Array(all) => all.iter().map(word).collect::<Vec<_>>().join(","),
        other => other.to_string(),
    }
}

/// A time that is so many milliseconds ago.
fn ago(ms: &Value) -> String {
    match ms.as_u64() {
        None => "-".to_string(),
        Some(ms) if ms < 10_000 => format!("{:.1} s", ms as f64 / 1000.0),
        Some(ms) if ms < 600_000 => format!("{} s", ms / 1000),
        Some(ms) if ms < 36_000_000 => format!("{} min", ms / 60_000),
        Some(ms) => format!("{} h", ms / 3_600_000),
    }
}

pub fn status(status: &Value) -> String {
    let of = |name: &str| word(&status[name]);
    let rows = [
        ("cluster", format!("{}, {} nodes", of("cluster"), of("nodes"))),
        ("node", format!("{}{}", of("node"), if status["alive"] == true { "" } else { ", which doesn't answer" })),
        ("phase", of("phase")),
        ("group", format!("{} for {}", of("group"), ago(&status["since_ms"]))),
        (
            "coordinator",
            format!("{}{}", of("coordinator"), if status["is_coordinator"] == true { ", this node" } else { "" }),
        ),
        ("members", of("members")),
        ("majority", of("majority")),
        ("own queues", of("queues")),
        ("jobs kept", kept(status)),
        ("jobs in hand", in_hand(status)),
        ("drained", of("draining")),
        ("leases", leases(status)),
        ("recorded", of("recorded")),
        ("keys", if of("keys") == "-" { "none: whoever reaches the port speaks for any node".to_string() } else { of("keys") }),
        ("up", ago(&status["up_ms"])),
    ];
    rows.iter().map(|(name, value)| format!("{name:<13} {value}\n")).collect()
}

fn in_hand(status: &Value) -> String {
    match status["aside"].as_u64() {
        None | Some(0) => word(&status["in_hand"]),
        Some(aside) => format!("{}, of which {aside} are put aside (`dumgerokctl kick`)", word(&status["in_hand"])),
    }
}

/// How many jobs the node keeps, of how many that fit.
fn kept(status: &Value) -> String {
    match (status["pending"].as_u64(), status["pending_max"].as_u64()) {
        (Some(pending), Some(most)) if pending >= most => format!("{pending} of {most}: further ones are refused"),
        (Some(pending), Some(most)) if 2 * pending > most => format!("{pending} of {most}, more than half"),
        (Some(pending), Some(most)) => format!("{pending} of {most}"),
        (pending, _) => pending.map_or_else(|| "-".to_string(), |pending| pending.to_string()),
    }
}

/// How many leases the machine has, where the agent has some.
fn leases(status: &Value) -> String {
    match status["lease_ms"].as_u64() {
        Some(ms) if ms > 0 => format!("{}, each for {ms} ms at most", word(&status["leases"])),
        _ => "-".to_string(),
    }
}

pub fn all_leases(reply: &Value) -> String {
    let all = reply["leases"].as_array().map(Vec::as_slice).unwrap_or_default();
    let rows = all.iter().map(|lease| vec![word(&lease["name"]), word(&lease["epoch"]), ago(&lease["left_ms"])]);
    format!("{}{} machines vote\n", table(&["NAME", "EPOCH", "LEFT"], &rows.collect::<Vec<_>>()), word(&reply["voters"]))
}

pub fn members(reply: &Value) -> String {
    let all = reply["members"].as_array().map(Vec::as_slice).unwrap_or_default();
    let coordinator = all.iter().find(|member| member["coordinates"] == true);
    let has_tags = all.iter().any(|member| !tags(member).is_empty());
    let rows = all.iter().map(|member| {
        let role = match (&member["coordinates"], &member["in_group"]) {
            (Value::Bool(true), _) => "coordinator",
            (_, Value::Bool(true)) => "member",
            _ => "-",
        };
        let heard = heard(member, coordinator);
        let last = has_tags.then(|| tags(member));
        let row = [word(&member["node"]), word(&member["name"]), role.to_string(), word(&member["queues"]), heard];
        row.into_iter().chain(last).collect()
    });
    let heads = ["NODE", "ADDRESS", "IN THE GROUP", "QUEUES", "HEARD", "TAGS"];
    table(&heads[..heads.len() - usize::from(!has_tags)], &rows.collect::<Vec<_>>())
}

/// The tags of a machine, and of another one how long ago they were told.
fn tags(member: &Value) -> String {
    let told = member["tags"].as_object().filter(|told| !told.is_empty());
    let value = |value: &Value| payload(&hex::encode(value.as_str().unwrap_or_default()));
    let all = told.map(|told| told.iter().map(|(name, text)| format!("{name}={}", value(text))).collect::<Vec<_>>().join(","));
    match all {
        None => String::new(),
        Some(all) if member["is_self"] == true => all,
        Some(all) => format!("{all} ({} ago)", ago(&member["tags_ms"])),
    }
}

/// When a node was heard. Members of a group hear their coordinator, and nothing of each other: how long ago that was says nothing of them.
fn heard(member: &Value, coordinator: Option<&Value>) -> String {
    let is_true = |node: &Value, name: &str| node[name] == true;
    match coordinator.filter(|node| !is_true(node, "is_self")) {
        _ if is_true(member, "is_self") => "this node".to_string(),
        _ if !member["through"].is_null() => format!("{}, through node {}", ago(&member["heard_ms"]), member["through"]),
        Some(other) if is_true(member, "in_group") && other != member => format!("by node {}", other["node"]),
        _ if member["heard_ms"].is_null() => "not yet".to_string(),
        _ => ago(&member["heard_ms"]),
    }
}

/// A payload as text where it can be read as such, and can't be taken for digits.
pub fn payload(digits: &str) -> String {
    let text = hex::decode(digits).ok().and_then(|bytes| String::from_utf8(bytes).ok());
    match text {
        Some(text) if !text.starts_with("0x") && !text.chars().any(is_unseen) => text,
        _ => format!("0x{digits}"),
    }
}

/// Whether a terminal shows nothing for it, or something else than what stands there: controls, and those of Unicode that turn the direction of a line, join or
/// part words, or name tags.
fn is_unseen(letter: char) -> bool {
    let is_format = matches!(letter, '\u{ad}' | '\u{61c}' | '\u{180e}' | '\u{200b}'..='\u{200f}' | '\u{2028}'..='\u{202e}');
    letter.is_control() || is_format || matches!(letter, '\u{2060}'..='\u{206f}' | '\u{feff}' | '\u{fff9}'..='\u{fffb}' | '\u{e0000}'..='\u{e007f}')
}

pub fn jobs(reply: &Value) -> String {
    let jobs = reply["jobs"].as_array().map(Vec::as_slice).unwrap_or_default();
    let rows = jobs.iter().map(|job| {
        let state = match (&job["kept"], &job["aside"], job["attempt"].as_u64()) {
            (Value::Bool(true), ..) => "pending".to_string(),
            (_, Value::Bool(true), _) => "put aside".to_string(),
            (.., Some(attempt)) if attempt > 1 => format!("in hand, {attempt} times"),
            _ => "in hand".to_string(),
        };
        let [origin, id, queue, priority] = ["origin", "id", "queue", "priority"].map(|name| word(&job[name]));
        vec![state, origin, id, queue, priority, payload(job["payload"].as_str().unwrap_or_default())]
    });
    let text = table(&["STATE", "ORIGIN", "ID", "QUEUE", "PRIORITY", "PAYLOAD"], &rows.collect::<Vec<_>>());
    format!("{text}{} of {}\n", jobs.len(), word(&reply["total"]))
}

/// One change, in a line.
pub fn event(event: &Value) -> String {
    let of = |name: &str| word(&event[name]);
    let job = || format!("{}:{}", of("origin"), of("id"));
    let what = match event["event"].as_str().unwrap_or_default() {
        name @ ("state" | "group") => format!(
            "{name} {} {} of {}, coordinator {}, own queues {}",
            of("phase"),
            of("group"),
            of("members"),
            of("coordinator"),
            of("queues")
        ),
        "take" => format!(
            "take {} of queue {}: {}",
            job(),
            of("queue"),
            payload(event["payload"].as_str().unwrap_or_default())
        ),
        "majority" => format!("majority {}", of("majority")),
        "told" => format!("told by node {} {}: {}", of("from"), of("name"), payload(&hex::encode(event["text"].as_str().unwrap_or_default()))),
        name => format!("{name} {}", job()),
    };
    format!("{:>6}  {what}\n", of("change"))
}

#[cfg(test)]
mod tests {
    use super::*;
    use serde_json::json;

    #[test]
    fn members_are_heard_by_their_coordinator() {
        let row = |node: u8, (in_group, coordinates): (bool, bool), heard: Value| {
            let mut row = json!({"node": node, "name": "n", "is_self": node == 0, "queues": [], "heard_ms": heard});
            (row["in_group"], row["coordinates"]) = (json!(in_group), json!(coordinates));
            row
        };
        let (out, member, leads) = ((false, false), (true, false), (true, true));
        let rows = |roles: [(bool, bool); 4]| -> Vec<Value> {
            let heard = [json!(null), json!(700_000), json!(900), json!(null)];
            (0..).zip(roles.into_iter().zip(heard)).map(|(node, (role, heard))| row(node, role, heard)).collect()
        };
        for (roles, said) in [
            ([member, member, leads, out], ["this node", "by node 2", "0.9 s", "not yet"]),
            ([leads, member, member, out], ["this node", "11 min", "0.9 s", "not yet"]),
            ([out, out, out, out], ["this node", "11 min", "0.9 s", "not yet"]),
        ] {
            let text = members(&json!({ "members": rows(roles) }));
            let column = text.find("HEARD").unwrap();
            assert_eq!(text.lines().skip(1).map(|line| &line[column..]).collect::<Vec<_>>(), said);
        }
    }

    #[test]
    fn one_that_is_reached_through_another_node_is_told() {
        let row = |node: u8, through: Value| json!({"node": node, "name": "n", "is_self": node == 0, "in_group": true, "coordinates": node == 2, "queues": [], "heard_ms": 900, "through": through});
        let text = members(&json!({"members": [row(0, json!(null)), row(1, json!(2)), row(2, json!(null))]}));
        let column = text.find("HEARD").unwrap();
        assert_eq!(text.lines().skip(1).map(|line| &line[column..]).collect::<Vec<_>>(), ["this node", "0.9 s, through node 2", "0.9 s"]);
    }

    #[test]
    fn tags_stand_beside_their_machine() {
        let row = |node: u8, tags: Value| json!({"node": node, "name": "n", "is_self": node == 0, "queues": [], "heard_ms": 900, "tags": tags, "tags_ms": 12_000});
        let text = members(&json!({"members": [row(0, json!({"rack": "7", "role": "db"})), row(1, json!({"a": "b\u{202e}"})), row(2, json!({}))]}));
        let column = text.find("TAGS").unwrap();
        let shown: Vec<&str> = text.lines().skip(1).map(|line| line.get(column..).unwrap_or_default()).collect();
        assert_eq!(shown, ["rack=7,role=db", "a=0x62e280ae (12 s ago)", ""]);
        assert!(!members(&json!({"members": [row(0, json!({}))]})).contains("TAGS"));
    }

    #[test]
    fn for_a_person() {
        let reply = json!({"jobs": [{"kept": true, "origin": 1, "id": 7, "queue": 3, "priority": 0, "payload": "6869"}], "total": 1});
        let text = "STATE    ORIGIN  ID  QUEUE  PRIORITY  PAYLOAD\npending  1       7   3      0         hi\n1 of 1\n";
        assert_eq!(jobs(&reply), text);
        for (pending, most, said) in [
            (json!(3), json!(126), "3 of 126"),
            (json!(64), json!(126), "64 of 126, more than half"),
            (json!(126), json!(126), "126 of 126: further ones are refused"),
            (json!(7), json!(null), "7"),
            (json!(null), json!(null), "-"),
        ] {
            assert_eq!(kept(&json!({"pending": pending, "pending_max": most})), said);
        }
        let change = json!({"event": "drop", "origin": 1, "id": 7, "change": 12});
        assert_eq!(event(&change), "    12  drop 1:7\n");
        assert_eq!((payload("ff00"), payload("")), ("0xff00".to_string(), String::new()));
        for (text, is_shown) in [("größer 0x", true), ("0xff", false), ("a\u{202e}b", false), ("a\u{200d}b", false), ("a\nb", false)] {
            assert_eq!(payload(&hex::encode(text)) == text, is_shown, "{text:?}");
        }
        assert_eq!(
            [json!(400), json!(90_000), json!(700_000), json!(null)].map(|ms| ago(&ms)),
            ["0.4 s", "90 s", "11 min", "-"]
        );
    }
}
