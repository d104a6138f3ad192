//! The run as Chrome's trace events, which Perfetto and chrome://tracing read: each node is a process, whose first track has its entries and whose second one
//! how it stands; a message is a flow, a job an asynchronous event.

use super::jobs::JobSpan;
use super::run::{Run, Turn};
use super::stays::Stay;
use serde_json::{json, Map, Value};

/// How many microseconds a turn takes where the trace has no times, and an entry at most.
const STEP: u64 = 1000;
const LONGEST: u64 = 800;

const ENTRIES: u64 = 0;
const STANDS: u64 = 1;

pub fn text(run: &Run) -> String {
    let times = times(run);
    let mut events: Vec<Value> = (0..run.nodes).flat_map(names).collect();
    events.extend(run.stays.iter().map(|stay| stands(stay, &times)));
    let mut next = vec![None; run.nodes];
    let mut entries: Vec<Value> = Vec::new();
    for (at, turn) in run.turns.iter().enumerate().rev() {
        let longest = next[turn.node].map_or(LONGEST, |next: u64| LONGEST.min(next - times[at]));
        next[turn.node] = Some(times[at]);
        entries.push(entry(run, at, times[at], longest));
    }
    events.extend(entries.into_iter().rev());
    events.extend(run.turns.iter().enumerate().flat_map(|(at, turn)| flow(run, at, turn, &times)));
    events.extend(run.jobs.iter().flat_map(|span| job(span, &times)));
    events.extend(run.left.iter().map(|left| json!({"ph": "i", "s": "p", "name": left.why, "pid": left.node, "tid": ENTRIES, "ts": times[run.turns.len()]})));
    let lines: Vec<String> = events.iter().map(Value::to_string).collect();
    format!("{{\"displayTimeUnit\":\"ms\",\"traceEvents\":[\n{}\n]}}\n", lines.join(",\n"))
}

/// Of each turn, and of the end, the microseconds since the first: those of the clocks where each entry has a time, but each turn is later than the one before it.
fn times(run: &Run) -> Vec<u64> {
    let clocks: Option<Vec<u64>> = run.turns.iter().map(|turn| turn.at).collect();
    let clocks = match clocks {
        Some(clocks) => clocks.iter().map(|clock| clock - clocks.iter().min().unwrap_or(clock)).map(|clock| clock.saturating_mul(1000)).collect(),
        None => (0..).map(|turn| turn * STEP).take(run.turns.len()).collect::<Vec<u64>>(),
    };
    let mut times: Vec<u64> = Vec::new();
    for clock in clocks {
        let next = times.last().map_or(0, |last| last + 1);
        times.push(clock.max(next));
    }
    times.push(times.last().map_or(0, |last| last + STEP));
    times
}

fn names(node: usize) -> [Value; 3] {
    let thread = |tid: u64, name: &str| json!({"ph": "M", "name": "thread_name", "pid": node, "tid": tid, "args": {"name": name}});
    let process = json!({"ph": "M", "name": "process_name", "pid": node, "args": {"name": format!("node {node}")}});
    [process, thread(ENTRIES, "entries"), thread(STANDS, "group")]
}

fn stands(stay: &Stay, times: &[u64]) -> Value {
    let (begin, end, stand) = (times[stay.since], times[stay.until], &stay.stand);
    let told = json!({"coordinator": stand.coordinator, "members": stand.members, "phase": stand.phase});
    json!({"ph": "X", "name": format!("{} {}", stand.group, stand.phase), "cat": "group", "pid": stay.node, "tid": STANDS, "ts": begin, "dur": end - begin, "args": told})
}

fn entry(run: &Run, at: usize, time: u64, longest: u64) -> Value {
    let turn = &run.turns[at];
    let came = turn.brought.as_ref().map(|(message, _)| &run.messages[*message]);
    let mut told: Map<String, Value> = turn.fields.clone();
    told.insert("turn".to_string(), json!(at));
    told.insert("entry".to_string(), json!(turn.index));
    told.insert("sent".to_string(), json!(turn.sent.iter().map(|message| run.messages[*message].all_words()).collect::<Vec<_>>()));
    if let Some(message) = came {
        told.insert("message".to_string(), json!(message.all_words()));
    }
    if let Some((origin, id)) = turn.job {
        told.insert("job".to_string(), json!(format!("{origin}:{id}")));
    }
    let name = came.map_or(&turn.name, |message| &message.kind);
    json!({"ph": "X", "name": name, "cat": turn.look.name(), "pid": turn.node, "tid": ENTRIES, "ts": time, "dur": longest, "args": told})
}

/// The two ends of the message that a turn was brought.
fn flow(run: &Run, at: usize, turn: &Turn, times: &[u64]) -> Vec<Value> {
    let (message, source) = match &turn.brought {
        Some(brought) => brought,
        None => return Vec::new(),
    };
    let category = if source.sure { "message" } else { "perhaps" };
    let end = |ph: &str, turn: usize| json!({"ph": ph, "bp": "e", "id": at, "name": run.messages[*message].kind, "cat": category, "pid": run.turns[turn].node, "tid": ENTRIES, "ts": times[turn]});
    vec![end("s", source.turn), end("f", at)]
}

fn job(span: &JobSpan, times: &[u64]) -> [Value; 2] {
    let (origin, id) = span.job;
    let name = format!("job {origin}:{id}");
    let end = |ph: &str, time: u64| json!({"ph": ph, "name": name, "cat": "job", "id": name, "pid": origin, "tid": ENTRIES, "ts": time, "args": {"done": span.end.is_some()}});
    [end("b", times[span.begin]), end("e", span.end.map_or(times[times.len() - 1], |end| times[end]))]
}
