//! The page of a run: what is drawn as data, and the script that draws what is in view of it, since an SVG of 100,000 turns is more than a browser draws
//! at once.

use super::filled;
use super::jobs::JobSpan;
use super::lines::Left;
use super::message::{Job, Message};
use super::picture::{order, LEGEND, STYLE};
use super::run::{Run, Turn};
use super::stays::{Stand, Stay};
use serde_json::{json, Value};

/// The script, in the order of its parts.
const SCRIPT: [&str; 6] = [
    include_str!("page/data.js"),
    include_str!("page/sight.js"),
    include_str!("page/paint.js"),
    include_str!("page/marks.js"),
    include_str!("page/tell.js"),
    include_str!("page/keys.js"),
];

pub fn html(run: &Run) -> String {
    // those that can't be come first: what waits may wait for these
    let (waiting, wrong): (Vec<&Left>, Vec<&Left>) = run.left.iter().partition(|left| left.waits());
    let left: String = wrong.into_iter().chain(waiting).map(item).collect();
    let data = [
        format!("\"nodes\":{}", run.nodes),
        format!("\"messages\":{}", list(&run.messages, message)),
        format!("\"turns\":{}", list(&run.turns, turn)),
        format!("\"stays\":{}", list(&run.stays, stay)),
        format!("\"jobs\":{}", list(&run.jobs, span)),
    ];
    let parts = [
        ("page.css", include_str!("page/page.css")),
        ("picture.css", STYLE),
        ("legend", LEGEND),
        ("order", &order(run.order)),
        ("left", &left),
        ("data", &format!("{{{}}}", data.join(",\n"))),
        ("page.js", &SCRIPT.concat()),
    ];
    filled(include_str!("page/page.html"), &parts)
}

fn item(left: &Left) -> String {
    let class = if left.waits() { "waits" } else { "wrong" };
    format!("<li data-node=\"{}\" class=\"{class}\">{}</li>\n", left.node, left.why)
}

fn list<T>(all: &[T], one: fn(&T) -> Value) -> String {
    let lines: Vec<String> = all.iter().map(|each| one(each).to_string()).collect();
    format!("[\n{}]", lines.join(",\n"))
}

fn name(job: &Option<Job>) -> String {
    job.map_or_else(String::new, |(origin, id)| format!("{origin}:{id}"))
}

/// A message: its words, its kind, its digits, its receiver, its job, and all that it says.
fn message(message: &Message) -> Value {
    let Message { digits, receiver, kind, job, .. } = message;
    json!([message.words(), kind, digits, receiver, name(job), message.all_words()])
}

/// A turn, as the script reads it: its node, its entry, how it looks, what was done; the turn that sent what came, or -1, that message's place there, and
/// whether that is sure; the message that came, or -1, and those that it sent; for whom it sent what came to none; its job, when it was, and its other fields.
fn turn(turn: &Turn) -> Value {
    let (from, place, sure, came) = match &turn.brought {
        Some((message, source)) => (json!(source.turn), source.place, source.sure, json!(message)),
        None => (json!(-1), 0, true, json!(-1)),
    };
    let Turn { node, index, look, name: done, sent, job, at, fields, .. } = turn;
    json!([node, index, look.name(), done, from, place, u8::from(sure), came, sent, turn.untaken(), name(job), at, fields])
}

fn stay(stay: &Stay) -> Value {
    let Stay { node, since, until, colour, stand: Stand { phase, group, coordinator, members } } = stay;
    json!([node, since, until, phase, group, coordinator, members, colour])
}

/// A job: its name, the turn that submitted it, the one in which it ended or null, and all its turns.
fn span(span: &JobSpan) -> Value {
    json!([name(&Some(span.job)), span.begin, span.end, span.turns])
}
