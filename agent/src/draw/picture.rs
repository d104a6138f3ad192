//! The picture of a run, as an SVG. Time goes from left to right, by turns, and each node has a row: how it stands is a band in the colour of its group
//! with a line whose form is its phase; each turn is a mark on it, with an arrow to it from the turn that sent what it was brought. Entries that are left
//! stand behind the last turn.

use super::places::{across, band_top, below, down, edge, height, width, STEP};
use super::colours::PLAIN;
use super::lines::Left;
use super::message::Message;
use super::run::{Order, Run, Turn};
use super::sources::Source;
use super::stays::{Stand, Stay};
use super::trace::Look;
use std::fmt::Write;

/// How all is drawn.
pub const STYLE: &str = include_str!("picture.css");

/// The heads of arrows, the ground, and what marks, arrows, stubs, lines and bands say.
pub const LEGEND: &str = include_str!("legend.svg");

/// So many turns have words at them.
const FEW: usize = 60;

/// How many turns after its name a node is named again.
const AGAIN: usize = 40;

/// How many patterns lie on plain colours where these don't suffice.
const PATTERNS: usize = 5;

/// Which order it is.
pub fn order(order: Order) -> String {
    format!("<text x=\"16\" y=\"19\" font-size=\"11\">Time goes right, by turns, {}</text>\n", order.words())
}

pub fn svg(run: &Run) -> String {
    let mut text = String::new();
    drawn(&mut text, run).unwrap_or_default(); // writing to a string never fails
    text
}

fn drawn(text: &mut String, run: &Run) -> std::fmt::Result {
    let letters = run.left.iter().map(|left| left.why.len()).max().unwrap_or(0);
    let (wide, high) = (width(run.turns.len(), letters), height(run.nodes));
    write!(text, "<svg xmlns=\"http://www.w3.org/2000/svg\" width=\"{wide}\" height=\"{high}\"")?;
    write!(text, " font-family=\"DejaVu Sans, Verdana, sans-serif\" font-size=\"10\" fill=\"#222\">\n<style>\n{STYLE}</style>\n{LEGEND}")?;
    text.push_str(&order(run.order));
    if !run.left.is_empty() {
        writeln!(text, "<g font-size=\"11\" class=\"left\"><circle cx=\"691\" cy=\"35\" r=\"5\"/><text x=\"700\" y=\"39\">left: can't be, or waits</text></g>")?;
    }
    run.stays.iter().try_for_each(|stay| band(text, stay))?;
    (0..run.nodes).try_for_each(|node| names(text, node, run.turns.len()))?;
    run.turns.iter().enumerate().try_for_each(|(at, turn)| arrow(text, at, turn, run))?;
    run.turns.iter().enumerate().try_for_each(|(at, turn)| mark(text, at, turn, run))?;
    run.left.iter().try_for_each(|left| left_behind(text, run.turns.len(), left))?;
    writeln!(text, "</svg>")
}

fn band(text: &mut String, stay: &Stay) -> std::fmt::Result {
    let Stay { node, since, until, stand, colour } = stay;
    let Stand { phase, group, coordinator, members } = stand;
    let (x, y, wide) = (edge(*since), band_top(*node), (until - since) * STEP);
    write!(text, "<svg x=\"{x}\" y=\"{y}\" width=\"{wide}\" height=\"61\"><title>node {node}, from turn {since} until turn {until}: ")?;
    write!(text, "{phase} in group {group}, coordinator {coordinator}, members {members}</title>")?;
    write!(text, "<rect width=\"100%\" height=\"100%\" class=\"g{}\"/>", colour % PLAIN)?;
    if *colour >= PLAIN {
        write!(text, "<rect width=\"100%\" height=\"100%\" fill=\"url(#p{})\"/>", (colour / PLAIN - 1) % PATTERNS)?;
    }
    write!(text, "<line x2=\"100%\" y1=\"20\" y2=\"20\" class=\"{}\"/>", phase.to_lowercase())?;
    write!(text, "<text x=\"3\" y=\"46\" class=\"group\">{group}</text>")?;
    writeln!(text, "<text x=\"3\" y=\"57\">{coordinator} of {members}</text></svg>")
}

/// The name of a node, and again at every 40th turn.
fn names(text: &mut String, node: usize, turns: usize) -> std::fmt::Result {
    writeln!(text, "<text class=\"name\" x=\"88\" y=\"{}\">node {node}</text>", down(node))?;
    (1..=turns / AGAIN).try_for_each(|time| {
        writeln!(text, "<text class=\"again\" x=\"{}\" y=\"{}\">node {node}</text>", across(time * AGAIN), below(node))
    })
}

fn arrow(text: &mut String, at: usize, turn: &Turn, run: &Run) -> std::fmt::Result {
    let (message, Source { turn: from, sure, .. }) = match &turn.brought {
        Some(brought) => brought,
        None => return Ok(()),
    };
    let (class, doubt) = if *sure { ("message", "") } else { ("unsure", ", perhaps from another turn") };
    let (x, y) = (across(*from), down(run.turns[*from].node));
    let (end, low) = (across(at), down(turn.node));
    writeln!(text, "<path class=\"{class}\" d=\"M{x} {y}L{end} {low}\"><title>{}{doubt}</title></path>", run.messages[*message].words())
}

fn mark(text: &mut String, at: usize, turn: &Turn, run: &Run) -> std::fmt::Result {
    let Turn { node, index, name, look, brought, .. } = turn;
    write!(text, "<g transform=\"translate({} {})\"><title>turn {at}: node {node}, entry {index}: {name}</title>", across(at), down(*node))?;
    write!(text, "<circle r=\"4\" class=\"{}\"/>", look.name())?;
    if name == "crash" {
        write!(text, "<path class=\"crash\" d=\"M-8 -8L8 8M-8 8L8 -8\"/>")?;
    }
    if run.turns.len() <= FEW {
        write!(text, "<text x=\"-3\" y=\"14\" class=\"entry\">{index}</text>")?;
        words(text, name, *look, brought.as_ref().map(|(message, _)| &run.messages[*message]))?;
    }
    if !turn.untaken.is_empty() {
        write!(text, "<g class=\"untaken\"><title>no turn was brought what it sent to {}</title>", turn.untaken())?;
        write!(text, "<path d=\"M2 3L8 13M4 13L12 13M8 9L8 17\"/></g>")?;
    }
    writeln!(text, "</g>")
}

/// What was done, or the kind of the message that came; nothing where it was refused.
fn words(text: &mut String, name: &str, look: Look, brought: Option<&Message>) -> std::fmt::Result {
    match brought {
        Some(message) => write!(text, "<text class=\"deed kind\">{}</text>", message.kind),
        None if look == Look::Rest => Ok(()),
        None => write!(text, "<text class=\"deed\">{name}</text>"),
    }
}

fn left_behind(text: &mut String, turns: usize, left: &Left) -> std::fmt::Result {
    let Left { node, why } = left;
    write!(text, "<g class=\"left\" transform=\"translate({} {})\"><title>{why}</title>", across(turns), down(*node))?;
    writeln!(text, "<circle r=\"5\"/><text x=\"10\" y=\"4\">{why}</text></g>")
}
