//! What is drawn of a run, without where it stands on the paper.

use super::colours::colour;
use super::jobs::{jobs, JobSpan};
use super::lines::{Left, Lines, Told};
use super::message::{shown, Job, Message};
use super::order::{followed, Followed};
use super::sources::{sources, Post, Source};
use super::stays::{stays, Stand, Stay};
use super::trace::{Entry, Look, Trace};
use super::DrawError;
use serde_json::{Map, Value};
use std::collections::{BTreeSet, HashMap};
use std::path::Path;

pub struct Turn {
    pub node: usize,
    /// The index of its entry in the history of its node.
    pub index: usize,
    pub name: String,
    pub look: Look,
    /// The message that it was brought, by its place among those of the run, and where that came from.
    pub brought: Option<(usize, Source)>,
    /// The messages that it sent.
    pub sent: Vec<usize>,
    /// The nodes for which it sent what no turn was brought.
    pub untaken: BTreeSet<u8>,
    /// The job that was submitted, worked on, finished or done in it.
    pub job: Option<Job>,
    pub at: Option<u64>,
    /// The other fields of its entry.
    pub fields: Map<String, Value>,
}

impl Turn {
    /// The nodes for which it sent what no turn was brought, in a row; a dash for none.
    pub fn untaken(&self) -> String {
        let nodes: Vec<String> = self.untaken.iter().map(u8::to_string).collect();
        if nodes.is_empty() { "-".to_string() } else { nodes.join(",") }
    }

    /// A field of its entry; null where it has none of this name.
    pub fn field(&self, name: &str) -> &Value {
        self.fields.get(name).unwrap_or(&Value::Null)
    }
}

/// In which order the turns are.
#[derive(Clone, Copy, Debug, PartialEq, Eq)]
pub enum Order {
    Recorded,
    /// So many of the first are in the recorded order, one at least.
    Begun(usize),
    Possible,
}

impl Order {
    pub fn words(self) -> String {
        match self {
            Order::Recorded => "in the order that was recorded.".to_string(),
            Order::Begun(count) => format!("in the order that was recorded up to turn {}, and behind that in one that can be.", count - 1),
            Order::Possible => "in an order in which they can have come: no order was recorded.".to_string(),
        }
    }
}

pub struct Run {
    pub nodes: usize,
    pub order: Order,
    pub messages: Vec<Message>,
    pub turns: Vec<Turn>,
    pub stays: Vec<Stay>,
    pub jobs: Vec<JobSpan>,
    pub left: Vec<Left>,
}

impl Run {
    /// The run of this trace, of which the program printed these turns. None where it printed what is wrong with the text.
    pub fn of(program: &Path, text: &[u8], said: &str) -> Result<Option<Run>, DrawError> {
        match Lines::of(said)? {
            None => Ok(None),
            Some(lines) => {
                let trace = Trace::read(text)?;
                let messages = shown(program, &trace.messages)?;
                Run::put_together(&trace, messages, lines).map(Some)
            }
        }
    }

    pub(super) fn put_together(trace: &Trace, messages: Vec<Message>, lines: Lines) -> Result<Run, DrawError> {
        let nodes = trace.histories.len();
        let is_there = |turn: &Told| trace.histories.get(turn.0).map_or(false, |history| turn.1 < history.len());
        if let Some((node, index, _)) = lines.turns.iter().find(|turn| !is_there(turn)) {
            return Err(DrawError::Said(format!("turn {node} {index}")));
        }
        let (told, numbers, order) = ordered(trace, lines.recorded, lines.turns);
        let entries: Vec<&Entry> = told.iter().map(|(node, index, _)| &trace.histories[*node][*index]).collect();
        let posts: Vec<Post> = (0..entries.len()).map(|turn| Post { brought: entries[turn].brought, number: numbers[turn], sent: &entries[turn].sent }).collect();
        let found = sources(&posts, &sendings(trace));
        let mut turns: Vec<Turn> = entries.iter().zip(&told).zip(found).map(|((entry, turn), found)| turn_of(entry, turn, found, &messages)).collect();
        let (jobs, of_turns) = jobs(nodes, &turns, &told, &messages);
        turns.iter_mut().zip(of_turns).for_each(|(turn, job)| turn.job = job);
        let stands: Vec<(usize, Option<Stand>)> = told.into_iter().map(|(node, _, stand)| (node, stand)).collect();
        let mut stays = stays(nodes, &stands);
        colour(&mut stays);
        Ok(Run { nodes, order, messages, turns, stays, jobs, left: lines.left })
    }
}

/// The turns in the order in which they are drawn, and the number of the message that each was brought, where it counts.
fn ordered(trace: &Trace, recorded: bool, turns: Vec<Told>) -> (Vec<Told>, Vec<Option<usize>>, Order) {
    if recorded {
        let mut numbers: Vec<Option<usize>> = trace.order.iter().map(|turn| turn.1).collect();
        numbers.resize(turns.len(), None);
        return (turns, numbers, Order::Recorded);
    }
    let Followed { turns, numbers, count } = followed(&trace.histories, &trace.order, &turns);
    (turns, numbers, if count > 0 { Order::Begun(count) } else { Order::Possible })
}

/// How often each message is sent in the whole trace.
fn sendings(trace: &Trace) -> HashMap<usize, usize> {
    let mut sent = HashMap::new();
    for message in trace.histories.iter().flatten().flat_map(|entry| &entry.sent) {
        *sent.entry(*message).or_default() += 1;
    }
    sent
}

fn turn_of(entry: &Entry, (node, index, _): &Told, (source, untaken): (Option<Source>, Vec<usize>), messages: &[Message]) -> Turn {
    Turn {
        node: *node,
        index: *index,
        name: entry.name.clone(),
        look: entry.look,
        brought: entry.brought.and_then(|message| Some((message, source?))),
        sent: entry.sent.clone(),
        untaken: untaken.into_iter().map(|message| messages[message].receiver).collect(),
        job: None,
        at: entry.at,
        fields: entry.fields.clone(),
    }
}
