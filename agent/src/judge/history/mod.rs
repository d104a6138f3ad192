//! What one node did, as the entries of a trace. A record is read line by line, whether it is whole or grows.

mod effect;
mod entries;
mod forget;
mod recovery;
#[cfg(test)]
mod tests;

use super::doubt::ended_by;
use super::message::Begin;
use super::notes::{Noting, Since};
use super::order::Message;
use super::told::Told;
use super::RecordError;
use crate::node::{Closing, Group, Phase};
use effect::{effect_of, keys_of};
use forget::Kept;
use recovery::{Recovery, Waiting};
use std::collections::{BTreeSet, VecDeque};
use std::io::{self, Write};
use std::path::PathBuf;
use std::sync::Arc;

/// The requests that are no events. `tick` and `lost` name theirs.
const NO_EVENTS: [&str; 3] = ["compact", "state", "jobs"];

/// An event and the lines that stand behind it in the answer.
struct Event<'a> {
    name: &'a str,
    lines: Vec<&'a str>,
}

impl<'a> Event<'a> {
    /// Those of an answer: that of the request, which is known by its word, and those that were fired, each with its lines.
    fn all(word: &'a str, answer: &'a str) -> Vec<Event<'a>> {
        let (mut events, mut last) = (Vec::new(), Event { name: word, lines: Vec::new() });
        for line in lines_of(answer) {
            if let Some(name) = line.strip_prefix("fired ") {
                events.push(std::mem::replace(&mut last, Event { name, lines: Vec::new() }));
            }
            last.lines.push(line);
        }
        events.push(last);
        events
    }

    fn sent(&self) -> impl Iterator<Item = &'a str> + '_ {
        self.lines.iter().filter_map(|line| line.strip_prefix("send ")?.split(' ').nth(1))
    }

    /// Where nothing was done, nothing that changed is told, unless the device failed.
    fn is_idle(&self, closing: &Closing) -> Result<(), Wrong> {
        let lines = if matches!(closing, Closing::Fault) { &[] } else { &self.lines[..] };
        let told = lines.iter().find(|line| ["group", "take", "drop", "gone"].contains(&line.split(' ').next().unwrap_or_default()));
        told.map_or(Ok(()), |line| Err(Wrong::Untrue(format!("{line:?}, where no event stands"))))
    }
}

/// Where a line stands in a record: its part, counted from 0, and its number there, from 1.
pub type Place = (u32, u32);

type PlacedLine = (Place, String);

/// The lines of an answer, each of which has its end.
fn lines_of(answer: &str) -> impl Iterator<Item = &str> {
    answer.split_terminator('\n')
}

/// Why an answer isn't taken.
enum Wrong {
    Unreadable,
    /// The node can't have said so.
    Untrue(String),
}

pub struct History {
    own: u8,
    begins: Arc<[Begin]>,
    /// The entries as JSON, with commas between them.
    entries: String,
    /// Of a whole record: what is noted of its entries. These are stored meanwhile, and not kept.
    noting: Option<Noting>,
    /// Where each entry stands in the record, and the line that is read.
    places: Vec<Place>,
    place: Place,
    /// The node's clock as it was told last: the time of the machine where the record has it, else what its processes took.
    time: u64,
    /// What that clock was when this process began.
    began: u64,
    /// What the node's file keeps: the count of groups, from the begin of the record on; the next id; and the ids of the jobs.
    count: u64,
    next: u64,
    pending: BTreeSet<u64>,
    /// Whether a process mounted the file, and whether it still has it.
    has_begun: bool,
    is_up: bool,
    /// The requests without an answer, and the lines that there are of the answer to the first one.
    asked: VecDeque<String>,
    answer: String,
    /// The requests that kills left without an answer since the file was mounted.
    doubts: Vec<String>,
    waiting: Option<Waiting>,
    told: Told,
    /// Of a record that grows: which entries have to be kept.
    kept: Kept,
}

impl History {
    /// The history of a node that hasn't begun, whose record grows.
    pub fn new(own: u8, begins: Arc<[Begin]>) -> History {
        History {
            own,
            begins: Arc::clone(&begins),
            entries: String::new(),
            noting: None,
            places: Vec::new(),
            place: (0, 0),
            time: 0,
            began: 0,
            count: 1,
            next: 0,
            pending: BTreeSet::new(),
            has_begun: false,
            is_up: false,
            asked: VecDeque::new(),
            answer: String::new(),
            doubts: Vec::new(),
            waiting: None,
            told: Told::new(own, begins),
            kept: Kept::default(),
        }
    }

    /// That of a node whose whole record is there.
    pub fn noted(own: u8, begins: Arc<[Begin]>) -> History {
        History { noting: Some(Noting::default()), ..History::new(own, begins) }
    }

    /// Reads the next line. An answer is that to the first request that has none. At a kill some requests are in doubt: what the next recovery finds says how many
    /// of their commands counted. Where it leaves open which ones, later lines say so: until then they wait, and nothing becomes an entry.
    pub fn reads(&mut self, place: Place, line: &str) -> Result<(), RecordError> {
        match self.waiting {
            None => self.read_now(place, line),
            Some(_) => self.read_all(VecDeque::from([(place, line.to_string())])),
        }
    }

    /// Whether lines wait for later ones.
    pub fn is_waiting(&self) -> bool {
        self.waiting.is_some()
    }

    /// How many bytes the entries take, the messages that they sent and the lines that wait.
    pub fn bytes(&self) -> usize {
        let (per_entry, per_message) = (std::mem::size_of::<(Place, u32)>(), 2 * std::mem::size_of::<Message>());
        self.entries.len() + per_entry * self.places.len() + per_message * self.kept.messages() + self.waiting.iter().flat_map(|waiting| &waiting.lines).map(|(_, line)| line.len()).sum::<usize>()
    }

    /// No line comes any more: what waits for one has to go without.
    pub fn end(&mut self) -> Result<(), RecordError> {
        while self.is_waiting() {
            let mut left = VecDeque::new();
            self.go_on(&mut left)?;
            self.read_all(left)?;
        }
        self.process_ended();
        Ok(())
    }

    fn read_now(&mut self, place: Place, line: &str) -> Result<(), RecordError> {
        self.place = place;
        if let Some(request) = line.strip_prefix("> ") {
            self.asked.push_back(request.to_string());
        } else if let Some(start) = line.strip_prefix("start") {
            self.process_ended();
            self.began = start.trim().parse().unwrap_or(self.time);
        } else if let Some(closing) = Closing::read(line) {
            self.closed(line, &closing)?;
        } else {
            self.answer.push_str(line);
            self.answer.push('\n');
        }
        Ok(())
    }

    /// The node's process ended; what it was asked and didn't answer is in doubt.
    fn process_ended(&mut self) {
        let asked = std::mem::take(&mut self.asked);
        asked.iter().for_each(|request| self.told(request));
        self.timed();
        self.doubts.extend(asked);
        self.is_up = false;
        self.answer.clear();
        self.told.ended();
    }

    /// An answer came to its last line.
    fn closed(&mut self, line: &str, closing: &Closing) -> Result<(), RecordError> {
        let answer = std::mem::take(&mut self.answer);
        let request = self.asked.pop_front().ok_or_else(|| self.fault(line))?;
        self.told.closes(line).map_err(|why| self.untrue(why))?;
        self.told(&request);
        match self.kept_by(&request, &answer) {
            Some(keeps) => self.recovered(Recovery { keeps, answer, last: line.to_string() }),
            None => self.answered(&request, &answer, closing).map_err(|wrong| match wrong {
                Wrong::Unreadable => self.fault(line),
                Wrong::Untrue(why) => self.untrue(why),
            }),
        }
    }

    fn fault(&self, line: &str) -> RecordError {
        RecordError::Line { node: usize::from(self.own), line: line.to_string() }
    }

    fn untrue(&self, why: String) -> RecordError {
        RecordError::Untrue { node: usize::from(self.own), place: self.place, path: PathBuf::new(), why }
    }

    /// The entries as JSON, with commas between them.
    pub fn entries(&self) -> &str {
        &self.entries
    }

    /// Where each entry stands in the record.
    pub fn places(&self) -> &[Place] {
        &self.places
    }

    /// How many bytes the entries have that aren't stored.
    pub fn unstored(&self) -> usize {
        self.entries.len()
    }

    /// Stores the entries so far, and what was noted of them.
    pub fn store(&mut self, entries: &mut impl Write, notes: &mut impl Write) -> io::Result<()> {
        entries.write_all(self.entries.as_bytes())?;
        self.entries.clear();
        self.places.clear();
        self.noting.as_mut().map_or(Ok(()), |noting| noting.store(notes))
    }

    /// What was noted beside.
    pub fn into_since(self) -> Since {
        self.noting.unwrap_or_default().end()
    }

    /// The lines of an answer belong to the event of the request, or each to the event that was fired before it.
    fn answered(&mut self, request: &str, answer: &str, closing: &Closing) -> Result<(), Wrong> {
        let word = request.split(' ').next().ok_or(Wrong::Unreadable)?;
        let mut events = Event::all(word, answer);
        if ["tick", "lost"].contains(&word) {
            let before = events.remove(0);
            before.is_idle(closing)?;
            self.sent_again(&before); // what stands before was sent before
        } else if NO_EVENTS.contains(&word) {
            return events[0].is_idle(closing);
        }
        let id = match closing {
            Closing::Ok(Some(id)) if word != "submit" => return Err(Wrong::Untrue(format!("id {id}, and {request:?} brings no job"))),
            Closing::Ok(id) => *id,
            _ => None,
        };
        let count = events.len();
        for (place, event) in events.into_iter().enumerate() {
            if matches!(closing, Closing::Ok(_)) || place + 1 < count {
                self.event(&event, request, id)?;
            }
        }
        if word == "tick" {
            self.timed();
        }
        match (word, closing) {
            ("submit", Closing::Ok(_)) => {
                self.pending.insert(self.next);
                self.next = self.next.wrapping_add(1);
            }
            (_, Closing::Fault) => {
                self.doubts.push(request.to_string());
                self.is_up = false;
            }
            _ => {}
        }
        Ok(())
    }

    /// An event, and the id of the job that it brought, as it was told.
    fn event(&mut self, event: &Event, request: &str, id: Option<u64>) -> Result<(), Wrong> {
        let sent: Vec<&str> = event.sent().collect();
        let fields = self.fields_of(event.name, request).ok_or(Wrong::Unreadable)?;
        self.put(event.name, request, &sent, fields);
        if self.noting.is_none() {
            self.kept.means(effect_of(event.name, request, &event.lines, self.told.is_hand_known(), self.begins.len() > 1));
        }
        self.follow(&event.lines).ok_or(Wrong::Unreadable)?;
        let mut texts = self.told.says(event.name, &event.lines, keys_of(event.name, request, !sent.is_empty())).map_err(Wrong::Untrue)?;
        if let Some(id) = id {
            texts.insert("id", id.wrapping_sub(self.begins[usize::from(self.own)].id).to_string());
        }
        // before its file is mounted nothing is sure
        if self.is_up && !texts.is_empty() {
            self.tell(&texts);
        }
        ended_by(self.own, request).map(|id| self.pending.remove(&id));
        Ok(())
    }

    /// Takes the count of the node's groups from the lines of an event.
    fn follow(&mut self, lines: &[&str]) -> Option<()> {
        for words in lines.iter().filter_map(|line| line.strip_prefix("group ")) {
            self.entered(&Group::read(&words.split(' ').collect::<Vec<_>>()).ok()?);
        }
        Some(())
    }

    fn entered(&mut self, group: &Group) {
        if group.number.creator == self.own && group.phase != Phase::Down {
            self.count = self.own_count(group.number.count);
        }
    }

    fn own_count(&self, count: u64) -> u64 {
        count.wrapping_sub(self.begins[usize::from(self.own)].count)
    }

    /// What the file keeps that a node mounted, by its answer to a request.
    fn kept_by(&self, request: &str, answer: &str) -> Option<String> {
        let is_mounted = request == "recover" && !self.is_up;
        lines_of(answer).find_map(|line| line.strip_prefix("keeps ")).filter(|_| is_mounted).map(str::to_string)
    }
}
