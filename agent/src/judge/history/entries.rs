//! The entries of a trace, as a history writes them.

use crate::judge::message::message_of;
use crate::judge::notes::Note;
use crate::judge::order::Message;
use crate::judge::told::Texts;
use super::{Event, History};
use serde_json::{json, Map, Value};

impl History {
    /// Reads the time, where the node is told it.
    pub(super) fn told(&mut self, request: &str) {
        if let Some(Ok(ms)) = request.strip_prefix("tick ").map(str::parse::<u64>) {
            self.time = self.time.max(self.began.saturating_add(ms));
            self.timed();
        }
    }

    /// The entries so far were by now.
    pub(super) fn timed(&mut self) {
        self.noting.as_mut().into_iter().for_each(|noting| noting.timed(self.time));
    }

    /// Puts an entry of an event that a request, if any, brought.
    pub(super) fn put(&mut self, name: &str, request: &str, sent: &[&str], mut fields: Map<String, Value>) {
        self.places.push(self.place);
        fields.insert("do".to_string(), json!(name));
        if self.noting.as_ref().map_or(!self.entries.is_empty(), |noting| noting.count() > 0) {
            self.entries.push(',');
        }
        let begin = self.entries.len();
        self.entries.push_str(&Value::Object(fields).to_string());
        // the last of its keys
        self.entries.pop();
        self.entries.push_str(",\"sent\":[");
        let mut messages = Vec::with_capacity(sent.len());
        for (place, digits) in sent.iter().enumerate() {
            let message = message_of(digits, &self.begins);
            messages.push(Message::of(&message));
            self.entries.push_str(if place == 0 { "" } else { "," });
            self.entries.push_str(&json!(message).to_string());
        }
        self.entries.push_str("]}");
        let length = self.entries.len() - begin;
        if let Some(noting) = &mut self.noting {
            let brought = request.split(' ').nth(1).filter(|_| name == "deliver").map(Message::of);
            noting.put(Note { place: self.place, length, brought, sent: sent.iter().map(|digits| Message::of(digits)).collect() }, messages);
        } else {
            self.kept.put(length, messages);
        }
    }

    /// Adds to the last entry what was told of it.
    pub(super) fn tell(&mut self, texts: &Texts) {
        self.entries.pop();
        let before = self.entries.len();
        let told = serde_json::to_string(texts).unwrap_or_default();
        self.entries.extend([",\"told\":", &told, "}"]);
        let more = self.entries.len() - before - 1;
        match &mut self.noting {
            Some(noting) => noting.lengthen(more),
            None => self.kept.lengthen(more),
        }
    }

    /// A message that is sent again, under another seal, is that of the entry that sent it.
    pub(super) fn sent_again(&mut self, event: &Event) {
        if let Some(noting) = &mut self.noting {
            event.sent().for_each(|digits| noting.sent_again(Message::of(&message_of(digits, &self.begins)), Message::of(digits)));
        }
    }

    /// The fields of an event's entry.
    pub(super) fn fields_of(&self, event: &str, request: &str) -> Option<Map<String, Value>> {
        let words: Vec<&str> = request.split(' ').collect();
        let fields = match (event, words.as_slice()) {
            ("deliver", [_, digits]) => json!({"msg": message_of(digits, &self.begins)}),
            ("submit", [_, queue, payload, rest @ ..]) => {
                let (queue, payload) = (queue.parse::<u8>().ok()?, payload.trim_start_matches('-'));
                match rest.first() {
                    Some(priority) => {
                        json!({"queue": queue, "payload": payload, "priority": priority.parse::<u8>().ok()?})
                    }
                    None => json!({"queue": queue, "payload": payload}),
                }
            }
            ("finish", [_, origin, id]) => {
                let origin = origin.parse::<u8>().ok()?;
                let begin = self.begins.get(usize::from(origin)).copied().unwrap_or_default();
                json!({"origin": origin, "id": id.parse::<u64>().ok()?.wrapping_sub(begin.id)})
            }
            // of a node that isn't down
            ("recover", _) => json!({"kept": false}),
            _ => json!({}),
        };
        match fields {
            Value::Object(fields) => Some(fields),
            _ => None,
        }
    }
}
