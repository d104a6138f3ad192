//! What agents tell each other for operators and services, as well as it goes: the tags of their machines, and events. Nothing rests on them.

use super::core::{Core, Ports};
use crate::forward::{Token, What};
use crate::protocol::Reply;
use std::collections::{BTreeMap, VecDeque};
use std::time::{Duration, Instant};

/// Tags are told again so often.
const PAUSE: Duration = Duration::from_secs(30);

/// An event is sent so often, each time so much later: each datagram may be lost.
const TIMES: u32 = 3;
const GAP: Duration = Duration::from_millis(300);

/// So many events are on their way at a time; so many that came are remembered, so that each is told once.
const MAX_OPEN: usize = 64;
const MAX_SEEN: usize = 1024;

/// An event of this machine that is to be sent again.
struct Event {
    serial: u64,
    name: String,
    text: String,
    left: u32,
    due: Instant,
}

#[derive(Default)]
pub(super) struct Announcing {
    /// When the tags were told last, and whether those are the ones of now.
    told: Option<Instant>,
    is_told: bool,
    last: u64,
    open: VecDeque<Event>,
    seen: VecDeque<(u8, Token)>,
}

impl Announcing {
    /// When an event is to be sent again.
    pub(super) fn sleep(&self, now: Instant) -> Duration {
        self.open.iter().map(|event| event.due).min().map_or(Duration::MAX, |due| due.saturating_duration_since(now))
    }

    /// Whether an event is one that wasn't told yet; by that it is.
    fn is_new(&mut self, from: u8, token: Token) -> bool {
        if self.seen.contains(&(from, token)) {
            return false;
        }
        if self.seen.len() == MAX_SEEN {
            self.seen.pop_front();
        }
        self.seen.push_back((from, token));
        true
    }
}

impl<P: Ports> Core<P> {
    /// Tells the others what is due of tags and events.
    pub(super) fn announce(&mut self, now: Instant) {
        let (told, is_told) = (self.announcing.told, self.announcing.is_told);
        let is_due = !is_told || told.map_or(true, |told| now.saturating_duration_since(told) >= PAUSE);
        if is_due && (told.is_some() || !self.config.tags.is_empty()) {
            (self.announcing.told, self.announcing.is_told) = (Some(now), true);
            self.others().into_iter().for_each(|node| self.tell_tags(node, now));
        }
        let due: Vec<usize> = (0..self.announcing.open.len()).filter(|at| self.announcing.open[*at].due <= now).collect();
        for at in due {
            let event = &mut self.announcing.open[at];
            (event.left, event.due) = (event.left - 1, now + GAP);
            let (serial, name, text) = (event.serial, event.name.clone(), event.text.clone());
            self.send_event(serial, &name, &text, now);
        }
        self.announcing.open.retain(|event| event.left > 0);
    }

    /// Tells another agent the tags of this machine, where it has some.
    pub(super) fn tell_tags(&mut self, node: u8, now: Instant) {
        if self.announcing.told.is_some() && self.peers.address(node).is_some() {
            let tags = self.config.tags.clone();
            self.send_to_agent(node, self.outbox.token(), What::Tags { tags }, now);
        }
    }

    /// Sends an event to all agents whose stamps are known; to how many.
    fn send_event(&mut self, serial: u64, name: &str, text: &str, now: Instant) -> usize {
        let token = Token { life: self.outbox.token().life, serial };
        let known: Vec<_> =
            self.others().into_iter().filter_map(|node| self.outbox.stamps_for(node).map(|stamps| (node, stamps))).collect();
        for (node, (life, number)) in &known {
            let what = What::Event { life: *life, number: *number, name: name.to_string(), text: text.to_string() };
            self.send_to_agent(*node, token, what, now);
        }
        known.len()
    }

    /// A client tells all machines of an event.
    pub(super) fn tell_event(&mut self, name: String, text: String, now: Instant) -> Reply {
        if self.announcing.open.len() >= MAX_OPEN {
            return Reply::refused("Busy");
        }
        self.announcing.last += 1;
        let serial = self.announcing.last;
        let sent = self.send_event(serial, &name, &text, now);
        self.tell(Reply::event("told").with("from", self.config.id).with("name", &name).with("text", &text));
        self.announcing.open.push_back(Event { serial, name, text, left: TIMES - 1, due: now + GAP });
        Reply::ok().with("sent", sent)
    }

    /// Another agent tells of an event.
    pub(super) fn take_event(&mut self, from: u8, token: Token, (life, number): (u64, u64), (name, text): (String, String)) {
        if self.inbox.is_new(from, life, number) && self.announcing.is_new(from, token) {
            self.tell(Reply::event("told").with("from", from).with("name", name).with("text", text));
        }
    }

    /// This machine has the tags of its configuration from now on; the others are told at once.
    pub(super) fn tag_own(&mut self, now: Instant) {
        self.peers.tag(self.config.id, self.config.tags.clone(), now);
        self.announcing.is_told = false;
    }

    /// Another agent tells the tags of its machine.
    pub(super) fn take_tags(&mut self, from: u8, tags: BTreeMap<String, String>, now: Instant) {
        self.peers.tag(from, tags, now);
    }
}

#[cfg(test)]
mod tests {
    use super::*;

    #[test]
    fn an_event_is_told_once() {
        let (mut announcing, token) = (Announcing::default(), |serial: u64| Token { life: 7, serial });
        assert_eq!([(1, 1), (1, 1), (2, 1), (1, 2), (1, 1)].map(|(from, serial)| announcing.is_new(from, token(serial))), [true, false, true, true, false]);
        assert!((10..2000).all(|serial| announcing.is_new(1, token(serial))) && announcing.seen.len() == MAX_SEEN);
    }
}
