//! Agents that were killed while their machines live: these refuse what is sent to them, and the others go on without the node as if it had said that it ends.

use super::core::{Core, Ports};
use crate::forward::{Datagram, What};
use crate::net::{Network, Step};
use log::warn;
use std::time::{Duration, Instant};

/// A member asks its coordinator again within 23 round trips, of 25 ms at most, and is answered. One that is said nothing for longer is asked: where its port is
/// nobody's, that is refused.
const ASKS_AGAIN: u32 = 24;
const LONGEST_ROUND_TRIP: Duration = Duration::from_millis(25);
const LATE: Duration = Duration::from_millis(50);

/// One whose port is refused is asked through so many others, too.
const MOST_ASKED_THROUGH: usize = 8;

impl<P: Ports> Core<P> {
    /// Takes what the network said of datagrams that were sent, and asks those or gives those up of whom it says that nobody has their port. What it says has no
    /// seal: so nobody is given up by it who answers.
    pub(super) fn hear_refusals(&mut self, now: Instant) {
        while let Some(at) = self.link.refused() {
            let node = self.peers.reached_at(at).filter(|node| self.refusals.refused(*node, now));
            if let Some(node) = node {
                self.metrics.farewells.with_label_values(&["doubted"]).inc();
                self.say_hello(node, None, now);
                self.ask_through_others(node, now);
            }
        }
        for step in self.refusals.steps(now) {
            match step {
                Step::Ask(node) => self.say_hello(node, None, now),
                Step::GiveUp(node) => self.give_up_killed(node, now),
            }
        }
    }

    /// Has other members carry a question on: by an answer that comes so the peer is there, and who is refused as well knows it now.
    fn ask_through_others(&mut self, node: u8, now: Instant) {
        let is_other = |other: &u8| ![node, self.config.id].contains(other);
        let others: Vec<u8> = self.view.group.members.iter().copied().filter(is_other).take(MOST_ASKED_THROUGH).collect();
        let what = What::Hello { about: Some(self.introductions.about().clone()), news: None };
        let question = Datagram { from: self.config.id, to: node, token: self.outbox.token(), what }.encode(&self.seal);
        for through in others {
            if let Some(question) = self.cipher.encrypt(&question) {
                self.send_through(through, node, false, &question, now);
            }
        }
    }

    /// Asks members of the own group that are said nothing for long.
    pub(super) fn ask_unasked(&mut self, now: Instant) {
        let due: Vec<u8> = self.members_led().filter(|node| self.unasked_node_in(*node, now).is_zero()).collect();
        for node in due {
            // whatever becomes of that
            self.refusals.greets(node, now);
            self.say_hello(node, None, now);
        }
    }

    /// When one of them is to be asked.
    pub(super) fn unasked_in(&self, now: Instant) -> Duration {
        self.members_led().map(|node| self.unasked_node_in(node, now)).min().unwrap_or(Duration::MAX)
    }

    /// The other members of a group that the own node coordinates.
    fn members_led(&self) -> impl Iterator<Item = u8> + '_ {
        let is_led = self.view.group.is_normal() && self.view.is_coordinator();
        let members = self.view.group.members.iter().copied().filter(move |node| is_led && *node != self.config.id);
        members.filter(|node| self.peers.address(*node).is_some())
    }

    fn unasked_node_in(&self, node: u8, now: Instant) -> Duration {
        let round_trip = Duration::from_millis(self.config.round_trip_ms);
        let longest = round_trip.min(LONGEST_ROUND_TRIP) * ASKS_AGAIN + round_trip + LATE;
        let last = self.peers.ways.sent(node).max(self.refusals.greeted(node));
        last.map_or(Duration::ZERO, |last| (last + longest).saturating_duration_since(now))
    }

    fn give_up_killed(&mut self, node: u8, now: Instant) {
        self.metrics.farewells.with_label_values(&["killed"]).inc();
        let name = self.peers.all().get(usize::from(node)).map_or("?", |peer| peer.name.as_str());
        warn!("node {node}: nobody has the port of {name} any more, and it answers nothing: its agent was killed");
        self.peers.leave(node, true, now);
        self.drained.remove(&node);
        self.lose(node, now);
    }
}
