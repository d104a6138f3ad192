//! Datagrams that are carried on for others, and those that another agent carried on to this one.

use super::core::{Core, Ports};
use super::Origin;
use crate::forward::{is_relayed, Leg, Relayed};
use log::{info, warn};
use std::time::Instant;

impl<P: Ports> Core<P> {
    /// Sends what is for a machine, encrypted already, to another one that is to carry it on.
    pub(super) fn send_through(&mut self, through: u8, to: u8, is_deaf: bool, datagram: &[u8], now: Instant) {
        let relayed = Relayed { leg: Leg::First, is_deaf, from: self.config.id, to, by: self.config.id, mark: self.introductions.mark(), inner: datagram };
        self.metrics.relayed.with_label_values(&["sent"]).inc();
        self.send_relayed(through, &relayed, now);
    }

    /// Tells the log where a machine isn't reached by itself any more, or is so again.
    pub(super) fn tell_way(&mut self, node: u8, now: Instant) {
        match self.peers.ways.news(node, now) {
            Some(Some(through)) => warn!("node {node} isn't reached by itself: what is said to it goes through node {through}"),
            Some(None) => info!("node {node} is reached by itself again"),
            None => {}
        }
    }

    fn send_relayed(&mut self, to: u8, relayed: &Relayed, now: Instant) {
        // no answer to it comes from there, so it is asked for one once in a while
        if self.peers.sends(to, now).asks {
            self.say_hello(to, None, now);
        }
        match self.cipher.encrypt(&relayed.encode()) {
            Some(datagram) => self.send_itself(to, &datagram, now),
            None => self.metrics.dropped.with_label_values(&["NotSent"]).inc(),
        }
    }

    /// A datagram came that is carried on, or was. `sender` is whose agent encrypted it, where there is a key.
    pub(super) fn take_relayed(&mut self, bytes: &[u8], sender: Option<u8>, from: Origin, now: Instant) {
        if self.config.key.is_some() && sender.is_none() {
            return self.metrics.dropped.with_label_values(&["Forged"]).inc();
        }
        let relayed = match Relayed::decode(bytes) {
            Some(relayed) if self.may_relay(&relayed) => relayed,
            _ => return self.metrics.dropped.with_label_values(&["Relay"]).inc(),
        };
        if sender.map_or(false, |sender| sender != relayed.by) {
            return self.metrics.dropped.with_label_values(&["Forged"]).inc();
        }
        match relayed.leg {
            Leg::First if relayed.by == relayed.from => self.carry_on(relayed, now),
            Leg::Last if relayed.by != relayed.from && relayed.to == self.config.id => self.take_carried(relayed, from, now),
            _ => self.metrics.dropped.with_label_values(&["Relay"]).inc(),
        }
    }

    /// Whether it is of one named machine of this cluster for another one, as far as that is known.
    fn may_relay(&self, relayed: &Relayed) -> bool {
        let are_named = [relayed.from, relayed.to, relayed.by].iter().all(|node| self.peers.has_machine(*node));
        let is_known = self.config.key.is_some() || self.introductions.is_known(relayed.from, relayed.mark);
        are_named && is_known && ![relayed.from, relayed.by].contains(&self.config.id)
    }

    /// Carries on what another machine says to one that it doesn't reach: once, and as it is.
    fn carry_on(&mut self, relayed: Relayed, now: Instant) {
        if is_relayed(relayed.inner) || !self.peers.ways.carries(relayed.from, relayed.to, now) {
            return self.metrics.dropped.with_label_values(&["Relay"]).inc();
        }
        self.metrics.relayed.with_label_values(&["carried"]).inc();
        self.send_relayed(relayed.to, &Relayed { leg: Leg::Last, by: self.config.id, ..relayed }, now);
    }

    /// Takes what another machine said to this one through a third.
    fn take_carried(&mut self, relayed: Relayed, from: Origin, now: Instant) {
        let sender = relayed.inner.get(2).copied().filter(|_| self.config.key.is_some());
        match self.opened(relayed.inner.to_vec()) {
            Some((clear, was_encrypted)) if was_encrypted == sender.is_some() && sender.map_or(true, |sender| sender == relayed.from) && !is_relayed(&clear) => {
                self.metrics.relayed.with_label_values(&["taken"]).inc();
                self.refusals.heard(relayed.from, now);
                self.peers.ways.heard_through(relayed.from, relayed.by, relayed.is_deaf, now);
                self.take_clear(clear, Origin { was_encrypted, through: Some(relayed.by), ..from }, now);
            }
            _ => self.metrics.dropped.with_label_values(&["Forged"]).inc(),
        }
    }
}
