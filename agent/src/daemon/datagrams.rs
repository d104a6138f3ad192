//! What comes over the network, and what goes out.

use super::core::{Core, Ports};
use super::{Asker, Origin};
use crate::config::Config;
use crate::forward::{is_of_agents, is_relayed, marked, About, Datagram, Seal};
use crate::metrics::{kind_of, ANSWERS, OF_LEADING, QUESTIONS};
use crate::net::{is_encrypted, GroupBytes, Leaves, Network, MAX_DATAGRAM};
use crate::node::Lane;
use log::{info, warn};
use std::io::ErrorKind;
use std::net::SocketAddr;
use std::time::Instant;

/// The body of a message begins behind so many bytes.
const HEAD_OF_BODY: usize = 6;

/// So many datagrams are taken at a time.
const MAX_AT_A_TIME: usize = 256;

/// What waits until the node has room for it.
pub(super) enum Waiting {
    Message { message: Vec<u8>, from: Origin },
    OfAgent(Datagram),
}

/// The node that a message says to be of.
fn sender_of(message: &[u8]) -> u8 {
    message.get(2).copied().unwrap_or(u8::MAX)
}

/// The group that a message of Work names, at the begin of its body.
fn group_of(message: &[u8]) -> Option<GroupBytes> {
    message.get(HEAD_OF_BODY..)?.get(..9)?.try_into().ok()
}

impl<P: Ports> Core<P> {
    /// Gives the node what waits for it, and takes what came since off the socket, which may hold little.
    pub(super) fn receive(&mut self, now: Instant) {
        if !self.view.is_alive(now) {
            // by the time when a node that hangs answers again, that is old
            let dropped = self.backlog.clear();
            self.metrics.dropped.with_label_values(&["NoRoom"]).inc_by(dropped);
        }
        while self.node.has_room(Lane::Network) {
            match self.backlog.take() {
                Some(Waiting::Message { message, from }) => self.deliver(&message, from, now),
                Some(Waiting::OfAgent(datagram)) => self.obey_agent(datagram, now),
                None => break,
            }
        }
        let mut bytes = [0; MAX_DATAGRAM];
        for _ in 0..MAX_AT_A_TIME {
            match self.link.receive(&mut bytes) {
                Some((datagram, at)) => {
                    let datagram = datagram.to_vec();
                    self.take_datagram(datagram, at, now);
                }
                None => return,
            }
        }
    }

    /// What came, encrypted or not: whether a key was needed to say it, its seal tells.
    fn take_datagram(&mut self, datagram: Vec<u8>, at: SocketAddr, now: Instant) {
        let sender = sender_of(&datagram);
        match self.opened(datagram) {
            Some((clear, was_encrypted)) => {
                let from = Origin { at, was_encrypted, through: None };
                if was_encrypted {
                    self.came_from(Some(sender), from, now);
                }
                if is_relayed(&clear) {
                    return self.take_relayed(&clear, was_encrypted.then_some(sender), from, now);
                }
                self.take_clear(clear, from, now);
            }
            None => {
                let reason = if self.cipher.encrypts() { "Forged" } else { "Version" };
                self.metrics.dropped.with_label_values(&[reason]).inc();
                self.doubt(sender, at, now);
            }
        }
    }

    /// A datagram in clear, and whether it was encrypted; None where no key opens it.
    pub(super) fn opened(&mut self, datagram: Vec<u8>) -> Option<(Vec<u8>, bool)> {
        if !is_encrypted(&datagram) {
            self.metrics.opened.with_label_values(&["none"]).inc();
            return Some((datagram, false));
        }
        let (clear, key) = self.cipher.decrypt(&datagram)?;
        let key = self.seal.fingerprints.get(key).map_or("", String::as_str);
        self.metrics.opened.with_label_values(&[key]).inc();
        Some((clear, true))
    }

    /// A datagram of a node's agent came that only a machine of the cluster can have sent, as far as that is known.
    pub(super) fn came_from(&mut self, node: Option<u8>, from: Origin, now: Instant) {
        if let Some(node) = node {
            self.refusals.heard(node, now);
        }
        if let Some(node) = node.filter(|_| from.through.is_none()) {
            self.peers.ways.heard(node, now);
        }
    }

    pub(super) fn take_clear(&mut self, datagram: Vec<u8>, from: Origin, now: Instant) {
        if is_of_agents(&datagram) {
            self.take_of_agent(&datagram, from, now);
        } else {
            self.take_sealed(datagram, from, now);
        }
    }

    /// A message without a mark: under a key its seal says of which cluster it is, and without one nothing does.
    fn take_sealed(&mut self, message: Vec<u8>, from: Origin, now: Instant) {
        let sender = sender_of(&message);
        if message.is_empty() {
            return self.metrics.dropped.with_label_values(&["Empty"]).inc();
        }
        if self.config.key.is_none() {
            self.metrics.dropped.with_label_values(&["Version"]).inc();
            if kind_of(&message) != kind_of(&[]) {
                self.doubt(sender, from.at, now);
            }
            return;
        }
        if self.introductions.is_stranger(sender) {
            return self.metrics.dropped.with_label_values(&["Stranger"]).inc();
        }
        self.take_message(message, from, now);
    }

    /// A message without a seal. One by a mark that isn't known is of another cluster, or of one whose list is another one for a while.
    pub(super) fn take_marked(&mut self, mark: [u8; 8], message: &[u8], from: Origin, now: Instant) {
        let sender = sender_of(message);
        if self.config.key.is_none() && !self.introductions.is_known(sender, mark) {
            self.metrics.dropped.with_label_values(&["Stranger"]).inc();
            return self.ask_stranger(from, sender, now);
        }
        if self.config.key.is_none() {
            self.came_from(Some(sender), from, now);
        }
        self.take_message(message.to_vec(), Origin { was_encrypted: false, ..from }, now);
    }

    /// Half of the node's room is for those who are where the other nodes are, and they alone may wait: a flood from elsewhere keeps none of them from the
    /// node.
    fn take_message(&mut self, message: Vec<u8>, from: Origin, now: Instant) {
        if self.opening.is_some() {
            return self.metrics.dropped.with_label_values(&["Down"]).inc();
        }
        let sender = sender_of(&message);
        if self.peers.is_empty_place(sender) {
            self.metrics.dropped.with_label_values(&["Unnamed"]).inc();
            if !self.introductions.has_gaps(sender) {
                self.ask_stranger(from, sender, now);
            }
            return;
        }
        let peer = self.peers.at(from.at);
        if self.node.has_half_its_room(Lane::Network) || (peer.is_some() && self.node.has_room(Lane::Network)) {
            return self.deliver(&message, from, now);
        }
        let length = message.len();
        self.put_off(peer, Waiting::Message { message, from }, length);
    }

    /// Has something of a node wait, where there is room for so many bytes more of it.
    pub(super) fn put_off(&mut self, peer: Option<usize>, one: Waiting, bytes: usize) {
        if !peer.map_or(false, |peer| self.backlog.put(peer, one, bytes).is_none()) {
            self.metrics.dropped.with_label_values(&["NoRoom"]).inc();
        }
    }

    /// Gives the node a message, and in front of an answer the time, by which it knows how long that took.
    fn deliver(&mut self, message: &[u8], from: Origin, now: Instant) {
        if message.is_empty() {
            return self.metrics.dropped.with_label_values(&["Empty"]).inc();
        }
        let kind = kind_of(message);
        if ANSWERS.contains(&kind) && self.clock.is_nothing_due(now) {
            self.ask(Asker::Time, format!("tick {}", self.clock.node_ms(now)));
        }
        self.holding.came(sender_of(message), kind, now);
        let asker = Asker::Datagram { sender: sender_of(message), from, kind };
        self.ask(asker, format!("deliver {}", hex::encode(message)));
    }

    /// Carries a message of the node. Work, of which the node may send as much at once as its journal holds, leaves a part at a time. The node asks all places;
    /// what it says to one without a machine is lost here.
    pub(super) fn carry(&mut self, to: u8, digits: &str, now: Instant) {
        if self.peers.is_empty_place(to) {
            return;
        }
        let message = hex::decode(digits).unwrap_or_default();
        let kind = kind_of(&message);
        if self.draining.is_some() && OF_LEADING.contains(&kind) {
            return self.metrics.dropped.with_label_values(&["Draining"]).inc();
        }
        self.metrics.messages_out.with_label_values(&[kind]).inc();
        if QUESTIONS.contains(&kind) {
            self.peers.asked(to, now);
        }
        if !self.has_met(to) {
            // what it asks is asked again
            self.metrics.dropped.with_label_values(&["Unmet"]).inc();
            return self.greet(to, now);
        }
        if kind == "AreYouCoordinator" {
            let is_member = self.view.is_coordinator() && self.view.group.members.contains(&to);
            self.holding.asked(to, is_member);
        }
        let group = if kind == "Work" { group_of(&message) } else { None };
        let message = if self.config.key.is_some() { message } else { marked(&message, self.introductions.mark()) };
        let (leaves, dropped) = self.pace.put(to, &message, group, now);
        self.metrics.dropped.with_label_values(&["Obsolete"]).inc_by(dropped);
        match leaves {
            Leaves::Now => self.send(to, &message, now),
            Leaves::Later => {}
            Leaves::Never => self.metrics.dropped.with_label_values(&["NoRoom"]).inc(),
        }
        self.send_on(now);
    }

    /// Sends what waits for its turn.
    pub(super) fn send_on(&mut self, now: Instant) {
        while let Some((to, message)) = self.pace.next(now) {
            self.send(to, &message, now);
        }
    }

    /// Sends a datagram to another machine, or, where that one isn't reached by itself, to one that carries it on. One that can't be sent is the same as one that
    /// is lost.
    pub(super) fn send(&mut self, to: u8, datagram: &[u8], now: Instant) {
        if self.peers.is_empty_place(to) {
            return;
        }
        let datagram = match self.cipher.encrypt(datagram) {
            Some(datagram) => datagram,
            None => return self.metrics.dropped.with_label_values(&["NotSent"]).inc(),
        };
        let sending = self.peers.sends(to, now);
        self.tell_way(to, now);
        if sending.is_direct {
            self.send_itself(to, &datagram, now);
        }
        if let Some(through) = sending.through {
            self.send_through(through, to, sending.is_deaf, &datagram, now);
        }
        if sending.asks {
            self.say_hello(to, None, now);
        }
    }

    /// Sends what is encrypted already to a machine's own address.
    pub(super) fn send_itself(&mut self, to: u8, datagram: &[u8], now: Instant) {
        let sent = self.peers.address(to).map(|address| (address, self.link.send(datagram, address)));
        if !matches!(sent, Some((_, Ok(())))) {
            self.metrics.dropped.with_label_values(&["NotSent"]).inc();
        }
        match sent {
            // a buffer that is full is no fault of the address
            Some((_, Err(why))) if why.kind() == ErrorKind::WouldBlock => {}
            Some((address, Err(why))) if self.peers.sent(to, false, now) => {
                let hint = self.why_not();
                warn!("node {to}: nothing can be sent from {} to {address}: {why}{hint}", self.config.listens_at());
            }
            Some((address, Ok(()))) if self.peers.sent(to, true, now) => {
                info!("node {to}: what is sent to {address} leaves again")
            }
            _ => {}
        }
    }

    /// Why nothing leaves, where it lies with the agent's own address.
    fn why_not(&self) -> &'static str {
        if self.link.is_loopback() {
            ": `listen` is at an address of this machine alone"
        } else if self.link.is_stranded() {
            ": this machine hasn't the address any more at which the agent began: a restart takes another one"
        } else {
            ""
        }
    }

    pub(super) fn warn_of_addresses(&self) {
        for (node, name) in self.peers.out_of_reach() {
            let listens_at = self.config.listens_at();
            warn!("node {node}: {name} can't be reached from {listens_at}: `listen` at an IPv6 address, as [::]:7000, reaches both");
        }
    }

    /// What of the network an operator has to know from the start.
    pub(super) fn warn_of_network(&self) {
        if self.config.key.is_none() && !self.link.is_loopback() {
            warn!("there is no `key`: whoever reaches {} can speak for any node, and take jobs away", self.config.listens_at());
        }
        let (room, asked) = self.link.room();
        if room < asked {
            info!("the system gives the socket room for {room} bytes, of {asked}: net.core.rmem_max is less than {}", asked / 2);
        }
    }

    /// Whether the file of keys holds others than those that were read at the start.
    fn has_other_keys(&self) -> bool {
        let read = self.config.key.as_ref().map(|key| Seal::read(key, &self.config.cluster, self.config.nodes.len()));
        read.map_or(false, |read| read.map_or(true, |seal| seal.fingerprints != self.seal.fingerprints))
    }

    /// Reads the configuration again, and takes its nodes.
    pub(super) fn reload(&mut self, now: Instant) {
        let own = &self.config;
        let read = Config::read(&self.path)
            .and_then(|changed| Ok((own.nodes_of(&changed)?, own.differs_elsewhere(&changed), changed.tags)));
        match read {
            Ok((names, has_more, tags)) => {
                info!("the addresses were read again");
                if tags != self.config.tags {
                    self.config.tags = tags;
                    self.tag_own(now);
                }
                self.take_nodes(&names, now);
                if has_more {
                    warn!("{}: other settings changed, too: they are taken by a restart", self.path.display());
                }
                if self.has_other_keys() {
                    warn!("the file of keys changed, or can't be read any more: a restart takes it");
                }
                self.warn_of_addresses();
            }
            Err(error) => warn!("{}: {error}: nothing was taken of it", self.path.display()),
        }
    }

    /// Goes by these nodes from now on. The others are told at once which they are, and a machine that was taken away is no member any more.
    fn take_nodes(&mut self, names: &[String], now: Instant) {
        let before = self.others();
        self.introductions.rename(About::new(&self.config.cluster, names));
        self.peers.rename(names);
        let others = self.others();
        self.view.nodes = others.len() + 1;
        for node in others.iter().filter(|node| !before.contains(node)) {
            info!("node {node}: a machine was added, {}", names[usize::from(*node)]);
        }
        for node in before.into_iter().filter(|node| !others.contains(node)) {
            info!("node {node}: its machine was taken away");
            self.refusals.leave(node);
            if self.view.group.members.contains(&node) {
                self.lose(node, now);
            }
        }
        for node in others {
            if self.peers.address(node).is_some() {
                self.say_hello(node, None, now);
            }
        }
    }
}
