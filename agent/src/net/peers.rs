//! The other nodes: where they are, and when they were heard.

use super::{Sending, Ways};
use crate::config::EMPTY;
use std::collections::BTreeMap;
use std::net::SocketAddr;
use std::time::{Duration, Instant};

/// What can't be sent to a peer is said no more often.
const PAUSE: Duration = Duration::from_secs(60);

/// The name of a peer that was silent for so long is looked up anew, and again after as long.
const SILENCE: Duration = Duration::from_secs(5);

/// An address from which nothing came for so many round trips, though something was sent there, gives way to the next one of its name.
const UNANSWERED: u32 = 10;

pub struct Peer {
    /// HOST:PORT, as the configuration has it; of a place without a machine "-".
    pub name: String,
    pub address: Option<SocketAddr>,
    /// When the node last took a message that names this one as its sender.
    pub heard: Option<Instant>,
    /// The tags of its machine, as its agent told them last, and when.
    pub tags: BTreeMap<String, String>,
    pub tagged: Option<Instant>,
    looked_up: Option<Instant>,
    /// Where that came from.
    heard_from: Option<SocketAddr>,
    /// All addresses of its name, by the last look-up that found some.
    known: Vec<SocketAddr>,
    /// An address that is none of them from where it was heard, as an operator was told last, and when.
    elsewhere: Option<(SocketAddr, Instant)>,
    /// When an operator was last told that what comes in its name is refused.
    refused: Option<Instant>,
    /// When it was first sent something at its address, since it has that one and since it was heard.
    tried: Option<Instant>,
    /// When it was first asked something that it didn't answer, though it was heard before and since; and when an operator was last told so.
    unanswered: Option<Instant>,
    deaf: Option<Instant>,
    /// When its agent said that it ends, or was found to be killed, and which of them.
    left: Option<Instant>,
    is_killed: bool,
    /// Since when all that came in its name was too old, and when an operator was last told so.
    stale: Option<Instant>,
    told_stale: Option<Instant>,
    /// Whether the last look-up found an address; None before the first.
    was_found: Option<bool>,
    /// Whether it was said that what is sent to it doesn't leave, and when.
    is_unsent: bool,
    said: Option<Instant>,
}

/// What a look-up changed.
#[derive(Debug, PartialEq, Eq)]
pub enum News {
    Nothing,
    /// The node is at another address now.
    At(SocketAddr),
    /// It is tried at another one of its addresses.
    Tried(SocketAddr),
    /// Its name has no address that this machine's socket reaches.
    NoAddress,
}

impl Peer {
    fn new(name: &str) -> Peer {
        Peer {
            name: name.to_string(),
            address: None,
            heard: None,
            tags: BTreeMap::new(),
            tagged: None,
            looked_up: None,
            heard_from: None,
            known: Vec::new(),
            elsewhere: None,
            refused: None,
            tried: None,
            unanswered: None,
            deaf: None,
            left: None,
            is_killed: false,
            stale: None,
            told_stale: None,
            was_found: None,
            is_unsent: false,
            said: None,
        }
    }

    /// Whether what is sent to its address has had no answer from there for long, though it may be heard through another one.
    fn is_unheard_at(&self, now: Instant) -> bool {
        self.tried.map_or(false, |tried| now.saturating_duration_since(tried) >= SILENCE)
    }

    /// Whether its place has a machine.
    pub fn is_machine(&self) -> bool {
        self.name != EMPTY
    }
}

pub struct Peers {
    /// Which of them are reached by themselves.
    pub ways: Ways,
    own: usize,
    is_ipv6: bool,
    unanswered: Duration,
    peers: Vec<Peer>,
}

impl Peers {
    pub fn new(own: u8, names: &[String], is_ipv6: bool, round_trip: Duration) -> Peers {
        let unanswered = (round_trip * UNANSWERED).max(SILENCE);
        let peers = names.iter().map(|name| Peer::new(name)).collect();
        let mut peers = Peers { ways: Ways::new(own, names.len(), round_trip), own: usize::from(own), is_ipv6, unanswered, peers };
        (0..peers.peers.len()).for_each(|at| peers.take_literal(at));
        peers
    }

    pub fn all(&self) -> &[Peer] {
        &self.peers
    }

    /// Whether a node's place has a machine.
    pub fn has_machine(&self, node: u8) -> bool {
        self.peers.get(usize::from(node)).map_or(false, Peer::is_machine)
    }

    /// Whether a node's place is there and has none.
    pub fn is_empty_place(&self, node: u8) -> bool {
        self.peers.get(usize::from(node)).map_or(false, |peer| !peer.is_machine())
    }

    /// The machine of a node has these tags.
    pub fn tag(&mut self, node: u8, tags: BTreeMap<String, String>, now: Instant) {
        if let Some(peer) = self.peers.get_mut(usize::from(node)) {
            (peer.tags, peer.tagged) = (tags, Some(now));
        }
    }

    /// How many places the list has up to its last machine.
    pub fn listed(&self) -> u8 {
        let last = self.peers.iter().rposition(Peer::is_machine);
        last.map_or(0, |last| last as u8 + 1)
    }

    /// The nodes that have a machine, beside the own one.
    pub fn others(&self) -> impl Iterator<Item = u8> + '_ {
        let own = self.own;
        (0..).zip(self.peers.iter().enumerate()).filter(move |(_, (at, peer))| *at != own && peer.is_machine()).map(|(node, _)| node)
    }

    pub fn address(&self, node: u8) -> Option<SocketAddr> {
        self.peers.get(usize::from(node)).and_then(|peer| peer.address)
    }

    /// The node took a message that names this one as its sender, and that came from this address. Whether an operator is to be told that it is none of the
    /// node's: of each such address once, and no more often than once in a while. Two nodes of one id, say, are heard from two.
    pub fn hear(&mut self, node: u8, from: SocketAddr, now: Instant) -> bool {
        let peer = match self.peers.get_mut(usize::from(node)) {
            Some(peer) => peer,
            None => return false,
        };
        (peer.heard, peer.heard_from, peer.tried, peer.stale) = (Some(now), Some(from), None, None);
        let was_told = |(at, told): (SocketAddr, Instant)| at == from || now.saturating_duration_since(told) < PAUSE;
        if peer.known.is_empty() || peer.known.contains(&from) || peer.elsewhere.map_or(false, was_told) {
            return false;
        }
        peer.elsewhere = Some((from, now));
        true
    }

    /// The node took one that another agent carried on: that says nothing of where this one is.
    pub fn hear_through(&mut self, node: u8, now: Instant) {
        if let Some(peer) = self.peers.get_mut(usize::from(node)) {
            peer.heard = Some(now);
        }
    }

    /// Something is to be sent to a node.
    pub fn sends(&mut self, to: u8, now: Instant) -> Sending {
        let (own, peers) = (self.own, &self.peers);
        let others = (0..).zip(peers.iter().enumerate()).filter(|(_, (at, peer))| *at != own && peer.is_machine()).map(|(node, _)| node);
        self.ways.sends(to, others, now)
    }

    /// Of how many it isn't reached by itself, and is through another one.
    pub fn count_through(&self, now: Instant) -> usize {
        self.others().filter(|node| self.ways.through(*node, now).is_some()).count()
    }

    /// What came in the name of this node was refused, as of nobody who has the key. Whether an operator is to be told, once in a while: not where the node
    /// is heard, too, for then it was sent by another one, or is late.
    pub fn refuse(&mut self, node: u8, now: Instant) -> bool {
        let is_within = |at: Option<Instant>, time| at.map_or(false, |at| now.saturating_duration_since(at) < time);
        match self.peers.get_mut(usize::from(node)) {
            Some(peer) if !is_within(peer.heard, SILENCE) && !is_within(peer.refused, PAUSE) => {
                peer.refused = Some(now);
                true
            }
            _ => false,
        }
    }

    /// A node is asked something that a live one answers at once. One that isn't heard says nothing of the way to it.
    pub fn asked(&mut self, node: u8, now: Instant) {
        if let Some(peer) = self.peers.get_mut(usize::from(node)) {
            let is_heard = peer.heard.map_or(false, |heard| now.saturating_duration_since(heard) < SILENCE);
            peer.unanswered = if is_heard { peer.unanswered.or(Some(now)) } else { None };
        }
    }

    pub fn answered(&mut self, node: u8) {
        if let Some(peer) = self.peers.get_mut(usize::from(node)) {
            peer.unanswered = None;
        }
    }

    /// A node is heard now. Whether an operator is to be told, once in a while, that it answered nothing for long.
    pub fn is_deaf(&mut self, node: u8, now: Instant) -> bool {
        let patience = self.unanswered;
        let is_old = |at: Instant, time| now.saturating_duration_since(at) >= time;
        match self.peers.get_mut(usize::from(node)) {
            Some(peer) if peer.unanswered.map_or(false, |asked| is_old(asked, patience)) => {
                let is_new = peer.deaf.map_or(true, |told| is_old(told, PAUSE));
                if is_new {
                    peer.deaf = Some(now);
                }
                is_new
            }
            _ => false,
        }
    }

    /// The one to whom what is for it is sent at this address.
    pub fn reached_at(&self, at: SocketAddr) -> Option<u8> {
        let is_it = |own: SocketAddr| own.ip() == at.ip() && own.port() == at.port();
        self.others().find(|node| self.address(*node).map_or(false, is_it))
    }

    /// A node's agent says that it ends, or was killed.
    pub fn leave(&mut self, node: u8, is_killed: bool, now: Instant) {
        if let Some(peer) = self.peers.get_mut(usize::from(node)) {
            (peer.left, peer.is_killed) = (Some(now), is_killed);
        }
    }

    /// Why a node is no member any more, as the log is told, where that is known.
    pub fn why_left(&self, node: u8) -> &'static str {
        match self.peers.get(usize::from(node)) {
            Some(peer) if self.has_left(node) && peer.is_killed => ", and its agent was killed",
            Some(_) if self.has_left(node) => ", and said that it ends",
            _ => "",
        }
    }

    /// Whether it did so since it was heard last.
    pub fn has_left(&self, node: u8) -> bool {
        self.peers.get(usize::from(node)).map_or(false, |peer| peer.left.is_some() && peer.left >= peer.heard)
    }

    /// Whether a node was heard lately.
    pub fn is_heard(&self, node: u8, now: Instant) -> bool {
        self.silence(node, now).map_or(false, |silence| silence < SILENCE)
    }

    /// Whether it was, and didn't say since that it ends.
    pub fn is_there(&self, node: u8, now: Instant) -> bool {
        self.is_heard(node, now) && !self.has_left(node)
    }

    /// How long ago a node was heard.
    pub fn silence(&self, node: u8, now: Instant) -> Option<Duration> {
        let heard = self.peers.get(usize::from(node)).and_then(|peer| peer.heard);
        heard.map(|heard| now.saturating_duration_since(heard))
    }

    /// What came in the name of a node was refused as older than what it said before. Whether an operator is to be told, once in a while: where nothing else
    /// comes for long, for a message may overtake another one.
    pub fn is_stale(&mut self, node: u8, now: Instant) -> bool {
        let is_old = |at: Option<Instant>, time| at.map_or(false, |at| now.saturating_duration_since(at) >= time);
        match self.peers.get_mut(usize::from(node)) {
            Some(peer) => {
                peer.stale = peer.stale.or(Some(now));
                let is_new = is_old(peer.stale, SILENCE) && (peer.told_stale.is_none() || is_old(peer.told_stale, PAUSE));
                if is_new {
                    peer.told_stale = Some(now);
                }
                is_new
            }
            None => false,
        }
    }

    /// Which one of the others is at this address, or was heard from there last.
    pub fn at(&self, from: SocketAddr) -> Option<usize> {
        self.peers.iter().position(|peer| peer.address == Some(from) || peer.heard_from == Some(from))
    }

    /// Other names for the same places. Nothing is known any more of a machine that was taken away, and nothing yet of one that came.
    pub fn rename(&mut self, names: &[String]) {
        for (at, name) in names.iter().enumerate().take(self.peers.len()) {
            if (name == EMPTY) == self.peers[at].is_machine() {
                self.peers[at] = Peer::new(name);
                self.ways.forget(at);
                self.take_literal(at);
            }
            if self.peers[at].name != *name {
                self.peers[at].name = name.clone();
                (self.peers[at].looked_up, self.peers[at].was_found) = (None, None);
                (self.peers[at].known, self.peers[at].elsewhere) = (Vec::new(), None);
                self.take_literal(at);
            }
        }
    }

    /// An address that is spelled out needs no look-up.
    fn take_literal(&mut self, at: usize) {
        if let Ok(address) = self.peers[at].name.parse::<SocketAddr>() {
            (self.peers[at].address, self.peers[at].tried) = (self.usable(address), None);
            self.peers[at].known = self.usable(address).into_iter().collect();
        }
    }

    /// The address as this machine's socket reaches it.
    fn usable(&self, address: SocketAddr) -> Option<SocketAddr> {
        match address {
            SocketAddr::V4(v4) if self.is_ipv6 => Some((v4.ip().to_ipv6_mapped(), v4.port()).into()),
            SocketAddr::V6(_) if !self.is_ipv6 => None,
            _ => Some(address),
        }
    }

    /// The next peer whose name is to be looked up now: one that is silent, or heard from elsewhere, and not by an address that is spelled out. One that
    /// is heard may have moved: then what is sent to it doesn't reach it. Of these the one whose turn is the longest ago, so that one whose name server
    /// doesn't answer keeps no other from its turn.
    pub fn next_look_up(&mut self, now: Instant) -> Option<(usize, String)> {
        let is_old = |at: Option<Instant>| at.map_or(true, |at| now.saturating_duration_since(at) >= SILENCE);
        let own = self.own;
        let others = self.peers.iter_mut().enumerate().filter(|(at, _)| *at != own);
        let is_doubtful = |peer: &Peer| is_old(peer.heard) || peer.heard_from != peer.address || peer.is_unheard_at(now);
        let is_name = |peer: &Peer| peer.is_machine() && peer.name.parse::<SocketAddr>().is_err();
        let is_wanted = |peer: &Peer| is_name(peer) && is_doubtful(peer) && is_old(peer.looked_up);
        let (at, peer) = others.filter(|(_, peer)| is_wanted(peer)).min_by_key(|(_, peer)| peer.looked_up)?;
        peer.looked_up = Some(now);
        if is_old(peer.heard) {
            peer.heard_from = None;
        }
        Some((at, peer.name.clone()))
    }

    /// What a name was found to mean: of its addresses the one that the peer is heard from, else the one that it has, until that one gives way to the next.
    /// Where it means nothing now, the last address stays.
    pub fn found(&mut self, at: usize, name: &str, addresses: &[SocketAddr], now: Instant) -> News {
        let all: Vec<SocketAddr> = addresses.iter().filter_map(|address| self.usable(*address)).collect();
        let unanswered = self.unanswered;
        let peer = match self.peers.get_mut(at).filter(|peer| peer.name == name) {
            Some(peer) => peer,
            None => return News::Nothing,
        };
        let is_unanswered = peer.tried.map_or(false, |tried| now.saturating_duration_since(tried) >= unanswered);
        let own = peer.address.filter(|own| all.contains(own));
        let turned = own.filter(|_| is_unanswered).and_then(|own| behind(own, &all));
        let heard_from = peer.heard_from.filter(|from| all.contains(from));
        let usable = heard_from.or(turned).or(own).or_else(|| all.first().copied());
        let was_found = peer.was_found.replace(usable.is_some());
        if usable.is_some() {
            peer.known = all;
        }
        match usable {
            Some(address) if peer.address != usable => {
                (peer.address, peer.tried) = (usable, None);
                if heard_from.is_none() && turned.is_some() {
                    News::Tried(address)
                } else {
                    News::At(address)
                }
            }
            None if was_found != Some(false) => News::NoAddress,
            _ => News::Nothing,
        }
    }

    /// A datagram to a node left this machine, or couldn't. Whether an operator is to be told so: of a failure once in a while, and of the end of one that
    /// was told.
    pub fn sent(&mut self, node: u8, has_left: bool, now: Instant) -> bool {
        let peer = match self.peers.get_mut(usize::from(node)) {
            Some(peer) => peer,
            None => return false,
        };
        peer.tried = peer.tried.or(Some(now));
        if peer.is_unsent != has_left {
            return false;
        }
        let is_new = has_left || peer.said.map_or(true, |said| now.saturating_duration_since(said) >= PAUSE);
        if is_new {
            peer.is_unsent = !has_left;
            peer.said = Some(now);
        }
        is_new
    }

    /// Nodes whose address is spelled out, but not one that this machine's socket reaches.
    pub fn out_of_reach(&self) -> impl Iterator<Item = (usize, &str)> {
        let is_out = |peer: &Peer| peer.address.is_none() && peer.name.parse::<SocketAddr>().is_ok();
        self.peers.iter().enumerate().filter(move |(_, peer)| is_out(peer)).map(|(at, peer)| (at, peer.name.as_str()))
    }
}

/// The next address in their order, whatever order a name server gives them in; after the last one the first.
fn behind(own: SocketAddr, all: &[SocketAddr]) -> Option<SocketAddr> {
    let next = all.iter().filter(|address| **address > own).min();
    next.or_else(|| all.iter().min()).copied()
}

#[cfg(test)]
mod tests {
    use super::*;

    fn names() -> Vec<String> {
        ["127.0.0.1:1", "b:2", "[::1]:3"].map(str::to_string).to_vec()
    }

    fn peers_of(names: &[String]) -> Peers {
        Peers::new(0, names, false, Duration::from_millis(20))
    }

    #[test]
    fn silent_names_are_looked_up_anew() {
        let now = Instant::now();
        let mut peers = peers_of(&names());
        assert_eq!(peers.next_look_up(now), Some((1, "b:2".to_string())));
        assert_eq!(peers.next_look_up(now), None);
        let found: SocketAddr = "10.0.0.2:2".parse().unwrap();
        assert_eq!(peers.found(1, "b:2", &["[::1]:2".parse().unwrap(), found], now), News::At(found));
        assert_eq!(peers.found(1, "b:2", &[found], now), News::Nothing);
        assert_eq!(peers.address(1), Some("10.0.0.2:2".parse().unwrap()));
        peers.hear(1, found, now + SILENCE);
        assert_eq!(peers.next_look_up(now + SILENCE), None);
        assert!(peers.next_look_up(now + SILENCE * 2).is_some());
        assert_eq!(peers.found(1, "b:2", &[], now), News::NoAddress);
        assert_eq!(peers.found(1, "b:2", &[], now), News::Nothing, "which is no news any more");
        assert_eq!(peers.found(1, "c:2", &[], now), News::Nothing);
        assert_eq!(peers.address(1), Some("10.0.0.2:2".parse().unwrap()));
    }

    #[test]
    fn what_is_refused_in_the_name_of_a_silent_node_is_told_once_in_a_while() {
        let now = Instant::now();
        let mut peers = peers_of(&names());
        let told = [now, now + PAUSE / 2, now + PAUSE].map(|at| peers.refuse(1, at));
        assert_eq!(told, [true, false, true]);
        peers.hear(2, "10.0.0.2:2".parse().unwrap(), now);
        assert_eq!([now, now + SILENCE].map(|at| peers.refuse(2, at)), [false, true], "while it is heard, too, it may be late");
        assert!(!peers.refuse(3, now), "no node has this number");
    }

    #[test]
    fn one_that_is_heard_and_answers_nothing_is_told_once_in_a_while() {
        let (now, from) = (Instant::now(), "10.0.0.2:2".parse().unwrap());
        let mut peers = peers_of(&names());
        let mut turn = |second: u64, is_answered: bool| {
            let now = now + Duration::from_secs(second);
            peers.asked(1, now);
            peers.hear(1, from, now);
            if is_answered {
                peers.answered(1);
            }
            peers.is_deaf(1, now)
        };
        assert!((0..100).all(|second| !turn(second, true)), "it answers");
        let told: Vec<u64> = (100..200).filter(|second| turn(*second, false)).collect();
        assert_eq!(told, [105, 165]);
        assert!(!turn(200, true) && !turn(300, false), "it was silent, and is asked since it is heard");
        assert!((301..=305).all(|second| !turn(second, false)) && turn(306, false));
        assert!(!peers.is_deaf(9, now) && peers.silence(1, now + Duration::from_secs(310)) == Some(Duration::from_secs(4)));
    }

    #[test]
    fn one_of_whom_nothing_but_old_messages_comes_is_told_once_in_a_while() {
        let now = Instant::now();
        let mut peers = peers_of(&names());
        let told: Vec<u64> = (0..100).filter(|second| peers.is_stale(1, now + Duration::from_secs(*second))).collect();
        assert_eq!(told, [5, 65]);
        peers.hear(1, "10.0.0.2:2".parse().unwrap(), now + Duration::from_secs(100));
        assert!((130..135).all(|second| !peers.is_stale(1, now + Duration::from_secs(second))), "it was heard");
        assert!(peers.is_stale(1, now + Duration::from_secs(135)) && !peers.is_stale(9, now));
    }

    #[test]
    fn each_name_has_its_turn_however_long_a_look_up_takes() {
        let now = Instant::now();
        let mut peers = peers_of(&["127.0.0.1:1", "b:2", "c:3", "d:4"].map(str::to_string));
        let turns: Vec<usize> =
            (0..6).filter_map(|turn| peers.next_look_up(now + SILENCE * 2 * turn)).map(|(at, _)| at).collect();
        assert_eq!(turns, [1, 2, 3, 1, 2, 3]);
    }

    #[test]
    fn one_that_is_heard_from_elsewhere_is_looked_up_anew() {
        let now = Instant::now();
        let mut peers = peers_of(&names());
        let [old, new, third] = ["10.0.0.2:2", "10.0.0.3:2", "10.0.0.4:2"].map(|at| at.parse::<SocketAddr>().unwrap());
        peers.next_look_up(now);
        peers.found(1, "b:2", &[old], now);
        assert_eq!([peers.at(old), peers.at(new)], [Some(1), None]);
        let later = now + SILENCE;
        peers.hear(1, new, later);
        assert_eq!([peers.at(old), peers.at(new), peers.at(third)], [Some(1), Some(1), None]);
        assert!(peers.next_look_up(later).is_some(), "it may have moved");
        assert_eq!(peers.found(1, "b:2", &[third, new], now), News::At(new), "to where it is heard from");
        peers.hear(1, new, later + SILENCE);
        assert_eq!(peers.next_look_up(later + SILENCE), None);
        assert!(peers.next_look_up(later + SILENCE * 2).is_some(), "which is silent now");
        assert_eq!(peers.found(1, "b:2", &[third, new], now), News::Nothing, "and wasn't sent anything since");
        assert_eq!(peers.found(1, "b:2", &[third], now), News::At(third));
    }

    #[test]
    fn each_address_of_a_silent_name_is_tried() {
        let now = Instant::now();
        let mut peers = peers_of(&names());
        let all = ["10.0.0.3:2", "10.0.0.2:2", "[::1]:2", "10.0.0.4:2"].map(|at| at.parse::<SocketAddr>().unwrap());
        let (mut later, mut turns) = (now, Vec::new());
        assert_eq!(peers.found(1, "b:2", &all, now), News::At(all[0]), "as the system prefers it");
        for turn in 0..8 {
            later += SILENCE;
            if turn % 2 == 0 {
                peers.sent(1, turn > 3, later - SILENCE);
            }
            match peers.found(1, "b:2", &all, later) {
                News::Tried(address) => turns.push(address),
                other => assert_eq!((turn % 2, other), (1, News::Nothing), "nothing was sent there"),
            }
        }
        assert_eq!(turns, [all[3], all[1], all[0], all[3]]);
        peers.sent(1, true, later);
        peers.hear(1, all[3], later);
        assert_eq!(peers.found(1, "b:2", &all, later + SILENCE), News::Nothing, "it answered");
        peers.sent(1, true, later);
        peers.hear(1, "10.0.0.9:2".parse().unwrap(), later);
        assert_eq!(peers.found(1, "b:2", &all, later + SILENCE), News::Nothing, "from an address of no name");
        let mut slow = Peers::new(0, &names(), false, Duration::from_secs(1));
        slow.found(1, "b:2", &all, now);
        slow.sent(1, true, now);
        assert_eq!(slow.found(1, "b:2", &all, now + SILENCE), News::Nothing, "an answer may be on its way");
        assert_eq!(slow.found(1, "b:2", &all, now + SILENCE * 2), News::Tried(all[3]));
    }

    #[test]
    fn one_that_is_heard_from_two_places_is_told() {
        let now = Instant::now();
        let mut peers = peers_of(&["127.0.0.1:1", "10.0.0.2:2", "c:3"].map(str::to_string));
        let [own, other, third] =
            ["10.0.0.2:2", "10.0.0.9:2", "10.0.0.8:2"].map(|at| at.parse::<SocketAddr>().unwrap());
        let mut told =
            |node: u8, from: SocketAddr, seconds: u64| peers.hear(node, from, now + Duration::from_secs(seconds));
        assert_eq!(
            [told(1, own, 0), told(1, other, 1), told(1, other, 2), told(1, own, 3)],
            [false, true, false, false]
        );
        assert_eq!([told(1, third, 4), told(1, third, 61), told(1, third, 200)], [false, true, false]);
        assert!(!told(2, other, 0), "its name wasn't looked up yet");
        peers.found(2, "c:3", &[own, third], now);
        assert_eq!([peers.hear(2, third, now), peers.hear(2, other, now)], [false, true]);
        peers.rename(&["127.0.0.1:1", "10.0.0.9:2", "d:3"].map(str::to_string));
        assert_eq!(
            [peers.hear(1, other, now), peers.hear(2, third, now), peers.hear(1, own, now)],
            [false, false, true]
        );
    }

    #[test]
    fn another_name_is_looked_up_whatever_is_heard() {
        let now = Instant::now();
        let mut peers = peers_of(&names());
        let old = "127.0.0.1:1".parse().unwrap();
        peers.rename(&["x:1", "127.0.0.1:1", "[::1]:3"].map(str::to_string));
        peers.hear(1, old, now);
        peers.rename(&["x:1", "c:2", "[::1]:3"].map(str::to_string));
        peers.hear(1, "127.0.0.2:2".parse().unwrap(), now);
        assert_eq!(peers.next_look_up(now), Some((1, "c:2".to_string())));
    }

    #[test]
    fn a_place_without_a_machine_has_no_address_and_is_not_looked_up() {
        let (now, from) = (Instant::now(), "10.0.0.9:2".parse().unwrap());
        let mut peers = peers_of(&["127.0.0.1:1", "-", "b:2"].map(str::to_string));
        assert_eq!((peers.others().collect::<Vec<_>>(), peers.has_machine(1), peers.address(1), peers.has_machine(3)), (vec![2], false, None, false));
        assert_eq!((peers.next_look_up(now), peers.next_look_up(now)), (Some((2, "b:2".to_string())), None));
        peers.hear(2, from, now);
        peers.rename(&["127.0.0.1:1", "10.0.0.8:2", "-"].map(str::to_string));
        assert_eq!((peers.others().collect::<Vec<_>>(), peers.address(1), peers.at(from)), (vec![1], Some("10.0.0.8:2".parse().unwrap()), None));
        assert!(!peers.is_heard(2, now) && peers.next_look_up(now + SILENCE * 2).is_none());
        peers.rename(&["127.0.0.1:1", "10.0.0.8:2", "c:2"].map(str::to_string));
        assert_eq!(peers.next_look_up(now), Some((2, "c:2".to_string())), "a name that came is looked up at once");
    }

    #[test]
    fn what_can_not_be_sent_is_told_once_in_a_while() {
        let now = Instant::now();
        let mut peers = peers_of(&names());
        let mut sent = |has_left: bool, seconds: u64| peers.sent(1, has_left, now + Duration::from_secs(seconds));
        assert_eq!([sent(true, 0), sent(false, 1), sent(false, 2), sent(true, 3)], [false, true, false, true]);
        assert_eq!(
            [sent(false, 4), sent(true, 5), sent(false, 62), sent(false, 63), sent(false, 200)],
            [false, false, false, true, false]
        );
        assert!(sent(true, 201) && !sent(true, 202));
        assert!(!peers.sent(9, false, now));
    }

    #[test]
    fn a_socket_of_ipv6_reaches_both() {
        let mut peers = Peers::new(0, &names(), true, Duration::ZERO);
        assert_eq!(peers.address(2), Some("[::1]:3".parse().unwrap()));
        assert_eq!(peers.address(0), Some("[::ffff:127.0.0.1]:1".parse().unwrap()));
        assert_eq!(peers_of(&names()).address(2), None);
        assert_eq!(peers_of(&names()).out_of_reach().collect::<Vec<_>>(), [(2, "[::1]:3")]);
        assert_eq!(peers.out_of_reach().count(), 0);
        peers.rename(&["127.0.0.1:1".to_string(), "10.0.0.9:2".to_string(), "[::1]:3".to_string()]);
        assert_eq!(peers.address(1), Some("[::ffff:10.0.0.9]:2".parse().unwrap()));
    }
}
