//! What is known of the node by its lines.

use crate::config::Config;
use crate::net::Peers;
use crate::node::{Group, GroupNumber, Phase};
use crate::protocol::VERSION;
use serde::Serialize;
use std::collections::{BTreeMap, VecDeque};
use std::time::{Duration, Instant};

/// So many groups of the past are kept for the page.
const MAX_PAST: usize = 400;

/// A node that didn't answer for so long isn't alive.
const SILENCE: Duration = Duration::from_secs(5);

/// What a member of a settled group waits for, as the crate `pace` sets it (`measured` of specs/Timers): agent/tests/units holds these to that.
mod waits_of_node {
    /// Its next question to its coordinator: so many round trips, and up to so many more, each of which counts as so many milliseconds at most.
    pub const COORDINATOR: u64 = 20;
    pub const COORDINATOR_JITTER: u64 = 3;
    pub const REST_MOST: u64 = 25;
    /// The answer: so many round trips, and so many milliseconds at least.
    pub const ANSWER: u64 = 5;
    pub const ANSWER_LEAST: u64 = 250;
}

/// A member that hears its coordinator no more asks, leaves where no answer comes, and is in the next group some more later. So whoever heard nobody for as long
/// says no more that it works in a majority: another one may.
fn lease_of(round_trip_ms: u64) -> Duration {
    use waits_of_node::{ANSWER, ANSWER_LEAST, COORDINATOR, COORDINATOR_JITTER, REST_MOST};
    let question = (COORDINATOR + COORDINATOR_JITTER) * round_trip_ms.min(REST_MOST);
    let answer = (ANSWER * round_trip_ms).max(ANSWER_LEAST);
    Duration::from_millis(question + answer)
}

/// A member that is lost leaves its coordinator alone at first. The others join it within so many round trips, where disks and processors let them.
const REGROUPS: u32 = 50;
const REGROUPS_LEAST: Duration = Duration::from_millis(250);
const REGROUPS_MOST: Duration = Duration::from_secs(1);

/// For how long the node may say that it works in a group of more than half of all nodes.
#[derive(Clone, Copy, Debug, PartialEq, Eq)]
pub enum Majority {
    No,
    Until(Instant),
    Always,
}

/// A group that the node was in.
#[derive(Clone, Debug, Serialize)]
pub struct Past {
    /// Since the agent began, in milliseconds.
    pub from_ms: u64,
    pub phase: Phase,
    pub coordinator: u8,
    pub group: GroupNumber,
    pub members: Vec<u8>,
}

pub struct View {
    pub cluster: String,
    pub own: u8,
    /// How many places have a machine.
    pub nodes: usize,
    pub began: Instant,
    pub group: Group,
    /// The greatest count of a group of its own.
    count: Option<u64>,
    /// When the group last changed.
    pub changed: Instant,
    /// When the node last answered.
    pub answered: Instant,
    /// Whether the node has mounted its file.
    pub is_ready: bool,
    pub past: VecDeque<Past>,
    /// The last group that the node worked in.
    worked_in: Group,
    lease: Duration,
    /// How long it takes at most until a group that was left with few members is a greater one; whether the last one that the node works in has fewer than the one
    /// before.
    regroups_in: Duration,
    has_shrunk: bool,
    /// Whether watchers were told last that it works in a majority.
    told_majority: bool,
}

/// The node and its group, as `status` has them.
#[derive(Clone, Debug, Serialize)]
pub struct Status {
    pub v: u64,
    pub cluster: String,
    pub node: u8,
    pub nodes: usize,
    pub phase: Phase,
    pub coordinator: u8,
    pub group: GroupNumber,
    pub members: Vec<u8>,
    /// The queues whose jobs this node works on.
    pub queues: Vec<u8>,
    pub is_coordinator: bool,
    /// At work in a group of more than half of all nodes, of which enough were heard lately: advice, and no lock.
    pub majority: bool,
    pub alive: bool,
    pub since_ms: u64,
    pub up_ms: u64,
}

/// One node of the cluster, as `members` has it.
#[derive(Clone, Debug, Serialize)]
pub struct Member {
    pub node: u8,
    pub name: String,
    pub address: Option<String>,
    pub is_self: bool,
    pub in_group: bool,
    pub coordinates: bool,
    pub queues: Vec<u8>,
    /// How long ago a message of it was taken.
    pub heard_ms: Option<u64>,
    /// Whose agent carries on what is said to it and by it, where it isn't reached by itself.
    pub through: Option<u8>,
    /// What its machine was tagged with, and how long ago that was told.
    pub tags: BTreeMap<String, String>,
    pub tags_ms: Option<u64>,
}

fn ms(duration: Duration) -> u64 {
    duration.as_millis() as u64
}

impl View {
    pub fn new(config: &Config, now: Instant) -> View {
        View {
            cluster: config.cluster.clone(),
            own: config.id,
            nodes: config.machines(),
            began: now,
            group: Group::default(),
            count: None,
            changed: now,
            answered: now,
            is_ready: false,
            past: VecDeque::new(),
            worked_in: Group::default(),
            regroups_in: (REGROUPS * Duration::from_millis(config.round_trip_ms)).clamp(REGROUPS_LEAST, REGROUPS_MOST),
            has_shrunk: false,
            lease: lease_of(config.round_trip_ms),
            told_majority: false,
        }
    }

    /// The node is in another group or phase; how many groups it made for that. It counts its groups, each by one more.
    pub fn enter(&mut self, group: Group, now: Instant) -> u64 {
        let count = (group.is_any() && group.number.creator == self.own).then_some(group.number.count);
        let made = count.map_or(0, |count| self.count.map_or(1, |last| count.saturating_sub(last)));
        self.count = self.count.max(count);
        if self.past.len() == MAX_PAST {
            self.past.pop_front();
        }
        self.past.push_back(Past {
            from_ms: ms(now - self.began),
            phase: group.phase,
            coordinator: group.coordinator,
            group: group.number,
            members: group.members.clone(),
        });
        if group.is_normal() {
            self.has_shrunk = group.members.len() < self.worked_in.members.len();
            self.worked_in = group.clone();
        }
        (self.group, self.changed) = (group, now);
        made
    }

    /// Of the last group that the node worked in, members that it heard itself and that a new one lacks: a coordinator hears all, a member hears it alone.
    pub fn lost_in(&self, group: &Group) -> Vec<u8> {
        let last = &self.worked_in;
        let is_heard = |node: u8| node != self.own && (last.coordinator == self.own || node == last.coordinator);
        let members = if group.is_normal() { last.members.as_slice() } else { &[] };
        members.iter().copied().filter(|node| is_heard(*node) && !group.members.contains(node)).collect()
    }

    /// From when on jobs that come in hand now are given: a group that lost members is young as long as it may be the first step to a greater one, whose jobs
    /// other machines have.
    pub fn gives_from(&self, now: Instant) -> Instant {
        let is_young = self.has_shrunk && self.group.is_normal();
        if is_young { now.max(self.changed + self.regroups_in) } else { now }
    }

    /// For how long jobs that left hand may come back: the group is made, and has its work.
    pub fn regroups_in(&self) -> Duration {
        self.regroups_in * 3 / 2
    }

    pub fn is_coordinator(&self) -> bool {
        self.group.is_normal() && self.group.coordinator == self.own
    }

    /// For how long a majority is one by what was heard: at a coordinator, which hears its members, of as many as make one with it; at a member of its
    /// coordinator, whom alone it hears.
    pub fn majority(&self, peers: &Peers) -> Majority {
        if !self.group.is_majority(self.nodes) {
            return Majority::No;
        }
        let heard = |node: &u8| peers.all().get(usize::from(*node)).and_then(|peer| peer.heard);
        let (mut times, needed): (Vec<_>, usize) = if self.is_coordinator() {
            let others = self.group.members.iter().filter(|node| **node != self.own);
            (others.map(heard).collect(), self.nodes / 2)
        } else {
            (vec![heard(&self.group.coordinator)], 1)
        };
        times.sort_unstable_by(|one, other| other.cmp(one));
        match needed.checked_sub(1) {
            None => Majority::Always,
            Some(last) => times.get(last).copied().flatten().map_or(Majority::No, |at| Majority::Until(at + self.lease)),
        }
    }

    pub fn is_majority(&self, peers: &Peers, now: Instant) -> bool {
        match self.majority(peers) {
            Majority::No => false,
            Majority::Until(end) => now < end,
            Majority::Always => true,
        }
    }

    /// Whether the node works in a majority, where watchers weren't told so yet.
    pub fn news_of_majority(&mut self, peers: &Peers, now: Instant) -> Option<bool> {
        let is_so = self.is_majority(peers, now);
        (std::mem::replace(&mut self.told_majority, is_so) != is_so).then_some(is_so)
    }

    pub fn is_alive(&self, now: Instant) -> bool {
        now.saturating_duration_since(self.answered) < SILENCE
    }

    pub fn status(&self, peers: &Peers, now: Instant) -> Status {
        Status {
            v: VERSION,
            cluster: self.cluster.clone(),
            node: self.own,
            nodes: self.nodes,
            phase: self.group.phase,
            coordinator: self.group.coordinator,
            group: self.group.number,
            members: self.group.members.clone(),
            queues: self.group.queues_of(self.own),
            is_coordinator: self.is_coordinator(),
            majority: self.is_majority(peers, now),
            alive: self.is_ready && self.is_alive(now),
            since_ms: ms(now - self.changed),
            up_ms: ms(now - self.began),
        }
    }

    pub fn members(&self, peers: &Peers, now: Instant) -> Vec<Member> {
        let member = |node: u8, peer: &crate::net::Peer| Member {
            node,
            name: peer.name.clone(),
            address: peer.address.map(|address| address.to_string()),
            is_self: node == self.own,
            in_group: self.group.members.contains(&node),
            coordinates: self.group.is_normal() && self.group.coordinator == node,
            queues: self.group.queues_of(node),
            heard_ms: peer.heard.map(|at| ms(now.saturating_duration_since(at))),
            through: peers.ways.through(node, now),
            tags: peer.tags.clone(),
            tags_ms: peer.tagged.map(|at| ms(now.saturating_duration_since(at))),
        };
        let is_shown = |node: &u8, peer: &crate::net::Peer| peer.is_machine() || self.group.members.contains(node);
        (0..).zip(peers.all()).filter(|(node, peer)| is_shown(node, peer)).map(|(node, peer)| member(node, peer)).collect()
    }
}

#[cfg(test)]
mod tests {
    use super::*;

    fn view(nodes: usize, now: Instant) -> View {
        let names: Vec<String> = (0..nodes).map(|node| format!("\"a:{}\"", node + 1)).collect();
        let text = format!("cluster = \"c\"\nid = 1\nnodes = [{}]\nfile = \"f\"\n", names.join(","));
        View::new(&Config::parse(&text).unwrap(), now)
    }

    #[test]
    fn a_majority_is_one_as_long_as_enough_are_heard() {
        let now = Instant::now();
        let (mut view, names) = (view(5, now), ["a:1", "b:1", "c:1", "d:1", "e:1"].map(str::to_string));
        let mut peers = Peers::new(1, &names, false, Duration::from_millis(20));
        let (lease, second) = (Duration::from_millis(710), Duration::from_secs(1));
        view.enter(Group::read(&["Normal", "1", "1:1", "0,1,2,4"]).unwrap(), now);
        assert_eq!(view.majority(&peers), Majority::No, "nobody was heard yet");
        for (node, at) in [(0, 3), (2, 2), (4, 1), (3, 9)] {
            peers.hear(node, "10.0.0.1:1".parse().unwrap(), now + second * at);
        }
        assert_eq!(view.majority(&peers), Majority::Until(now + second * 2 + lease), "two with it are three of five");
        view.enter(Group::read(&["Normal", "4", "4:1", "0,1,2,4"]).unwrap(), now);
        assert_eq!(view.majority(&peers), Majority::Until(now + second + lease), "a member hears its coordinator");
        let news = [1, 1, 2, 2].map(|at| view.news_of_majority(&peers, now + second * at));
        assert_eq!(news, [Some(true), None, Some(false), None]);
        view.enter(Group::read(&["Normal", "1", "1:9", "1,2"]).unwrap(), now);
        assert!(!view.is_majority(&peers, now), "two of five");
        view.nodes = 1;
        assert_eq!(view.majority(&peers), Majority::Always);
    }

    #[test]
    fn groups_that_it_made_are_counted() {
        let now = Instant::now();
        let mut view = view(3, now);
        let mut enter = |words: &[&str]| view.enter(Group::read(words).unwrap(), now);
        assert_eq!(enter(&["Normal", "1", "1:1700", "1"]), 1, "that of its recovery");
        assert_eq!(enter(&["Election", "1", "1:1701", "-"]), 1);
        assert_eq!(enter(&["Normal", "1", "1:1701", "0,1"]), 0, "another phase");
        assert_eq!(enter(&["Normal", "2", "2:9000", "0,1,2"]), 0, "another node's");
        assert_eq!(enter(&["Down"]), 0);
        assert_eq!(enter(&["Election", "1", "1:1704", "-"]), 3);
    }

    #[test]
    fn a_young_group_that_lost_members_gives_nothing_out() {
        let (now, second) = (Instant::now(), Duration::from_secs(1));
        let mut view = view(3, now);
        let mut waits = |words: &[&str]| {
            view.enter(Group::read(words).unwrap(), now);
            [now, now + second * 2].map(|at| view.gives_from(at) - at)
        };
        let (nothing, young) = ([Duration::ZERO; 2], [second, Duration::ZERO]);
        assert_eq!([waits(&["Normal", "1", "1:1", "1"]), waits(&["Normal", "2", "2:1", "0,1,2"])], [nothing, nothing]);
        assert_eq!([waits(&["Election", "1", "1:2", "-"]), waits(&["Normal", "1", "1:2", "1"])], [nothing, young]);
        assert_eq!(waits(&["Normal", "1", "1:3", "0,1"]), nothing, "greater than the last one");
    }

    #[test]
    fn members_that_it_heard_itself_are_missed() {
        let now = Instant::now();
        let mut view = view(5, now);
        let mut lost = |words: &[&str]| {
            let group = Group::read(words).unwrap();
            let lost = view.lost_in(&group);
            view.enter(group, now);
            lost
        };
        assert!(lost(&["Normal", "1", "1:1", "0,1,2,3"]).is_empty());
        assert!(lost(&["Election", "1", "1:2", "-"]).is_empty(), "it isn't known yet");
        assert_eq!(lost(&["Normal", "1", "1:2", "1,3"]), [0, 2]);
        assert!(lost(&["Normal", "3", "3:2", "0,1,3,4"]).is_empty());
        assert_eq!(lost(&["Normal", "1", "1:4", "1"]), [3], "the coordinator, which was heard");
    }
}
