//! Of which cluster an agent is: its name, how many places it has, and which machines are where. Agents introduce themselves to each other by that, and where
//! it doesn't fit they don't hear each other, with a key or without one.

use crate::config::EMPTY;
use serde::{Deserialize, Serialize};
use sha2::{Digest, Sha256};
use std::fmt;
use std::net::SocketAddr;
use std::time::{Duration, Instant};

/// Begins what is hashed for a mark.
const CONTEXT: &[u8] = b"dumgerok list 1";

/// A node's entry is told by so many hex digits of its hash: 40 bits. A place without a machine has dashes.
const DIGITS: usize = 10;
const NO_ENTRY: [u8; DIGITS] = [b'-'; DIGITS];

/// Of so many lists that were its own an agent is known by their marks.
const MAX_FORMER: usize = 4;

/// A stranger is told to the log no more often.
const PAUSE: Duration = Duration::from_secs(60);

/// Whoever sends messages by a mark that isn't known is asked no more often who it is.
const PAUSE_OF_QUESTIONS: Duration = Duration::from_millis(200);

/// So many strangers are remembered.
const MAX_STRANGERS: usize = 64;

/// Tells clusters and lists apart. It is in front of each message that has no seal.
pub type Mark = [u8; 8];

#[derive(Clone, Debug, PartialEq, Eq, Serialize, Deserialize)]
pub struct About {
    pub cluster: String,
    /// Of each place up to the last one with a machine the first digits of its entry's hash.
    list: String,
    /// How many places there are; 0 where each of the list is one.
    #[serde(default, skip_serializing_if = "is_zero")]
    places: u8,
}

fn is_zero(places: &u8) -> bool {
    *places == 0
}

impl About {
    /// Of a cluster of this name, with what its list has for each place.
    pub fn new(cluster: &str, names: &[String]) -> About {
        let digits = |name: &String| match name.as_str() {
            EMPTY => String::from_utf8_lossy(&NO_ENTRY).into_owned(),
            name => hex::encode(Sha256::digest(name))[..DIGITS].to_string(),
        };
        let listed = names.iter().rposition(|name| name != EMPTY).map_or(0, |last| last + 1);
        let places = if listed < names.len() { names.len() as u8 } else { 0 };
        About { cluster: cluster.to_string(), list: names[..listed].iter().map(digits).collect(), places }
    }

    pub fn places(&self) -> usize {
        match self.places {
            0 => self.list.len() / DIGITS,
            places => usize::from(places),
        }
    }

    /// How many places have a machine.
    fn machines(&self) -> usize {
        self.entries().filter(|(_, entry)| *entry != NO_ENTRY).count()
    }

    pub fn mark(&self) -> Mark {
        let digest = Sha256::new().chain_update(CONTEXT).chain_update([self.places() as u8]).chain_update(&self.list).chain_update(&self.cluster).finalize();
        let mut mark = Mark::default();
        mark.copy_from_slice(&digest[..8]);
        mark
    }

    fn entries(&self) -> impl Iterator<Item = (usize, &[u8])> {
        self.list.as_bytes().chunks(DIGITS).enumerate()
    }

    fn has_machine(&self, place: usize) -> bool {
        self.entries().nth(place).map_or(false, |(_, entry)| entry != NO_ENTRY)
    }

    /// By what these and others aren't of one cluster. A place may be empty in one of both lists, as while a machine is added, and have another entry there, as
    /// while a machine moves; what stands at a place of one list doesn't stand at another place of the other one.
    fn contradiction(&self, other: &About) -> Option<Difference> {
        if self.cluster != other.cluster {
            return Some(Difference::Name);
        }
        if self.places() != other.places() {
            return Some(Difference::Places);
        }
        self.entries().filter(|(_, entry)| *entry != NO_ENTRY).find_map(|(here, entry)| {
            let (there, _) = other.entries().find(|(there, one)| *one == entry && *there != here)?;
            Some(Difference::Order { here, there })
        })
    }

    /// By what node `own` of these and node `id` of others aren't of one cluster.
    fn difference(&self, own: u8, other: &About, id: u8) -> Option<Difference> {
        self.contradiction(other).or_else(|| (own == id).then_some(Difference::SameId))
    }

    /// Places that have a machine in one of two lists alone: here, and there.
    fn gaps(&self, other: &About) -> Gaps {
        let alone = |one: &About, other: &About| -> Vec<usize> {
            (0..one.places()).filter(|place| one.has_machine(*place) && !other.has_machine(*place)).collect()
        };
        Gaps { here: alone(self, other), there: alone(other, self) }
    }
}

/// Places that have a machine in one of two lists that fit, as the log has it.
#[derive(Debug, PartialEq, Eq)]
pub struct Gaps {
    here: Vec<usize>,
    there: Vec<usize>,
}

impl fmt::Display for Gaps {
    fn fmt(&self, f: &mut fmt::Formatter<'_>) -> fmt::Result {
        let words = |places: &[usize]| places.iter().map(usize::to_string).collect::<Vec<_>>().join(", ");
        let of = |places: &[usize], whose: &str| (!places.is_empty()).then(|| format!("a machine at {} in {whose} alone", words(places)));
        let both: Vec<String> = of(&self.here, "`nodes` here").into_iter().chain(of(&self.there, "its `nodes`")).collect();
        write!(f, "{}", both.join(", "))
    }
}

#[derive(Clone, Copy, Debug, PartialEq, Eq)]
enum Difference {
    Name,
    Places,
    Order { here: usize, there: usize },
    SameId,
}

/// An agent that isn't of this one's cluster, as the log has it.
#[derive(Debug, PartialEq, Eq)]
pub struct Stranger {
    difference: Difference,
    own: (u8, About),
    other: (u8, About),
}

impl fmt::Display for Stranger {
    fn fmt(&self, f: &mut fmt::Formatter<'_>) -> fmt::Result {
        let ((id, other), (own, about)) = (&self.other, &self.own);
        write!(f, "it is node {id} of the {} nodes of cluster {}, and this one is node ", other.machines(), other.cluster)?;
        write!(f, "{own} of the {} of cluster {}", about.machines(), about.cluster)?;
        match self.difference {
            Difference::Order { here, there } => {
                write!(f, ", and what is place {here} of `nodes` here is place {there} there")
            }
            Difference::Places => write!(f, ", and its file is of {} places, and this one's of {}", other.places(), about.places()),
            Difference::Name | Difference::SameId => Ok(()),
        }
    }
}

/// What is known of the other agents.
pub struct Introductions {
    own: u8,
    about: About,
    mark: Mark,
    /// The marks of lists that were this agent's, as others may have them still.
    former: Vec<Mark>,
    /// By which mark each node came whose list has gaps, where that was told to the log.
    told_gaps: Vec<Option<Mark>>,
    /// By which mark each node's messages come that fits, and whether one came of each that doesn't.
    known: Vec<Option<Mark>>,
    has_stranger: Vec<bool>,
    told: Vec<(SocketAddr, Instant)>,
    asked: Option<Instant>,
}

impl Introductions {
    pub fn new(own: u8, about: About) -> Introductions {
        let (mark, places) = (about.mark(), about.places());
        let (known, has_stranger, told_gaps) = (vec![None; places], vec![false; places], vec![None; places]);
        Introductions { own, about, mark, former: Vec::new(), told_gaps, known, has_stranger, told: Vec::new(), asked: None }
    }

    /// The list is another one now, of as many places.
    pub fn rename(&mut self, about: About) {
        let mark = about.mark();
        if mark == self.mark {
            return;
        }
        if about.contradiction(&self.about).is_some() {
            self.former.clear();
        } else {
            self.former.push(self.mark);
            let oldest = self.former.len().saturating_sub(MAX_FORMER);
            self.former.drain(..oldest);
        }
        (self.mark, self.about) = (mark, about);
    }

    pub fn about(&self) -> &About {
        &self.about
    }

    pub fn mark(&self) -> Mark {
        self.mark
    }

    /// Whether a message of this node comes by a mark that fits.
    pub fn is_known(&self, node: u8, mark: Mark) -> bool {
        mark == self.mark || self.former.contains(&mark) || self.known.get(usize::from(node)).map_or(false, |known| *known == Some(mark))
    }

    /// Whether nobody but strangers introduced themselves as this node.
    pub fn is_stranger(&self, node: u8) -> bool {
        let at = usize::from(node);
        self.has_stranger.get(at).copied().unwrap_or(false) && self.known[at].is_none()
    }

    /// An agent introduced itself; where it is a stranger, what it is.
    pub fn meet(&mut self, id: u8, about: &About) -> Option<Stranger> {
        let difference = self.about.difference(self.own, about, id);
        let at = usize::from(id);
        match (difference, self.known.get_mut(at)) {
            (None, Some(known)) => *known = Some(about.mark()),
            (Some(_), Some(known)) => {
                // it may have been of this cluster until it began anew
                *known = known.filter(|mark| *mark != about.mark());
                self.has_stranger[at] = true;
            }
            (_, None) => {}
        }
        let (own, other) = ((self.own, self.about.clone()), (id, about.clone()));
        difference.map(|difference| Stranger { difference, own, other })
    }

    /// What the log is to be told, once for each list of a node, where that fits and has gaps.
    pub fn gaps(&mut self, id: u8, about: &About) -> Option<Gaps> {
        let (mark, told) = (about.mark(), self.told_gaps.get_mut(usize::from(id))?);
        let gaps = self.about.gaps(about);
        let is_none = gaps.here.is_empty() && gaps.there.is_empty();
        let before = std::mem::replace(told, (!is_none).then_some(mark));
        (!is_none && before != Some(mark)).then_some(gaps)
    }

    /// Whether the log was told that a node's list has gaps.
    pub fn has_gaps(&self, node: u8) -> bool {
        self.told_gaps.get(usize::from(node)).map_or(false, Option::is_some)
    }

    /// Whether the log is to be told of the stranger at this address.
    pub fn tells_of(&mut self, at: SocketAddr, now: Instant) -> bool {
        self.told.retain(|(_, told)| now.saturating_duration_since(*told) < PAUSE);
        let is_new = self.told.len() < MAX_STRANGERS && !self.told.iter().any(|(address, _)| *address == at);
        if is_new {
            self.told.push((at, now));
        }
        is_new
    }

    /// Whether one whose mark isn't known is to be asked who it is.
    pub fn asks(&mut self, now: Instant) -> bool {
        let is_due = self.asked.map_or(true, |asked| now.saturating_duration_since(asked) >= PAUSE_OF_QUESTIONS);
        if is_due {
            self.asked = Some(now);
        }
        is_due
    }
}

#[cfg(test)]
mod tests {
    use super::*;

    fn about(cluster: &str, names: &[&str]) -> About {
        About::new(cluster, &names.iter().map(|name| name.to_string()).collect::<Vec<_>>())
    }

    #[test]
    fn those_of_one_cluster_fit_though_a_machine_moved() {
        let own = about("x", &["a:1", "b:1", "c:1"]);
        for (id, other, stranger) in [
            (1, about("x", &["a:1", "b:1", "c:1"]), None),
            (1, about("x", &["a:1", "d:1", "e:1"]), None),
            (1, about("y", &["a:1", "b:1", "c:1"]), Some(Difference::Name)),
            (1, about("x", &["a:1", "b:1"]), Some(Difference::Places)),
            (1, about("x", &["a:1", "b:1", "c:1", "d:1"]), Some(Difference::Places)),
            (1, about("x", &["a:1", "c:1", "b:1"]), Some(Difference::Order { here: 1, there: 2 })),
            (1, about("x", &["d:1", "a:1", "c:1"]), Some(Difference::Order { here: 0, there: 1 })),
            (0, about("x", &["a:1", "b:1", "c:1"]), Some(Difference::SameId)),
        ] {
            assert_eq!(own.difference(0, &other, id), stranger, "{other:?}");
        }
    }

    #[test]
    fn lists_fit_where_one_has_a_machine_and_the_other_none() {
        let own = about("x", &["a:1", "b:1", "-", "d:1", "-"]);
        for (names, stranger, gaps) in [
            (["a:1", "b:1", "-", "d:1", "-"], None, (vec![], vec![])),
            (["a:1", "-", "c:1", "d:1", "e:1"], None, (vec![1], vec![2, 4])),
            (["a:1", "-", "-", "-", "-"], None, (vec![1, 3], vec![])),
            (["a:1", "m:1", "-", "d:1", "-"], None, (vec![], vec![])),
            (["a:1", "-", "b:1", "d:1", "-"], Some(Difference::Order { here: 1, there: 2 }), (vec![1], vec![2])),
            (["a:1", "d:1", "-", "b:1", "-"], Some(Difference::Order { here: 1, there: 3 }), (vec![], vec![])),
        ] {
            let other = about("x", &names);
            assert_eq!(own.difference(1, &other, 0), stranger, "{other:?}");
            assert_eq!(other.difference(0, &own, 1).is_some(), stranger.is_some(), "{other:?}");
            assert_eq!(own.gaps(&other), Gaps { here: gaps.0, there: gaps.1 }, "{other:?}");
            assert_eq!((other.places(), other.mark() == own.mark()), (5, other == own));
        }
        let fewer = about("x", &["a:1", "b:1", "-", "d:1"]);
        assert_eq!((fewer.places(), own.difference(1, &fewer, 0)), (4, Some(Difference::Places)));
        assert_eq!((own.machines(), own.gaps(&about("x", &["a:1", "-", "c:1", "d:1", "e:1"])).to_string()), (3, "a machine at 1 in `nodes` here alone, a machine at 2, 4 in its `nodes` alone".to_string()));
    }

    #[test]
    fn gaps_are_told_once_and_a_former_list_is_known() {
        let (old, new) = (about("x", &["a:1", "b:1", "-"]), about("x", &["a:1", "b:1", "c:1"]));
        let mut met = Introductions::new(0, old.clone());
        let told = [1, 1, 2].map(|id| met.gaps(id, &new).is_some());
        assert_eq!((told, [0, 1, 2, 9].map(|id| met.has_gaps(id))), ([true, false, true], [false, true, true, false]));
        assert_eq!((met.gaps(1, &old), met.has_gaps(1), met.gaps(1, &new).is_some(), met.gaps(9, &new)), (None, false, true, None));
        assert!(!met.is_known(1, new.mark()));
        met.rename(new.clone());
        assert!(met.is_known(1, new.mark()) && met.is_known(1, old.mark()) && met.gaps(1, &new).is_none());
        met.rename(about("x", &["b:1", "a:1", "c:1"]));
        assert!(!met.is_known(1, new.mark()) && !met.is_known(1, old.mark()), "their order is another one");
    }

    #[test]
    fn a_list_without_empty_places_is_told_as_it_was_before_there_were_any() {
        let (own, text) = (about("x", &["a:1", "b:1"]), r#"{"cluster":"x","list":"2b2c40a67034340f0e82"}"#);
        let read: About = serde_json::from_str(text).unwrap();
        assert_eq!((serde_json::to_string(&own).unwrap().as_str(), read.places(), &read), (text, 2, &own));
        assert_eq!(hex::encode(own.mark()), "d48a1931e9065f06");
    }

    #[test]
    fn a_message_is_known_by_a_mark_that_was_introduced() {
        let own = about("x", &["a:1", "b:1", "c:1"]);
        let (moved, other) = (about("x", &["a:1", "b:1", "d:1"]), about("x", &["a:1", "c:1", "b:1"]));
        let mut met = Introductions::new(0, own.clone());
        assert!(met.is_known(1, own.mark()) && !met.is_known(1, moved.mark()) && !met.is_known(1, other.mark()));
        assert_eq!((met.meet(1, &moved), met.is_known(1, moved.mark()), met.is_known(2, moved.mark())), (None, true, false));
        let said = met.meet(2, &other).map(|stranger| stranger.to_string());
        let text = "it is node 2 of the 3 nodes of cluster x, and this one is node 0 of the 3 of cluster x, and what is place 1 of `nodes` here is place 2 there";
        assert_eq!((said.as_deref(), met.is_known(2, other.mark()), met.is_stranger(2), met.is_stranger(1)), (Some(text), false, true, false));
        assert!(met.meet(1, &about("y", &["a:1"])).is_some() && !met.is_stranger(1), "another one is it");
        assert!(met.meet(9, &own).is_none() && !met.is_stranger(9) && met.meet(0, &own).is_some());
    }

    #[test]
    fn a_stranger_is_told_once_in_a_while() {
        let (now, mut met) = (Instant::now(), Introductions::new(0, about("x", &["a:1"])));
        let address = |port: u16| SocketAddr::from(([127, 0, 0, 1], port));
        let later = |second: u64| now + Duration::from_secs(second);
        let told = [(1, 0), (1, 1), (2, 1), (1, 61), (1, 62)].map(|(port, second)| met.tells_of(address(port), later(second)));
        assert_eq!(told, [true, false, true, true, false]);
        assert_eq!((100..300).filter(|port| met.tells_of(address(*port), later(62))).count(), MAX_STRANGERS - 1);
        assert_eq!([0, 1, 2].map(|second| met.asks(later(second))), [true; 3]);
        assert!(!met.asks(later(2)));
    }

    #[test]
    fn marks_tell_names_lengths_and_orders_apart() {
        let all = [about("x", &["a", "b"]), about("x", &["b", "a"]), about("xa", &["b"]), about("y", &["a", "b"]), about("x", &["a"]), about("x", &[])];
        for (at, one) in all.iter().enumerate() {
            assert!(all[..at].iter().all(|other| other.mark() != one.mark()), "{one:?}");
        }
    }
}
