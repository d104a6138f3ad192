//! What agents send each other.

use super::about::Mark;
use super::of_leases::is_of_leases;
use super::relayed::is_relayed;
use super::{About, Key, Knows, Numbers, Seal, Told};
use crate::lease::Voting;
use crate::node::{JobKey, Payload, Refusal};
use serde::{Deserialize, Serialize};
use std::collections::BTreeMap;

/// A datagram of agents begins so; a message of nodes begins with 1 or 2.
const HEAD: [u8; 2] = [0xd6, 1];

/// A message of nodes without a seal travels behind this and the mark of its sender's cluster.
const HEAD_OF_MESSAGE: [u8; 2] = [0xd6, 2];

/// Names a submission over all lives of all agents.
#[derive(Clone, Copy, Debug, PartialEq, Eq, PartialOrd, Ord, Hash, Serialize, Deserialize)]
pub struct Token {
    pub life: u64,
    pub serial: u64,
}

#[derive(Clone, Debug, PartialEq, Eq, Serialize, Deserialize)]
pub struct Submission {
    pub queue: u8,
    pub priority: u8,
    pub payload: Payload,
    #[serde(default, skip_serializing_if = "Option::is_none")]
    pub key: Option<Key>,
}

#[derive(Clone, Debug, PartialEq, Eq, Serialize, Deserialize)]
#[serde(rename_all = "lowercase")]
pub enum Outcome {
    Kept {
        id: u64,
        /// Where it isn't the node of who replies.
        #[serde(default, skip_serializing_if = "Option::is_none")]
        origin: Option<u8>,
    },
    Refused {
        error: Refusal,
    },
    /// The request named another life of its receiver, or a number that was used before: it is to be sent again with these.
    Stale {
        life: u64,
        last: u64,
        /// Of an agent that asked for stamps: what it told of its node, in this life and before.
        #[serde(default, skip_serializing_if = "Vec::is_empty")]
        told: Vec<Told>,
        #[serde(default, skip_serializing_if = "Option::is_none")]
        about: Option<About>,
    },
}

/// Numbers of a node, with the stamps by which they are taken.
#[derive(Clone, Copy, Debug, PartialEq, Eq, Serialize, Deserialize)]
pub struct News {
    pub life: u64,
    pub number: u64,
    pub numbers: Numbers,
}

#[derive(Clone, Debug, PartialEq, Eq, Serialize, Deserialize)]
#[serde(rename_all = "lowercase")]
pub enum What {
    Submit { life: u64, number: u64, job: Submission },
    Reply(Outcome),
    /// Asks for the stamps by which its receiver takes a request: they are replied as those of one that is stale.
    Hello {
        #[serde(default, skip_serializing_if = "Option::is_none")]
        about: Option<About>,
        /// What the sender's node gave until now, by stamps that are known.
        #[serde(default, skip_serializing_if = "Option::is_none")]
        news: Option<News>,
    },
    /// The node of the sender ends now, by these stamps.
    Leaving {
        life: u64,
        number: u64,
        /// Whether it began from a copy of its file.
        #[serde(default, skip_serializing_if = "std::ops::Not::not")]
        is_copy: bool,
        /// Whether it goes on as a member: it alone doesn't lead any more.
        #[serde(default, skip_serializing_if = "std::ops::Not::not")]
        stays: bool,
    },
    /// A job is kept under this key.
    Keeps { life: u64, number: u64, key: Key, job: JobKey },
    /// Asks what its receiver knows of a key, and the answer, which has the token of the question.
    Asks { key: Key },
    Says { key: Key, knows: Knows },
    /// To one that isn't of the sender's cluster, or that its list doesn't name: of which one the sender is.
    Stranger { about: About },
    /// Asks among how many machines its receiver votes for leases, and the answer, which has the token of the question.
    AsksVoting {},
    SaysVoting(Voting),
    /// The tags of the sender's machine.
    Tags { tags: BTreeMap<String, String> },
    /// An event of the sender's machine, by the token that it has each time it is sent.
    Event { life: u64, number: u64, name: String, text: String },
}

#[derive(Clone, Debug, PartialEq, Eq, Serialize, Deserialize)]
pub struct Datagram {
    pub from: u8,
    pub to: u8,
    pub token: Token,
    pub what: What,
}

/// Whether a datagram is one of agents, and not a message of nodes.
pub fn is_of_agents(bytes: &[u8]) -> bool {
    bytes.first() == Some(&HEAD[0])
}

/// A message of nodes without a seal, as it travels.
pub fn marked(message: &[u8], mark: Mark) -> Vec<u8> {
    [&HEAD_OF_MESSAGE[..], &mark, message].concat()
}

/// The mark and the message of a datagram that is one without a seal.
pub fn unmarked(bytes: &[u8]) -> Option<(Mark, &[u8])> {
    let (mark, behind) = (Mark::default(), bytes.strip_prefix(&HEAD_OF_MESSAGE)?);
    let (front, message) = behind.split_at(mark.len().min(behind.len()));
    Some((front.try_into().ok()?, message))
}

/// Whether it is one of agents of another version than this one.
pub fn is_of_another_version(bytes: &[u8]) -> bool {
    is_of_agents(bytes) && bytes.get(1).map_or(false, |version| ![HEAD[1], HEAD_OF_MESSAGE[1]].contains(version)) && !is_of_leases(bytes) && !is_relayed(bytes)
}

impl Datagram {
    pub fn encode(&self, seal: &Seal) -> Vec<u8> {
        let mut bytes = HEAD.to_vec();
        bytes.extend(serde_json::to_vec(self).unwrap_or_default());
        seal.seal(bytes)
    }

    /// Of which cluster the sender says to be.
    pub fn about(&self) -> Option<&About> {
        match &self.what {
            What::Hello { about, .. } | What::Reply(Outcome::Stale { about, .. }) => about.as_ref(),
            What::Stranger { about } => Some(about),
            What::Submit { .. } | What::Reply(_) | What::Leaving { .. } | What::Keeps { .. } | What::Asks { .. } | What::Says { .. } | What::AsksVoting {} | What::SaysVoting(_) => None,
            What::Tags { .. } | What::Event { .. } => None,
        }
    }

    pub fn decode(bytes: &[u8], seal: &Seal) -> Option<Datagram> {
        let body = seal.open(bytes)?.strip_prefix(&HEAD)?;
        serde_json::from_slice(body).ok()
    }
}

#[cfg(test)]
mod tests {
    use super::*;
    use crate::chance::{Chance, TURNS};
    use crate::net::{LONGER, MAX_DATAGRAM};

    #[test]
    fn the_longest_fits_and_is_read_back() {
        let job = Submission { queue: 15, priority: 255, payload: Payload::of_bytes(&[0xff; 400]).unwrap(), key: Some(Key::of("a")) };
        let token = Token { life: u64::MAX, serial: u64::MAX };
        let what = What::Submit { life: u64::MAX, number: u64::MAX, job };
        let datagram = Datagram { from: 127, to: 126, token, what };
        let bytes = datagram.encode(&Seal::default());
        assert!(is_of_agents(&bytes) && bytes.len() + 32 + LONGER < MAX_DATAGRAM.min(1400), "{}", bytes.len());
        assert_eq!(Datagram::decode(&bytes, &Seal::default()), Some(datagram));
        assert_eq!(Datagram::decode(&bytes[1..], &Seal::default()), None);
        let versions = [&bytes[..], &[0xd6, 2], &[0xd6, 3], &[0xd6, 4], &[0xd6], &[1, 2], &[0xd6, 6]].map(is_of_another_version);
        assert_eq!(versions, [false, false, false, true, false, false, false]);
    }

    #[test]
    fn the_longest_list_is_read_back() {
        let names: Vec<String> = (0..128).map(|node| format!("node-{node}.example.org:7000")).collect();
        let news = Some(News { life: u64::MAX, number: u64::MAX, numbers: Numbers { count: u64::MAX, next: u64::MAX } });
        let token = Token { life: u64::MAX, serial: 0 };
        let what = What::Hello { about: Some(About::new(&"\"".repeat(64), &names)), news };
        let datagram = Datagram { from: 127, to: 126, token, what };
        let bytes = datagram.encode(&Seal::default());
        assert!(bytes.len() + 32 + LONGER <= MAX_DATAGRAM, "{}", bytes.len());
        assert_eq!(Datagram::decode(&bytes, &Seal::default()), Some(datagram));
        let old = br#"{"from":1,"to":0,"token":{"life":1,"serial":0},"what":{"hello":{}}}"#;
        let old = Datagram::decode(&[&HEAD[..], old].concat(), &Seal::default()).map(|datagram| datagram.what);
        assert_eq!(old, Some(What::Hello { about: None, news: None }));
    }

    #[test]
    fn the_longest_tags_and_event_fit() {
        let token = Token { life: u64::MAX, serial: u64::MAX };
        let tags: BTreeMap<String, String> = [("\"".repeat(256), "\"".repeat(256))].into_iter().collect();
        let event = What::Event { life: u64::MAX, number: u64::MAX, name: "\"".repeat(64), text: "\"".repeat(400) };
        for what in [What::Tags { tags }, event] {
            let datagram = Datagram { from: 127, to: 126, token, what };
            let bytes = datagram.encode(&Seal::default());
            assert!(bytes.len() + 32 + LONGER <= MAX_DATAGRAM, "{}", bytes.len());
            assert_eq!(Datagram::decode(&bytes, &Seal::default()), Some(datagram));
        }
    }

    #[test]
    fn a_message_travels_behind_its_mark() {
        let (mark, bytes) = ([7; 8], marked(b"message", [7; 8]));
        assert_eq!((unmarked(&bytes), unmarked(&bytes[..10]), is_of_agents(&bytes)), (Some((mark, &b"message"[..])), Some((mark, &b""[..])), true));
        assert!([&bytes[..9], &bytes[1..], &[0xd6, 1, 0, 0, 0, 0, 0, 0, 0, 0, 0]].iter().all(|other| unmarked(other).is_none()));
    }

    #[test]
    fn a_payload_is_hex_digits_and_no_further_line() {
        for (payload, is_read) in [
            ("6869", true),
            ("", true),
            ("686", false),
            ("68 3", false),
            ("-\\nfinish 0 5", false),
            (&*"00".repeat(401), false),
        ] {
            let what = format!(
                r#"{{"submit":{{"life":1,"number":1,"job":{{"queue":1,"priority":0,"payload":"{payload}"}}}}}}"#
            );
            let text = format!(r#"{{"from":1,"to":0,"token":{{"life":1,"serial":1}},"what":{what}}}"#);
            let bytes = [&HEAD, text.as_bytes()].concat();
            assert_eq!(Datagram::decode(&bytes, &Seal::default()).is_some(), is_read, "{payload}");
        }
    }

    fn any(chance: &mut Chance) -> Datagram {
        let (life, number, byte) = (chance.next(), chance.next(), chance.next() as u8);
        let (key, job) = (Key::of(&life.to_string()), JobKey { origin: byte, id: number });
        let text = |chance: &mut Chance, most| String::from_utf8_lossy(&chance.bytes(most)).into_owned();
        let payload: Vec<u8> = (0..chance.below(401)).map(|_| chance.next() as u8).collect();
        let (numbers, about) = (Numbers { count: life, next: number }, About::new("c", &["a:1".to_string(), "-".to_string()]));
        let submission = Submission { queue: byte, priority: byte, payload: Payload::of_bytes(&payload).unwrap(), key: chance.one_in(2).then_some(key) };
        let what = match chance.below(14) {
            0 => What::Submit { life, number, job: submission },
            1 => What::Reply(Outcome::Kept { id: number, origin: chance.one_in(2).then_some(byte) }),
            2 => What::Reply(Outcome::Refused { error: Refusal::Full }),
            3 => What::Reply(Outcome::Stale { life, last: number, told: vec![Told { life, numbers }], about: Some(about) }),
            4 => What::Hello { about: Some(about), news: Some(News { life, number, numbers }) },
            5 => What::Leaving { life, number, is_copy: chance.one_in(2), stays: chance.one_in(2) },
            6 => What::Keeps { life, number, key, job },
            7 => What::Asks { key },
            8 => What::Says { key, knows: chance.pick(&[Knows::Nothing, Knows::Busy, Knows::Kept(job)]) },
            9 => What::Stranger { about },
            10 => What::AsksVoting {},
            11 => What::SaysVoting(Voting { now: byte, wanted: byte }),
            12 => What::Tags { tags: [(text(chance, 60), text(chance, 60))].into_iter().collect() },
            _ => What::Event { life, number, name: text(chance, 60), text: text(chance, 300) },
        };
        Datagram { from: byte, to: number as u8, token: Token { life, serial: number }, what }
    }

    #[test]
    fn what_is_written_is_read_back_and_whatever_comes_is_read_or_refused() {
        let (mut chance, seal, mut taken) = (Chance::of(6), Seal::default(), 0);
        for _ in 0..TURNS {
            let datagram = any(&mut chance);
            let bytes = datagram.encode(&seal);
            assert_eq!(Datagram::decode(&bytes, &seal), Some(datagram));
            let odd = chance.odd(&[&bytes], 600);
            is_of_another_version(&odd);
            if let Some((mark, message)) = unmarked(&odd) {
                assert_eq!(marked(message, mark), odd);
            }
            if let Some(read) = Datagram::decode(&odd, &seal) {
                assert_eq!(Datagram::decode(&read.encode(&seal), &seal), Some(read));
                taken += 1;
            }
        }
        assert!(taken > 40, "{taken}");
        let deep = [&HEAD[..], "[".repeat(MAX_DATAGRAM).as_bytes()].concat();
        assert_eq!(Datagram::decode(&deep, &seal), None);
    }
}
