//! Jobs that were submitted here and have no answer yet.

use super::stamps::Stamps;
use super::{Key, Outcome, Submission, Token, What};
use crate::node::Refusal;
use crate::protocol::{Reply, Tag};
use crate::service::ClientId;
use std::collections::BTreeMap;
use std::time::{Duration, Instant};

/// So many submissions may be without an answer.
const MAX_OPEN: usize = 4096;

/// After so many round trips without an answer the client is told so.
const PATIENCE: u32 = 200;
const MIN_PATIENCE: Duration = Duration::from_secs(4);

/// So many round trips later it is tried once more.
const PAUSE: u32 = 4;

/// So often an agent may ask for other stamps before its answer is waited for: where two agents don't agree they don't write to each other without an end.
const MAX_STALE: u32 = 4;

/// The serial number of what is no submission: theirs begin at 1.
const NO_SUBMISSION: u64 = 0;

const FULL: &str = "the journal of the node that leads has no room for a further job that isn't done";

/// Who is to be answered.
#[derive(Clone, Debug)]
pub struct Client {
    pub id: ClientId,
    pub tag: Tag,
}

/// What came of a try.
#[derive(Debug, PartialEq, Eq)]
pub enum Given {
    /// Node `origin` keeps it under this id.
    Kept {
        origin: u8,
        id: u64,
    },
    /// Node `coordinator` has to be asked.
    Elsewhere {
        coordinator: u8,
    },
    Refused(Refusal),
}

/// What is to be done with a submission whose time has come.
#[derive(Debug)]
pub enum Due {
    /// The own node is to be asked, which keeps it, or says who coordinates.
    Ask { serial: u64 },
    /// The client is to be told: it isn't tried any more.
    Tell { client: Client, reply: Reply },
}

struct Open {
    client: Client,
    job: Submission,
    until: Instant,
    next: Instant,
    /// Whether the own node was asked and didn't answer yet.
    asks_own: bool,
    /// How often it was sent to each agent that may have taken it, and whether that one said that its node doesn't keep it.
    sent: BTreeMap<u8, (u32, bool)>,
    /// Whether a node was asked that may have kept it though it didn't say so.
    is_in_doubt: bool,
    /// How often an agent asked for other stamps since it was tried last.
    stale: u32,
    last: Refusal,
}

impl Open {
    /// Whether some node may keep it without our knowing. A refusal says so of one request alone.
    fn may_be_kept(&self) -> bool {
        let is_sure = |(times, was_refused): &(u32, bool)| *times == 1 && *was_refused;
        self.is_in_doubt || self.asks_own || !self.sent.values().all(is_sure)
    }

    fn refusal(&self, refusal: Refusal) -> Reply {
        let reply = match refusal {
            Refusal::Full => Reply::refused(refusal).with("why", FULL),
            _ => Reply::refused(refusal),
        };
        if self.may_be_kept() {
            reply.with("may_be_kept", true)
        } else {
            reply
        }
    }
}

pub struct Outbox {
    life: u64,
    serial: u64,
    open: BTreeMap<u64, Open>,
    stamps: Stamps,
    round_trip: Duration,
}

impl Outbox {
    pub fn new(life: u64, nodes: usize, round_trip: Duration) -> Outbox {
        Outbox { life, serial: 0, open: BTreeMap::new(), stamps: Stamps::new(nodes), round_trip }
    }

    pub fn count(&self) -> usize {
        self.open.len()
    }

    /// Takes a submission; its serial number, by which the own node is to be asked now. None where there are too many.
    pub fn add(&mut self, client: Client, job: Submission, now: Instant) -> Option<u64> {
        if self.open.len() >= MAX_OPEN {
            return None;
        }
        self.serial += 1;
        let until = now + (self.round_trip * PATIENCE).max(MIN_PATIENCE);
        let (asks_own, sent, is_in_doubt, stale) = (false, BTreeMap::new(), false, 0);
        let open = Open { client, job, until, next: until, asks_own, sent, is_in_doubt, stale, last: Refusal::NoAnswer };
        self.open.insert(self.serial, open);
        Some(self.serial)
    }

    /// The key of a submission that has one.
    pub fn key(&self, serial: u64) -> Option<Key> {
        self.open.get(&serial)?.job.key
    }

    /// Submissions under this key are to be tried again at once.
    pub fn hurry(&mut self, key: Key, now: Instant) {
        self.open.values_mut().filter(|open| open.job.key == Some(key) && !open.asks_own).for_each(|open| open.next = now);
    }

    /// The own node is asked for it now.
    pub fn asks_own(&mut self, serial: u64) -> Option<&Submission> {
        self.open.get_mut(&serial).map(|open| {
            open.asks_own = true;
            &open.job
        })
    }

    /// The own node answered: what it doesn't keep by that it doesn't keep.
    pub fn own_answered(&mut self, serial: u64) {
        if let Some(open) = self.open.get_mut(&serial) {
            open.asks_own = false;
        }
    }

    /// The datagram that asks the agent of a coordinator.
    pub fn datagram(&mut self, serial: u64, to: u8) -> Option<(Token, What)> {
        let open = self.open.get_mut(&serial)?;
        let (life, number) = self.stamps.next(to)?;
        if life != 0 {
            let (times, _) = open.sent.entry(to).or_default();
            *times = times.saturating_add(1);
        }
        let what = What::Submit { life, number, job: open.job.clone() };
        Some((Token { life: self.life, serial }, what))
    }

    /// The token of what is no submission.
    pub fn token(&self) -> Token {
        Token { life: self.life, serial: NO_SUBMISSION }
    }

    /// Whether an agent's stamps aren't known and are to be asked for now.
    pub fn asks(&mut self, to: u8, now: Instant) -> bool {
        self.stamps.asks(to, now)
    }

    /// An agent answered that question; whether it was asked in this life.
    pub fn greeted(&mut self, from: u8, token: Token, life: u64, last: u64) -> bool {
        let is_asked = token == self.token();
        if is_asked {
            self.stamps.learn(from, life, last);
        }
        is_asked
    }

    /// The stamps by which an agent takes the next thing that is told it; None where they aren't known.
    pub fn stamps_for(&mut self, to: u8) -> Option<(u64, u64)> {
        self.stamps.next(to).filter(|_| self.stamps.is_known(to))
    }

    /// Whether it is known how to have an agent take what it is told.
    pub fn is_known(&self, node: u8) -> bool {
        self.stamps.is_known(node)
    }

    /// The life that an agent said last.
    pub fn life(&self, node: u8) -> Option<u64> {
        self.stamps.life(node)
    }

    /// An agent asked something in this life.
    pub fn seen(&mut self, from: u8, life: u64) {
        self.stamps.seen(from, life);
    }

    /// What tells an agent that the node of this one ends; None where it isn't known how to have it believe that.
    pub fn goodbye(&mut self, to: u8, is_copy: bool) -> Option<What> {
        self.stamps_for(to).map(|(life, number)| What::Leaving { life, number, is_copy, stays: false })
    }

    /// An agent answered; what its answer says of one of the submissions. Where it asks for other stamps, the request goes there again.
    pub fn replied(&mut self, from: u8, token: Token, outcome: Outcome) -> Option<(u64, Given)> {
        let open = self.open.get_mut(&token.serial).filter(|_| token.life == self.life)?;
        let given = match outcome {
            Outcome::Kept { id, origin } => Given::Kept { origin: origin.unwrap_or(from), id },
            Outcome::Refused { error } => {
                open.sent.entry(from).and_modify(|(_, was_refused)| *was_refused = true);
                Given::Refused(error)
            }
            Outcome::Stale { .. } if open.stale == MAX_STALE => return None,
            Outcome::Stale { life, last, .. } => {
                open.stale += 1;
                self.stamps.learn(from, life, last);
                Given::Elsewhere { coordinator: from }
            }
        };
        Some((token.serial, given))
    }

    /// A try is over; the answer to the client where that is the end of it. A refusal that may pass is tried again.
    pub fn settle(&mut self, serial: u64, given: Given, now: Instant) -> Option<(Client, Reply)> {
        let pause = self.round_trip * PAUSE;
        let open = self.open.get_mut(&serial)?;
        open.next = now + pause;
        let reply = match given {
            Given::Kept { origin, id } => Reply::ok().with("origin", origin).with("id", id),
            Given::Elsewhere { .. } => return None,
            Given::Refused(refusal) if refusal.may_pass() => {
                open.last = refusal;
                return None;
            }
            Given::Refused(refusal) => {
                open.is_in_doubt |= refusal.is_in_doubt();
                open.refusal(if refusal == Refusal::Unknown { Refusal::NoAnswer } else { refusal })
            }
        };
        self.open.remove(&serial).map(|open| (open.client, reply))
    }

    /// What is to be done now, one at a time. Where the own node has no room it can't be asked, and where it was asked its answer is waited for, since it may keep
    /// the job; a client whose patience ends is told so all the same.
    pub fn due(&mut self, now: Instant, has_room: bool) -> Option<Due> {
        let is_due = |open: &Open| open.until <= now || (has_room && !open.asks_own && open.next <= now);
        let (serial, open) = self.open.iter_mut().find(|(_, open)| is_due(open))?;
        let serial = *serial;
        if open.until > now {
            (open.next, open.stale) = (open.until, 0);
            return Some(Due::Ask { serial });
        }
        let open = self.open.remove(&serial)?;
        let reply = open.refusal(if open.may_be_kept() { Refusal::NoAnswer } else { open.last });
        Some(Due::Tell { client: open.client, reply })
    }

    /// When something is due next.
    pub fn next(&self, has_room: bool) -> Option<Instant> {
        self.open.values().map(|open| if has_room && !open.asks_own { open.next.min(open.until) } else { open.until }).min()
    }

    /// A client ended: nobody is to be answered, and what it submitted isn't tried again.
    pub fn give_up(&mut self, client: ClientId) {
        self.open.retain(|_, open| open.client.id != client);
    }
}

#[cfg(test)]
mod tests {
    use super::*;
    use crate::node::Payload;
    use serde_json::{json, Value};

    fn outbox(now: Instant) -> (Outbox, u64) {
        let mut outbox = Outbox::new(9, 3, Duration::from_millis(20));
        let job = Submission { queue: 1, priority: 0, payload: Payload::default(), key: None };
        let serial = outbox.add(Client { id: 5, tag: None }, job, now).unwrap();
        (outbox, serial)
    }

    fn stale(life: u64, last: u64) -> Outcome {
        Outcome::Stale { life, last, told: Vec::new(), about: None }
    }

    fn stamps(asked: Option<(Token, What)>) -> (u64, u64) {
        match asked.unwrap().1 {
            What::Submit { life, number, .. } => (life, number),
            other => panic!("{other:?}"),
        }
    }

    #[test]
    fn the_first_answer_of_an_agent_gives_its_stamps() {
        let now = Instant::now();
        let (mut outbox, serial) = outbox(now);
        let token = Token { life: 9, serial };
        assert_eq!(stamps(outbox.datagram(serial, 2)), (0, 1));
        let given = outbox.replied(2, token, stale(77, 40));
        assert_eq!(given, Some((serial, Given::Elsewhere { coordinator: 2 })));
        assert_eq!(stamps(outbox.datagram(serial, 2)), (77, 41));
        assert!(outbox.replied(2, token, stale(77, 40)).is_some());
        assert_eq!(stamps(outbox.datagram(serial, 2)), (77, 42), "numbers rise");
        assert_eq!(outbox.replied(2, Token { life: 8, serial }, Outcome::Kept { id: 1, origin: None }), None);
        let (_, given) = outbox.replied(2, token, Outcome::Kept { id: 1, origin: None }).unwrap();
        let (client, reply) = outbox.settle(serial, given, now).unwrap();
        assert_eq!((client.id, reply.line()), (5, b"{\"id\":1,\"ok\":true,\"origin\":2}\n".to_vec()));
        assert_eq!(outbox.count(), 0);
    }

    #[test]
    fn what_may_pass_is_tried_again_until_its_time_is_over() {
        let now = Instant::now();
        let (mut outbox, serial) = outbox(now);
        assert!(outbox.due(now, true).is_none());
        assert!(outbox.settle(serial, Given::Refused(Refusal::NotNormal), now).is_none());
        let later = now + Duration::from_millis(80);
        assert_eq!((outbox.next(true), outbox.next(false)), (Some(later), Some(now + MIN_PATIENCE)));
        assert!(outbox.due(later, false).is_none(), "the own node has no room");
        assert!(matches!(outbox.due(later, true), Some(Due::Ask { serial: asked }) if asked == serial));
        assert_eq!(told(outbox.due(now + MIN_PATIENCE, false)), json!({"ok": false, "error": "NotNormal"}));
    }

    fn told(due: Option<Due>) -> Value {
        match due {
            Some(Due::Tell { reply, .. }) => serde_json::from_slice(&reply.line()).unwrap(),
            other => panic!("{other:?}"),
        }
    }

    #[test]
    fn what_the_own_node_was_asked_may_be_kept() {
        let now = Instant::now();
        let (mut outbox, serial) = outbox(now);
        outbox.asks_own(serial).unwrap();
        // another one's refusal has it tried again, but not at a node that may keep it
        outbox.settle(serial, Given::Refused(Refusal::NotCoordinator), now);
        assert!(outbox.due(now + MIN_PATIENCE / 2, true).is_none());
        assert_eq!(outbox.next(true), Some(now + MIN_PATIENCE));
        let unknown = json!({"ok": false, "error": "NoAnswer", "may_be_kept": true});
        assert_eq!(told(outbox.due(now + MIN_PATIENCE, false)), unknown);
    }

    #[test]
    fn a_refusal_is_sure_where_one_request_alone_was_sent() {
        let (now, full) = (Instant::now(), || Outcome::Refused { error: Refusal::Full });
        for (requests, reply) in [
            (1, json!({"ok": false, "error": "Full", "why": FULL})),
            (2, json!({"ok": false, "error": "Full", "why": FULL, "may_be_kept": true})),
        ] {
            let (mut outbox, serial) = outbox(now);
            let token = Token { life: 9, serial };
            outbox.datagram(serial, 2);
            outbox.replied(2, token, stale(77, 0));
            (0..requests).for_each(|_| drop(outbox.datagram(serial, 2)));
            let (_, given) = outbox.replied(2, token, full()).unwrap();
            let (_, said) = outbox.settle(serial, given, now).unwrap();
            assert_eq!(serde_json::from_slice::<Value>(&said.line()).unwrap(), reply);
        }
    }

    #[test]
    fn a_refusal_is_sure_where_each_that_was_asked_once_refuses() {
        let (now, draining) = (Instant::now(), || Outcome::Refused { error: Refusal::Draining });
        let (mut outbox, serial) = outbox(now);
        let token = Token { life: 9, serial };
        for to in [1, 2] {
            outbox.datagram(serial, to);
            outbox.replied(to, token, stale(77, 0));
            outbox.datagram(serial, to);
            // an answer may come twice
            for _ in 0..2 {
                let (_, given) = outbox.replied(to, token, draining()).unwrap();
                assert!(outbox.settle(serial, given, now).is_none());
            }
        }
        assert_eq!(told(outbox.due(now + MIN_PATIENCE, false)), json!({"ok": false, "error": "Draining"}));
        let (mut outbox, serial) = self::outbox(now);
        outbox.datagram(serial, 1);
        outbox.replied(1, token, stale(77, 0));
        outbox.datagram(serial, 1);
        outbox.replied(2, token, draining());
        assert_eq!(told(outbox.due(now + MIN_PATIENCE, false))["may_be_kept"], true, "it is another one's");
    }

    #[test]
    fn a_device_that_failed_leaves_in_doubt_what_it_was_to_keep() {
        let now = Instant::now();
        let (mut own, serial) = outbox(now);
        own.asks_own(serial);
        own.own_answered(serial);
        let (mut other, there) = outbox(now);
        let token = Token { life: 9, serial: there };
        other.datagram(there, 2);
        other.replied(2, token, stale(77, 0));
        other.datagram(there, 2);
        let (_, given) = other.replied(2, token, Outcome::Refused { error: Refusal::Device }).unwrap();
        for said in [own.settle(serial, Given::Refused(Refusal::Device), now), other.settle(there, given, now)] {
            let reply: Value = serde_json::from_slice(&said.unwrap().1.line()).unwrap();
            assert_eq!(reply, json!({"ok": false, "error": "Device", "may_be_kept": true}));
        }
    }

    #[test]
    fn what_a_coordinator_left_without_an_answer_may_be_kept_though_the_next_one_refuses_it() {
        let now = Instant::now();
        let (mut outbox, serial) = outbox(now);
        let token = Token { life: 9, serial };
        for to in [1, 2] {
            outbox.datagram(serial, to);
            outbox.replied(to, token, stale(77, 0));
            outbox.datagram(serial, to);
        }
        let (_, given) = outbox.replied(2, token, Outcome::Refused { error: Refusal::Full }).unwrap();
        let (_, said) = outbox.settle(serial, given, now).unwrap();
        assert_eq!(serde_json::from_slice::<Value>(&said.line()).unwrap()["may_be_kept"], true);
    }

    #[test]
    fn agents_that_do_not_agree_on_stamps_pause() {
        let now = Instant::now();
        let (mut outbox, serial) = outbox(now);
        let token = Token { life: 9, serial };
        let times = (0..100).take_while(|_| outbox.replied(2, token, stale(77, u64::MAX)).is_some()).count();
        assert_eq!(times, MAX_STALE as usize);
        assert_eq!(stamps(outbox.datagram(serial, 2)), (77, u64::MAX));
    }

    #[test]
    fn a_refusal_of_a_later_version_is_in_doubt() {
        let now = Instant::now();
        let (mut outbox, serial) = outbox(now);
        let later: Outcome = serde_json::from_value(json!({"refused": {"error": "OfLater"}})).unwrap();
        let token = Token { life: 9, serial };
        outbox.datagram(serial, 2);
        let (_, given) = outbox.replied(2, token, later).unwrap();
        let (_, said) = outbox.settle(serial, given, now).unwrap();
        let reply: Value = serde_json::from_slice(&said.line()).unwrap();
        assert_eq!(reply, json!({"ok": false, "error": "NoAnswer", "may_be_kept": true}));
    }

    #[test]
    fn a_lasting_refusal_ends_it() {
        let now = Instant::now();
        let (mut outbox, serial) = outbox(now);
        assert!(outbox.settle(serial, Given::Refused(Refusal::Full), now).is_some());
        assert!(outbox.due(now + MIN_PATIENCE, true).is_none());
    }
}
