//! Whatever comes to a core it goes on: datagrams, lines of clients and answers of its processes that nobody right would say, and right ones that are spoiled. A
//! client that asks meanwhile is answered, and what is held of all that has bounds.

use super::super::core::Core;
use super::super::leases::Leases;
use super::machine::Machine;
use super::memory::{Memory, Time, RIGHT};
use super::node::Node;
use super::people::{Asked, Person, Role};
use super::pipes::Pipes;
use super::KeyFile;
use crate::chance::{Chance, TURNS};
use crate::forward::{marked, of_leases, About, Datagram, Key, Knows, Leg, Outcome, Relayed, Seal, Submission, Token, What};
use crate::metrics::Metrics;
use crate::net::{Cipher, MAX_DATAGRAM};
use crate::node::{JobKey, Payload};
use serde_json::Value;
use std::net::SocketAddr;
use std::path::Path;
use std::time::{Duration, Instant};

const NODES: [&str; 3] = ["10.0.0.1:7000", "10.0.0.2:7000", "10.0.0.3:7000"];

/// What the agent of machine 1 says to that of machine 0, in clear.
fn right_datagrams(seal: &Seal) -> Vec<Vec<u8>> {
    let about = About::new("simulated", &NODES.map(str::to_string));
    let (mark, token, key) = (about.mark(), Token { life: 5, serial: 1 }, Key::of("k"));
    let job = Submission { queue: 3, priority: 1, payload: Payload::of_bytes(b"hi").unwrap(), key: Some(key) };
    let (life, number, kept) = (7, 9, JobKey { origin: 1, id: 4 });
    let whats = [
        What::Hello { about: Some(about.clone()), news: None },
        What::Submit { life, number, job },
        What::Reply(Outcome::Kept { id: 4, origin: None }),
        What::Leaving { life, number, is_copy: false, stays: true },
        What::Keeps { life, number, key, job: kept },
        What::Asks { key },
        What::Says { key, knows: Knows::Kept(kept) },
        What::Stranger { about },
        What::AsksVoting {},
        What::Tags { tags: [("rack".to_string(), "7".to_string())].into_iter().collect() },
        What::Event { life, number, name: "n".to_string(), text: "t".to_string() },
    ];
    let mut all: Vec<Vec<u8>> = whats.into_iter().map(|what| Datagram { from: 1, to: 0, token, what }.encode(seal)).collect();
    let message = [1, 1, 1, 0, 0, 0];
    all.push(marked(&message, mark));
    all.push(of_leases::with_head(&message, Some(mark)));
    all.push(Relayed { leg: Leg::Last, is_deaf: false, from: 2, to: 0, by: 1, mark, inner: &all[0] }.encode());
    all
}

const LINES: [&str; 5] = [
    "{\"do\":\"submit\",\"queue\":3,\"text\":\"hi\",\"key\":\"k\"}\n",
    "{\"do\":\"take\",\"wait\":true}\n",
    "{\"do\":\"finish\",\"origin\":1,\"id\":7,\"ok\":false}\n",
    "{\"do\":\"watch\",\"every_ms\":100}\n",
    "{\"do\":\"acquire\",\"name\":\"lead\"}\n",
];

const ANSWERS: &str = "send 1 010101000000\ngroup Normal 1 1:5 0,1\ntake 1 7 3 6869 9\ndrop 1 7\ngone 5\nnext 1200\nok 3 id 8\nrefused 2 NotCoordinator 1\n";

const LEASE_ANSWERS: &str = "process 7\nsend 1 010101\nheld lead 1 9 1800\nheld lead 2 11 18446744073709551615\nlost lead 9\nrefused Waiting lead 2\nrefused Full lead 3\nrefused Time\nnext 1900\nnext\n";

/// A core, and clients of it.
struct Odd {
    chance: Chance,
    machine: Machine,
    /// To and from what it takes for its process of leases.
    pipes: Option<Pipes>,
    now: Instant,
    right: Vec<Vec<u8>>,
}

impl Odd {
    fn new(seed: u64, key: Option<&Path>) -> Odd {
        let time = Time::begin();
        let (mut machine, now, metrics) = (Machine::new(0, Memory::new(&time)), time.instant(), Metrics::new("simulated", &[]).unwrap());
        machine.lease_ms = 2000;
        machine.memory.votes(3);
        machine.start(Node::new(0, 9, 0, false), seed, key, &metrics, now);
        let seal = key.map_or_else(Seal::default, |key| Seal::read(key, "simulated", 3).unwrap());
        let mut right = right_datagrams(&seal);
        if let Some(key) = key {
            let mut cipher = Cipher::begin(&crate::forward::read_keys(key).unwrap(), "simulated", 3, 1).unwrap().drawn_as(seed);
            right = right.iter().map(|clear| cipher.encrypt(clear).unwrap()).collect();
        }
        Odd { chance: Chance::of(seed), machine, pipes: None, now, right }
    }

    fn core(&mut self) -> &mut Core<Memory> {
        self.machine.core.as_mut().unwrap()
    }

    fn goes_on(&mut self) {
        self.now += Duration::from_millis(self.chance.below(50));
        let now = self.now;
        self.core().turn(now);
        let said = if self.chance.one_in(3) { self.chance.odd(&[ANSWERS], 200) } else { b"ok 1\n".to_vec() };
        let mut answers = Vec::new();
        // a node that answers more than it was asked, or without an end, is ended
        self.core().node.hear(&said, &mut answers);
        self.core().heard(answers, now);
        self.core().unusable = None;
        self.core().node.unwritten().clear();
        self.core().link.sent.borrow_mut().clear();
        self.leases_go_on();
    }

    /// The process of leases says something, or ends.
    fn leases_go_on(&mut self) {
        self.machine.memory.set_clock(RIGHT, self.chance.below(50_000));
        if let Some(pipes) = self.machine.memory.take_started() {
            pipes.say(b"process 8\n");
            self.pipes = Some(pipes);
        }
        if let Some(pipes) = &self.pipes {
            let said = if self.chance.one_in(3) { self.chance.odd(&[LEASE_ANSWERS], 200) } else { b"next\n".to_vec() };
            pipes.say(&said);
            pipes.read();
            if self.chance.one_in(60) {
                pipes.close();
            }
        }
        self.core().leases.iter_mut().for_each(Leases::flush);
        self.core().leases.iter_mut().for_each(Leases::wake);
    }

    fn takes_anything(&mut self) {
        let from = self.chance.pick(&NODES).parse::<SocketAddr>().unwrap();
        let mut bytes = if self.chance.one_in(4) { self.chance.bytes(2000) } else { self.spoiled() };
        bytes.truncate(MAX_DATAGRAM);
        self.core().link.came.push_back((bytes, from));
        if self.chance.one_in(4) {
            let connection = self.machine.connect(1);
            connection.0.borrow_mut().written.extend(self.chance.odd(&LINES, 400));
            connection.0.borrow_mut().is_ended = self.chance.one_in(2);
        }
        self.goes_on();
    }

    /// One that is right, as often as one that is spoiled.
    fn spoiled(&mut self) -> Vec<u8> {
        let at = self.chance.below(self.right.len() as u64) as usize;
        if self.chance.one_in(2) { self.right[at].clone() } else { self.chance.spoiled(&self.right[at]) }
    }

    /// A client that comes now is answered.
    fn is_answered(&mut self) -> bool {
        self.machine.told.borrow_mut().clear();
        let mut person = Person::new(Role::Submitter, 0);
        let connection = self.machine.connect(7);
        connection.0.borrow_mut().written.extend(person.asks(Asked::Other, "\"do\":\"members\""));
        for _ in 0..4 {
            self.goes_on();
        }
        let told = std::mem::take(&mut *self.machine.told.borrow_mut());
        let lines: Vec<Value> = told.iter().filter(|(to, _)| *to == 7).flat_map(|(_, bytes)| person.reads(bytes)).collect();
        connection.0.borrow_mut().is_ended = true;
        lines.iter().any(|said| said["members"].as_array().map_or(false, |members| members.len() == 3))
    }
}

#[test]
fn whatever_comes_the_core_goes_on() {
    let key = KeyFile::new("odd");
    for seed in 1..=8 {
        let mut odd = Odd::new(seed, (seed % 2 == 0).then_some(key.0.as_path()));
        (0..4).for_each(|_| odd.goes_on());
        odd.now += Duration::from_secs(2);
        for _ in 0..TURNS / 10 {
            odd.takes_anything();
        }
        assert!(odd.is_answered(), "seed {seed}");
        let core = odd.core();
        assert!(core.held.len() <= 1024 && core.listings <= 8 && core.clients.count() <= 256 && core.hand.count() <= 9000);
    }
}
