//! A model of who knows what: submissions of one agent to the nodes of three, over a network that loses, doubles and delays, with agents that begin anew and
//! devices that fail. Whoever is surely refused has no job that some node keeps, and whoever is told of a job has that one.

use super::outbox::{Client, Due, Given, Outbox};
use super::{Inbox, Outcome, Submission, Token, Verdict, What};
use crate::chance::Chance;
use crate::node::{Payload, Refusal};
use crate::protocol::Reply;
use serde_json::Value;
use std::collections::{BTreeMap, BTreeSet};
use std::time::{Duration, Instant};

const CLIENTS: usize = 4;
const NODES: usize = 3;
/// The life of the agent that submits; the others' rise from their number on.
const OWN_LIFE: u64 = 1000;
/// Agents begin anew until this millisecond.
const LAST_START: u64 = 5000;

#[derive(Clone)]
enum Event {
    /// The own node answers.
    OwnAnswer(u64),
    Submit {
        to: u8,
        token: Token,
        life: u64,
        number: u64,
    },
    /// The node of an agent answers; nobody hears it where that one began anew meanwhile.
    Answer {
        of: u8,
        life: u64,
        token: Token,
    },
    Reply {
        from: u8,
        token: Token,
        outcome: Outcome,
    },
    Retry,
    BeginAnew(u8),
}

struct World {
    chance: Chance,
    begin: Instant,
    now: u64,
    /// What is to come, by its time and in the order in which it was put there.
    later: BTreeMap<(u64, u64), Event>,
    count: u64,
    outbox: Outbox,
    inboxes: Vec<Inbox>,
    lives: Vec<u64>,
    devices_fail: bool,
    /// The submissions whose job is kept by some node, and what each client was told.
    kept: BTreeSet<u64>,
    told: BTreeMap<usize, Value>,
}

impl World {
    fn new(seed: u64, devices_fail: bool) -> World {
        let lives: Vec<u64> = (1..=NODES as u64).collect();
        let mut world = World {
            chance: Chance::of(seed),
            begin: Instant::now(),
            now: 0,
            later: BTreeMap::new(),
            count: 0,
            outbox: Outbox::new(OWN_LIFE, NODES, Duration::from_millis(20)),
            inboxes: lives.iter().map(|life| Inbox::new(*life, NODES)).collect(),
            lives,
            devices_fail,
            kept: BTreeSet::new(),
            told: BTreeMap::new(),
        };
        for id in 0..CLIENTS {
            let job = Submission { queue: 1, priority: 0, payload: Payload::default(), key: None };
            let serial = world.outbox.add(Client { id, tag: None }, job, world.begin).unwrap();
            world.tried(serial, Given::Elsewhere { coordinator: 1 + (id % 2) as u8 });
        }
        world.put(1, Event::Retry);
        for at in 1..NODES as u8 {
            let first = world.chance.below(3000);
            world.put(first, Event::BeginAnew(at));
        }
        world
    }

    fn put(&mut self, delay: u64, event: Event) {
        self.count += 1;
        self.later.insert((self.now + delay, self.count), event);
    }

    /// Over the network: one in eight is lost, two come more than once, and one in twenty is late.
    fn send(&mut self, event: &Event) {
        let copies = [1, 1, 1, 1, 1, 0, 2, 3][self.chance.below(8) as usize];
        for _ in 0..copies {
            let delay = 1 + self.chance.below(30) + if self.chance.one_in(20) { 400 } else { 0 };
            self.put(delay, event.clone());
        }
    }

    fn instant(&self) -> Instant {
        self.begin + Duration::from_millis(self.now)
    }

    fn tried(&mut self, serial: u64, given: Given) {
        if let Given::Elsewhere { coordinator: to } = given {
            if let Some((token, What::Submit { life, number, .. })) = self.outbox.datagram(serial, to) {
                self.send(&Event::Submit { to, token, life, number });
            }
        }
        if let Some((client, reply)) = self.outbox.settle(serial, given, self.instant()) {
            self.tell(&client, &reply);
        }
    }

    fn tell(&mut self, client: &Client, reply: &Reply) {
        let before = self.told.insert(client.id, serde_json::from_slice(&reply.line()).unwrap());
        assert!(before.is_none(), "a client is answered once");
    }

    /// What a node makes of a submission. One whose device fails may have kept it all the same.
    fn asked(&mut self, serial: u64) -> Outcome {
        let refused = |error| Outcome::Refused { error };
        match self.chance.below(8) {
            0..=2 => {
                self.kept.insert(serial);
                Outcome::Kept { id: serial, origin: None }
            }
            3 if self.devices_fail => {
                if self.chance.one_in(2) {
                    self.kept.insert(serial);
                }
                refused(Refusal::Device)
            }
            4 => refused(Refusal::Full),
            5 => refused(Refusal::NotCoordinator),
            _ => refused(Refusal::NotNormal),
        }
    }

    fn own_answer(&mut self, serial: u64) {
        self.outbox.own_answered(serial);
        let given = match self.chance.below(6) {
            0 => Given::Elsewhere { coordinator: 1 },
            1 | 2 => Given::Elsewhere { coordinator: 2 },
            3 => match self.asked(serial) {
                Outcome::Kept { id, .. } => Given::Kept { origin: 0, id },
                Outcome::Refused { error } => Given::Refused(error),
                Outcome::Stale { .. } => unreachable!("no node says so"),
            },
            _ => Given::Refused(Refusal::NotNormal),
        };
        self.tried(serial, given);
    }

    fn step(&mut self, event: Event) {
        match event {
            Event::OwnAnswer(serial) => self.own_answer(serial),
            Event::Submit { to, token, life, number } => self.submitted(to, token, life, number),
            Event::Answer { of, life, token } => {
                let outcome = self.asked(token.serial);
                if life == self.lives[usize::from(of)] {
                    self.inboxes[usize::from(of)].answered(token, &outcome);
                    self.send(&Event::Reply { from: of, token, outcome });
                }
            }
            Event::Reply { from, token, outcome } => {
                if let Some((serial, given)) = self.outbox.replied(from, token, outcome) {
                    self.tried(serial, given);
                }
            }
            Event::Retry => self.retry(),
            Event::BeginAnew(at) => {
                self.lives[usize::from(at)] += NODES as u64;
                self.inboxes[usize::from(at)] = Inbox::new(self.lives[usize::from(at)], NODES);
                let pause = 100 + self.chance.below(2000);
                if self.now < LAST_START {
                    self.put(pause, Event::BeginAnew(at));
                }
            }
        }
    }

    fn submitted(&mut self, to: u8, token: Token, life: u64, number: u64) {
        let inbox = &mut self.inboxes[usize::from(to)];
        match inbox.judge(0, token, life, number) {
            Some(Verdict::Ask) => {
                inbox.asked(token);
                let delay = self.chance.below(40);
                self.put(delay, Event::Answer { of: to, life: self.lives[usize::from(to)], token });
            }
            Some(Verdict::Answer(outcome)) => self.send(&Event::Reply { from: to, token, outcome }),
            Some(Verdict::Wait) | None => {}
        }
    }

    fn retry(&mut self) {
        let has_room = !self.chance.one_in(4);
        while let Some(due) = self.outbox.due(self.instant(), has_room) {
            match due {
                Due::Ask { serial } => {
                    self.outbox.asks_own(serial);
                    let delay = self.chance.below(30);
                    self.put(delay, Event::OwnAnswer(serial));
                }
                Due::Tell { client, reply } => self.tell(&client, &reply),
            }
        }
        if self.outbox.count() > 0 {
            self.put(20, Event::Retry);
        }
    }

    /// Goes on until nothing is to come any more.
    fn run(mut self) -> World {
        while let Some((at, event)) = self.later.iter().next().map(|(at, event)| (*at, event.clone())) {
            self.later.remove(&at);
            self.now = at.0;
            self.step(event);
        }
        self
    }
}

/// How many clients were surely refused, and how many were told of a job.
fn told(runs: u64, devices_fail: bool) -> (u64, u64) {
    let (mut sure, mut kept) = (0, 0);
    for seed in 1..=runs {
        let world = World::new(seed, devices_fail).run();
        assert_eq!(world.told.len(), CLIENTS, "seed {seed}: each client is answered");
        for (client, said) in &world.told {
            let serial = *client as u64 + 1;
            if said["ok"] == true {
                kept += 1;
                assert!(world.kept.contains(&serial), "seed {seed}, client {client}: nobody keeps {said}");
            } else if said["may_be_kept"] != true {
                sure += 1;
                assert!(!world.kept.contains(&serial), "seed {seed}, client {client}: it is kept, and was told {said}");
            }
        }
    }
    (sure, kept)
}

#[test]
fn who_is_surely_refused_has_no_job_that_is_kept() {
    for devices_fail in [false, true] {
        let (sure, kept) = told(5000, devices_fail);
        assert!(sure > 1000 && kept > 5000, "{sure} {kept}");
    }
}
