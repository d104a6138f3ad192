//! Submissions on their way between agents.

use super::datagrams::Waiting;
use super::core::{Core, Ports};
use super::{Asker, Origin, FILE_IS_COPY};
use crate::forward::{is_of_another_version, of_leases, unmarked, About, Client, Datagram, Due, Given, News, Outcome, Submission, Told, Token, Turn, Verdict, What};
use crate::net::Network;
use crate::node::{JobKey, Lane, Refusal};
use crate::protocol::Reply;
use log::{info, warn};
use std::net::SocketAddr;
use std::time::Instant;

fn line_of(job: &Submission) -> String {
    match job.priority {
        0 => format!("submit {} {}", job.queue, job.payload),
        priority => format!("submit {} {} {priority}", job.queue, job.payload),
    }
}

impl<P: Ports> Core<P> {
    /// A local client submits a job.
    pub(super) fn submit(&mut self, client: Client, job: Submission, now: Instant) {
        match self.outbox.add(client.clone(), job, now) {
            None => self.clients.tell(client.id, &Reply::refused("Busy").tagged(&client.tag)),
            Some(serial) => {
                self.clients.owe(client.id);
                self.begin_try(serial, now);
            }
        }
    }

    /// Has a job kept where it is to be: where another node leads the own one would only say so.
    fn begin_try(&mut self, serial: u64, now: Instant) {
        let key = self.outbox.key(serial);
        if let Some(job) = key.and_then(|key| self.keys.job(key, now)) {
            return self.tried(serial, Given::Kept { origin: job.origin, id: job.id }, now);
        }
        if self.view.group.is_normal() && !self.view.is_coordinator() {
            return self.tried(serial, Given::Elsewhere { coordinator: self.view.group.coordinator }, now);
        }
        if self.draining.is_some() {
            let other = self.in_place_of_own(now).map(|coordinator| Given::Elsewhere { coordinator });
            return self.tried(serial, other.unwrap_or(Given::Refused(Refusal::Draining)), now);
        }
        match key.map_or(Turn::Keep, |key| self.turn_of(key, now)) {
            Turn::Keep => {
                if let Some(text) = self.outbox.asks_own(serial).map(line_of) {
                    self.ask(Asker::Submission { serial, key }, text);
                }
            }
            Turn::Known(job) => self.tried(serial, Given::Kept { origin: job.origin, id: job.id }, now),
            Turn::Wait | Turn::AskOthers(_) => self.tried(serial, Given::Refused(Refusal::Busy), now),
        }
    }

    /// What came of a try to have a job kept.
    pub(super) fn tried(&mut self, serial: u64, given: Given, now: Instant) {
        if let (Given::Kept { origin, id }, Some(key)) = (&given, self.outbox.key(serial)) {
            self.keys.remember(key, JobKey { origin: *origin, id: *id }, now);
        }
        if let Given::Elsewhere { coordinator } = given {
            if let Some((token, what)) = self.outbox.datagram(serial, coordinator) {
                self.send_to_agent(coordinator, token, what, now);
            }
        }
        if let Some((client, reply)) = self.outbox.settle(serial, given, now) {
            self.clients.answer(client.id, &reply.tagged(&client.tag));
        }
    }

    /// Tries once more what has no answer yet, and tells those whose time is over.
    pub(super) fn try_again(&mut self, now: Instant) {
        while let Some(due) = self.outbox.due(now, self.node.has_room(Lane::Local)) {
            match due {
                Due::Ask { serial } => self.begin_try(serial, now),
                Due::Tell { client, reply } => self.clients.answer(client.id, &reply.tagged(&client.tag)),
            }
        }
    }

    pub(super) fn send_to_agent(&mut self, to: u8, token: Token, what: What, now: Instant) {
        let datagram = Datagram { from: self.config.id, to, token, what };
        self.send(to, &datagram.encode(&self.seal), now);
    }

    /// A datagram of another agent came.
    pub(super) fn take_of_agent(&mut self, bytes: &[u8], from: Origin, now: Instant) {
        if let Some((mark, message)) = unmarked(bytes) {
            return self.take_marked(mark, message, from, now);
        }
        if of_leases::is_of_leases(bytes) {
            return self.take_of_leases(bytes, from, now);
        }
        if is_of_another_version(bytes) {
            return self.metrics.dropped.with_label_values(&["Version"]).inc();
        }
        let datagram = match Datagram::decode(bytes, &self.seal) {
            Some(datagram) if self.is_of_stranger(&datagram, from, now) => {
                return self.metrics.dropped.with_label_values(&["Stranger"]).inc();
            }
            Some(datagram) if datagram.to == self.config.id => datagram,
            _ => return self.metrics.dropped.with_label_values(&["Forged"]).inc(),
        };
        if !self.peers.has_machine(datagram.from) {
            return self.take_of_unnamed(&datagram, from);
        }
        self.came_from(Some(datagram.from), from, now);
        let is_submission = matches!(datagram.what, What::Submit { .. });
        if is_submission && !self.node.has_room(Lane::Network) {
            return self.put_off(Some(usize::from(datagram.from)), Waiting::OfAgent(datagram), bytes.len());
        }
        self.obey_agent(datagram, now);
    }

    pub(super) fn obey_agent(&mut self, datagram: Datagram, now: Instant) {
        let from = datagram.from;
        self.obey_word(datagram, now);
        self.seal_for(from);
    }

    fn obey_word(&mut self, datagram: Datagram, now: Instant) {
        let (from, token) = (datagram.from, datagram.token);
        if !matches!(datagram.what, What::Reply(_) | What::Says { .. } | What::SaysVoting(_)) {
            // one that began anew may be heard never again, as a member by another one
            self.outbox.seen(from, token.life);
            self.greet(from, now);
        }
        match datagram.what {
            What::Hello { news, .. } => self.take_hello(from, token, news, now),
            What::Reply(Outcome::Stale { life, last, told, .. }) if token.serial == 0 => {
                if self.outbox.greeted(from, token, life, last) {
                    self.tell_tags(from, now);
                    self.numbers.answered(from, &told);
                    self.look_for_copy();
                }
            }
            What::Stranger { .. } => {}
            // the node doesn't answer yet: whoever wants something of it asks again
            _ if self.opening.is_some() => {}
            What::Leaving { life, number, stays: true, .. } => self.take_resignation(from, (life, number), now),
            What::Leaving { life, number, is_copy, .. } => self.take_farewell(from, (life, number), is_copy, now),
            What::Submit { life, number, job } => self.take_forwarded((from, token), (life, number), &job, now),
            What::Keeps { life, number, key, job } => {
                if self.inbox.is_new(from, life, number) {
                    self.keys.remember(key, job, now);
                }
            }
            What::Asks { key } => {
                let knows = self.keys.knows(key, now);
                self.send_to_agent(from, token, What::Says { key, knows }, now);
            }
            What::Says { key, knows } => self.told_of_key(from, token, (key, knows), now),
            // a machine that has no use of its votes and leases counts as silent
            What::AsksVoting {} if self.leases.as_ref().map_or(false, |leases| leases.hang(now)) => {}
            What::AsksVoting {} => self.send_to_agent(from, token, What::SaysVoting(self.voting()), now),
            What::SaysVoting(voting) => self.told_of_voting(from, token, voting, now),
            What::Tags { tags } => self.take_tags(from, tags, now),
            What::Event { life, number, name, text } => self.take_event(from, token, (life, number), (name, text)),
            What::Reply(outcome) => {
                if let Some((serial, given)) = self.outbox.replied(from, token, outcome) {
                    if given == Given::Refused(Refusal::Draining) {
                        self.is_drained(from, now);
                    }
                    self.tried(serial, given, now);
                }
            }
        }
    }

    /// Under a key, has what the node says to another one sealed for the life that its agent said last: it opens nothing else.
    fn seal_for(&mut self, node: u8) {
        let life = self.outbox.life(node).filter(|_| self.config.key.is_some());
        if let (Some(life), Some(told)) = (life, self.lives.get_mut(usize::from(node))) {
            if told.replace(life) != Some(life) {
                self.node.tell_life(node, life);
            }
        }
    }

    /// Whether another node can open what this one says to it.
    pub(super) fn has_met(&self, node: u8) -> bool {
        self.config.key.is_none() || self.lives.get(usize::from(node)).map_or(false, Option::is_some)
    }

    /// Another agent asks for the stamps by which it is taken, and says what its node gave. It is told what it said of that in each of its lives.
    fn take_hello(&mut self, from: u8, token: Token, news: Option<News>, now: Instant) {
        if let Some(News { numbers, .. }) = news.filter(|news| self.inbox.is_new(from, news.life, news.number)) {
            self.ledger.note(from, Told { life: token.life, numbers });
        }
        if let Some(Outcome::Stale { life, last, .. }) = self.inbox.stamps_for(from) {
            let (told, about) = (self.ledger.of(from), Some(self.introductions.about().clone()));
            let stamps = Outcome::Stale { life, last, told, about };
            self.send_to_agent(from, token, What::Reply(stamps), now);
        }
    }

    /// Asks the agent of a node that is heard for its stamps, where they aren't known.
    pub(super) fn greet(&mut self, node: u8, now: Instant) {
        if self.outbox.asks(node, now) {
            self.say_hello(node, None, now);
        }
    }

    pub(super) fn say_hello(&mut self, to: u8, news: Option<News>, now: Instant) {
        let token = self.outbox.token();
        let about = Some(self.introductions.about().clone());
        self.send_to_agent(to, token, What::Hello { about, news }, now);
    }

    /// Whether an agent that introduces itself isn't of this one's cluster. It is told of which one this is, where it asks.
    fn is_of_stranger(&mut self, datagram: &Datagram, from: Origin, now: Instant) -> bool {
        let about = match datagram.about() {
            Some(about) => about,
            None => return false,
        };
        let stranger = match self.introductions.meet(datagram.from, about) {
            Some(stranger) => stranger,
            None => {
                self.tell_of_gaps(datagram.from, about);
                return false;
            }
        };
        if self.introductions.tells_of(from.at, now) {
            warn!("{}: {stranger}: they don't hear each other", from.at);
        }
        self.tell_stranger(datagram, from);
        true
    }

    /// Tells one that asked of which cluster this agent is: not through another one, which carries nothing to strangers.
    fn tell_stranger(&mut self, datagram: &Datagram, from: Origin) {
        if matches!(datagram.what, What::Hello { .. }) && from.through.is_none() {
            let what = What::Stranger { about: self.introductions.about().clone() };
            self.send_to(from.at, datagram.from, datagram.token, what);
        }
    }

    /// Tells the log of a list that fits and has a machine where this one has none, or none where this one has one.
    fn tell_of_gaps(&mut self, node: u8, about: &About) {
        if let Some(gaps) = self.introductions.gaps(node, about) {
            info!("node {node}: {gaps}: who doesn't name a machine doesn't hear it");
        }
    }

    /// An agent of this cluster speaks for a place that is empty here. It is told so, where it asks.
    fn take_of_unnamed(&mut self, datagram: &Datagram, from: Origin) {
        self.metrics.dropped.with_label_values(&["Unnamed"]).inc();
        self.tell_stranger(datagram, from);
    }

    /// Asks whoever is at this address, and the node in whose name it speaks, of which cluster it is.
    pub(super) fn ask_stranger(&mut self, from: Origin, node: u8, now: Instant) {
        let at = from.at;
        if from.through.is_none() && self.introductions.asks(now) {
            let what = What::Hello { about: Some(self.introductions.about().clone()), news: None };
            let known = self.peers.address(node).filter(|address| *address != at && node != self.config.id);
            for address in known.into_iter().chain([at]) {
                self.send_to(address, node, self.outbox.token(), what.clone());
            }
        }
    }

    /// Sends an agent something at the address from which it wrote: one that isn't of the cluster may be at none that is known.
    fn send_to(&mut self, at: SocketAddr, to: u8, token: Token, what: What) {
        let datagram = Datagram { from: self.config.id, to, token, what };
        let datagram = self.cipher.encrypt(&datagram.encode(&self.seal));
        if !datagram.map_or(false, |datagram| self.link.send(&datagram, at).is_ok()) {
            self.metrics.dropped.with_label_values(&["NotSent"]).inc();
        }
    }

    /// Tells the agents of nodes that are heard what the own node gave, where they don't have it yet.
    pub(super) fn tell_numbers(&mut self, now: Instant) {
        let is_wanted = |node: &u8| self.peers.is_heard(*node, now) && self.outbox.is_known(*node);
        let others: Vec<u8> = self.peers.others().filter(is_wanted).collect();
        for node in others {
            if let Some(numbers) = self.numbers.news_for(node, now) {
                let news = self.outbox.stamps_for(node).map(|(life, number)| News { life, number, numbers });
                self.say_hello(node, news, now);
            }
        }
    }

    /// Tells the other agents that the node ended: twice, for a datagram may be lost.
    pub(super) fn say_goodbye(&mut self, now: Instant) {
        let (token, others) = (self.outbox.token(), self.others().into_iter());
        let is_copy = self.unusable == Some(FILE_IS_COPY);
        let farewells: Vec<_> = others.filter_map(|to| self.outbox.goodbye(to, is_copy).map(|what| (to, what))).collect();
        for (to, what) in farewells.iter().chain(&farewells) {
            self.send_to_agent(*to, token, what.clone(), now);
        }
    }

    /// Another agent says that its node ends. A coordinator drops it from its group by that; a member whose coordinator it was asks for it first, and by the
    /// second word leaves.
    fn take_farewell(&mut self, from: u8, (life, number): (u64, u64), is_copy: bool, now: Instant) {
        if !self.inbox.is_new(from, life, number) {
            return self.metrics.farewells.with_label_values(&["refused"]).inc();
        }
        self.metrics.farewells.with_label_values(&[if is_copy { "copy" } else { "taken" }]).inc();
        self.peers.leave(from, false, now);
        self.refusals.leave(from);
        self.drained.remove(&from);
        if is_copy {
            warn!("node {from} ends: its file was put back from a copy, or made with numbers that are too low");
        } else {
            info!("node {from} ends: it said so");
        }
        self.lose(from, now);
    }

    /// Another agent forwards a submission, with the stamps by which an old one is known.
    fn take_forwarded(
        &mut self,
        (from, token): (u8, Token),
        (life, number): (u64, u64),
        job: &Submission,
        now: Instant,
    ) {
        match self.inbox.judge(from, token, life, number) {
            Some(Verdict::Ask) => self.take_new((from, token), job, now),
            Some(Verdict::Answer(outcome)) => {
                self.metrics.forwarded.with_label_values(&["again"]).inc();
                self.send_to_agent(from, token, What::Reply(outcome), now);
            }
            Some(Verdict::Wait) | None => {}
        }
    }

    /// A submission of another agent that no answer is known to.
    pub(super) fn take_new(&mut self, (from, token): (u8, Token), job: &Submission, now: Instant) {
        if self.draining.is_some() {
            let refused = Outcome::Refused { error: Refusal::Draining };
            return self.send_to_agent(from, token, What::Reply(refused), now);
        }
        match job.key.map_or(Turn::Keep, |key| self.turn_of(key, now)) {
            Turn::Keep => {
                self.inbox.asked(token);
                self.metrics.forwarded.with_label_values(&["taken"]).inc();
                self.ask(Asker::Forwarded { from, token, key: job.key }, line_of(job));
            }
            Turn::Known(JobKey { origin, id }) => {
                self.metrics.forwarded.with_label_values(&["again"]).inc();
                self.send_to_agent(from, token, What::Reply(Outcome::Kept { id, origin: Some(origin) }), now);
            }
            Turn::AskOthers(_) => self.hold(from, token, job),
            // who asks tries again
            Turn::Wait => {}
        }
    }

    /// The node answered what another agent forwarded.
    pub(super) fn reply_to_agent(&mut self, from: u8, token: Token, outcome: Outcome, now: Instant) {
        self.inbox.answered(token, &outcome);
        self.send_to_agent(from, token, What::Reply(outcome), now);
    }
}
