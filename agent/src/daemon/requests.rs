//! What local services ask.

use super::admin::what_is_changed;
use super::core::{Core, Ports};
use super::{busy, Asker, NOT_IN_HAND};
use crate::forward::{Client, Submission};
use crate::node::{JobKey, Lane};
use crate::protocol::{key_of, named, payload_of, text_of, Envelope, Reply, Request, RequestError, Tag, Wanted};
use crate::record::Record;
use crate::service::{Back, Beats, ClientId, Waiting};
use log::{info, warn};
use std::time::{Duration, Instant};

/// So many requests of all clients together are taken at a time, and one of each at least: so the node and the network have their turn soon, however many
/// ask.
const MAX_AT_A_TIME: usize = 64;

/// So many rows `jobs` has at most.
const MAX_ROWS: usize = 250;

/// So many times the node may be asked for all its jobs at a time: each time it writes them all.
pub(super) const MAX_LISTINGS: usize = 8;

/// How a job is given back; None where it is done.
fn back_of(ok: bool, after_ms: Option<u64>, aside: bool) -> Result<Option<Back>, RequestError> {
    match (ok, aside, after_ms) {
        (true, false, None) => Ok(None),
        (false, true, None) => Ok(Some(Back::Aside)),
        (false, false, after) => Ok(Some(Back::After(Duration::from_millis(after.unwrap_or(0))))),
        _ => Err(RequestError::Back),
    }
}

fn key_of_job(origin: Option<u8>, id: Option<u64>) -> Result<Option<JobKey>, RequestError> {
    match (origin, id) {
        (Some(origin), Some(id)) => Ok(Some(JobKey { origin, id })),
        (None, None) => Ok(None),
        _ => Err(RequestError::HalfKey),
    }
}

impl<P: Ports> Core<P> {
    /// Takes requests of all clients in turn. What the node is to be asked waits until it has room, as long as it answers at all; all else is answered
    /// all the same.
    pub(super) fn obey(&mut self, now: Instant) {
        let clients = self.clients.in_turn(self.takes_requests(now));
        let share = (MAX_AT_A_TIME / clients.len().max(1)).max(1);
        for client in clients {
            if self.node.has_room(Lane::Local) {
                self.clients.had_turn(client);
            }
            for _ in 0..share {
                let line = match self.clients.next_line(client, now) {
                    Some(line) => line,
                    None => break,
                };
                let envelope = Envelope::read(&line);
                if !envelope.asks_node() || self.node.has_room(Lane::Local) {
                    self.obey_one(client, envelope, now);
                } else if self.view.is_alive(now) {
                    self.clients.put_back(client, line);
                    break;
                } else {
                    self.clients.tell(client, &Reply::refused("NoAnswer").tagged(&envelope.tag));
                }
            }
        }
    }

    /// Whether no request has to wait.
    pub(super) fn takes_requests(&self, now: Instant) -> bool {
        self.node.has_room(Lane::Local) || !self.view.is_alive(now)
    }

    fn obey_one(&mut self, client: ClientId, envelope: Envelope, now: Instant) {
        let Envelope { tag, request } = envelope;
        let done = request.and_then(|request| self.perform(client, &tag, request, now));
        match done {
            Ok(Some(reply)) => self.clients.tell(client, &reply.tagged(&tag)),
            Ok(None) => {}
            Err(error) => self.clients.tell(client, &Reply::unreadable(&error).tagged(&tag)),
        }
    }

    /// The reply, where it is known at once.
    fn perform(
        &mut self,
        client: ClientId,
        tag: &Tag,
        request: Request,
        now: Instant,
    ) -> Result<Option<Reply>, RequestError> {
        let tag = tag.clone();
        if let Some(refusal) = what_is_changed(&request).and_then(|what| self.refuses(client, what)) {
            return Ok(Some(refusal));
        }
        Ok(match request {
            Request::Status {} => Some(self.status(now)),
            Request::Members {} => Some(Reply::ok().with("members", self.view.members(&self.peers, now))),
            Request::Watch { .. } | Request::Take { .. } | Request::Acquire { .. }
                if !self.clients.may_stay(client, || busy(&self.hand, &self.leases)) =>
            {
                Some(Reply::refused("TooManyClients"))
            }
            Request::Watch { since, every_ms } => {
                let beats = every_ms.map(|ms| Beats::new(Duration::from_millis(ms), now));
                self.clients.watch(client, beats);
                self.state_or_missed(client, &tag, since, now)
            }
            Request::Take { queue, queues, wait } => self.give(Waiting { client, tag, wanted: Wanted::read(queue, queues.as_deref())? }, wait, now),
            Request::Submit { queue, priority, text, hex, key } => {
                let payload = payload_of(text, hex)?;
                self.submit(Client { id: client, tag }, Submission { queue, priority, payload, key: key_of(key)? }, now);
                None
            }
            Request::Finish { origin, id, ok, after_ms, aside, force } => {
                let (key, back) = (JobKey { origin, id }, back_of(ok, after_ms, aside)?);
                self.end_job((client, tag), key, back, force, now)
            }
            Request::Kick { queue, origin, id } => {
                let kicked = self.hand.kick(Wanted::read(queue, None)?, key_of_job(origin, id)?, now);
                self.hand_out(now);
                Some(Reply::ok().with("kicked", kicked))
            }
            Request::Jobs { .. } if self.listings >= MAX_LISTINGS => Some(Reply::refused("Busy")),
            Request::Jobs { queue, skip, limit } => {
                self.clients.owe(client);
                self.listings += 1;
                let limit = limit.unwrap_or(MAX_ROWS).min(MAX_ROWS);
                self.ask(Asker::Jobs { client, tag, queue, skip, limit }, "jobs".to_string());
                None
            }
            Request::Drain { on } => {
                self.drain(on, now);
                Some(Reply::ok().with("draining", on))
            }
            Request::Compact {} => {
                self.clients.owe(client);
                self.ask(Asker::Compact { client, tag, since: now }, "compact".to_string());
                None
            }
            Request::Record { on } => Some(self.record(on)),
            Request::Acquire { name } => Some(self.acquire(client, &named(name)?)),
            Request::Release { name } => Some(self.release(client, &named(name)?)),
            Request::Leases {} => Some(self.list_leases()),
            Request::Silent {} => Some(self.list_silent(now)),
            Request::Event { name, text } => Some(self.tell_event(named(name)?, text_of(text)?, now)),
        })
    }

    /// Begins or ends the record, at its path or beside the node's file.
    fn record(&mut self, on: bool) -> Reply {
        if on == self.node.is_recorded() {
            self.wants_record = on;
            return Reply::ok();
        }
        // the whole name, by which nodes whose files are in one folder have records of their own
        let mut beside = self.config.file.clone().into_os_string();
        beside.push(".record");
        let beside = beside.into();
        let path = self.config.record.as_ref().unwrap_or(&beside);
        if !on {
            self.node.end_record();
            self.wants_record = false;
            return Reply::ok().with("record", path);
        }
        match Record::open(path, &self.config) {
            Ok(record) => {
                self.node.begin_record(record);
                self.wants_record = true;
                Reply::ok().with("record", path)
            }
            Err(why) => Reply::refused("NoRecord").with("why", format!("{}: {why}", path.display())),
        }
    }

    fn status(&self, now: Instant) -> Reply {
        let reply = Reply::ok().and(self.view.status(&self.peers, now));
        reply
            .with("life", self.changes.life())
            .with("change", self.changes.last())
            .with("pending", self.fill.pending())
            .with("pending_max", self.fill.most())
            .with("in_hand", self.hand.count())
            .with("aside", self.hand.count_aside())
            .with("submissions", self.outbox.count())
            .with("draining", self.draining.is_some())
            .with("drained", self.drained(now))
            .with("recorded", self.node.is_recorded())
            .with("keys", &self.seal.fingerprints)
            .with("encrypted", self.cipher.encrypts())
            .with("lease_ms", self.config.lease_ms)
            .with("leases", self.leases.as_ref().map_or(0, |leases| leases.count(self.ports.boot_time())))
    }

    /// What a watcher is told first: the state, or what it missed.
    fn state_or_missed(&mut self, client: ClientId, tag: &Tag, since: Option<u64>, now: Instant) -> Option<Reply> {
        let missed = since
            .and_then(|since| self.changes.behind(since))
            .map(|lines| lines.flatten().copied().collect::<Vec<u8>>());
        match missed {
            Some(lines) => {
                self.clients.tell(client, &Reply::ok().with("life", self.changes.life()).tagged(tag));
                self.clients.tell_lines(client, &lines);
                None
            }
            None => Some(self.status(now).with("event", "state")),
        }
    }

    /// Tells watchers whose beat is due that the agent lives, and whether its node does.
    pub(super) fn beat(&mut self, now: Instant) {
        let due = self.clients.take_beats(now);
        if due.is_empty() {
            return;
        }
        let is_alive = self.view.is_ready && self.view.is_alive(now);
        let line = Reply::event("beat").with("change", self.changes.last()).with("alive", is_alive).line();
        due.into_iter().for_each(|client| self.clients.tell_lines(client, &line));
    }

    fn give(&mut self, waiting: Waiting, wait: bool, now: Instant) -> Option<Reply> {
        let client = waiting.client;
        if let Some(taken) = self.hand.give(client, waiting.wanted, now) {
            return Some(Reply::ok().and(taken));
        }
        if !wait {
            return Some(Reply::refused("NoJob"));
        }
        if !self.clients.wait(waiting) {
            return Some(Reply::refused("Busy"));
        }
        self.clients.owe(client);
        None
    }

    /// The work on a job is over: it is done, or given back.
    fn end_job(&mut self, (client, tag): (ClientId, Tag), key: JobKey, back: Option<Back>, force: bool, now: Instant) -> Option<Reply> {
        let other = self.hand.other_holder(key, client);
        if other.map_or(false, |holder| self.clients.is_there(holder)) {
            if !force {
                return Some(Reply::refused("NotYours").with("why", "another client works on it"));
            }
            if let Some(refusal) = self.refuses(client, "finish of another client's job") {
                return Some(refusal);
            }
        }
        let waits = self.hand.end_parted(key, client, back.is_none().then_some(&tag));
        if let Some(back) = back {
            return Some(self.give_back(client, key, back, now));
        }
        self.clients.owe(client);
        if waits {
            return None;
        }
        self.ask(Asker::Finish { client, tag, key }, format!("finish {} {}", key.origin, key.id));
        None
    }

    /// A client can't do a job now, or at all.
    fn give_back(&mut self, client: ClientId, key: JobKey, back: Back, now: Instant) -> Reply {
        match self.hand.give_back(key, back, now) {
            None => return Reply::refused("UnknownJob").with("why", NOT_IN_HAND),
            Some(holder) => self.stop_other(key, holder, client),
        }
        self.metrics.jobs.with_label_values(&[if back == Back::Aside { "aside" } else { "failed" }]).inc();
        if back == Back::Aside {
            warn!("job {} of node {} is put aside: `dumgerokctl kick` has it given again", key.id, key.origin);
            self.tell(Reply::event("aside").and(key));
        }
        Reply::ok()
    }

    /// A client ended a job: another one that works on it is told so.
    pub(super) fn stop_other(&mut self, key: JobKey, holder: Option<ClientId>, client: ClientId) {
        if let Some(holder) = holder.filter(|holder| *holder != client) {
            info!("job {} of node {}: another client than the one that works on it ends it", key.id, key.origin);
            self.clients.tell(holder, &Reply::event("stop").and(key));
        }
    }

    /// Gives a job that came in hand now to the first that waits for one of its queue: no other job is for it, or it wouldn't wait.
    pub(super) fn offer(&mut self, key: JobKey, queue: u8) {
        if let Some(one) = self.clients.take_first_waiting(queue) {
            match self.hand.give_this(key, one.client) {
                Some(taken) => self.clients.answer(one.client, &Reply::ok().and(taken).tagged(&one.tag)),
                None => self.clients.wait_first(one),
            }
        }
    }

    /// Jobs that were given back may be given again, those whose time has come.
    pub(super) fn give_again(&mut self, now: Instant) {
        if self.hand.take_due(now) {
            self.hand_out(now);
        }
    }

    /// Gives those that wait the jobs that nobody works on.
    pub(super) fn hand_out(&mut self, now: Instant) {
        let mut waiting = self.clients.take_waiting();
        waiting.retain(|one| match self.hand.give(one.client, one.wanted, now) {
            Some(taken) => {
                self.clients.answer(one.client, &Reply::ok().and(taken).tagged(&one.tag));
                false
            }
            None => true,
        });
        self.clients.wait_on(waiting);
    }

    /// Jobs of clients that ended are handed to others; what they submitted isn't tried again.
    pub(super) fn give_up_gone(&mut self, now: Instant) {
        loop {
            let gone = self.clients.take_gone();
            if gone.is_empty() {
                return;
            }
            let mut has_freed = false;
            for client in gone {
                self.leases.iter_mut().for_each(|leases| leases.gone(client));
                has_freed |= self.hand.give_up(client, now);
                self.outbox.give_up(client);
            }
            if has_freed {
                self.hand_out(now);
            }
        }
    }
}
