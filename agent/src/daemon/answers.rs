//! What the node answers.

use super::core::{Core, Ports};
use super::{Asker, Origin, FILE_DAMAGED, FILE_IS_COPY, NO_MEMORY};
use crate::forward::{Given, Numbers, Outcome};
use crate::metrics::{kind_of, ANSWERS};
use crate::node::{Answer, Closing, Group, Job, JobKey, Line, Refusal};
use crate::protocol::{Reply, Tag};
use crate::service::{ClientId, Given as GivenJob, Hand};
use log::{error, info, warn};
use serde::Serialize;
use std::net::SocketAddr;
use std::path::Path;
use std::time::{Duration, Instant};

/// Under leases an agent is ready once its machine votes: who restarts one machine after another waits for that, and more than half vote at any time. That isn't
/// waited for longer than this, for systemd waits for a minute.
const LONGEST_START: Duration = Duration::from_secs(30);

/// A job, as `jobs` has it.
#[derive(Serialize)]
struct Row {
    /// Whether this node keeps it; else it only works on it.
    kept: bool,
    #[serde(flatten)]
    job: GivenJob,
    /// How often it was given here, and whether it was put aside; where this node works on it.
    #[serde(skip_serializing_if = "Option::is_none")]
    attempt: Option<u32>,
    #[serde(skip_serializing_if = "Option::is_none")]
    aside: Option<bool>,
}

impl Row {
    fn of(kept: bool, job: &Job, hand: &Hand) -> Row {
        let known = (!kept).then(|| hand.attempts(job.key));
        Row { kept, job: GivenJob::of(job), attempt: known.map(|known| known.attempts), aside: known.map(|known| known.is_aside) }
    }
}

impl<P: Ports> Core<P> {
    pub(super) fn take_answer(&mut self, answer: Answer<Asker>, now: Instant) {
        self.view.answered = now;
        for line in &answer.lines {
            self.take_line(line, now);
        }
        if let Some(refusal) = answer.closing.refusal().filter(|_| !matches!(answer.closing, Closing::Bad | Closing::Fault)) {
            let reason = if is_of_earlier(&answer) { "Earlier".to_string() } else { refusal.to_string() };
            self.metrics.refused.with_label_values(&[&reason]).inc();
        }
        if let Closing::Ok(Some(id)) = answer.closing {
            self.numbers.kept_job(id);
            self.metrics.jobs.with_label_values(&["kept"]).inc();
            self.metrics.durable.with_label_values(&["put"]).inc();
            self.count_pending(self.fill.pending() + 1);
        }
        if answer.closing == Closing::Fault {
            error!("the device of {} failed", self.config.file.display());
        }
        self.close(answer, now);
    }

    fn take_line(&mut self, line: &Line, now: Instant) {
        match line {
            Line::Send { to, hex } => self.carry(*to, hex, now),
            Line::Group(group) => self.enter(group.clone(), now),
            Line::Take(job) => self.take_job(job.clone(), now),
            Line::Drop(key) => self.drop_job(*key, now),
            Line::Gone { id } => {
                self.metrics.jobs.with_label_values(&["gone"]).inc();
                self.metrics.durable.with_label_values(&["done"]).inc();
                self.count_pending(self.fill.pending().saturating_sub(1));
                self.tell(Reply::event("gone").with("origin", self.config.id).with("id", id));
            }
            Line::Keeps { count, next, pending } => {
                info!("mounted: count {count}, next id {next}, {pending} jobs");
                self.count_pending(*pending);
                self.numbers.mounted(Numbers { count: *count, next: *next });
                self.look_for_copy();
            }
            Line::Fired(timer) => self.metrics.fired.with_label_values(&[timer]).inc(),
            Line::Next { .. } | Line::Pending(_) | Line::InHand(_) => {}
        }
    }

    /// Ends a node that gave greater numbers before than its file holds: it would give them again.
    pub(super) fn look_for_copy(&mut self) {
        if let (Some(Numbers { count, next }), None) = (self.numbers.given_before(), self.unusable) {
            let (file, least) = (self.config.file.display(), count.max(next));
            error!("{file}: this file was put back from a copy, or made with numbers that are too low: the other machines know of group {}:{count} and of {next} as the next id, and it is behind that: format a new one with --first above {least}", self.config.id);
            self.notify.status("the file was put back from a copy".to_string());
            self.unusable = Some(FILE_IS_COPY);
        }
    }

    /// So many jobs are kept now that aren't done.
    fn count_pending(&mut self, pending: u64) {
        if let Some(said) = self.fill.set(pending) {
            warn!("{said}");
        }
    }

    fn enter(&mut self, group: Group, now: Instant) {
        self.metrics.groups.inc();
        if group.is_any() && group.number.creator == self.config.id {
            self.numbers.made_group(group.number.count);
        }
        for node in self.view.lost_in(&group) {
            let heard = self.peers.silence(node, now).unwrap_or_default().as_secs_f64();
            let why = self.peers.why_left(node);
            warn!("node {node} is no member any more: it was heard {heard:.1} s ago last{why}");
        }
        let made = self.view.enter(group, now);
        self.metrics.durable.with_label_values(&["group"]).inc_by(made);
        let status = self.view.status(&self.peers, now);
        let said =
            format!("{:?} {} of {:?}, coordinator {}", status.phase, status.group, status.members, status.coordinator);
        info!("group {said}");
        self.notify.status(format!("group {said}"));
        self.tell(Reply::event("group").and(status));
    }

    fn take_job(&mut self, job: Job, now: Instant) {
        self.metrics.jobs.with_label_values(&["taken"]).inc();
        let event = Reply::event("take").and(GivenJob::of(&job));
        let (key, queue) = (job.key, job.queue);
        let done = self.hand.take(job, self.view.gives_from(now), now);
        self.tell(event);
        match done {
            Some((client, tag)) => self.ask(Asker::Finish { client, tag, key }, format!("finish {} {}", key.origin, key.id)),
            None => self.offer(key, queue),
        }
    }

    fn drop_job(&mut self, key: JobKey, now: Instant) {
        self.metrics.jobs.with_label_values(&["dropped"]).inc();
        self.hand.part(key, now + self.view.regroups_in());
        self.tell(Reply::event("drop").and(key));
    }

    /// Tells those to stop whose jobs left and don't come back.
    pub(super) fn stop_parted(&mut self, now: Instant) {
        let group = &self.view.group;
        let may_come = |queue| !group.is_normal() || group.owner(queue) == Some(self.config.id);
        for (key, parted) in self.hand.take_parted(may_come, now) {
            self.clients.tell(parted.client, &Reply::event("stop").and(key));
            if let Some(tag) = parted.finish {
                self.clients.answer(parted.client, &Reply::refused("UnknownJob").with("why", NOT_IN_HAND).tagged(&tag));
            }
        }
    }

    /// Tells watchers of a change.
    pub(super) fn tell(&mut self, event: Reply) {
        let line = self.changes.put(event);
        self.clients.tell_watchers(&line);
    }

    fn close(&mut self, answer: Answer<Asker>, now: Instant) {
        match answer.asker {
            Asker::Start => self.started(&answer.closing, now),
            Asker::Tick => self.clock.ticked(due_of(&answer.lines), now),
            Asker::Datagram { sender, from, kind } if is_of_earlier(&answer) => {
                self.delivered((sender, from), kind, &Closing::Refused(Refusal::Stale), now);
            }
            Asker::Datagram { sender, from, kind } => self.delivered((sender, from), kind, &answer.closing, now),
            Asker::Submission { serial, key } => {
                self.outbox.own_answered(serial);
                self.settled(key, &answer.closing, now);
                self.tried(serial, given_of(&answer.closing, self.config.id), now);
            }
            Asker::Forwarded { from, token, key } => {
                self.settled(key, &answer.closing, now);
                self.reply_to_agent(from, token, outcome_of(&answer.closing), now);
            }
            Asker::Finish { client, tag, key } => self.finished((client, tag), key, &answer.closing),
            Asker::Compact { client, tag, since } => {
                if let Closing::Ok(_) = answer.closing {
                    self.metrics.compactions.inc();
                    self.metrics.compacting.inc_by(now.saturating_duration_since(since).as_secs_f64());
                }
                self.clients.answer(client, &reply_of(&answer.closing).tagged(&tag));
            }
            Asker::Jobs { client, tag, queue, skip, limit } => {
                self.listings -= 1;
                let reply = jobs_of(&answer.lines, &self.hand, queue, skip, limit).tagged(&tag);
                self.clients.answer(client, &reply);
            }
            Asker::Lost | Asker::Time => {}
            Asker::Page => {
                self.listings -= 1;
                self.count_jobs(&answer.lines);
            }
        }
    }

    /// The node answered that a client is done with a job.
    fn finished(&mut self, (client, tag): (ClientId, Tag), key: JobKey, closing: &Closing) {
        // it left before the node read that, and may come back
        if *closing == Closing::Refused(Refusal::UnknownJob) && self.hand.end_parted(key, client, Some(&tag)) {
            return;
        }
        if has_left_hand(closing) {
            let holder = self.hand.finish(key);
            self.stop_other(key, holder, client);
        }
        self.clients.answer(client, &reply_of(closing).tagged(&tag));
    }

    fn delivered(&mut self, (sender, from): (u8, Origin), kind: &str, closing: &Closing, now: Instant) {
        match closing {
            Closing::Ok(_) => {
                self.hear_from(sender, from, now);
                self.metrics.messages_in.with_label_values(&[kind]).inc();
                if ANSWERS.contains(&kind) {
                    self.peers.answered(sender);
                }
                self.greet(sender, now);
                if self.peers.is_deaf(sender, now) {
                    warn!("node {sender} is heard and answers nothing: what is sent to it is lost, or refused there");
                }
            }
            Closing::Bad => {
                self.metrics.refused.with_label_values(&["NoMessage"]).inc();
                if kind != kind_of(&[]) {
                    self.doubt(sender, from.at, now);
                }
            }
            Closing::Refused(Refusal::Forged) => self.doubt(sender, from.at, now),
            Closing::Refused(Refusal::Stale) => {
                self.metrics.stale.with_label_values(&[&sender.to_string()]).inc();
                if self.peers.is_stale(sender, now) {
                    warn!("node {sender}: all that comes in its name from {} is older than what it said before: is this recorded, or was its file put back from a copy?", from.at);
                }
            }
            _ => {}
        }
    }

    /// The node took a message.
    fn hear_from(&mut self, sender: u8, from: Origin, now: Instant) {
        if from.through.is_some() {
            return self.peers.hear_through(sender, now);
        }
        if self.peers.hear(sender, from.at, now) {
            let name = self.peers.all().get(usize::from(sender)).map_or("?", |peer| peer.name.as_str());
            warn!("node {sender}: it is heard from {}, which isn't {name}: another node of this id, or another way back?", from.at);
        }
    }

    /// The node can't read what came in the name of this one.
    pub(super) fn doubt(&mut self, sender: u8, from: SocketAddr, now: Instant) {
        if sender != self.config.id && self.peers.refuse(sender, now) {
            let own = if self.config.key.is_some() { "another key or none there" } else { "a key there and none here" };
            warn!("node {sender}: what comes in its name from {from} is refused: {own}, or another cluster?");
        }
    }

    fn started(&mut self, closing: &Closing, now: Instant) {
        if self.unusable.is_some() {
            return;
        }
        if let Closing::Ok(_) = closing {
            self.view.is_ready = true;
            // that in which its configuration was read, and what its file holds looked at
            self.ports.give_back_memory();
            let votes = Duration::from_millis(self.config.lease_ms).min(LONGEST_START);
            self.notify.ready_at(now + votes);
        } else {
            let why = tell_unmounted(&self.config.file, closing);
            self.notify.status(format!("the file can't be mounted: {why}"));
            self.unusable = unmounted(closing);
        }
    }
}

/// Whether the node was given a message that a machine which has the key sealed for another process of it, since gone.
fn is_of_earlier(answer: &Answer<Asker>) -> bool {
    matches!((&answer.asker, &answer.closing), (Asker::Datagram { from: Origin { was_encrypted: true, .. }, .. }, Closing::Refused(Refusal::Forged)))
}

/// When the node says that something is due next.
fn due_of(lines: &[Line]) -> Option<u64> {
    lines.iter().rev().find_map(|line| match line {
        Line::Next { ms } => Some(*ms),
        _ => None,
    })
}

/// What node `own` answered to a submission of a local client.
fn given_of(closing: &Closing, own: u8) -> Given {
    match closing {
        Closing::Ok(Some(id)) => Given::Kept { origin: own, id: *id },
        Closing::Elsewhere(coordinator) => Given::Elsewhere { coordinator: *coordinator },
        other => Given::Refused(other.refusal().unwrap_or(Refusal::NoAnswer)),
    }
}

/// What it answered to a submission of another agent.
fn outcome_of(closing: &Closing) -> Outcome {
    match closing {
        Closing::Ok(Some(id)) => Outcome::Kept { id: *id, origin: None },
        other => Outcome::Refused { error: other.refusal().unwrap_or(Refusal::NoAnswer) },
    }
}

/// Tells the log why the file can't be mounted, where the node answered so to its start; and answers it.
fn tell_unmounted(file: &Path, closing: &Closing) -> String {
    let why = match closing {
        Closing::Damaged(sector) => format!("Damaged, sector {sector}"),
        other => other.refusal().map_or(String::new(), |refusal| refusal.to_string()),
    };
    error!("{} can't be mounted: {why}: `dumgerokctl inspect` says what it holds", file.display());
    why
}

/// The status to end with, where the node answered so to its start; None where it ends by itself.
fn unmounted(closing: &Closing) -> Option<u8> {
    match closing {
        Closing::Ok(_) | Closing::Fault => None,
        Closing::Refused(Refusal::NoMemory) => Some(NO_MEMORY),
        Closing::Elsewhere(_) | Closing::Damaged(_) | Closing::Refused(_) | Closing::Bad => Some(FILE_DAMAGED),
    }
}

/// Whether a job that a client finished isn't in the node's hand any more; a refusal for want of memory, say, leaves it there.
fn has_left_hand(closing: &Closing) -> bool {
    matches!(closing, Closing::Ok(_) | Closing::Refused(Refusal::UnknownJob))
}

pub(super) const NOT_IN_HAND: &str =
    "it isn't in hand here: it is done, or the node's group changed since and the queue's owner there has it";

fn reply_of(closing: &Closing) -> Reply {
    match closing.refusal() {
        None => Reply::ok(),
        Some(Refusal::UnknownJob) => Reply::refused(Refusal::UnknownJob).with("why", NOT_IN_HAND),
        Some(refusal) => Reply::refused(refusal),
    }
}

fn jobs_of(lines: &[Line], hand: &Hand, queue: Option<u8>, skip: usize, limit: usize) -> Reply {
    let rows: Vec<(bool, &Job)> = lines
        .iter()
        .filter_map(|line| match line {
            Line::Pending(job) => Some((true, job)),
            Line::InHand(job) => Some((false, job)),
            _ => None,
        })
        .filter(|(_, job)| queue.map_or(true, |queue| queue == job.queue))
        .collect();
    let shown = rows.iter().skip(skip).take(limit).map(|(kept, job)| Row::of(*kept, job, hand));
    Reply::ok().with("total", rows.len()).with("jobs", shown.collect::<Vec<_>>())
}

#[cfg(test)]
mod tests {
    use super::*;

    #[test]
    fn a_node_that_can_not_mount_its_file_ends_its_agent() {
        let rows = [
            ("ok 1", None),
            ("fault 1 Device", None),
            ("refused 1 NoMemory", Some(1)),
            ("refused 1 NotFormatted", Some(5)),
            ("refused 1 Damaged 12", Some(5)),
        ];
        for (line, status) in rows {
            assert_eq!(unmounted(&Closing::read(line).unwrap()), status, "{line}");
        }
    }

    #[test]
    fn a_job_whose_end_is_refused_stays_in_hand() {
        let rows = [
            ("ok 1", true),
            ("refused 1 UnknownJob", true),
            ("refused 1 NoMemory", false),
            ("refused 1 Exhausted", false),
            ("fault 1 Device", false),
        ];
        for (line, is_so) in rows {
            assert_eq!(has_left_hand(&Closing::read(line).unwrap()), is_so, "{line}");
        }
    }
}
