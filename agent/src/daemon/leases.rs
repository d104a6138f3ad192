//! The process of leases beside the node, and those who ask for leases here.

use super::voters::Count;
use super::core::{Core, Ports};
use super::{Origin, PATIENCE_AT_END};
use crate::boot_time::BootTime;
use crate::config::Config;
use crate::forward::{of_leases, Token as AgentToken, What};
use crate::lease::{Claims, LeaseLine, LeasePort, Order, Refusal, Silence, Told};
use crate::protocol::Reply;
use crate::service::ClientId;
use log::{debug, error, info, warn};
use serde::Serialize;
use std::collections::BTreeSet;
use std::time::{Duration, Instant};

/// A process of leases that ended is started again so much later, twice as long after each further end, and anew after one that ran for the longest pause. One
/// that begins grants nothing for `lease_ms` anyway, and where it ends at once that costs no more than a sync of its file in the longest pause.
const FIRST_PAUSE: Duration = Duration::from_millis(500);
const LONGEST_PAUSE: Duration = Duration::from_secs(4);

/// Where it can't be run it is tried again so much later.
const PAUSE_WITHOUT: Duration = Duration::from_secs(60);

/// A claim that the process couldn't take yet is told once more so much later.
const CLAIM_PAUSE: Duration = Duration::from_secs(1);

/// A lease that this machine has, as `leases` tells it.
#[derive(Serialize)]
pub(super) struct Row {
    name: String,
    epoch: u64,
    left_ms: u64,
}

pub(super) struct Leases<P: Ports> {
    process: Option<P::Lease>,
    claims: Claims,
    /// When the process wants to be told the time.
    due: Option<BootTime>,
    /// When it is started, and how long behind the next end it is started again.
    start: Instant,
    pause: Duration,
    /// Claims that the process is to be told once more, and when.
    again: Vec<(String, u64)>,
    again_at: Instant,
    pub(super) count_of_voters: Count,
    /// Whose agents answer nothing.
    pub(super) silence: Silence,
}

impl<P: Ports> Leases<P> {
    /// Those of a configuration that has leases.
    pub(super) fn of(config: &Config, ports: &P, now: Instant) -> Option<Leases<P>> {
        (config.lease_ms > 0).then(|| Leases {
            process: None,
            claims: Claims::default(),
            due: None,
            start: now,
            pause: Duration::ZERO,
            again: Vec::new(),
            again_at: now,
            count_of_voters: Count::of(config, ports.kept_voters(config), now),
            silence: Silence::new(config.nodes.len(), Duration::from_millis(config.lease_ms), now),
        })
    }

    pub(super) fn wake(&mut self) {
        self.process.iter_mut().for_each(LeasePort::wake);
    }

    pub(super) fn flush(&mut self) {
        self.process.iter_mut().for_each(LeasePort::flush);
    }

    /// How many leases this machine has.
    pub(super) fn count(&self, now: BootTime) -> usize {
        self.claims.all_held().filter(|(_, _, until)| *until > now).count()
    }

    /// Whether the process has its file and goes on.
    pub(super) fn is_up(&self) -> bool {
        self.process.as_ref().map_or(false, LeasePort::is_ready)
    }

    /// Whether the process answers nothing: its leases end, and shards go to other machines.
    pub(super) fn hang(&self, now: Instant) -> bool {
        self.process.as_ref().map_or(false, |process| process.hangs(now))
    }

    /// Those who ask for a lease, or have one.
    pub(super) fn clients(&self) -> BTreeSet<ClientId> {
        self.claims.clients()
    }

    pub(super) fn gone(&mut self, client: ClientId) {
        self.claims.gone(client);
    }

    pub(super) fn sleep(&self, now: Instant, boot: BootTime) -> Duration {
        let of_voters = self.count_of_voters.sleep(now).min(self.silence.sleep(now));
        let process = match &self.process {
            None if self.count_of_voters.now().is_none() => return of_voters,
            None => return self.start.saturating_duration_since(now).min(of_voters),
            Some(process) => process,
        };
        if process.is_readable() {
            return Duration::ZERO;
        }
        let tick = self.due.filter(|_| process.is_quiet());
        let next = tick.into_iter().chain(self.claims.next_over()).min();
        let again = if self.again.is_empty() { Duration::MAX } else { self.again_at.saturating_duration_since(now) };
        next.map_or(Duration::MAX, |next| next.since(boot)).min(again).min(of_voters)
    }

    fn start(&mut self, config: &Config, voters: u8, ports: &P, now: Instant) {
        self.start = now;
        let (file, program) = (config.lease_file(), config.program.display());
        let made = ports.has_lease_file(config).then(|| ports.start_lease(config, voters));
        let why = match made {
            Some(Ok(process)) => return self.process = Some(process),
            Some(Err(why)) => format!("{program} can't be run: {why}"),
            None => "there is no such file: `dumgerokctl format --lease` makes it".to_string(),
        };
        error!("{}: {why}. This machine has no leases", file.display());
        self.start = now + PAUSE_WITHOUT;
    }

    /// Ends the process, by the end of its input, or in so long by force.
    pub(super) fn end(&mut self, within: Duration) {
        if let Some(Err(why)) = self.process.take().map(|mut process| process.end(within)) {
            warn!("the process of leases can't be ended: {why}");
        }
    }

    /// Ends the process, which is started again at once.
    pub(super) fn stop(&mut self, now: Instant) {
        self.end(PATIENCE_AT_END);
        (self.start, self.due, self.pause) = (now, None, Duration::ZERO);
    }

    fn tell(&mut self, orders: impl IntoIterator<Item = Order>) {
        // what isn't told now is told once the process has its file
        if let Some(process) = self.process.as_mut().filter(|process| process.is_ready()) {
            for order in orders {
                match order {
                    Order::Acquire { name, number } => process.say("acquire", &format!("{name} {number}")),
                    Order::Release { name, number } => process.say("release", &format!("{name} {number}")),
                }
            }
        }
    }

    /// Tells the process the time, where it wants to know it and has answered all else.
    fn tick(&mut self, boot: BootTime) {
        let is_due = self.due.map_or(false, |due| due <= boot);
        if let Some(process) = self.process.as_mut().filter(|process| is_due && process.is_ready() && process.is_quiet()) {
            self.due = None;
            process.say("tick", "");
        }
    }

    /// Tells the process once more of those whom it couldn't ask for before.
    fn try_again(&mut self, now: Instant) {
        if now >= self.again_at {
            let again = std::mem::take(&mut self.again);
            let orders: Vec<Order> = again.iter().filter_map(|(name, number)| self.claims.again(name, *number)).collect();
            self.tell(orders);
        }
    }

    /// These, each with its epoch and what is left of it.
    pub(super) fn rows(&self, now: BootTime) -> Vec<Row> {
        let left = |until: BootTime| u64::try_from(until.since(now).as_millis()).unwrap_or(0);
        let rows = self.claims.all_held().map(|(name, epoch, until)| Row { name: name.to_string(), epoch, left_ms: left(until) });
        rows.filter(|row| row.left_ms > 0).collect()
    }
}

impl<P: Ports> Core<P> {
    /// All that may be to be done for leases.
    pub(super) fn keep_leases(&mut self, now: Instant) {
        self.keep_voters(now);
        self.ask_who_is_there(now);
        let leases = match &mut self.leases {
            Some(leases) => leases,
            None => return,
        };
        if let Some(voters) = leases.count_of_voters.now().filter(|_| leases.process.is_none() && now >= leases.start) {
            leases.start(&self.config, voters, &self.ports, now);
        }
        let (mut lines, mut goes_on) = (Vec::new(), true);
        if let Some(process) = leases.process.as_mut().filter(|process| process.is_readable()) {
            goes_on = process.read_lines(&mut lines);
        }
        lines.into_iter().for_each(|line| self.take_lease_line(line, now));
        if let Some(leases) = &mut self.leases {
            if !goes_on {
                leases.restart(now);
            }
            let orders = leases.claims.give_up_gone(self.ports.boot_time());
            leases.tell(orders);
            leases.try_again(now);
            leases.tick(self.ports.boot_time());
        }
    }

    /// Asks the others something that their agents answer at once, where a client wants to know who is silent.
    fn ask_who_is_there(&mut self, now: Instant) {
        let serial = match self.leases.as_mut().filter(|leases| leases.silence.sleep(now).is_zero()) {
            Some(leases) => leases.silence.ask(now),
            None => return,
        };
        let token = AgentToken { life: self.outbox.token().life, serial };
        self.others().into_iter().for_each(|node| self.send_to_agent(node, token, What::AsksVoting {}, now));
    }

    fn take_lease_line(&mut self, line: LeaseLine, now: Instant) {
        match line {
            LeaseLine::Send { to, hex } => {
                let message = hex::decode(hex).unwrap_or_default();
                let mark = self.config.key.is_none().then(|| self.introductions.mark());
                self.metrics.lease_messages.with_label_values(&["out"]).inc();
                self.send(to, &of_leases::with_head(&message, mark), now);
            }
            LeaseLine::Held { name, client: number, .. } if self.is_silent(&name, number, now) => self.leave(name, number),
            line => {
                if let Some(leases) = &mut self.leases {
                    let told = leases.take(line, now, self.ports.boot_time());
                    told.into_iter().for_each(|told| self.tell_of_lease(told));
                }
            }
        }
    }

    /// Whether the client of a claim asked for nothing for so long that it may be stopped: others would wait for it without an end.
    fn is_silent(&self, name: &str, number: u64, now: Instant) -> bool {
        let client = self.leases.as_ref().and_then(|leases| leases.claims.client(name, number));
        let silence = client.and_then(|client| self.clients.silence(client, now));
        silence.map_or(false, |silence| silence > Duration::from_millis(self.config.lease_ms) * 3 / 8)
    }

    /// The client of a claim is silent: what it was told counts, and it is told nothing more.
    fn leave(&mut self, name: String, number: u64) {
        let client = self.leases.as_mut().and_then(|leases| {
            let client = leases.claims.client(&name, number);
            leases.claims.leave(&name, number);
            client
        });
        warn!("lease {name}: its client asks for nothing, so it goes to another");
        let told = client.map(|client| TellsOfLease::Refused { client, name, why: "Silent".to_string() });
        told.into_iter().for_each(|told| self.tell_of_lease(told));
    }

    /// Tells a client of its lease, and watchers where that is new.
    fn tell_of_lease(&mut self, told: TellsOfLease) {
        match told {
            TellsOfLease::Client(Told::Held { client, name, epoch, until }, is_new) => {
                let event = Reply::event("held").with("name", &name).with("epoch", epoch).with("until_ms", until.ms());
                self.clients.tell(client, &event);
                if is_new {
                    info!("lease {name}: held, epoch {epoch}");
                    self.metrics.leases.with_label_values(&["held"]).inc();
                    self.tell(Reply::event("lease").with("name", name).with("epoch", epoch).with("held", true));
                }
            }
            TellsOfLease::Client(Told::Lost { client, name, epoch }, _) => {
                self.clients.tell(client, &Reply::event("lost").with("name", &name).with("epoch", epoch));
                info!("lease {name}: lost, epoch {epoch}");
                self.metrics.leases.with_label_values(&["lost"]).inc();
                self.tell(Reply::event("lease").with("name", name).with("epoch", epoch).with("held", false));
            }
            TellsOfLease::Refused { client, name, why } => {
                self.clients.tell(client, &Reply::event("refused").with("name", name).with("why", why));
            }
        }
    }

    /// A datagram with a message of leases came.
    pub(super) fn take_of_leases(&mut self, bytes: &[u8], from: Origin, now: Instant) {
        let (mark, message) = match of_leases::without_head(bytes, self.config.key.is_some()) {
            Some(both) => both,
            None => return self.metrics.dropped.with_label_values(&["Forged"]).inc(),
        };
        let is_known = mark.map_or(true, |mark| {
            of_leases::sender(message).map_or(false, |sender| self.introductions.is_known(sender, mark))
        });
        if !is_known {
            return self.metrics.dropped.with_label_values(&["Stranger"]).inc();
        }
        if self.config.key.is_none() && of_leases::sender(message).map_or(false, |sender| self.peers.is_empty_place(sender)) {
            return self.metrics.dropped.with_label_values(&["Unnamed"]).inc();
        }
        if self.config.key.is_none() {
            self.came_from(of_leases::sender(message), from, now);
        }
        let process = self.leases.as_mut().and_then(|leases| leases.process.as_mut());
        match process.filter(|process| process.has_room(now)) {
            Some(process) => {
                process.say("deliver", &hex::encode(message));
                self.metrics.lease_messages.with_label_values(&["in"]).inc();
            }
            None => {
                debug!("a message of leases of {} isn't taken", from.at);
                self.metrics.dropped.with_label_values(&["NoRoom"]).inc();
            }
        }
    }

    /// A client asks for a lease.
    pub(super) fn acquire(&mut self, client: ClientId, name: &str) -> Reply {
        let leases = match &mut self.leases {
            Some(leases) => leases,
            None => return no_leases(),
        };
        match leases.claims.acquire(client, name) {
            Ok(order) => {
                leases.tell(order);
                Reply::ok().with("now_ms", self.ports.boot_time().ms())
            }
            Err(refusal) => refused(refusal),
        }
    }

    /// A client gives a lease back, or asks for it no more.
    pub(super) fn release(&mut self, client: ClientId, name: &str) -> Reply {
        let leases = match &mut self.leases {
            Some(leases) => leases,
            None => return refused(Refusal::Unclaimed),
        };
        let held = leases.claims.all_held().find(|(held, ..)| *held == name).map(|(_, epoch, _)| epoch);
        match leases.claims.release(client, name) {
            Ok(orders) => {
                leases.tell(orders);
                if let Some(epoch) = held {
                    info!("lease {name}: given back, epoch {epoch}");
                    self.metrics.leases.with_label_values(&["given_back"]).inc();
                    self.tell(Reply::event("lease").with("name", name).with("epoch", epoch).with("held", false));
                }
                Reply::ok()
            }
            Err(refusal) => refused(refusal),
        }
    }

    /// The machines whose agents answer nothing, from the first such question on.
    pub(super) fn list_silent(&mut self, now: Instant) -> Reply {
        let others = self.others();
        match &mut self.leases {
            Some(leases) => {
                leases.silence.want(now);
                Reply::ok().with("silent", leases.silence.silent(&others, now))
            }
            None => no_leases(),
        }
    }

    /// The leases that this machine has.
    pub(super) fn list_leases(&self) -> Reply {
        let rows = self.leases.as_ref().map_or_else(Vec::new, |leases| leases.rows(self.ports.boot_time()));
        Reply::ok().with("lease_ms", self.config.lease_ms).with("leases", rows).with("voters", self.voting().now)
    }
}

/// Whom something is to be told.
enum TellsOfLease {
    /// A client; whether that is new, and no renewal.
    Client(Told, bool),
    Refused { client: ClientId, name: String, why: String },
}

impl<P: Ports> Leases<P> {
    /// What is to be told of a line of the process.
    fn take(&mut self, line: LeaseLine, now: Instant, boot: BootTime) -> Vec<TellsOfLease> {
        match line {
            LeaseLine::Process { count } => {
                info!("leases: process {count}");
                // who begins grants nothing for a while, from when it is first told the time
                self.due = Some(boot);
                let (told, orders) = self.claims.begin_anew();
                self.tell(orders);
                return told.into_iter().map(|told| TellsOfLease::Client(told, true)).collect();
            }
            LeaseLine::Held { name, client, epoch, until } => {
                let is_new = !self.claims.all_held().any(|(held, old, _)| (held, old) == (name.as_str(), epoch));
                let told = self.claims.held(&name, client, epoch, BootTime::of_ms(until));
                return told.into_iter().map(|told| TellsOfLease::Client(told, is_new)).collect();
            }
            LeaseLine::Lost { name, epoch } => {
                let told = self.claims.lost(&name, epoch);
                return told.into_iter().map(|told| TellsOfLease::Client(told, true)).collect();
            }
            LeaseLine::RefusedClaim { why, name, client } if why == "Waiting" => {
                // an earlier process may have granted for longer than this one does
                self.again.push((name, client));
                self.again_at = now + CLAIM_PAUSE;
            }
            LeaseLine::RefusedClaim { why, name, client } => {
                warn!("lease {name}: refused: {why}");
                let (client, order) = self.claims.refused(&name, client);
                self.tell(order);
                return client.map(|client| TellsOfLease::Refused { client, name, why }).into_iter().collect();
            }
            LeaseLine::Refused { why } => debug!("leases: a line was refused: {why}"),
            LeaseLine::Next { at } => self.due = at.map(BootTime::of_ms),
            LeaseLine::Send { .. } => {}
        }
        Vec::new()
    }

    /// The process ended: it is started again behind a pause.
    fn restart(&mut self, now: Instant) {
        let status = self.process.take().map(|mut process| process.end(PATIENCE_AT_END));
        self.pause = pause_after(self.pause, now.saturating_duration_since(self.start));
        let how = match status {
            Some(Ok(Some(status))) => status.to_string(),
            _ => "it hangs".to_string(),
        };
        error!("the process of leases ended ({how}), it starts again in {} ms", self.pause.as_millis());
        (self.start, self.due) = (now + self.pause, None);
    }
}

/// The pause behind the end of a process that ran for so long, which began behind another pause.
fn pause_after(pause: Duration, ran: Duration) -> Duration {
    if ran > LONGEST_PAUSE {
        FIRST_PAUSE
    } else {
        (pause * 2).clamp(FIRST_PAUSE, LONGEST_PAUSE)
    }
}

fn no_leases() -> Reply {
    Reply::refused("NoLeases").with("why", "`lease_ms` isn't set: this agent has no leases")
}

fn refused(refusal: Refusal) -> Reply {
    match refusal {
        Refusal::Claimed => Reply::refused("Claimed").with("why", "this connection asks for the name already"),
        Refusal::Full => Reply::refused("Full").with("why", "too many names, or too many who ask for this one"),
        Refusal::Unclaimed => Reply::refused("Unclaimed").with("why", "this connection doesn't ask for the name"),
    }
}

#[cfg(test)]
mod tests {
    use super::*;

    #[test]
    fn pauses_before_a_start_grow_to_4_s_and_begin_anew_after_one_that_ran() {
        let ms = Duration::from_millis;
        let ran_for = [10, 0, 3_999, 4_000, 0, 4_001, 0];
        let mut pause = Duration::ZERO;
        let pauses = ran_for.map(|ran| {
            pause = pause_after(pause, ms(ran));
            pause
        });
        assert_eq!(pauses, [500, 1_000, 2_000, 4_000, 4_000, 500, 1_000].map(ms));
    }
}
