//! Commands that run only while this machine leads, has a lock, or owns a shard: `lead`, `lock` and `own`.

mod arguments;
mod follow;
mod on_change;
mod pace;
mod shards;
mod slot;

pub use arguments::{Leads, Locks, OnChanges, Owns};

use super::interrupts::Interrupts;
use super::Failure;
use crate::boot_time::BootTime;
use crate::own_session;
use crate::say::say;
use follow::{Follow, Said};
use shards::{owner, LEASES};
use slot::{Right, Slot};
use std::collections::{BTreeMap, BTreeSet};
use std::ffi::OsString;
use std::path::Path;
use std::process::ExitStatus;
use std::time::Duration;

/// A signal is noticed so late at most.
const LOOK: Duration = Duration::from_millis(100);

/// Commands are started for so long at a time: on a busy machine each takes a while, and an agent that hears nothing of its client meanwhile takes it for stopped.
const TURN: Duration = Duration::from_millis(50);

/// For so long it is waited for the agent's answers at the end.
const PATIENCE_AT_END: Duration = Duration::from_millis(500);

/// What a command has to have to run.
#[derive(Clone, Copy, Debug, PartialEq, Eq)]
pub enum Gate {
    /// A group: in a partition each part has one.
    Group,
    /// A group of more than half of all nodes, as far as this node knows: there may be two for some seconds.
    Majority,
    /// A lease: never two at a time, as long as clocks go as they should.
    Lease,
}

/// What is run.
#[derive(Clone, Copy, Debug, PartialEq, Eq)]
pub enum What {
    /// The command of who leads, again and again.
    Leader,
    /// The command of who has the lock, once. Where it `waits`, it is waited for without an end.
    Once { waits: bool },
    /// The command of each shard, from 0 on, that this machine owns.
    Shards(u32),
}

pub struct Lead<'a> {
    pub socket: &'a Path,
    pub command: &'a [OsString],
    pub what: What,
    /// None: a lease where the agent has leases, else a group.
    pub gate: Option<Gate>,
    /// The name of the lease, or what those of shards begin with.
    pub name: &'a str,
    /// Without a lease what the agent says counts for so long.
    pub within: Duration,
    /// A command that is to end has so long for it after SIGTERM.
    pub grace: Duration,
}

impl Lead<'_> {
    pub fn run(&self) -> Result<(), Failure> {
        let program = self.command.first().ok_or_else(|| Failure::Usage("no COMMAND".to_string()))?;
        if let Some(why) = own_session::why_not(program) {
            return Err(Failure::Usage(format!("{}: {why}", program.to_string_lossy())));
        }
        let interrupts = Interrupts::register()?;
        interrupts.set_idle(false);
        let may_be_leased = self.gate != Some(Gate::Majority);
        let mut follow = Follow::start(self.socket, self.within / 4, may_be_leased && matches!(self.what, What::Shards(_)))?;
        let mut slots: BTreeMap<u32, Slot> = (0..self.count()).map(|shard| (shard, Slot::default())).collect();
        let done = self.go_on(&mut follow, &mut slots, &interrupts);
        let ended = self.end(&mut follow, &mut slots);
        let done = done?;
        ended?;
        interrupts.end()?;
        match done {
            Some(status) => Failure::of_status(status),
            None => Ok(()),
        }
    }

    fn count(&self) -> u32 {
        match self.what {
            What::Leader | What::Once { .. } => 1,
            What::Shards(count) => count,
        }
    }

    /// Until a signal comes, or the one command that was to run ended: then its status.
    fn go_on(
        &self,
        follow: &mut Follow,
        slots: &mut BTreeMap<u32, Slot>,
        interrupts: &Interrupts,
    ) -> Result<Option<ExitStatus>, Failure> {
        let begin = BootTime::now();
        let (mut has_run, mut has_more) = (false, false);
        while !interrupts.have_come() {
            if follow.wait(if has_more { Duration::ZERO } else { LOOK })? {
                for (shard, slot) in slots.iter_mut() {
                    match slot.reap(self.grace, BootTime::now()).map_err(|why| Failure::NotDone(why.to_string()))? {
                        Some((status, _)) if matches!(self.what, What::Once { .. }) => return Ok(Some(status)),
                        Some((status, pause)) => self.told(*shard, status, pause),
                        None => {}
                    }
                }
            }
            has_more = self.look_after(follow, slots);
            let is_idle = slots.values().all(Slot::is_idle);
            match self.what {
                What::Once { .. } if has_run && is_idle => {
                    let why = if Self::is_drained(follow) { "is given back, for this machine is drained: its command was ended" } else { "was lost, and its command killed" };
                    return Err(Failure::NotDone(format!("the lock {} {why}", self.name)));
                }
                What::Once { waits: false } if is_idle && Self::is_drained(follow) => return Err(Failure::Refused("Draining: this machine is drained".to_string())),
                What::Once { waits: false } if is_idle && BootTime::now().since(begin) > self.within => {
                    return Err(Failure::Refused(format!("Held: another has the lock {}, or too few machines answer", self.name)))
                }
                _ => has_run |= !is_idle,
            }
        }
        Ok(None)
    }

    fn told(&self, shard: u32, status: ExitStatus, pause: Duration) {
        let of = if matches!(self.what, What::Shards(_)) { format!(" of shard {shard}") } else { String::new() };
        say(format!("dumgerokctl: the command{of} ended ({status}), it starts again in {} ms", pause.as_millis()));
    }

    /// Asks for the leases that are wanted, gives back those that aren't and that nothing runs under, and sees to each command. Whether some are left to be started.
    fn look_after(&self, follow: &mut Follow, slots: &mut BTreeMap<u32, Slot>) -> bool {
        let gate = match (self.gate, &follow.last) {
            (Some(gate), _) => gate,
            (None, Some(said)) if said.has_leases() => Gate::Lease,
            (None, Some(_)) => Gate::Group,
            (None, None) => return false,
        };
        if gate == Gate::Lease {
            let wanted = self.wanted(follow);
            let used: BTreeSet<String> = slots.iter().filter(|(_, slot)| !slot.is_idle()).map(|(shard, _)| self.name_of(*shard)).collect();
            for name in follow.claimed().iter().filter(|name| !wanted.contains(*name) && !used.contains(*name)) {
                follow.give_back(name);
            }
            let others = wanted.difference(&follow.claimed()).cloned().collect();
            follow.claim_some(&others);
        }
        let (now, mut until, mut has_more) = (BootTime::now(), None, false);
        for (shard, slot) in slots.iter_mut() {
            let right = match gate {
                Gate::Lease => self.leased(follow, *shard),
                _ => self.grouped(follow, *shard, gate == Gate::Majority, slot.is_idle()),
            };
            let right = right.filter(|right| now.after(self.grace) < right.until);
            if right.as_ref().map_or(false, |right| slot.would_start(right, self.grace, now)) {
                let now = BootTime::now();
                has_more |= now > *until.get_or_insert(now.after(TURN));
                if has_more {
                    continue;
                }
            }
            slot.look_after(right.as_ref(), self.command, self.grace, now);
        }
        has_more
    }

    /// The name of the lease of a shard, or of all.
    fn name_of(&self, shard: u32) -> String {
        match self.what {
            What::Shards(_) => format!("{}.{}", self.name, shard % LEASES),
            _ => self.name.to_string(),
        }
    }

    fn is_drained(follow: &Follow) -> bool {
        follow.last.as_ref().map_or(false, Said::is_drained)
    }

    /// The leases that are wanted here: of shards those that fall to this machine; none where it is drained.
    fn wanted(&self, follow: &Follow) -> BTreeSet<String> {
        match (self.what, &follow.made) {
            _ if Self::is_drained(follow) => BTreeSet::new(),
            (What::Shards(_), None) => BTreeSet::new(),
            (What::Shards(count), Some(said)) => {
                let members = follow.owners(said);
                let own = (0..count.min(LEASES)).filter(|lease| owner(*lease, &members) == said.own());
                own.map(|lease| self.name_of(lease)).collect()
            }
            _ => BTreeSet::from([self.name.to_string()]),
        }
    }

    /// The right to a command by its lease. A shard that falls to another member loses it.
    fn leased(&self, follow: &Follow, shard: u32) -> Option<Right> {
        let held = follow.held(&self.name_of(shard)).filter(|_| !Self::is_drained(follow))?;
        let said = follow.made.as_ref().or(follow.last.as_ref());
        if matches!(self.what, What::Shards(_)) {
            let said = follow.made.as_ref()?;
            if owner(shard % LEASES, &follow.owners(said)) != said.own() {
                return None;
            }
        }
        let variables = said.map_or_else(Vec::new, |said| self.variables(said, shard));
        let epoch = [("DUMGEROK_EPOCH", held.epoch.to_string())];
        Some(Right { until: held.until, epoch: Some(held.epoch), variables: variables.into_iter().chain(epoch).collect() })
    }

    /// The right to a command by the group. While a group is being made what the one before gave counts on, until its time is over.
    fn grouped(&self, follow: &Follow, shard: u32, needs_majority: bool, is_idle: bool) -> Option<Right> {
        let (last, made) = (follow.last.as_ref()?, follow.made.as_ref()?);
        let own = made.own()?;
        let leads = |said: &Said| said.status["coordinator"] == own;
        let is_its = match self.what {
            What::Shards(_) => owner(shard, &follow.owners(made)) == Some(own),
            _ => leads(made) && leads(last),
        };
        let is_up = last.status["phase"] != "Down" && (!is_idle || last.is_made());
        let has_majority = !needs_majority || made.status["majority"] == true;
        let may = is_its && is_up && has_majority;
        may.then(|| Right { until: made.asked.after(self.within), epoch: None, variables: self.variables(made, shard) })
    }

    fn variables(&self, said: &Said, shard: u32) -> Vec<(&'static str, String)> {
        let members: Vec<String> = said.members().iter().map(u8::to_string).collect();
        let mut variables = vec![
            ("DUMGEROK_GROUP", said.status["group"].as_str().unwrap_or_default().to_string()),
            ("DUMGEROK_COORDINATOR", said.status["coordinator"].to_string()),
            ("DUMGEROK_MEMBERS", members.join(",")),
        ];
        if matches!(self.what, What::Shards(_)) {
            variables.push(("DUMGEROK_SHARD", shard.to_string()));
        }
        variables
    }

    /// Ends all commands, and gives the leases back once they are gone with all that they started.
    fn end(&self, follow: &mut Follow, slots: &mut BTreeMap<u32, Slot>) -> Result<(), Failure> {
        while !slots.values().all(Slot::is_idle) {
            for slot in slots.values_mut() {
                slot.look_after(None, self.command, self.grace, BootTime::now());
            }
            let _lost = follow.wait(LOOK);
            for slot in slots.values_mut() {
                slot.reap(self.grace, BootTime::now()).map_err(|why| Failure::NotDone(why.to_string()))?;
            }
        }
        follow.claimed().iter().for_each(|name| follow.give_back(name));
        let until = BootTime::now().after(PATIENCE_AT_END);
        while !follow.is_answered() && BootTime::now() < until {
            let _refused = follow.wait(LOOK);
        }
        Ok(())
    }
}
