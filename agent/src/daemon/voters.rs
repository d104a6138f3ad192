//! Among how many machines the process of leases votes: it is started anew where that changes, one machine at a time.

use super::core::{Core, Ports};
use crate::config::Config;
use crate::forward::{Token, What};
use crate::lease::{Voters, Voting};
use log::{error, info, warn};
use std::time::{Duration, Instant};

/// The others are asked so often while the number is to change.
const PAUSE: Duration = Duration::from_millis(500);

/// What a change waits for is told where that lasts for so long.
const PATIENCE: Duration = Duration::from_secs(10);

/// The number, and a change of it that is under way.
pub(super) struct Count {
    voters: Voters,
    /// When the others were asked last, and the number of that question.
    asked: Option<Instant>,
    serial: u64,
    /// Since when it is to change, and whether it was told what that waits for.
    since: Instant,
    is_told: bool,
}

impl Count {
    /// Of a machine that voted among so many, where that was kept.
    pub(super) fn of(config: &Config, kept: Option<u8>, now: Instant) -> Count {
        let voters = Voters::of(config.id, kept, config.nodes.len());
        Count { voters, asked: None, serial: 0, since: now, is_told: false }
    }

    /// None where the machine doesn't vote yet.
    pub(super) fn now(&self) -> Option<u8> {
        Some(self.voters.voting().now).filter(|now| *now != 0)
    }

    /// When something is to be done.
    pub(super) fn sleep(&self, now: Instant) -> Duration {
        if self.voters.is_settled() {
            return Duration::MAX;
        }
        self.asked.map_or(Duration::ZERO, |asked| (asked + PAUSE).saturating_duration_since(now))
    }

    fn is_due(&self, now: Instant) -> bool {
        self.sleep(now).is_zero()
    }
}

impl<P: Ports> Core<P> {
    /// Goes on with a change of the number, where there is one.
    pub(super) fn keep_voters(&mut self, now: Instant) {
        let wanted = self.peers.listed();
        let count = match &mut self.leases {
            Some(leases) => &mut leases.count_of_voters,
            None => return,
        };
        if count.voters.want(wanted) {
            (count.since, count.is_told, count.asked) = (now, false, None);
        }
        if count.voters.is_settled() {
            return;
        }
        let others: Vec<u8> = self.peers.others().collect();
        if let Some(next) = count.voters.next(&others) {
            return self.vote_among(next, now);
        }
        if count.is_due(now) {
            let silent = count.voters.silent(&others);
            if !count.is_told && count.asked.is_some() && now.saturating_duration_since(count.since) >= PATIENCE {
                count.is_told = true;
                let Voting { now, wanted } = count.voters.voting();
                warn!("leases: {wanted} machines are to vote, {now} do now: it is waited for the agents of the nodes {silent:?}");
            }
            (count.asked, count.serial) = (Some(now), count.serial + 1);
            count.voters.ask();
            let token = Token { life: self.outbox.token().life, serial: count.serial };
            others.into_iter().for_each(|node| self.send_to_agent(node, token, What::AsksVoting {}, now));
        }
    }

    /// Ends the process of leases, which is started anew among so many.
    fn vote_among(&mut self, next: u8, now: Instant) {
        let leases = match &mut self.leases {
            Some(leases) => leases,
            None => return,
        };
        leases.stop(now);
        let count = &mut leases.count_of_voters;
        match self.ports.keep_voters(&self.config, next) {
            Ok(()) => {
                count.voters.go_on(next);
                info!("leases: {next} machines vote from now on");
            }
            Err(why) => error!("leases: among how many machines this one votes can't be kept: {why}"),
        }
        // what the others said is of before
        count.voters.ask();
        count.asked = Some(now);
    }

    /// What this machine votes by.
    pub(super) fn voting(&self) -> Voting {
        self.leases.as_ref().map_or(Voting { now: 0, wanted: 0 }, |leases| leases.count_of_voters.voters.voting())
    }

    /// Another agent answers what its machine votes by.
    pub(super) fn told_of_voting(&mut self, from: u8, token: Token, voting: Voting, now: Instant) {
        let life = self.outbox.token().life;
        if let Some(leases) = self.leases.as_mut().filter(|_| token.life == life) {
            let count = &mut leases.count_of_voters;
            if token.serial == count.serial {
                count.voters.said(from, voting);
            }
            leases.silence.answered(from, token.serial, now);
        }
    }
}
