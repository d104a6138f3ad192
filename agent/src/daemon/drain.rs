//! A machine that is drained: new jobs are kept elsewhere, and what its node keeps is worked on. A node keeps new jobs as long as it leads, so it gives up its
//! lead, and the questions and invitations by which it would lead again are lost. It goes on as a member, invited by another one.

use super::core::{Core, Ports};
use crate::forward::What;
use log::info;
use std::collections::BTreeMap;
use std::time::{Duration, Instant};

/// The others are told again so much later, and what they were told counts for so long.
const PAUSE: Duration = Duration::from_secs(1);
const COUNTS: Duration = Duration::from_secs(5);

/// When each of the others was told last.
#[derive(Default)]
pub(super) struct Drain {
    told: BTreeMap<u8, Instant>,
}

impl Drain {
    fn is_due(&self, node: u8, now: Instant) -> bool {
        self.told.get(&node).map_or(true, |told| now.saturating_duration_since(*told) >= PAUSE)
    }
}

impl<P: Ports> Core<P> {
    /// The machine is drained from now on, or not any more.
    pub(super) fn drain(&mut self, on: bool, now: Instant) {
        if on != self.draining.is_some() {
            info!("{}", if on { "drained: new jobs are kept elsewhere" } else { "no longer drained" });
            self.draining = on.then(Drain::default);
        }
        self.give_up_lead(now);
    }

    /// Tells the others that this machine is drained: those that the node leads make a group without it.
    pub(super) fn give_up_lead(&mut self, now: Instant) {
        for node in self.others() {
            let drain = self.draining.as_mut().filter(|drain| drain.is_due(node, now));
            // one whose stamps aren't known yet is told once they are
            let stamps = drain.is_some().then(|| self.outbox.stamps_for(node)).flatten();
            if let (Some(drain), Some((life, number))) = (drain, stamps) {
                drain.told.insert(node, now);
                let what = What::Leaving { life, number, is_copy: false, stays: true };
                // twice, for a datagram may be lost
                self.send_to_agent(node, self.outbox.token(), what.clone(), now);
                self.send_to_agent(node, self.outbox.token(), what, now);
            }
        }
    }

    /// Who is asked to keep a job in place of the own node, which is drained and has no other coordinator yet: the greatest that is heard and isn't drained.
    pub(super) fn in_place_of_own(&self, now: Instant) -> Option<u8> {
        let drained = self.drained(now);
        self.peers.others().filter(|node| self.peers.is_there(*node, now) && !drained.contains(node)).max()
    }

    /// Another machine says that it is drained.
    pub(super) fn is_drained(&mut self, node: u8, now: Instant) {
        self.drained.insert(node, now);
    }

    /// The machines that are drained, as far as this one knows.
    pub(super) fn drained(&self, now: Instant) -> Vec<u8> {
        let counts = |told: &Instant| now.saturating_duration_since(*told) < COUNTS;
        let others = self.drained.iter().filter(|(_, told)| counts(told)).map(|(node, _)| *node);
        let mut all: Vec<u8> = others.chain(self.draining.as_ref().map(|_| self.config.id)).collect();
        all.sort_unstable();
        all
    }

    /// Another machine is drained. A node that it leads leaves it, as one that ended.
    pub(super) fn take_resignation(&mut self, from: u8, (life, number): (u64, u64), now: Instant) {
        if !self.inbox.is_new(from, life, number) {
            return self.metrics.farewells.with_label_values(&["refused"]).inc();
        }
        self.is_drained(from, now);
        if self.view.group.coordinator == from {
            self.metrics.farewells.with_label_values(&["drained"]).inc();
            info!("node {from} gives up its lead: it is drained");
            self.lose(from, now);
        }
    }
}
