//! Nodes that end or give up their lead: the own one goes on without them.

use super::core::{Core, Ports};
use super::Asker;
use std::time::{Duration, Instant};

/// When the node is to look for others that lead.
#[derive(Default)]
pub(super) struct Looking(Option<Instant>);

impl Looking {
    pub(super) fn sleep(&self, now: Instant) -> Duration {
        self.0.map_or(Duration::MAX, |due| due.saturating_duration_since(now))
    }
}

impl<P: Ports> Core<P> {
    /// Has the node make a group without another one. A member whose coordinator that was asks it first, and by the second word leaves.
    pub(super) fn lose(&mut self, node: u8, now: Instant) {
        if self.is_next(node, now) {
            // behind a round trip the other members have left, too
            self.looking = Looking(Some(now + Duration::from_millis(self.config.round_trip_ms)));
        }
        for _ in 0..2 {
            self.ask(Asker::Lost, format!("lost {node}"));
        }
    }

    /// Whether the own node is to lead those that another one leads: it is the greatest of the members that aren't drained.
    fn is_next(&self, node: u8, now: Instant) -> bool {
        let (group, drained) = (&self.view.group, self.drained(now));
        let next = group.members.iter().filter(|member| **member != node && !drained.contains(member)).max();
        group.coordinator == node && next == Some(&self.config.id)
    }

    /// Has the node look for others before these do, which would be in each other's way.
    pub(super) fn look_for_others(&mut self, now: Instant) {
        if !self.looking.sleep(now).is_zero() {
            return;
        }
        self.looking = Looking::default();
        if self.view.group.is_normal() && self.view.is_coordinator() {
            self.ask(Asker::Lost, "check".to_string());
        }
    }
}
