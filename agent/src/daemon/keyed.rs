//! Submissions under a key, between the agents: before the own node is asked to keep one the others are asked whether they know it, and once it is kept they are
//! told.

use super::core::{Core, Ports};
use crate::forward::{Key, Knows, Submission, Token, Turn, What};
use crate::node::{Closing, JobKey};
use std::time::Instant;

/// So many submissions are held at a time.
const MAX_HELD: usize = 1024;

impl<P: Ports> Core<P> {
    /// What is to be done with a submission under this key that the own node would be asked to keep.
    pub(super) fn turn_of(&mut self, key: Key, now: Instant) -> Turn {
        let heard: Vec<u8> = self.others().into_iter().filter(|node| self.peers.is_there(*node, now)).collect();
        let turn = self.keys.turn(key, &heard, now);
        if !matches!(turn, Turn::AskOthers(_)) {
            self.held.remove(&key);
        }
        if let Turn::AskOthers(others) = &turn {
            for node in others {
                self.send_to_agent(*node, self.outbox.token(), What::Asks { key }, now);
            }
        }
        turn
    }

    /// The nodes that have a machine, beside the own one.
    pub(super) fn others(&self) -> Vec<u8> {
        self.peers.others().collect()
    }

    /// Another agent answers what it knows of a key.
    pub(super) fn told_of_key(&mut self, from: u8, token: Token, (key, knows): (Key, Knows), now: Instant) {
        if token != self.outbox.token() || !self.keys.answered(from, key, knows, now) {
            return;
        }
        self.outbox.hurry(key, now);
        if let Some((from, token, job)) = self.held.remove(&key) {
            self.take_new((from, token), &job, now);
        }
    }

    /// Holds a submission of another agent until it is known whether its key is. Those that are let go are sent again.
    pub(super) fn hold(&mut self, from: u8, token: Token, job: &Submission) {
        if self.held.len() >= MAX_HELD {
            self.held.clear();
        }
        if let Some(key) = job.key {
            self.held.insert(key, (from, token, job.clone()));
        }
    }

    /// The own node answered a submission. What it keeps under a key the others are told, those that are known to take it.
    pub(super) fn settled(&mut self, key: Option<Key>, closing: &Closing, now: Instant) {
        let key = match key {
            Some(key) => key,
            None => return,
        };
        let kept = match closing {
            Closing::Ok(Some(id)) => Some(JobKey { origin: self.config.id, id: *id }),
            _ => None,
        };
        self.keys.settled(key, kept, now);
        self.outbox.hurry(key, now);
        if let Some(job) = kept {
            for node in self.others() {
                if let Some((life, number)) = self.outbox.stamps_for(node) {
                    self.send_to_agent(node, self.outbox.token(), What::Keeps { life, number, key, job }, now);
                }
            }
        }
    }
}
