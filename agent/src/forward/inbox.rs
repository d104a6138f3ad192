//! What other agents ask for: each request once, and none that was recorded.

use super::{Outcome, Token};
use std::collections::{HashMap, VecDeque};

/// So many requests are remembered.
const MAX_REMEMBERED: usize = 4096;

/// What is to be done with a request.
#[derive(Debug, PartialEq, Eq)]
pub enum Verdict {
    /// It is new.
    Ask,
    /// It is being worked on: its answer will come.
    Wait,
    Answer(Outcome),
}

pub struct Inbox {
    life: u64,
    /// The greatest number taken of each node.
    last: Vec<u64>,
    /// What came of requests; None while the node is asked.
    outcomes: HashMap<Token, Option<Outcome>>,
    order: VecDeque<Token>,
}

impl Inbox {
    pub fn new(life: u64, nodes: usize) -> Inbox {
        Inbox { life, last: vec![0; nodes], outcomes: HashMap::new(), order: VecDeque::new() }
    }

    /// A request of node `from` came.
    pub fn judge(&mut self, from: u8, token: Token, life: u64, number: u64) -> Option<Verdict> {
        let stale = self.stamps_for(from)?;
        if !self.is_new(from, life, number) {
            return Some(Verdict::Answer(stale));
        }
        Some(match self.outcomes.get(&token) {
            Some(Some(outcome)) => Verdict::Answer(outcome.clone()),
            Some(None) => Verdict::Wait,
            None => Verdict::Ask,
        })
    }

    /// The stamps above which a node's requests are taken, as they are told.
    pub fn stamps_for(&self, from: u8) -> Option<Outcome> {
        self.last.get(usize::from(from)).map(|last| Outcome::Stale { life: self.life, last: *last, told: Vec::new(), about: None })
    }

    /// Whether stamps of a node are new, and none that were recorded: by that they are used.
    pub fn is_new(&mut self, from: u8, life: u64, number: u64) -> bool {
        match self.last.get_mut(usize::from(from)) {
            Some(last) if life == self.life && number > *last => {
                *last = number;
                true
            }
            _ => false,
        }
    }

    /// The node is asked for it.
    pub fn asked(&mut self, token: Token) {
        if self.order.len() == MAX_REMEMBERED {
            if let Some(oldest) = self.order.pop_front() {
                self.outcomes.remove(&oldest);
            }
        }
        self.outcomes.insert(token, None);
        self.order.push_back(token);
    }

    /// The node answered. A job that it kept is remembered; a refusal isn't, since the next time it may be another one.
    pub fn answered(&mut self, token: Token, outcome: &Outcome) {
        if let Outcome::Kept { .. } = outcome {
            if let Some(known) = self.outcomes.get_mut(&token) {
                *known = Some(outcome.clone());
            }
        } else {
            self.outcomes.remove(&token);
            self.order.retain(|other| *other != token);
        }
    }
}

#[cfg(test)]
mod tests {
    use super::*;
    use crate::node::Refusal;

    #[test]
    fn each_request_once_and_none_that_was_recorded() {
        let mut inbox = Inbox::new(7, 3);
        let token = Token { life: 1, serial: 1 };
        let stale = |last| Some(Verdict::Answer(Outcome::Stale { life: 7, last, told: vec![], about: None }));
        assert_eq!(inbox.judge(1, token, 0, 1), stale(0), "it doesn't know this life yet");
        assert_eq!(inbox.judge(1, token, 7, 1), Some(Verdict::Ask));
        inbox.asked(token);
        assert_eq!(inbox.judge(1, token, 7, 1), stale(1), "the same datagram again");
        assert_eq!(inbox.judge(1, token, 7, 2), Some(Verdict::Wait));
        inbox.answered(token, &Outcome::Kept { id: 4, origin: None });
        assert_eq!(inbox.judge(1, token, 7, 3), Some(Verdict::Answer(Outcome::Kept { id: 4, origin: None })));
        assert_eq!(
            inbox.judge(2, Token { life: 1, serial: 2 }, 7, 1),
            Some(Verdict::Ask),
            "numbers are each sender's own"
        );
        assert_eq!(inbox.judge(3, token, 7, 9), None);
        assert_eq!(Inbox::new(8, 3).judge(1, token, 7, 3), Some(Verdict::Answer(Outcome::Stale { life: 8, last: 0, told: vec![], about: None })));
    }

    #[test]
    fn a_farewell_is_taken_once_and_in_this_life_alone() {
        let mut inbox = Inbox::new(7, 3);
        assert!(inbox.is_new(1, 7, 5) && !inbox.is_new(1, 7, 5) && !inbox.is_new(1, 7, 4));
        assert!(!inbox.is_new(1, 6, 9) && !inbox.is_new(1, 0, 9) && !inbox.is_new(3, 7, 9));
        assert_eq!((inbox.stamps_for(1), inbox.stamps_for(3)), (Some(Outcome::Stale { life: 7, last: 5, told: vec![], about: None }), None));
    }

    #[test]
    fn a_refused_request_may_come_again() {
        let (mut inbox, token) = (Inbox::new(7, 2), Token { life: 1, serial: 1 });
        inbox.asked(token);
        inbox.answered(token, &Outcome::Refused { error: Refusal::NotNormal });
        assert_eq!(inbox.judge(1, token, 7, 1), Some(Verdict::Ask));
    }
}
