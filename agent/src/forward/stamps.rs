//! The stamps by which other agents take what is sent to them: the life of each, and a number that rises in it. They are asked for in advance, so that an agent
//! that ends can say so in one datagram.

use std::collections::VecDeque;
use std::time::{Duration, Instant};

/// An agent is asked for its stamps again after so long, and each time after twice as long as before.
const PAUSE: Duration = Duration::from_millis(125);
const MOST_DOUBLINGS: u32 = 9;

/// So many lives of each agent are remembered.
const LIVES: usize = 64;

/// What is known of another agent.
#[derive(Clone, Default)]
struct Receiver {
    /// 0 as long as it isn't known.
    life: u64,
    number: u64,
    /// When it was asked for its stamps last, and how often since it was heard with another life.
    asked: Option<Instant>,
    tries: u32,
    /// The life that it said last, and those before it: a datagram that names one of them is old.
    last: Option<u64>,
    left: VecDeque<u64>,
    /// The lives in which it was heard.
    heard: VecDeque<u64>,
}

fn remember(lives: &mut VecDeque<u64>, life: u64) {
    if lives.len() == LIVES {
        lives.pop_front();
    }
    lives.push_back(life);
}

pub struct Stamps(Vec<Receiver>);

impl Stamps {
    pub fn new(nodes: usize) -> Stamps {
        Stamps(vec![Receiver::default(); nodes])
    }

    /// The stamps of the next datagram to a node; its life is 0 where it isn't known.
    pub fn next(&mut self, to: u8) -> Option<(u64, u64)> {
        let receiver = self.0.get_mut(usize::from(to))?;
        receiver.number = receiver.number.saturating_add(1);
        Some((receiver.life, receiver.number))
    }

    pub fn is_known(&self, node: u8) -> bool {
        self.0.get(usize::from(node)).map_or(false, |receiver| receiver.life != 0)
    }

    /// The life that an agent said last.
    pub fn life(&self, node: u8) -> Option<u64> {
        self.0.get(usize::from(node))?.last
    }

    /// An agent said its life, and the last number that it took there. One that it left it has no more.
    pub fn learn(&mut self, from: u8, life: u64, last: u64) {
        if let Some(receiver) = self.0.get_mut(usize::from(from)).filter(|receiver| !receiver.left.contains(&life)) {
            if let Some(left) = receiver.last.replace(life).filter(|left| *left != life) {
                remember(&mut receiver.left, left);
            }
            (receiver.life, receiver.number) = (life, receiver.number.max(last));
            (receiver.asked, receiver.tries) = (None, 0);
        }
    }

    /// An agent was heard in this life. It may be an old datagram, so that life is asked for and not taken from it: at once where it wasn't heard before.
    pub fn seen(&mut self, from: u8, life: u64) {
        let is_new = |receiver: &&mut Receiver| receiver.last != Some(life) && !receiver.left.contains(&life) && !receiver.heard.contains(&life);
        if let Some(receiver) = self.0.get_mut(usize::from(from)).filter(is_new) {
            remember(&mut receiver.heard, life);
            (receiver.life, receiver.asked, receiver.tries) = (0, None, 0);
        }
    }

    /// Whether an agent is to be asked for its stamps now.
    pub fn asks(&mut self, to: u8, now: Instant) -> bool {
        let is_due = |receiver: &Receiver| {
            let pause = PAUSE * 2u32.pow(receiver.tries.min(MOST_DOUBLINGS));
            receiver.life == 0 && receiver.asked.map_or(true, |asked| now.saturating_duration_since(asked) >= pause)
        };
        match self.0.get_mut(usize::from(to)).filter(|receiver| is_due(receiver)) {
            Some(receiver) => {
                (receiver.asked, receiver.tries) = (Some(now), receiver.tries + 1);
                true
            }
            None => false,
        }
    }
}

#[cfg(test)]
mod tests {
    use super::*;

    #[test]
    fn an_agent_is_asked_until_it_says_its_life_and_anew_in_its_next_one() {
        let (now, mut stamps) = (Instant::now(), Stamps::new(2));
        let asked = |stamps: &mut Stamps, from: u64, to: u64| -> Vec<u64> {
            (from..to).filter(|ms| stamps.asks(1, now + Duration::from_millis(*ms))).collect()
        };
        assert_eq!(asked(&mut stamps, 0, 4000), [0, 250, 750, 1750, 3750]);
        assert_eq!((stamps.next(1), stamps.life(1)), (Some((0, 1)), None));
        stamps.learn(1, 77, 40);
        assert_eq!((stamps.next(1), stamps.next(2), stamps.is_known(1)), (Some((77, 41)), None, true));
        assert!(asked(&mut stamps, 4000, 9000).is_empty());
        stamps.seen(1, 77);
        assert!(stamps.is_known(1));
        stamps.seen(1, 78);
        assert_eq!((asked(&mut stamps, 9000, 9100), stamps.life(1)), (vec![9000], Some(77)));
        stamps.learn(1, 78, 0);
        assert_eq!((stamps.next(1), stamps.life(1)), (Some((78, 42)), Some(78)), "numbers rise");
        assert!(!stamps.asks(9, now) && !stamps.is_known(9));
    }

    #[test]
    fn old_datagrams_of_an_agent_change_nothing() {
        let (now, mut stamps) = (Instant::now(), Stamps::new(2));
        [5, 6, 7].into_iter().for_each(|life| stamps.learn(1, life, 0));
        for old in [5, 6] {
            stamps.seen(1, old);
            stamps.learn(1, old, 9);
            assert_eq!((stamps.is_known(1), stamps.life(1)), (true, Some(7)), "{old}");
        }
        stamps.seen(1, 4);
        assert!(stamps.asks(1, now), "it may be a new one");
        stamps.learn(1, 7, 0);
        stamps.seen(1, 4);
        assert!(stamps.is_known(1), "it was asked for that one");
    }
}
