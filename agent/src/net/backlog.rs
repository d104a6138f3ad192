//! What waits of each peer, or for each: what came until the node has room for it, and what leaves until its turn, for the system keeps little.

use std::collections::VecDeque;

/// So many bytes wait, with the upkeep of each datagram: half of it takes as many long jobs as a journal has at most.
const ROOM: usize = 5 * 1024 * 1024;
const UPKEEP: usize = 128;

/// The oldest of a peer come first, and the peers in turn. Each may fill half of what the others leave free, so that none keeps another one out.
pub struct Backlog<T> {
    /// Each with its size.
    of: Vec<VecDeque<(T, usize)>>,
    sizes: Vec<usize>,
    turn: usize,
}

impl<T> Backlog<T> {
    pub fn new(nodes: usize) -> Backlog<T> {
        Backlog { of: (0..nodes).map(|_| VecDeque::new()).collect(), sizes: vec![0; nodes], turn: 0 }
    }

    /// Keeps what takes so many bytes; what there is no room for is given back.
    pub fn put(&mut self, peer: usize, one: T, bytes: usize) -> Option<T> {
        let (size, free) = (bytes + UPKEEP, ROOM - self.sizes.iter().sum::<usize>());
        match self.of.get_mut(peer) {
            Some(waiting) if self.sizes[peer] + size <= free => {
                waiting.push_back((one, size));
                self.sizes[peer] += size;
                None
            }
            _ => Some(one),
        }
    }

    pub fn is_empty(&self) -> bool {
        self.sizes.iter().all(|size| *size == 0)
    }

    pub fn is_empty_of(&self, peer: usize) -> bool {
        self.sizes.get(peer).map_or(true, |size| *size == 0)
    }

    /// Drops what of a peer isn't to stay, and answers how many there were.
    pub fn retain(&mut self, peer: usize, stays: impl Fn(&T) -> bool) -> u64 {
        let waiting = match self.of.get_mut(peer) {
            Some(waiting) => waiting,
            None => return 0,
        };
        let before = waiting.len();
        waiting.retain(|(one, _)| stays(one));
        self.sizes[peer] = waiting.iter().map(|(_, size)| size).sum();
        (before - waiting.len()) as u64
    }

    /// The oldest one of the peer whose turn it is.
    pub fn take(&mut self) -> Option<T> {
        let count = self.of.len();
        let peer = (self.turn..self.turn + count).map(|at| at % count).find(|peer| self.sizes[*peer] > 0)?;
        let (one, size) = self.of[peer].pop_front()?;
        self.sizes[peer] -= size;
        self.turn = peer + 1;
        Some(one)
    }

    /// Drops all, and answers how many there were.
    pub fn clear(&mut self) -> u64 {
        self.sizes.fill(0);
        self.of.iter_mut().map(|waiting| waiting.drain(..).count() as u64).sum()
    }
}

#[cfg(test)]
mod tests {
    use super::*;

    /// A long job with its seal, and the most of them that a journal has room for.
    const LONG: usize = 480;
    const MOST: usize = 4094;

    #[test]
    fn a_peer_that_sends_without_an_end_leaves_room_for_others() {
        let mut backlog = Backlog::new(3);
        let fill = |backlog: &mut Backlog<usize>, peer| (0..100_000).take_while(|at| backlog.put(peer, *at, LONG).is_none()).count();
        let counts = [fill(&mut backlog, 0), fill(&mut backlog, 1), fill(&mut backlog, 2)];
        assert!(counts[0] >= MOST, "{counts:?}");
        assert!(counts[0] <= 2 * counts[1] + 1 && counts[1] <= 2 * counts[2] + 1, "{counts:?}");
        assert_eq!(backlog.put(3, 7, LONG), Some(7), "no node has this number");
        assert_eq!(backlog.clear() as usize, counts.iter().sum::<usize>());
        assert_eq!((backlog.take(), fill(&mut backlog, 2)), (None, counts[0]), "all its room is free again");
    }

    #[test]
    fn peers_have_their_turns_and_the_oldest_comes_first() {
        let mut backlog = Backlog::new(4);
        for (peer, one) in [(0, "a"), (0, "b"), (0, "c"), (3, "d"), (1, "e"), (3, "f")] {
            assert_eq!(backlog.put(peer, one, 1), None);
        }
        let taken: Vec<&str> = std::iter::from_fn(|| backlog.take()).collect();
        assert_eq!(taken, ["a", "e", "d", "b", "f", "c"]);
        assert!(backlog.is_empty() && backlog.put(0, "g", 1).is_none() && !backlog.is_empty());
        assert_eq!((backlog.take(), backlog.take()), (Some("g"), None));
        assert!(["h", "i", "j"].iter().all(|one| backlog.put(2, *one, 1).is_none()));
        assert_eq!((backlog.retain(2, |one| *one == "i"), backlog.retain(4, |_| true)), (2, 0));
        assert_eq!((backlog.is_empty_of(2), backlog.is_empty_of(1), backlog.is_empty_of(4)), (false, true, true));
        assert_eq!((backlog.take(), backlog.is_empty()), (Some("i"), true));
    }
}
