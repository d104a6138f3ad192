//! The recorded order, as far as it goes. Whether an entry can come depends on its own history and on the messages sent so far, which only grow: so what the
//! program could take in some order can come in any other in which each node keeps its own order and each message is sent before it is brought.

use super::lines::Told;
use super::trace::Entry;
use std::collections::{HashMap, HashSet, VecDeque};

/// A turn of the recorded order: its node, and the number of the message that it was brought, where it has one.
pub type Recorded = (usize, Option<usize>);

/// The turns in the order in which they are drawn.
#[derive(Debug, PartialEq, Eq)]
pub struct Followed {
    pub turns: Vec<Told>,
    /// Of each the number of its message in the record; none from where the counts of messages may differ.
    pub numbers: Vec<Option<usize>>,
    /// So many of them, the first ones, are in the recorded order.
    pub count: usize,
}

/// Follows the recorded order as far as these turns go, which can be taken: over the turns of nodes that are stuck, and a turn whose message comes later takes its
/// place behind that. What isn't recorded comes in the order in which the turns are given.
pub fn followed(histories: &[Vec<Entry>], recorded: &[Recorded], turns: &[Told]) -> Followed {
    let mut follower = Follower::of(histories, turns);
    recorded.iter().for_each(|turn| follower.comes(*turn));
    let count = follower.late.unwrap_or(follower.turns.len());
    let mut found = Followed { turns: follower.turns, numbers: follower.numbers, count };
    let taken: HashSet<(usize, usize)> = found.turns.iter().map(|(node, index, _)| (*node, *index)).collect();
    found.turns.extend(turns.iter().filter(|(node, index, _)| !taken.contains(&(*node, *index))).cloned());
    found.numbers.resize(found.turns.len(), None);
    found
}

struct Follower<'a> {
    histories: &'a [Vec<Entry>],
    /// Of each node the turns that aren't taken yet.
    told: Vec<VecDeque<&'a Told>>,
    sent: HashSet<usize>,
    /// Of each node the numbers of the turns that have come by the recorded order and aren't taken, since the first of them waits for a message.
    owed: Vec<VecDeque<Option<usize>>>,
    waiting: HashMap<usize, Vec<usize>>,
    turns: Vec<Told>,
    numbers: Vec<Option<usize>>,
    /// Whether each turn of the record was taken where it stands.
    is_exact: bool,
    /// The first turn that came later than the record says.
    late: Option<usize>,
}

impl<'a> Follower<'a> {
    fn of(histories: &'a [Vec<Entry>], turns: &'a [Told]) -> Follower<'a> {
        let mut told: Vec<VecDeque<&Told>> = histories.iter().map(|_| VecDeque::new()).collect();
        turns.iter().for_each(|turn| told[turn.0].push_back(turn));
        let owed = histories.iter().map(|_| VecDeque::new()).collect();
        let (sent, waiting) = (HashSet::new(), HashMap::new());
        Follower { histories, told, sent, owed, waiting, turns: Vec::new(), numbers: Vec::new(), is_exact: true, late: None }
    }

    fn comes(&mut self, (node, number): Recorded) {
        match self.told.get(node) {
            Some(told) if told.len() > self.owed[node].len() => {
                self.owed[node].push_back(number);
                if self.owed[node].len() == 1 {
                    self.take(node);
                }
            }
            // its node is stuck, or there is none
            _ => self.is_exact = false,
        }
    }

    /// Takes what a node is owed, and then what others are that waited for what was sent.
    fn take(&mut self, node: usize) {
        let mut woken = self.take_of(node);
        while let Some(node) = woken.pop() {
            let first = self.turns.len();
            woken.extend(self.take_of(node));
            if self.turns.len() > first {
                self.late.get_or_insert(first);
            }
        }
    }

    /// Takes what a node is owed up to a turn whose message wasn't sent; the nodes that waited for what it sent.
    fn take_of(&mut self, node: usize) -> Vec<usize> {
        let mut woken = Vec::new();
        while let (Some(number), Some(told)) = (self.owed[node].front(), self.told[node].front()) {
            let entry = &self.histories[node][told.1];
            if let Some(message) = entry.brought.filter(|message| !self.sent.contains(message)) {
                self.waiting.entry(message).or_default().push(node);
                self.is_exact = false;
                break;
            }
            self.turns.push((*told).clone());
            self.numbers.push(number.filter(|_| self.is_exact));
            for message in &entry.sent {
                self.sent.insert(*message);
                woken.extend(self.waiting.remove(message).unwrap_or_default());
            }
            self.owed[node].pop_front();
            self.told[node].pop_front();
        }
        woken
    }
}

#[cfg(test)]
mod tests {
    use super::super::trace::Look;
    use super::*;

    /// Each entry is brought a message or none, and sends some.
    fn history(entries: &[(Option<usize>, &[usize])]) -> Vec<Entry> {
        let entry = |(brought, sent): &(Option<usize>, &[usize])| Entry { brought: *brought, sent: sent.to_vec(), ..Entry::of("check", Look::Done) };
        entries.iter().map(entry).collect()
    }

    /// The nodes of the turns, how many of them are in the recorded order, and the numbers that count.
    fn drawn(histories: &[Vec<Entry>], recorded: &[(usize, Option<usize>)], turns: &[(usize, usize)]) -> (Vec<usize>, usize, Vec<Option<usize>>) {
        let turns: Vec<Told> = turns.iter().map(|(node, index)| (*node, *index, None)).collect();
        let found = followed(histories, recorded, &turns);
        (found.turns.iter().map(|turn| turn.0).collect(), found.count, found.numbers)
    }

    const ASKS: (Option<usize>, &[usize]) = (None, &[7]);
    const ASKED: (Option<usize>, &[usize]) = (Some(7), &[]);

    #[test]
    fn turns_of_a_node_that_is_stuck_are_passed_over() {
        let histories = [history(&[ASKS, ASKS, ASKS]), history(&[ASKED, ASKED])];
        let recorded = [(1, None), (0, None), (1, Some(0)), (0, None), (1, Some(1))];
        // node 1 has one turn alone that can be taken, and by the record it came before it was asked
        assert_eq!(drawn(&histories, &recorded, &[(0, 0), (0, 1), (1, 0)]), (vec![0, 1, 0], 1, vec![None; 3]));
        assert_eq!(drawn(&histories, &recorded[1..], &[(0, 0), (0, 1), (1, 0)]), (vec![0, 1, 0], 3, vec![None, Some(0), None]));
        // from the first turn on that is passed over no number counts
        let recorded = [(0, None), (1, Some(0)), (2, None), (1, Some(0)), (0, None), (9, None)];
        assert_eq!(drawn(&histories, &recorded, &[(0, 0), (0, 1), (1, 0), (1, 1)]), (vec![0, 1, 1, 0], 4, vec![None, Some(0), None, None]));
    }

    #[test]
    fn the_order_is_followed_behind_the_first_turn_that_is_stuck() {
        let histories = [history(&[ASKS, ASKS, ASKS]), history(&[ASKED, ASKED]), history(&[ASKED, ASKED])];
        let recorded = [(0, None), (1, Some(0)), (1, Some(0)), (2, Some(0)), (0, None), (2, Some(0)), (0, None)];
        // node 1 is stuck at its second entry; the turns that can be taken, the least node first
        let turns = [(0, 0), (0, 1), (0, 2), (1, 0), (2, 0), (2, 1)];
        assert_eq!(drawn(&histories, &recorded, &turns), (vec![0, 1, 2, 0, 2, 0], 6, vec![None, Some(0), None, None, None, None]));
    }

    #[test]
    fn what_is_not_recorded_comes_behind() {
        let histories = [history(&[ASKS, ASKS]), history(&[ASKED, ASKED])];
        let turns = [(0, 0), (0, 1), (1, 0), (1, 1)];
        assert_eq!(drawn(&histories, &[(0, None), (1, None)], &turns), (vec![0, 1, 0, 1], 2, vec![None; 4]));
        assert_eq!(drawn(&histories, &[], &turns), (vec![0, 0, 1, 1], 0, vec![None; 4]));
    }
}
