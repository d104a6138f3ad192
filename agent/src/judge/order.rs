//! An order in which the turns of all nodes can have come.

use sha2::{Digest, Sha256};
use std::cmp::Reverse;
use std::collections::{BinaryHeap, HashMap};
use std::io::{self, Write};

/// A message that was sent more than once comes so many milliseconds later than the record says, where each that was sent by then has come already: the
/// nodes' clocks differ by less.
const SLACK: u64 = 10;

/// A message, told from others by so much of the hash of its digits that no two have the same.
#[derive(Clone, Copy, Debug, PartialEq, Eq, Hash)]
pub struct Message([u8; Message::LENGTH]);

impl Message {
    /// So many bytes it has.
    pub const LENGTH: usize = 16;

    pub fn from_bytes(bytes: [u8; Message::LENGTH]) -> Message {
        Message(bytes)
    }

    pub fn bytes(&self) -> &[u8] {
        &self.0
    }

    pub fn of(digits: &str) -> Message {
        let mut first = [0; Message::LENGTH];
        first.copy_from_slice(&Sha256::digest(digits.as_bytes())[..Message::LENGTH]);
        Message(first)
    }
}

/// A message that was sent, and what it was when it was sent again, under other seals.
#[derive(Clone, Debug, PartialEq, Eq)]
pub struct Sent {
    pub first: Message,
    pub again: Vec<Message>,
}

impl Sent {
    fn all(&self) -> impl Iterator<Item = Message> + '_ {
        std::iter::once(self.first).chain(self.again.iter().copied())
    }
}

/// What an order needs to know of an entry. Messages are those of the record, with their seals.
#[derive(Clone, Debug, PartialEq, Eq)]
pub struct Turn {
    /// The node's clock by then.
    pub time: u64,
    pub sent: Vec<Sent>,
    pub brought: Option<Message>,
}

/// What is known of a message so far.
#[derive(Default)]
struct Known {
    /// How often it is sent in all.
    sendings: u32,
    /// How many more of it were sent than came.
    under_way: i32,
    /// The number of its first sending, from 1; 0 before that.
    number: u64,
}

/// What was sent so far, and who waits.
struct Post {
    known: HashMap<Message, Known>,
    waiting: HashMap<Message, Vec<usize>>,
    /// The number of what is sent next.
    next: u64,
}

impl Post {
    /// Of so many sendings at most in all.
    fn of<T: Iterator<Item = io::Result<Turn>>>(histories: Vec<T>, sendings: usize) -> io::Result<Post> {
        let mut known: HashMap<Message, Known> = HashMap::with_capacity(sendings);
        for turn in histories.into_iter().flatten() {
            turn?.sent.iter().flat_map(Sent::all).for_each(|message| known.entry(message).or_default().sendings += 1);
        }
        Ok(Post { known, waiting: HashMap::new(), next: 1 })
    }

    fn was_sent(&self, message: Message) -> bool {
        self.known.get(&message).map_or(false, |known| known.number > 0)
    }

    /// Whether more of a message that is sent more than once came than were sent by now.
    fn is_early(&self, message: Message) -> bool {
        self.known.get(&message).map_or(false, |known| known.sendings > 1 && known.under_way <= 0)
    }

    /// A message comes: the number of its sending, from 0, where there is one alone.
    fn comes(&mut self, message: Message) -> Option<u64> {
        let known = self.known.get_mut(&message)?;
        known.under_way -= 1;
        known.number.checked_sub(1).filter(|_| known.sendings == 1)
    }

    /// A message is sent, with the next number; the nodes that waited for it.
    fn sends(&mut self, message: Message) -> Vec<usize> {
        let known = self.known.entry(message).or_default();
        if known.number == 0 {
            known.number = self.next;
        }
        known.under_way += 1;
        self.waiting.remove(&message).unwrap_or_default()
    }
}

/// When a node's next turn may come: of equal times first one that was brought nothing; and whether it was put off.
type Ready = BinaryHeap<Reverse<(u64, bool, usize, bool)>>;

/// A turn that comes: its node, what it sends, and the number of what it was brought, where that is known.
struct Coming {
    node: usize,
    sent: Vec<Sent>,
    number: Option<u64>,
}

/// A walk through the turns of all nodes, of which each node's next one is known.
struct Walk<T> {
    post: Post,
    ready: Ready,
    next: Vec<Option<Turn>>,
    rest: Vec<T>,
}

impl<T: Iterator<Item = io::Result<Turn>>> Walk<T> {
    fn of(post: Post, mut rest: Vec<T>) -> io::Result<Walk<T>> {
        let next = rest.iter_mut().map(|turns| turns.next().transpose()).collect::<io::Result<Vec<_>>>()?;
        let mut walk = Walk { post, ready: Ready::new(), next, rest };
        (0..walk.next.len()).for_each(|node| walk.wait(node));
        Ok(walk)
    }

    /// The node's next turn can come, or waits for its message.
    fn wait(&mut self, node: usize) {
        match &self.next[node] {
            None => {}
            Some(Turn { brought: Some(message), .. }) if !self.post.was_sent(*message) => self.post.waiting.entry(*message).or_default().push(node),
            Some(turn) => self.ready.push(Reverse((turn.time, turn.brought.is_some(), node, false))),
        }
    }

    /// The turn that comes next.
    fn come(&mut self) -> io::Result<Option<Coming>> {
        while let Some(Reverse((time, _, node, was_put_off))) = self.ready.pop() {
            let is_early = self.next[node].as_ref().and_then(|turn| turn.brought).map_or(false, |message| self.post.is_early(message));
            if !was_put_off && is_early {
                self.ready.push(Reverse((time.saturating_add(SLACK), true, node, true)));
            } else if let Some(turn) = std::mem::replace(&mut self.next[node], self.rest[node].next().transpose()?) {
                let number = turn.brought.and_then(|message| self.post.comes(message));
                return Ok(Some(Coming { node, sent: turn.sent, number }));
            }
        }
        Ok(None)
    }

    /// What a turn sent is under way; who waited for it goes on, and its node.
    fn send(&mut self, node: usize, sent: &[Sent]) {
        for sent in sent {
            let woken: Vec<usize> = sent.all().flat_map(|message| self.post.sends(message)).collect();
            woken.into_iter().for_each(|node| self.wait(node));
            self.post.next += 1;
        }
        self.wait(node);
    }
}

/// Writes the turns of all nodes, as a trace names them: each node's in their order, by the nodes' clocks, but each message is sent before it is
/// brought. Two words stand for a turn: its node, and of a message that was brought its number, all being counted as they were sent; a dash
/// where it was sent more than once, since which of these came isn't known. A message under a seal is sent once. False where a message that
/// was brought was never sent. The turns are read twice; they send so many messages at most.
pub fn of<T: Iterator<Item = io::Result<Turn>>>(histories: impl Fn() -> Vec<T>, sendings: usize, out: &mut impl Write) -> io::Result<bool> {
    let mut walk = Walk::of(Post::of(histories(), sendings)?, histories())?;
    let mut space = "";
    while let Some(Coming { node, sent, number }) = walk.come()? {
        match number {
            Some(number) => write!(out, "{space}{node} {number}")?,
            None => write!(out, "{space}{node} -")?,
        }
        space = " ";
        walk.send(node, &sent);
    }
    Ok(walk.next.iter().all(Option::is_none))
}

#[cfg(test)]
mod tests {
    use super::*;

    fn sent_of(digits: &str) -> Sent {
        let mut all = digits.split('+').map(Message::of);
        Sent { first: all.next().unwrap(), again: all.collect() }
    }

    fn turn(time: u64, brought: &str, sent: &[&str]) -> Turn {
        Turn {
            time,
            sent: sent.iter().map(|digits| sent_of(digits)).collect(),
            brought: Some(brought).filter(|digits| !digits.is_empty()).map(Message::of),
        }
    }

    fn of(histories: &[Vec<Turn>]) -> Option<String> {
        let mut words = Vec::new();
        let is_whole = super::of(|| histories.iter().map(|turns| turns.iter().cloned().map(Ok)).collect(), 0, &mut words).unwrap();
        is_whole.then(|| String::from_utf8(words).unwrap())
    }

    #[test]
    fn turns_come_by_the_clocks_and_behind_what_they_need() {
        let early = vec![turn(5, "", &["aa", "bb"]), turn(9, "cc", &[])];
        // this node's clock is behind: it is brought bb at 1
        let late = vec![turn(0, "", &[]), turn(1, "bb", &["cc"])];
        assert_eq!(of(&[early, late]).unwrap(), "1 - 0 - 1 1 0 2");
    }

    #[test]
    fn of_two_equal_sendings_none_is_named() {
        let asks = vec![turn(1, "", &["aa"]), turn(2, "", &["aa", "bb"])];
        let hears = vec![turn(3, "aa", &[]), turn(4, "bb", &[])];
        assert_eq!(of(&[asks, hears]).unwrap(), "0 - 0 - 1 - 1 2");
    }

    #[test]
    fn one_that_was_sent_again_is_that_of_the_turn_that_sent_it() {
        let sends = vec![turn(1, "", &["aa+ab+ac", "bb"])];
        let hears = vec![turn(2, "ac", &[]), turn(3, "bb", &[]), turn(4, "aa", &[])];
        assert_eq!(of(&[sends, hears]).unwrap(), "0 - 1 0 1 1 1 0");
    }

    #[test]
    fn equal_ones_come_behind_their_own_sending() {
        // each second the same question and answer: at one time by the clocks, and by a clock that is behind
        for late in [0, 7] {
            let asks = (1..4).flat_map(|s| [turn(1000 * s, "", &["aa"]), turn(1000 * s, "bb", &[])]).collect();
            let answers = (1..4).map(|s| turn(1000 * s - late, "aa", &["bb"])).collect();
            assert_eq!(of(&[answers, asks]).unwrap(), "1 - 0 - 1 - 1 - 0 - 1 - 1 - 0 - 1 -", "{late}");
        }
    }

    #[test]
    fn there_is_none_where_a_message_was_never_sent() {
        assert_eq!(of(&[vec![turn(1, "aa", &[])], vec![turn(1, "", &[])]]), None);
    }
}
