//! Where the messages of a run came from.

use std::collections::HashMap;

/// A turn, of which its messages alone are told.
pub struct Post<'a> {
    pub brought: Option<usize>,
    /// The number of the message that the record gives, if it does.
    pub number: Option<usize>,
    pub sent: &'a [usize],
}

/// Where a message came from.
#[derive(Clone, Copy, Debug, PartialEq, Eq)]
pub struct Source {
    /// The turn that sent it, and its place among what that sent.
    pub turn: usize,
    pub place: usize,
    /// Whether it is known to be this one: the record names it, or no other entry of the trace sent the same.
    pub sure: bool,
}

/// A message that a turn sent.
struct Sending {
    message: usize,
    turn: usize,
    place: usize,
    came: bool,
}

/// Of each turn where the message was sent that it was brought, and those of its own that no turn was brought. `sent` says how often each message is
/// sent in the whole trace, be it in one of these turns or in an entry that is left: a turn behind, or one that is left, may have sent it, too.
pub fn sources(posts: &[Post], sent: &HashMap<usize, usize>) -> Vec<(Option<Source>, Vec<usize>)> {
    let mut sendings: Vec<Sending> = Vec::new();
    let mut latest: HashMap<usize, usize> = HashMap::new();
    let mut found = Vec::new();
    for (turn, post) in posts.iter().enumerate() {
        found.push(post.brought.and_then(|message| {
            let named = post.number.filter(|number| sendings.get(*number).map_or(false, |sending| sending.message == message));
            let number = named.or_else(|| latest.get(&message).copied())?;
            sendings[number].came = true;
            let sure = named.is_some() || sent.get(&message) == Some(&1);
            Some(Source { turn: sendings[number].turn, place: sendings[number].place, sure })
        }));
        for (place, message) in post.sent.iter().enumerate() {
            latest.insert(*message, sendings.len());
            sendings.push(Sending { message: *message, turn, place, came: false });
        }
    }
    let mut all: Vec<(Option<Source>, Vec<usize>)> = found.into_iter().map(|source| (source, Vec::new())).collect();
    for sending in sendings.iter().filter(|sending| !sending.came) {
        all[sending.turn].1.push(sending.message);
    }
    all
}

#[cfg(test)]
mod tests {
    use super::*;

    const QUESTION: usize = 0;

    /// Node 0 asks twice, and node 1 is asked once, behind so many questions and with this number in the record.
    fn asked(behind: usize, number: Option<usize>, others: usize) -> (Option<Source>, Vec<usize>) {
        let asks = || Post { brought: None, number: None, sent: &[QUESTION] };
        let mut posts = vec![asks(), asks()];
        posts.insert(behind, Post { brought: Some(QUESTION), number, sent: &[] });
        let found = sources(&posts, &HashMap::from([(QUESTION, 2 + others)]));
        let lost = (0..).zip(&found).filter(|(_, (_, lost))| !lost.is_empty()).map(|(turn, _)| turn).collect();
        (found[behind].0, lost)
    }

    #[test]
    fn a_sending_that_is_named_is_the_one() {
        let source = |turn, sure| Some(Source { turn, place: 0, sure });
        assert_eq!(asked(2, Some(0), 0), (source(0, true), vec![1]));
        assert_eq!(asked(2, None, 0), (source(1, false), vec![0]));
        // one that comes behind isn't yet sent
        assert_eq!(asked(1, Some(1), 0), (source(0, false), vec![2]));
        assert_eq!(asked(1, None, 0), (source(0, false), vec![2]));
    }

    #[test]
    fn one_is_sure_where_no_other_entry_sends_the_same() {
        let posts = [Post { brought: None, number: None, sent: &[QUESTION + 1, QUESTION] }, Post { brought: Some(QUESTION), number: None, sent: &[] }];
        for times in [1, 2] {
            let found = sources(&posts, &HashMap::from([(QUESTION, times)]));
            assert_eq!(found[1].0, Some(Source { turn: 0, place: 1, sure: times == 1 }));
        }
    }
}
