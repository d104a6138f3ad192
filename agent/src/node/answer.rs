//! A whole answer of the node: its lines, and the one that closes it.

use super::line::{Line, LineError};
use super::Refusal;

#[derive(Clone, Debug, PartialEq, Eq)]
pub enum Closing {
    /// With the id of a submitted job.
    Ok(Option<u64>),
    /// The job has to be submitted at this node.
    Elsewhere(u8),
    /// The node's file can't be mounted: this sector is damaged.
    Damaged(u64),
    Refused(Refusal),
    Bad,
    Fault,
}

impl Closing {
    /// Reads a line that closes an answer; None where it is none.
    pub fn read(text: &str) -> Option<Closing> {
        let words: Vec<&str> = text.split(' ').collect();
        match words.as_slice() {
            ["ok", _, "id", id] => id.parse().ok().map(|id| Closing::Ok(Some(id))),
            ["ok", _] => Some(Closing::Ok(None)),
            ["refused", _, "NotCoordinator", node] => {
                node.parse().ok().map(Closing::Elsewhere)
            }
            ["refused", _, "Damaged", sector] => {
                sector.parse().ok().map(Closing::Damaged)
            }
            ["refused", _, name, ..] => Some(Closing::Refused(Refusal::read(name))),
            ["bad", _] => Some(Closing::Bad),
            ["fault", _, ..] => Some(Closing::Fault),
            _ => None,
        }
    }

    /// Why it wasn't done, where it wasn't.
    pub fn refusal(&self) -> Option<Refusal> {
        match self {
            Closing::Ok(_) => None,
            Closing::Elsewhere(_) => Some(Refusal::NotCoordinator),
            Closing::Damaged(_) => Some(Refusal::Damaged),
            Closing::Refused(refusal) => Some(*refusal),
            Closing::Bad => Some(Refusal::Unreadable),
            Closing::Fault => Some(Refusal::Device),
        }
    }
}

/// What the node answered to one request.
#[derive(Clone, Debug)]
pub struct Answer<A> {
    pub asker: A,
    pub lines: Vec<Line>,
    pub closing: Closing,
}

impl<A> Answer<A> {
    /// Lines that can't be read are left out: no later line of the answer depends on them.
    pub fn of(own: u8, asker: A, texts: &[String], closing: Closing) -> (Answer<A>, Vec<LineError>) {
        let (mut lines, mut faults) = (Vec::with_capacity(texts.len()), Vec::new());
        for text in texts {
            match Line::read(own, text) {
                Ok(line) => lines.push(line),
                Err(fault) => faults.push(fault),
            }
        }
        (Answer { asker, lines, closing }, faults)
    }
}

#[cfg(test)]
mod tests {
    use super::*;

    #[test]
    fn closings() {
        assert_eq!(Closing::read("ok 3"), Some(Closing::Ok(None)));
        assert_eq!(Closing::read("ok 3 id 8"), Some(Closing::Ok(Some(8))));
        assert_eq!(Closing::read("refused 4 NotCoordinator 2"), Some(Closing::Elsewhere(2)));
        assert_eq!(Closing::read("refused 4 Full"), Some(Closing::Refused(Refusal::Full)));
        assert_eq!(Closing::read("refused 1 Damaged 12"), Some(Closing::Damaged(12)));
        assert_eq!(Closing::read("fault 9 Device"), Some(Closing::Fault));
        assert_eq!(Closing::read("send 1 00"), None);
    }
}
