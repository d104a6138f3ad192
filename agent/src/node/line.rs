//! What one line of the node says.

use super::{Group, Job, JobKey};
use thiserror::Error;

/// A line that says nothing that the agent knows.
#[derive(Debug, Error, PartialEq, Eq)]
#[error("the line can't be read")]
pub struct LineError;

impl From<std::num::ParseIntError> for LineError {
    fn from(_: std::num::ParseIntError) -> LineError {
        LineError
    }
}

/// A line of an answer that doesn't close it.
#[derive(Clone, Debug, PartialEq, Eq)]
pub enum Line {
    Send {
        to: u8,
        hex: String,
    },
    Group(Group),
    Take(Job),
    Drop(JobKey),
    Gone {
        id: u64,
    },
    Keeps {
        count: u64,
        next: u64,
        pending: u64,
    },
    /// Nothing is due before this time of the node's clock, unless something comes.
    Next {
        ms: u64,
    },
    Fired(String),
    /// A job that this node keeps.
    Pending(Job),
    /// A job that this node works on.
    InHand(Job),
}

impl Line {
    /// Reads a line of node `own`.
    pub fn read(own: u8, text: &str) -> Result<Line, LineError> {
        let words: Vec<&str> = text.split(' ').collect();
        match words.as_slice() {
            ["send", to, hex] => Ok(Line::Send { to: to.parse()?, hex: hex.to_string() }),
            ["group", rest @ ..] => Group::read(rest).map(Line::Group),
            ["take", rest @ ..] => Job::read(rest).map(Line::Take),
            ["drop", origin, id] => Ok(Line::Drop(JobKey { origin: origin.parse()?, id: id.parse()? })),
            ["gone", id] => Ok(Line::Gone { id: id.parse()? }),
            ["keeps", count, next, pending] => {
                Ok(Line::Keeps { count: count.parse()?, next: next.parse()?, pending: pending.parse()? })
            }
            ["next", ms] => Ok(Line::Next { ms: ms.parse()? }),
            ["fired", event] => Ok(Line::Fired(event.to_string())),
            ["pending", rest @ ..] => Job::read_of(own, rest).map(Line::Pending),
            ["hand", rest @ ..] => Job::read(rest).map(Line::InHand),
            _ => Err(LineError),
        }
    }
}

#[cfg(test)]
mod tests {
    use super::*;
    use crate::node::{GroupNumber, Phase};
    use crate::chance::{Chance, TURNS};
    use crate::node::Payload;

    #[test]
    fn lines() {
        let read = |text| Line::read(1, text);
        assert_eq!(read("send 2 0102"), Ok(Line::Send { to: 2, hex: "0102".to_string() }));
        assert_eq!(read("keeps 5 3 1"), Ok(Line::Keeps { count: 5, next: 3, pending: 1 }));
        let key = JobKey { origin: 2, id: 7 };
        let job = Job { key, queue: 3, payload: Payload::of_bytes(b"hi").unwrap(), priority: 9 };
        assert_eq!(read("take 2 7 3 6869 9"), Ok(Line::Take(job)));
        let job = Job { key: JobKey { origin: 1, id: 0 }, queue: 3, payload: Payload::default(), priority: 0 };
        assert_eq!(read("pending 0 3 -"), Ok(Line::Pending(job)));
        assert_eq!(read("next 1200"), Ok(Line::Next { ms: 1200 }));
        for bad in ["", "send 2", "send x 00", "take 2 7 3", "take 2 7 3 zz", "gone -1", "state Down"] {
            assert_eq!(read(bad), Err(LineError), "{bad}");
        }
    }

    /// As the node says it.
    fn said(line: &Line) -> String {
        let job = |job: &Job| format!("{} {} {} {}", job.key.id, job.queue, job.payload, job.priority);
        match line {
            Line::Send { to, hex } => format!("send {to} {hex}"),
            Line::Group(group) if !group.is_any() => "group Down".to_string(),
            Line::Group(Group { phase, coordinator, number, members }) => {
                let all: Vec<String> = members.iter().map(u8::to_string).collect();
                format!("group {phase:?} {coordinator} {number} {}", if all.is_empty() { "-".to_string() } else { all.join(",") })
            }
            Line::Take(one) => format!("take {} {}", one.key.origin, job(one)),
            Line::InHand(one) => format!("hand {} {}", one.key.origin, job(one)),
            Line::Pending(one) => format!("pending {}", job(one)),
            Line::Drop(key) => format!("drop {} {}", key.origin, key.id),
            Line::Gone { id } => format!("gone {id}"),
            Line::Keeps { count, next, pending } => format!("keeps {count} {next} {pending}"),
            Line::Next { ms } => format!("next {ms}"),
            Line::Fired(event) => format!("fired {event}"),
        }
    }

    fn any(chance: &mut Chance) -> Line {
        let (id, byte) = (chance.next(), chance.next() as u8);
        let payload: Vec<u8> = (0..chance.below(401)).map(|_| chance.next() as u8).collect();
        let origin = if chance.one_in(2) { 1 } else { byte };
        let job = Job { key: JobKey { origin, id }, queue: byte % 16, payload: Payload::of_bytes(&payload).unwrap(), priority: byte };
        let members = (0..byte % 9).collect();
        let group = Group { phase: Phase::ALL[1 + usize::from(byte % 3)], coordinator: byte, number: GroupNumber { creator: byte, count: id }, members };
        match chance.below(11) {
            0 => Line::Send { to: byte, hex: hex::encode(payload) },
            1 => Line::Group(group),
            2 => Line::Group(Group::default()),
            3 => Line::Take(job),
            4 => Line::InHand(job),
            5 => Line::Pending(Job { key: JobKey { origin: 1, id }, ..job }),
            6 => Line::Drop(job.key),
            7 => Line::Gone { id },
            8 => Line::Keeps { count: id, next: id / 2, pending: id / 3 },
            9 => Line::Next { ms: id },
            _ => Line::Fired("Check".to_string()),
        }
    }

    #[test]
    fn what_is_said_is_read_back_and_what_is_read_is_said_so() {
        let mut chance = Chance::of(3);
        for _ in 0..TURNS {
            let line = any(&mut chance);
            let text = said(&line);
            assert_eq!(Line::read(1, &text), Ok(line));
            let odd = chance.odd_text(&[&text], 120);
            if let Ok(read) = Line::read(1, &odd) {
                assert_eq!(Line::read(1, &said(&read)), Ok(read), "{odd}");
            }
        }
    }
}
