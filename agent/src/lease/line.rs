//! What one line of the process of leases says.

/// Times are those of the clock that it is told, in milliseconds.
#[derive(Clone, Debug, PartialEq, Eq)]
pub enum LeaseLine {
    /// It has its file, for the so manieth time: the first time may be told it.
    Process { count: u64 },
    /// A message to another machine.
    Send { to: u8, hex: String },
    /// A name is held by this client, and nothing may rely on it behind `until`.
    Held { name: String, client: u64, epoch: u64, until: u64 },
    /// A name that was told as held isn't any more.
    Lost { name: String, epoch: u64 },
    /// A client's request wasn't taken.
    RefusedClaim { why: String, name: String, client: u64 },
    /// A line wasn't taken.
    Refused { why: String },
    /// A line is answered; when the time is to be told next.
    Next { at: Option<u64> },
}

impl LeaseLine {
    /// Reads a line; None where it says nothing that the agent knows.
    pub fn read(text: &str) -> Option<LeaseLine> {
        let words: Vec<&str> = text.split(' ').collect();
        Some(match words.as_slice() {
            ["process", count] => LeaseLine::Process { count: count.parse().ok()? },
            ["send", to, hex] => LeaseLine::Send { to: to.parse().ok()?, hex: hex.to_string() },
            ["held", name, client, epoch, until] => LeaseLine::Held {
                name: name.to_string(),
                client: client.parse().ok()?,
                epoch: epoch.parse().ok()?,
                until: until.parse().ok()?,
            },
            ["lost", name, epoch] => LeaseLine::Lost { name: name.to_string(), epoch: epoch.parse().ok()? },
            ["refused", why, name, client] => {
                LeaseLine::RefusedClaim { why: why.to_string(), name: name.to_string(), client: client.parse().ok()? }
            }
            ["refused", why] => LeaseLine::Refused { why: why.to_string() },
            ["next"] => LeaseLine::Next { at: None },
            ["next", at] => LeaseLine::Next { at: Some(at.parse().ok()?) },
            _ => return None,
        })
    }
}

#[cfg(test)]
mod tests {
    use super::*;
    use crate::chance::{Chance, TURNS};

    #[test]
    fn lines() {
        let held = LeaseLine::Held { name: "lead".to_string(), client: 3, epoch: 9, until: 1800 };
        assert_eq!(LeaseLine::read("held lead 3 9 1800"), Some(held));
        assert_eq!(LeaseLine::read("lost lead 9"), Some(LeaseLine::Lost { name: "lead".to_string(), epoch: 9 }));
        assert_eq!(LeaseLine::read("process 7"), Some(LeaseLine::Process { count: 7 }));
        assert_eq!(LeaseLine::read("send 2 0a"), Some(LeaseLine::Send { to: 2, hex: "0a".to_string() }));
        assert_eq!(LeaseLine::read("refused Time"), Some(LeaseLine::Refused { why: "Time".to_string() }));
        let refused = LeaseLine::RefusedClaim { why: "Full".to_string(), name: "a".to_string(), client: 4 };
        assert_eq!(LeaseLine::read("refused Full a 4"), Some(refused));
        assert_eq!((LeaseLine::read("next"), LeaseLine::read("next 5")), (Some(LeaseLine::Next { at: None }), Some(LeaseLine::Next { at: Some(5) })));
        for line in ["", "held lead 3 9", "held lead x 9 1800", "send 256 0a", "process", "next -1", "dance"] {
            assert_eq!(LeaseLine::read(line), None, "{line}");
        }
    }

    /// As the process says it.
    fn said(line: &LeaseLine) -> String {
        match line {
            LeaseLine::Process { count } => format!("process {count}"),
            LeaseLine::Send { to, hex } => format!("send {to} {hex}"),
            LeaseLine::Held { name, client, epoch, until } => format!("held {name} {client} {epoch} {until}"),
            LeaseLine::Lost { name, epoch } => format!("lost {name} {epoch}"),
            LeaseLine::RefusedClaim { why, name, client } => format!("refused {why} {name} {client}"),
            LeaseLine::Refused { why } => format!("refused {why}"),
            LeaseLine::Next { at } => at.map_or("next".to_string(), |at| format!("next {at}")),
        }
    }

    #[test]
    fn what_is_read_is_said_so() {
        let right = ["process 7", "send 2 0a", "held lead 3 9 1800", "lost lead 9", "refused Full a 4", "refused Time", "next", "next 18446744073709551615"];
        assert!(right.iter().all(|text| LeaseLine::read(text).map(|line| said(&line)) == Some(text.to_string())));
        let (mut chance, mut taken) = (Chance::of(4), 0);
        for _ in 0..TURNS {
            let odd = chance.odd_text(&right, 100);
            if let Some(line) = LeaseLine::read(&odd) {
                assert_eq!(LeaseLine::read(&said(&line)), Some(line), "{odd}");
                taken += 1;
            }
        }
        assert!(taken > 100, "{taken}");
    }
}
