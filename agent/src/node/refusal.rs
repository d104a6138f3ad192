//! Why something isn't done, by the names that the node, the agents and SOCKET.md have for it.

use serde::de::value::{Error, StrDeserializer};
use serde::de::IntoDeserializer;
use serde::{Deserialize, Serialize};
use std::fmt;

#[derive(Clone, Copy, Debug, PartialEq, Eq, Serialize, Deserialize)]
pub enum Refusal {
    Stranger,
    Forged,
    Stale,
    Down,
    NotNormal,
    NotCoordinator,
    UnknownJob,
    Full,
    Exhausted,
    NoMemory,
    NotFormatted,
    Damaged,
    /// The line that was asked can't be read.
    Unreadable,
    /// The device failed in the middle of it.
    Device,
    /// There are too many such requests.
    Busy,
    NoAnswer,
    /// The node's machine is drained, and no other one leads.
    Draining,
    /// One that a later version has.
    #[serde(other)]
    Unknown,
}

impl Refusal {
    pub fn read(name: &str) -> Refusal {
        let name: StrDeserializer<'_, Error> = name.into_deserializer();
        Refusal::deserialize(name).unwrap_or(Refusal::Unknown)
    }

    /// Whether what was asked may be done all the same. A device that failed may hold the state before or after the command, as behind a kill; of a refusal that
    /// isn't known nothing else can be said.
    pub fn is_in_doubt(self) -> bool {
        matches!(self, Refusal::Device | Refusal::NoAnswer | Refusal::Unknown)
    }

    /// Whether a submission that is refused so is to be made again: the group is another one soon.
    pub fn may_pass(self) -> bool {
        matches!(self, Refusal::NotNormal | Refusal::NotCoordinator | Refusal::Down | Refusal::Busy | Refusal::Draining)
    }
}

impl fmt::Display for Refusal {
    fn fmt(&self, f: &mut fmt::Formatter<'_>) -> fmt::Result {
        write!(f, "{self:?}")
    }
}

#[cfg(test)]
mod tests {
    use super::*;

    #[test]
    fn each_is_read_by_its_name_and_in_doubt_or_not() {
        use Refusal::*;
        let all = [
            Stranger,
            Forged,
            Stale,
            Down,
            NotNormal,
            NotCoordinator,
            UnknownJob,
            Full,
            Exhausted,
            NoMemory,
            NotFormatted,
            Damaged,
            Unreadable,
            Device,
            Busy,
            NoAnswer,
            Draining,
            Unknown,
        ];
        for refusal in all {
            assert_eq!(Refusal::read(&refusal.to_string()), refusal);
            assert_eq!(serde_json::to_value(refusal).unwrap(), refusal.to_string());
            assert!(!(refusal.is_in_doubt() && refusal.may_pass()), "{refusal}");
        }
        assert_eq!(all.map(Refusal::is_in_doubt).iter().filter(|is_so| **is_so).count(), 3);
        assert!(
            Refusal::read("OfLater").is_in_doubt() && Device.is_in_doubt() && NotNormal.may_pass() && !Full.may_pass()
        );
    }
}
