//! The group that a node is in, as its lines say it.

use serde::Serialize;
use std::fmt;
use std::str::FromStr;

use super::line::LineError;
use crate::protocol::QUEUES;

#[derive(Clone, Copy, Debug, Default, PartialEq, Eq, Serialize)]
pub enum Phase {
    #[default]
    Down,
    Election,
    Reorganization,
    Normal,
}

impl Phase {
    pub const ALL: [Phase; 4] = [Phase::Down, Phase::Election, Phase::Reorganization, Phase::Normal];
}

impl FromStr for Phase {
    type Err = LineError;

    fn from_str(word: &str) -> Result<Phase, LineError> {
        match word {
            "Down" => Ok(Phase::Down),
            "Election" => Ok(Phase::Election),
            "Reorganization" => Ok(Phase::Reorganization),
            "Normal" => Ok(Phase::Normal),
            _ => Err(LineError),
        }
    }
}

/// The number of a group: the node that made it, and that node's count. Numbers have no order in time.
#[derive(Clone, Copy, Debug, Default, PartialEq, Eq, Hash)]
pub struct GroupNumber {
    pub creator: u8,
    pub count: u64,
}

impl fmt::Display for GroupNumber {
    fn fmt(&self, f: &mut fmt::Formatter<'_>) -> fmt::Result {
        write!(f, "{}:{}", self.creator, self.count)
    }
}

impl FromStr for GroupNumber {
    type Err = LineError;

    fn from_str(word: &str) -> Result<GroupNumber, LineError> {
        let (creator, count) = word.split_once(':').ok_or(LineError)?;
        Ok(GroupNumber { creator: creator.parse()?, count: count.parse()? })
    }
}

impl Serialize for GroupNumber {
    fn serialize<S: serde::Serializer>(&self, to: S) -> Result<S::Ok, S::Error> {
        to.collect_str(self)
    }
}

#[derive(Clone, Debug, Default, PartialEq, Eq)]
pub struct Group {
    pub phase: Phase,
    pub coordinator: u8,
    pub number: GroupNumber,
    /// In rising order; empty as long as the node has no task.
    pub members: Vec<u8>,
}

impl Group {
    /// Reads the words behind `group`.
    pub fn read(words: &[&str]) -> Result<Group, LineError> {
        match words {
            ["Down"] => Ok(Group::default()),
            [phase, coordinator, number, members] => Ok(Group {
                phase: phase.parse()?,
                coordinator: coordinator.parse()?,
                number: number.parse()?,
                members: match *members {
                    "-" => Vec::new(),
                    list => list.split(',').map(|id| id.parse().map_err(LineError::from)).collect::<Result<_, _>>()?,
                },
            }),
            _ => Err(LineError),
        }
    }

    /// Whether the node is in a group at all.
    pub fn is_any(&self) -> bool {
        self.phase != Phase::Down
    }

    pub fn is_normal(&self) -> bool {
        self.phase == Phase::Normal
    }

    /// Whether the group has more than half of all nodes. A coordinator whose members left learns it late, so this is advice and no lock.
    pub fn is_majority(&self, nodes: usize) -> bool {
        self.is_normal() && 2 * self.members.len() > nodes
    }

    /// The node that works on the jobs of this queue: of n members the one at place queue mod n.
    pub fn owner(&self, queue: u8) -> Option<u8> {
        let is_at_work = self.is_normal() && !self.members.is_empty();
        is_at_work.then(|| self.members[usize::from(queue) % self.members.len()])
    }

    pub fn queues_of(&self, node: u8) -> Vec<u8> {
        (0..QUEUES).filter(|queue| self.owner(*queue) == Some(node)).collect()
    }
}

#[cfg(test)]
mod tests {
    use super::*;

    #[test]
    fn a_group_is_read_and_its_queues_are_shared() {
        let group = Group::read(&["Normal", "2", "2:17", "0,2,5"]).unwrap();
        assert_eq!((group.phase, group.coordinator, group.number.to_string()), (Phase::Normal, 2, "2:17".to_string()));
        assert_eq!(group.queues_of(2), [1, 4, 7, 10, 13]);
        assert_eq!(group.owner(15), Some(0));
        assert!(group.is_majority(5) && !group.is_majority(6));
        assert_eq!(Group::read(&["Election", "1", "1:3", "-"]).unwrap().owner(0), None);
        assert_eq!(Group::read(&["Down"]).unwrap().phase, Phase::Down);
        for bad in
            [&["Normal", "2", "217", "0"][..], &["Normal", "2", "2:1", "0,,1"], &["Odd", "2", "2:1", "0"], &["Normal"]]
        {
            assert!(Group::read(bad).is_err());
        }
    }
}
