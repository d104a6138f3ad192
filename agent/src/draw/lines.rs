//! The lines that `invite trace --turns` prints.

use super::stays::Stand;
use super::DrawError;

/// A turn that the program told: the node, the index of its entry, and how the node stands then; none where it is down.
pub type Told = (usize, usize, Option<Stand>);

/// An entry that is left, and why.
#[derive(Debug, PartialEq, Eq)]
pub struct Left {
    pub node: usize,
    pub why: String,
}

impl Left {
    /// Whether it merely waits: then others may send what it waits for.
    pub fn waits(&self) -> bool {
        self.why.contains(" waits for ")
    }
}

/// What the program prints of a trace.
pub struct Lines {
    pub recorded: bool,
    pub turns: Vec<Told>,
    pub left: Vec<Left>,
}

impl Lines {
    /// None where they are no turns of a trace: what is wrong with its text is said then.
    pub fn of(said: &str) -> Result<Option<Lines>, DrawError> {
        let mut lines = said.lines();
        let recorded = match lines.next() {
            Some("recorded") => true,
            Some("possible") => false,
            _ => return Ok(None),
        };
        let mut read = Lines { recorded, turns: Vec::new(), left: Vec::new() };
        for line in lines {
            read.add(line).ok_or_else(|| DrawError::Said(line.to_string()))?;
        }
        Ok(Some(read))
    }

    /// `turn NODE INDEX PHASE GROUP COORDINATOR MEMBERS HAND`, `turn NODE INDEX Down`, or `node NODE: entry INDEX` and why it is left.
    fn add(&mut self, line: &str) -> Option<()> {
        match line.split(' ').collect::<Vec<_>>().as_slice() {
            ["turn", node, index, "Down"] => self.turns.push((node.parse().ok()?, index.parse().ok()?, None)),
            ["turn", node, index, phase, group, coordinator, members, _] => {
                let [phase, group, members] = [phase, group, members].map(|word| word.to_string());
                let stand = Stand { phase, group, coordinator: coordinator.parse().ok()?, members };
                self.turns.push((node.parse().ok()?, index.parse().ok()?, Some(stand)));
            }
            ["node", node, "entry", ..] => self.left.push(Left { node: node.strip_suffix(':')?.parse().ok()?, why: line.to_string() }),
            _ => return None,
        }
        Some(())
    }
}

#[cfg(test)]
mod tests {
    use super::*;

    #[test]
    fn lines_of_turns() {
        let read = Lines::of("possible\nturn 0 1 Election 0:2 0 - 0\nturn 1 0 Down\nnode 1: entry 1 waits for 010100010000\n").unwrap().unwrap();
        let members = read.turns[0].2.as_ref().map(|stand| stand.members.as_str());
        assert_eq!((read.recorded, read.turns[0].0, read.turns[0].1, members), (false, 0, 1, Some("-")));
        assert_eq!((&read.turns[1], read.left[0].node, read.left[0].why.as_str()), (&(1, 0, None), 1, "node 1: entry 1 waits for 010100010000"));
        assert!(read.left[0].waits());
        assert!(Lines::of("bad trace 0 1\n").unwrap().is_none());
        assert!(Lines::of("").unwrap().is_none());
        assert!(Lines::of("recorded\nturn 0 1 Election\n").is_err());
    }
}
