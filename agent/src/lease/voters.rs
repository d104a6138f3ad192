//! Among how many machines leases are granted: those of the places below a number. Each process of leases has this number for all its life, and counts the votes of
//! processes of the same number alone. So what keeps two from holding one name is that any majority of the one number meets any majority of the other one. That is
//! so of two numbers next to each other, and of no others: so a machine changes by one at a time, once more than half of those among whom it votes said that they
//! vote by this number or by the next one. From then on fewer than half are left to those of the number before.

use serde::{Deserialize, Serialize};
use std::fs::{self, File};
use std::io::{self, ErrorKind, Write};
use std::path::{Path, PathBuf};

/// What an agent says of its machine.
#[derive(Clone, Copy, Debug, PartialEq, Eq, Serialize, Deserialize)]
pub struct Voting {
    /// Among how many machines it votes; 0 where it never did.
    pub now: u8,
    /// Among how many it is to vote, by its list; 0 where it has no leases.
    pub wanted: u8,
}

pub struct Voters {
    own: u8,
    voting: Voting,
    /// What the others answered to the last question.
    said: Vec<Option<Voting>>,
}

impl Voters {
    /// Of machine `own`, whose number was kept. One that it can't have is as good as none: then all others are asked before it votes.
    pub fn of(own: u8, kept: Option<u8>, places: usize) -> Voters {
        let now = kept.filter(|count| (1..=128).contains(count) && *count > own).unwrap_or(0);
        Voters { own, voting: Voting { now, wanted: 0 }, said: vec![None; places] }
    }

    pub fn voting(&self) -> Voting {
        self.voting
    }

    /// By its list it is to vote among so many. Whether that is news.
    pub fn want(&mut self, count: u8) -> bool {
        std::mem::replace(&mut self.voting.wanted, count) != count
    }

    pub fn is_settled(&self) -> bool {
        self.voting.now == self.voting.wanted
    }

    /// The others are asked anew: what they said until now doesn't count any more.
    pub fn ask(&mut self) {
        self.said.iter_mut().for_each(|said| *said = None);
    }

    pub fn said(&mut self, node: u8, voting: Voting) {
        if let Some(said) = self.said.get_mut(usize::from(node)) {
            *said = Some(voting);
        }
    }

    /// Those of these that didn't answer.
    pub fn silent(&self, others: &[u8]) -> Vec<u8> {
        others.iter().copied().filter(|node| self.said.get(usize::from(*node)).copied().flatten().is_none()).collect()
    }

    /// Among how many the machine may vote next, where the others that have a machine are these.
    pub fn next(&self, others: &[u8]) -> Option<u8> {
        match self.voting.now {
            0 => self.first(others),
            now if now == self.voting.wanted => None,
            now => {
                let next = if now < self.voting.wanted { now + 1 } else { now - 1 };
                let has_left = |said: &&Voting| said.now == now || said.now == next;
                let left = self.said.iter().take(usize::from(now)).flatten().filter(has_left).count() + 1;
                (2 * left > usize::from(now)).then_some(next)
            }
        }
    }

    /// That of a machine which never voted, or lost its file: all others have to say theirs.
    fn first(&self, others: &[u8]) -> Option<u8> {
        if !self.silent(others).is_empty() {
            return None;
        }
        let wanted = self.voting.wanted;
        let said: Vec<Voting> = self.said.iter().flatten().copied().filter(|said| said.wanted != 0).collect();
        let all: Vec<u8> = said.iter().map(|said| said.now).filter(|now| *now != 0).collect();
        let (least, most) = match (all.iter().min(), all.iter().max()) {
            (Some(least), Some(most)) => (most.saturating_sub(1), least.saturating_add(1)),
            _ => return said.iter().all(|said| said.wanted == wanted).then_some(wanted),
        };
        let next = wanted.max(least).min(most);
        (least <= most && next > self.own).then_some(next)
    }

    /// Votes among so many from now on: no process of this machine by another number may run, and the number is on the disk.
    pub fn go_on(&mut self, count: u8) {
        self.voting.now = count;
    }
}

/// The number is kept beside the file of leases.
fn beside(lease_file: &Path) -> PathBuf {
    let mut path = lease_file.as_os_str().to_os_string();
    path.push(".voters");
    path.into()
}

/// The number that was kept; None where it can't be read.
pub fn read_voters(lease_file: &Path) -> Option<u8> {
    fs::read_to_string(beside(lease_file)).ok()?.trim().parse().ok()
}

/// Keeps the number: it is on the disk behind this.
pub fn write_voters(lease_file: &Path, count: u8) -> io::Result<()> {
    write_whole(&beside(lease_file), &format!("{count}\n"))
}

/// Writes a file so that behind a crash it has the text of before or this one.
fn write_whole(path: &Path, text: &str) -> io::Result<()> {
    let mut beside = path.as_os_str().to_os_string();
    beside.push(".new");
    let mut file = File::create(&beside)?;
    file.write_all(text.as_bytes())?;
    file.sync_all()?;
    fs::rename(&beside, path)?;
    let folder = path.parent().filter(|folder| !folder.as_os_str().is_empty()).unwrap_or_else(|| Path::new("."));
    match File::open(folder).and_then(|folder| folder.sync_all()) {
        Err(why) if why.kind() != ErrorKind::InvalidInput => Err(why),
        _ => Ok(()),
    }
}

#[cfg(test)]
mod tests {
    use super::*;

    fn voters(own: u8, now: u8, wanted: u8, said: &[(u8, u8, u8)]) -> Voters {
        let mut voters = Voters { own, voting: Voting { now, wanted }, said: vec![None; 8] };
        said.iter().for_each(|(node, now, wanted)| voters.said(*node, Voting { now: *now, wanted: *wanted }));
        voters
    }

    #[test]
    fn one_at_a_time_once_more_than_half_said_so() {
        for (own, now, wanted, said, next) in [
            (0, 3, 3, vec![], None),
            (0, 3, 4, vec![], None),
            (0, 3, 4, vec![(1, 3, 3)], Some(4)),
            (0, 3, 5, vec![(1, 4, 5)], Some(4)),
            (0, 4, 5, vec![(1, 3, 5), (2, 3, 5), (3, 4, 5)], None),
            (0, 4, 5, vec![(1, 3, 5), (2, 4, 5), (3, 4, 5)], Some(5)),
            (0, 4, 5, vec![(5, 4, 5), (6, 4, 5), (7, 5, 5)], None),
            (0, 5, 4, vec![(1, 5, 4), (4, 5, 5)], Some(4)),
            (0, 5, 4, vec![(1, 6, 4), (4, 5, 5)], None),
            (1, 2, 1, vec![(0, 1, 1)], Some(1)),
            (0, 1, 3, vec![], Some(2)),
        ] {
            assert_eq!(voters(own, now, wanted, &said).next(&[1, 2]), next, "{now} to {wanted}: {said:?}");
        }
    }

    #[test]
    fn one_that_never_voted_waits_for_all_others() {
        for (own, wanted, said, next) in [
            (0, 3, vec![(1, 0, 3)], None),
            (0, 3, vec![(1, 0, 3), (2, 0, 3)], Some(3)),
            (0, 3, vec![(1, 0, 3), (2, 0, 5)], None),
            (0, 3, vec![(1, 0, 0), (2, 0, 3)], Some(3)),
            (3, 4, vec![(1, 3, 3), (2, 3, 4)], Some(4)),
            (3, 5, vec![(1, 3, 3), (2, 4, 5)], Some(4)),
            (4, 5, vec![(1, 3, 3), (2, 3, 3)], None),
            (1, 3, vec![(1, 1, 3), (2, 0, 3)], Some(2)),
            (0, 5, vec![(1, 3, 5), (2, 6, 5)], None),
        ] {
            assert_eq!(voters(own, 0, wanted, &said).next(&[1, 2]), next, "{wanted}: {said:?}");
        }
        assert_eq!(voters(0, 0, 1, &[]).next(&[]), Some(1), "it is alone");
    }

    #[test]
    fn what_was_said_counts_until_the_next_question() {
        let mut asked = voters(0, 3, 4, &[(1, 3, 3), (9, 3, 3)]);
        assert_eq!((asked.next(&[1, 2]), asked.silent(&[1, 2])), (Some(4), vec![2]));
        asked.ask();
        assert_eq!((asked.next(&[1, 2]), asked.silent(&[1, 2])), (None, vec![1, 2]));
    }

    #[test]
    fn the_number_is_on_the_disk() {
        let path = std::env::temp_dir().join(format!("dumgerok-voters-{}", std::process::id()));
        let read = |own: u8| Voters::of(own, read_voters(&path), 8).voting().now;
        assert_eq!(read(0), 0);
        let mut kept = Voters::of(0, None, 8);
        assert!(kept.want(4) && !kept.want(4) && !kept.is_settled());
        write_voters(&path, 4).unwrap();
        kept.go_on(4);
        assert_eq!((read(3), read(4), kept.is_settled()), (4, 0, true));
        for text in ["", "x", "0", "129", "-1"] {
            fs::write(beside(&path), text).unwrap();
            assert_eq!(read(0), 0, "{text}");
        }
        fs::remove_file(beside(&path)).unwrap();
    }

    /// A cluster of machines that come and go at its end, by whatever they were told in time.
    struct Model {
        now: Vec<u8>,
        wanted: Vec<u8>,
        said: Vec<Vec<Option<Voting>>>,
    }

    impl Model {
        /// Whether there is a number of whose machines more than half vote by it, and another one of which as many others do.
        fn has_two_majorities(&self) -> bool {
            let votes = |count: u8| self.now.iter().take(usize::from(count)).filter(|now| **now == count).count();
            let counts: Vec<u8> = (1..=8).filter(|count| 2 * votes(*count) > usize::from(*count)).collect();
            // a machine votes by one number, so those that vote by two numbers are others
            counts.len() > 1
        }

        fn turn(&mut self, random: &mut impl FnMut(usize) -> usize, up: usize) {
            let node = random(up);
            let others: Vec<u8> = (0..up as u8).filter(|other| usize::from(*other) != node).collect();
            match random(4) {
                0 => self.said[node] = vec![None; 8],
                1 | 2 => {
                    let other = random(up);
                    if other != node {
                        self.said[node][other] = Some(Voting { now: self.now[other], wanted: self.wanted[other] });
                    }
                }
                _ => {
                    let mut voters = voters(node as u8, self.now[node], self.wanted[node], &[]);
                    voters.said = self.said[node].clone();
                    if let Some(next) = voters.next(&others) {
                        self.now[node] = next;
                    }
                }
            }
        }
    }

    #[test]
    fn no_two_numbers_have_majorities_at_a_time_while_lists_grow_or_shrink() {
        let mut state: u64 = 7;
        let mut changed = 0;
        for run in 0..3000 {
            let mut random = |below: usize| {
                state = state.wrapping_mul(6_364_136_223_846_793_005).wrapping_add(1_442_695_040_888_963_407);
                ((state >> 33) as usize) % below
            };
            let (begin, grows) = (1 + random(4), run % 2 == 0);
            let (begin, end) = if grows { (begin, begin + 1 + random(3)) } else { (begin + 3, begin) };
            let up = begin.max(end);
            let now = (0..up).map(|node| if node < begin { begin as u8 } else { 0 }).collect();
            let mut model = Model { now, wanted: vec![begin as u8; up], said: vec![vec![None; 8]; up] };
            (begin..up).for_each(|node| model.wanted[node] = end as u8);
            for turn in 0..600 {
                // each is told in its own time; those that go are never asked
                let told = random(if grows { up } else { end });
                if turn % 10 == 0 {
                    model.wanted[told] = end as u8;
                }
                model.turn(&mut random, if grows { up } else { end });
                assert!(!model.has_two_majorities(), "{:?} of {begin} to {end}", model.now);
            }
            changed += usize::from(model.now[0] == end as u8);
        }
        assert!(changed > 1000, "{changed} runs came to their end");
    }
}
