//! A datagram that another agent carries on, to one that its sender doesn't reach: it is what its sender would send there itself, under a key encrypted and
//! sealed, behind who says it to whom. It is carried once. The agent that carries it can lose, delay and repeat it, as a network can; under a key it is
//! encrypted on both ways besides, so that only machines of the cluster can ask for it.

use super::about::Mark;

/// A relayed datagram begins so.
const HEAD: [u8; 2] = [0xd6, 6];
const MARK: usize = 8;

#[derive(Clone, Copy, Debug, PartialEq, Eq)]
pub enum Leg {
    /// On its way to who is to carry it on.
    First,
    /// On its way to the one that it is for: it isn't carried on again.
    Last,
}

#[derive(Clone, Debug, PartialEq, Eq)]
pub struct Relayed<'a> {
    pub leg: Leg,
    /// Whether its sender doesn't hear the one that it is for.
    pub is_deaf: bool,
    pub from: u8,
    pub to: u8,
    /// Who sends it on this leg: its sender, and then who carries it on.
    pub by: u8,
    /// Of the sender's cluster.
    pub mark: Mark,
    pub inner: &'a [u8],
}

/// Whether a datagram is one of these.
pub fn is_relayed(bytes: &[u8]) -> bool {
    bytes.starts_with(&HEAD)
}

impl Relayed<'_> {
    pub fn encode(&self) -> Vec<u8> {
        let leg = if self.leg == Leg::First { 1 } else { 2 };
        [&HEAD[..], &[leg, u8::from(self.is_deaf), self.from, self.to, self.by], &self.mark, self.inner].concat()
    }

    pub fn decode(bytes: &[u8]) -> Option<Relayed<'_>> {
        let behind = bytes.strip_prefix(&HEAD)?;
        let (words, rest) = (behind.get(..5)?, behind.get(5..)?);
        let (leg, is_deaf) = match words[..2] {
            [leg @ 1..=2, is_deaf @ 0..=1] => (if leg == 1 { Leg::First } else { Leg::Last }, is_deaf == 1),
            _ => return None,
        };
        Some(Relayed { leg, is_deaf, from: words[2], to: words[3], by: words[4], mark: rest.get(..MARK)?.try_into().ok()?, inner: rest.get(MARK..)? })
    }
}

#[cfg(test)]
mod tests {
    use super::*;
    use crate::chance::{Chance, TURNS};
    use crate::net::{LONGER, MAX_DATAGRAM};

    /// It is longer by so much than what is carried.
    const LONGER_RELAYED: usize = HEAD.len() + 5 + MARK;

    #[test]
    fn it_is_read_back() {
        let one = Relayed { leg: Leg::First, is_deaf: true, from: 3, to: 127, by: 3, mark: [7; MARK], inner: b"inner" };
        for relayed in [one.clone(), Relayed { leg: Leg::Last, ..one.clone() }, Relayed { is_deaf: false, by: 9, inner: b"", ..one.clone() }] {
            let bytes = relayed.encode();
            assert_eq!((bytes.len(), is_relayed(&bytes)), (relayed.inner.len() + LONGER_RELAYED, true));
            assert_eq!(Relayed::decode(&bytes), Some(relayed));
        }
        let bytes = one.encode();
        assert!((0..LONGER_RELAYED).all(|length| Relayed::decode(&bytes[..length]).is_none()));
        let longest = vec![0; 2048 + LONGER];
        let whole = Relayed { inner: &longest, ..one.clone() }.encode();
        assert!(whole.len() + LONGER <= MAX_DATAGRAM, "the longest fits, encrypted twice");
        for (at, byte) in [(0, 0xd7), (1, 5), (2, 0), (2, 3), (3, 2)] {
            let mut other = bytes.clone();
            other[at] = byte;
            assert_eq!(Relayed::decode(&other), None, "{at}");
        }
    }

    #[test]
    fn what_is_read_is_written_so() {
        let (mut chance, mut taken) = (Chance::of(7), 0);
        for _ in 0..TURNS {
            let inner = chance.bytes(200);
            let leg = chance.pick(&[Leg::First, Leg::Last]);
            let right = Relayed { leg, is_deaf: chance.one_in(2), from: 3, to: 127, by: 3, mark: [7; MARK], inner: &inner }.encode();
            let odd = chance.odd(&[&right], 200);
            if let Some(relayed) = Relayed::decode(&odd) {
                assert_eq!(relayed.encode(), odd);
                taken += 1;
            }
        }
        assert!(taken > 100, "{taken}");
    }
}
