//! Numbers by a seed, for tests.

/// A test of whatever may come makes so many turns.
pub(crate) const TURNS: u64 = 3000;

/// Xorshift: the same numbers for the same seed, wherever it runs.
pub(crate) struct Chance(u64);

impl Chance {
    pub(crate) fn of(seed: u64) -> Chance {
        Chance(seed.wrapping_mul(0x9e37_79b9_7f4a_7c15) | 1)
    }

    pub(crate) fn next(&mut self) -> u64 {
        self.0 ^= self.0 << 13;
        self.0 ^= self.0 >> 7;
        self.0 ^= self.0 << 17;
        self.0
    }

    pub(crate) fn below(&mut self, most: u64) -> u64 {
        self.next() % most
    }

    pub(crate) fn one_in(&mut self, count: u64) -> bool {
        self.below(count) == 0
    }

    /// One of these.
    pub(crate) fn pick<T: Copy>(&mut self, all: &[T]) -> T {
        all[self.below(all.len() as u64) as usize]
    }

    /// So many bytes at most, of all kinds or of those of texts.
    pub(crate) fn bytes(&mut self, most: u64) -> Vec<u8> {
        let (count, is_text) = (self.below(most + 1), self.one_in(2));
        (0..count).map(|_| if is_text { 32 + self.below(95) as u8 } else { self.next() as u8 }).collect()
    }

    /// What was right, with bytes that are others, gone, doubled or put in, or with an end that is cut off.
    pub(crate) fn spoiled(&mut self, right: &[u8]) -> Vec<u8> {
        let mut bytes = right.to_vec();
        let changes = self.pick(&[1, 1, 1, 2, 4]);
        for _ in 0..changes {
            let at = self.below(bytes.len() as u64 + 1) as usize;
            let end = at + self.below((bytes.len() - at) as u64 + 1) as usize;
            match self.below(6) {
                0 | 1 if at < bytes.len() => bytes[at] = bytes[at].wrapping_add(1 + self.below(255) as u8),
                2 if at < bytes.len() => bytes[at] ^= 1 << self.below(8),
                3 => drop(bytes.splice(at..at, self.bytes(8))),
                4 => drop(bytes.drain(at..end.min(at + 16))),
                5 if end - at < 4096 => drop(bytes.splice(at..at, bytes[at..end].to_vec())),
                _ => bytes.truncate(at),
            }
        }
        bytes
    }

    /// One of these spoiled, or anything.
    pub(crate) fn odd<R: AsRef<[u8]>>(&mut self, right: &[R], most: u64) -> Vec<u8> {
        if right.is_empty() || self.one_in(4) {
            return self.bytes(most);
        }
        let one = self.below(right.len() as u64) as usize;
        self.spoiled(right[one].as_ref())
    }

    /// One of these texts spoiled, or any text.
    pub(crate) fn odd_text(&mut self, right: &[&str], most: u64) -> String {
        String::from_utf8_lossy(&self.odd(right, most)).into_owned()
    }
}
