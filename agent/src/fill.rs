//! How full the node's journal is. The fuller it is, the more often it is compacted, and where it is full no job is kept any more.

/// Two slots are left free, so that the end of a job always fits.
const FREE_SLOTS: u64 = 2;

/// How much is to be said of it.
#[derive(Clone, Copy, Debug, Default, PartialEq, Eq, PartialOrd, Ord)]
enum Level {
    #[default]
    Calm,
    /// More than half of the slots.
    High,
    /// One more job is refused.
    Full,
}

#[derive(Default)]
pub struct Fill {
    slots: Option<u64>,
    pending: u64,
    /// The highest level that was said since it was low.
    told: Level,
}

impl Fill {
    pub fn of(slots: Option<u64>) -> Fill {
        Fill { slots, ..Fill::default() }
    }

    /// Jobs that the node keeps and that aren't done.
    pub fn pending(&self) -> u64 {
        self.pending
    }

    /// So many can be; None where it can't be told.
    pub fn most(&self) -> Option<u64> {
        self.slots.map(|slots| slots.saturating_sub(FREE_SLOTS))
    }

    fn level(&self) -> Level {
        match self.slots {
            Some(slots) if self.pending >= slots.saturating_sub(FREE_SLOTS) => Level::Full,
            Some(slots) if 2 * self.pending > slots => Level::High,
            _ => Level::Calm,
        }
    }

    /// So many are pending now; what an operator is to be told of that, once until there are fewer than a quarter of what fits.
    pub fn set(&mut self, pending: u64) -> Option<String> {
        self.pending = pending;
        let (slots, level) = (self.slots?, self.level());
        if 4 * pending < slots {
            self.told = Level::Calm;
        }
        if level <= self.told {
            return None;
        }
        self.told = level;
        Some(match level {
            Level::Full => {
                format!("the journal is full: {pending} jobs are kept that aren't done, and further ones are refused")
            }
            _ => format!(
                "{pending} jobs are kept that aren't done, more than half of the journal's {slots} slots: \
                 the fuller it is, the more syncs each job takes"
            ),
        })
    }
}

#[cfg(test)]
mod tests {
    use super::*;

    #[test]
    fn what_is_told_once_until_it_was_low() {
        let mut fill = Fill::of(Some(16));
        let mut told = |pending| fill.set(pending).map(|said| said.starts_with("the journal is full"));
        assert_eq!((0..=8).filter_map(&mut told).count(), 0);
        assert_eq!((told(9), told(10), told(8), told(9)), (Some(false), None, None, None));
        assert_eq!((told(13), told(14), told(13), told(14)), (None, Some(true), None, None));
        assert_eq!((told(4), told(9)), (None, None));
        assert_eq!((told(3), told(9)), (None, Some(false)));
        assert_eq!((told(3), told(14)), (None, Some(true)));
        assert_eq!((fill.most(), fill.pending()), (Some(14), 14));
    }

    #[test]
    fn a_file_that_can_not_be_read_tells_nothing() {
        let mut fill = Fill::of(None);
        assert_eq!((fill.set(4000), fill.most(), fill.pending()), (None, None, 4000));
    }
}
