//! The time since the machine was started, by the clock that goes on while it sleeps (CLOCK_BOOTTIME): the same in all processes of the machine.

use rustix::time::{clock_gettime_dynamic, DynamicClockId};
use std::time::Duration;

#[derive(Clone, Copy, Debug, PartialEq, Eq, PartialOrd, Ord)]
pub struct BootTime(Duration);

impl BootTime {
    /// A time that no machine lives to see.
    pub const NEVER: BootTime = BootTime(Duration::from_millis(u64::MAX));

    pub fn now() -> BootTime {
        // Linux has this clock from 2.6.39 on; where it has none no time is ever left
        let now = clock_gettime_dynamic(DynamicClockId::Boottime);
        now.map_or(BootTime::NEVER, |now| BootTime(Duration::new(now.tv_sec as u64, now.tv_nsec as u32)))
    }

    pub fn of_ms(ms: u64) -> BootTime {
        BootTime(Duration::from_millis(ms))
    }

    /// Whole milliseconds; what is left of one is left out.
    pub fn ms(self) -> u64 {
        u64::try_from(self.0.as_millis()).unwrap_or(u64::MAX)
    }

    pub fn after(self, more: Duration) -> BootTime {
        BootTime(self.0.saturating_add(more))
    }

    pub fn before(self, less: Duration) -> BootTime {
        BootTime(self.0.saturating_sub(less))
    }

    /// How long this is behind another time; zero where it isn't.
    pub fn since(self, other: BootTime) -> Duration {
        self.0.saturating_sub(other.0)
    }
}

#[cfg(test)]
mod tests {
    use super::*;

    #[test]
    fn it_goes_on_and_is_counted_in_milliseconds() {
        let (one, other) = (BootTime::now(), BootTime::now());
        assert!(one <= other && one > BootTime::of_ms(0) && other < BootTime::NEVER);
        let at = BootTime::of_ms(7);
        assert_eq!((at.after(Duration::from_micros(1999)).ms(), at.before(Duration::from_secs(1)).ms()), (8, 0));
        assert_eq!((at.since(BootTime::of_ms(5)).as_millis(), BootTime::of_ms(5).since(at)), (2, Duration::ZERO));
    }
}
