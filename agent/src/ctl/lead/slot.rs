//! A command that runs while there is a right to it, and is started again where it ends.

use crate::boot_time::BootTime;
use crate::keeper::{Kept, MARGIN, TIME_OVER};
use crate::say::say;
use std::ffi::OsString;
use std::io;
use std::process::ExitStatus;
use std::time::Duration;

/// A command that ended by itself is started again so much later, twice as long after each further end, and anew after it ran for the longest pause.
const FIRST_PAUSE: Duration = Duration::from_millis(500);
const LONGEST_PAUSE: Duration = Duration::from_secs(30);

/// Nothing is started for a shorter time than this, beside what its end takes.
const LEAST: Duration = Duration::from_millis(100);

/// Why a command may run, and until when.
#[derive(Clone, Debug, PartialEq, Eq)]
pub struct Right {
    pub until: BootTime,
    /// That of its lease: a command that runs goes on under this one alone.
    pub epoch: Option<u64>,
    /// What it has in its environment.
    pub variables: Vec<(&'static str, String)>,
}

struct Running {
    kept: Kept,
    epoch: Option<u64>,
    began: BootTime,
    is_ending: bool,
}

#[derive(Default)]
pub struct Slot {
    running: Option<Running>,
    failures: u32,
    not_before: Option<BootTime>,
}

impl Slot {
    /// Whether no command runs, nor anything that one started.
    pub fn is_idle(&self) -> bool {
        self.running.is_none()
    }

    /// Takes note of a command that ended; how, where it ended by itself. Then it starts again behind a pause.
    pub fn reap(&mut self, grace: Duration, now: BootTime) -> io::Result<Option<(ExitStatus, Duration)>> {
        let ended = self.running.as_mut().map_or(Ok(None), |running| running.kept.try_wait())?;
        let (status, running) = match ended.and_then(|status| Some((status, self.running.take()?))) {
            Some(both) => both,
            None => return Ok(None),
        };
        let was_over = status.code() == Some(i32::from(TIME_OVER)) && running.kept.is_due(grace, now);
        if running.is_ending || was_over {
            return Ok(None);
        }
        let ran = now.since(running.began);
        self.failures = if ran > LONGEST_PAUSE { 1 } else { self.failures.saturating_add(1) };
        let pause = (FIRST_PAUSE * 2u32.pow(self.failures.clamp(1, 7) - 1)).min(LONGEST_PAUSE);
        self.not_before = Some(now.after(pause));
        Ok(Some((status, pause)))
    }

    /// Lets the command run on, has it ended, or starts it, as there is a right to it.
    pub fn look_after(&mut self, right: Option<&Right>, command: &[OsString], grace: Duration, now: BootTime) {
        let may_start = right.map_or(false, |right| self.may_start(right, grace, now));
        match (&mut self.running, right) {
            (Some(running), _) if running.is_ending => {}
            (Some(running), Some(right)) if running.epoch == right.epoch => running.kept.put_off(right.until),
            (Some(running), _) => {
                running.kept.end();
                running.is_ending = true;
            }
            (None, Some(right)) if may_start => {
                match Kept::start(command, right.variables.iter().cloned(), right.until, grace) {
                    Ok(kept) => self.running = Some(Running { kept, epoch: right.epoch, began: now, is_ending: false }),
                    Err(why) => {
                        say(format!("dumgerokctl: the command can't be run: {why}"));
                        self.not_before = Some(now.after(LONGEST_PAUSE));
                    }
                }
            }
            _ => {}
        }
    }

    /// Whether a command would be started by this right.
    pub fn would_start(&self, right: &Right, grace: Duration, now: BootTime) -> bool {
        self.is_idle() && self.may_start(right, grace, now)
    }

    fn may_start(&self, right: &Right, grace: Duration, now: BootTime) -> bool {
        let is_over = self.not_before.map_or(true, |at| now >= at);
        is_over && now.after(MARGIN + grace + LEAST) < right.until
    }
}

#[cfg(test)]
mod tests {
    use super::*;

    fn right(until: BootTime, epoch: u64) -> Right {
        Right { until, epoch: Some(epoch), variables: Vec::new() }
    }

    #[test]
    fn nothing_starts_for_a_time_in_which_it_would_have_to_end() {
        let (at, grace) = (BootTime::of_ms, Duration::from_millis(300));
        let may = |ms: u64, until: u64, not_before: Option<u64>| {
            Slot { not_before: not_before.map(at), ..Slot::default() }.may_start(&right(at(until), 1), grace, at(ms))
        };
        assert!(may(1000, 1501, None) && !may(1000, 1500, None));
        assert!(may(1000, 9000, Some(1000)) && !may(999, 9000, Some(1000)));
    }
}
