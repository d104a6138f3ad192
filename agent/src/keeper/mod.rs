//! A command that may run until a time, which is put off again and again. A process between, the keeper, ends it before that time with all that it started,
//! whatever becomes of the one who puts the time off: stopped, killed or stuck. It asks nobody and waits for nobody.
//!
//! The keeper is this program by another name. It reads lines on its standard input: `until MS` sets the time, in milliseconds of CLOCK_BOOTTIME; `end`, and
//! the end of the input, have the command ended now. Its status is that of the command, or `TIME_OVER`.

mod descent;
mod process;

pub use process::become_keeper;

use crate::boot_time::BootTime;
use rustix::fs::{fcntl_getfl, fcntl_setfl, OFlags};
use std::ffi::OsString;
use std::io::{self, Write};
use std::os::unix::process::CommandExt;
use std::process::{Child, ChildStdin, Command, ExitStatus, Stdio};
use std::time::Duration;

/// The program calls itself by these names: to keep a command, and to become the one that is kept.
const KEEPER: &str = "dumgerok: a keeper";
const KEPT: &str = "dumgerok: a kept command";

/// The status of a keeper whose time was over, as that of `timeout`.
pub const TIME_OVER: u8 = 124;

/// So long before the time the killing begins: it takes a turn of the processor, and one more for each process that is killed.
pub const MARGIN: Duration = Duration::from_millis(100);

/// A command that runs. Where this is dropped, or its process is gone, the command is ended.
pub struct Kept {
    keeper: Child,
    /// The keeper's input, which nobody else holds.
    words: Option<ChildStdin>,
    until: BootTime,
    /// The time of before, by which one still goes that hadn't its turn since.
    before: BootTime,
}

impl Kept {
    /// Starts a command that may run until this time. It is asked to end by SIGTERM so long (`grace`) before it is killed.
    pub fn start(
        command: &[OsString],
        variables: impl IntoIterator<Item = (&'static str, String)>,
        until: BootTime,
        grace: Duration,
    ) -> io::Result<Kept> {
        let mut keeper = Command::new("/proc/self/exe");
        keeper.arg0(KEEPER).arg(until.ms().to_string()).arg(grace.as_millis().to_string()).args(command);
        let mut keeper = keeper.envs(variables).stdin(Stdio::piped()).spawn()?;
        let words = keeper.stdin.take();
        if let Some(words) = &words {
            // one that was stopped reads nothing, and nobody waits for it
            fcntl_setfl(words, fcntl_getfl(words)? | OFlags::NONBLOCK)?;
        }
        Ok(Kept { keeper, words, until, before: until })
    }

    /// The keeper's status once the command is gone, and all that it started.
    pub fn try_wait(&mut self) -> io::Result<Option<ExitStatus>> {
        self.keeper.try_wait()
    }

    /// Whether its time is over but for so long, or that of before the last word: then it was ended for that.
    pub fn is_due(&self, grace: Duration, now: BootTime) -> bool {
        now.after(grace + MARGIN) >= self.before
    }

    /// From now on it may run until this time.
    pub fn put_off(&mut self, until: BootTime) {
        if until != self.until {
            (self.before, self.until) = (self.until, until);
            self.say(format!("until {}\n", until.ms()));
        }
    }

    /// Has it ended now: by SIGTERM, and killed a grace later or before its time.
    pub fn end(&mut self) {
        self.say("end\n".to_string());
    }

    /// A keeper that is gone, or takes no more, is told nothing: it goes by what it was told before.
    fn say(&mut self, line: String) {
        if let Some(words) = &mut self.words {
            let _gone = words.write_all(line.as_bytes());
        }
    }
}

impl Drop for Kept {
    fn drop(&mut self) {
        self.words = None;
    }
}

#[cfg(test)]
mod tests {
    use super::*;

    #[test]
    fn one_that_was_ended_by_the_time_of_before_the_last_word_is_due() {
        let (at, grace) = (BootTime::of_ms, Duration::from_millis(300));
        let mut kept = Kept { keeper: Command::new("true").spawn().unwrap(), words: None, until: at(1000), before: at(1000) };
        assert!(!kept.is_due(grace, at(599)) && kept.is_due(grace, at(600)));
        kept.put_off(at(1600));
        kept.put_off(at(1600));
        assert!(!kept.is_due(grace, at(599)) && kept.is_due(grace, at(600)), "it may not have read that yet");
        kept.put_off(at(2200));
        assert!(!kept.is_due(grace, at(1199)) && kept.is_due(grace, at(1200)));
        kept.keeper.wait().unwrap();
    }
}
