//! The keeper: a process of its own, in a session of its own.

use super::descent::{descendants, send};
use super::{KEEPER, KEPT, MARGIN, TIME_OVER};
use crate::boot_time::BootTime;
use crate::ctl::Interrupts;
use crate::own_session;
use crate::say::say;
use crate::system_calls::{adopt_orphans, die_with_parent, run_first};
use rustix::fd::AsFd;
use rustix::fs::{fcntl_getfl, fcntl_setfl, OFlags};
use rustix::io::{poll, Errno, OwnedFd, PollFd, PollFlags};
use rustix::process::{getpid, getppid, nice, setsid, wait, Pid, Signal, WaitOptions, WaitStatus};
use rustix::time::{
    timerfd_create, timerfd_settime, Itimerspec, TimerfdClockId, TimerfdFlags, TimerfdTimerFlags, Timespec,
};
use signal_hook::consts::SIGCHLD;
use signal_hook::low_level::pipe;
use std::ffi::OsString;
use std::io::{self, ErrorKind, Read};
use std::os::unix::net::UnixStream;
use std::os::unix::process::CommandExt;
use std::process::{Command, Stdio};
use std::time::Duration;

/// The status of a keeper that can't run its command, as in a shell.
const NOT_RUN: u8 = 127;

/// What was killed is looked for so much later, and then twice as long each time up to an eighth of a second, until it is gone.
const LOOK: Duration = Duration::from_millis(2);
const MOST_LOOKS: u32 = 6;

/// Becomes a keeper, or the command of one, where the program was called for that; the status to end with. None where it was called by another name.
pub fn become_keeper() -> Option<u8> {
    let mut words = std::env::args_os();
    let why = match words.next()? {
        name if name == KEPT => become_kept(words).err()?,
        name if name == KEEPER => match keep(words) {
            Ok(status) => return Some(status),
            Err(why) => why,
        },
        _ => return None,
    };
    say(format!("dumgerokctl: the command can't be run: {why}"));
    Some(NOT_RUN)
}

/// The command begins a session of its own, and doesn't outlive its keeper.
fn become_kept(mut words: impl Iterator<Item = OsString>) -> io::Result<()> {
    let keeper = words.next().unwrap_or_default();
    die_with_parent()?;
    if getppid().map(|parent| parent.as_raw_nonzero().to_string().into()) != Some(keeper) {
        return Err(io::Error::new(ErrorKind::Other, "its keeper is gone"));
    }
    setsid()?;
    let program = words.next().unwrap_or_default();
    Err(io::Error::new(ErrorKind::Other, format!("{}: {}", program.to_string_lossy(), Command::new(&program).args(words).exec())))
}

fn keep(mut words: impl Iterator<Item = OsString>) -> io::Result<u8> {
    let mut number = || words.next()?.to_str()?.parse::<u64>().ok();
    let numbers = number().zip(number());
    let (until, grace) = numbers.ok_or_else(|| io::Error::new(ErrorKind::InvalidInput, "no time"))?;
    // a signal to all processes is for whoever started the keeper
    let _session = setsid();
    Interrupts::register()?.set_idle(false);
    adopt_orphans()?;
    let wakes = Wakes::new()?;
    let own = getpid().as_raw_nonzero().to_string();
    let command = own_session::command_as(KEPT, std::iter::once(OsString::from(own)).chain(words)).stdin(Stdio::null()).spawn()?;
    // it has its turn before its command, where it may: when a machine goes on that slept, say
    if run_first().is_err() {
        let _not_permitted = nice(-20);
    }
    let keeper = Keeper {
        command: Pid::from_child(&command),
        until: BootTime::of_ms(until).before(MARGIN),
        grace: Duration::from_millis(grace),
        killed_at: None,
        kills: 0,
        status: None,
        is_time_over: false,
    };
    keeper.run(wakes)
}

struct Keeper {
    command: Pid,
    /// When the killing begins at the latest.
    until: BootTime,
    grace: Duration,
    /// When what is left is killed, where it was asked to end.
    killed_at: Option<BootTime>,
    kills: u32,
    /// How the command itself ended.
    status: Option<u8>,
    is_time_over: bool,
}

impl Keeper {
    /// Until the command is gone with all that it started.
    fn run(mut self, mut wakes: Wakes) -> io::Result<u8> {
        loop {
            if self.reap()? {
                let status = self.status.unwrap_or(NOT_RUN);
                return Ok(if self.is_time_over { TIME_OVER } else { status });
            }
            let now = BootTime::now();
            self.is_time_over |= self.killed_at.is_none() && now >= self.until.before(self.grace);
            if self.is_time_over || self.status.is_some() {
                self.end(now);
            }
            if self.killed_at.map_or(false, |at| now >= at) {
                self.kill();
            }
            for word in wakes.wait(self.next(now).since(now))? {
                self.obey(&word);
            }
        }
    }

    /// Takes note of all that ended; whether nothing is left.
    fn reap(&mut self) -> io::Result<bool> {
        loop {
            match wait(WaitOptions::NOHANG) {
                Ok(Some((pid, status))) if pid == self.command => self.status = Some(status_of(status)),
                Ok(Some(_)) => {}
                Ok(None) => return Ok(false),
                Err(Errno::CHILD) => return Ok(true),
                Err(Errno::INTR) => {}
                Err(why) => return Err(why.into()),
            }
        }
    }

    fn obey(&mut self, word: &Word) {
        match word {
            Word::Until(until) => self.until = until.before(MARGIN),
            Word::End => self.end(BootTime::now()),
        }
    }

    /// Asks all to end, once; they are killed a grace later, and before the time.
    fn end(&mut self, now: BootTime) {
        if self.killed_at.is_none() {
            self.killed_at = Some(now.after(self.grace).min(self.until));
            if now < self.until && !self.grace.is_zero() {
                send(Signal::Term, &descendants(getpid()));
            }
        }
    }

    /// Kills the command with its session at once, and then what else descends from here: that has to be looked for.
    fn kill(&mut self) {
        self.kills = self.kills.saturating_add(1);
        if self.status.is_none() {
            own_session::kill(self.command);
        }
        send(Signal::Kill, &descendants(getpid()));
    }

    /// When there is something to do next.
    fn next(&self, now: BootTime) -> BootTime {
        match self.killed_at {
            None => self.until.before(self.grace),
            Some(at) if now < at => at,
            Some(_) => now.after(LOOK * 2u32.pow(self.kills.saturating_sub(1).min(MOST_LOOKS))),
        }
    }
}

fn status_of(status: WaitStatus) -> u8 {
    let code = status.exit_status().or_else(|| status.terminating_signal().map(|signal| 128 + signal));
    code.and_then(|code| u8::try_from(code).ok()).unwrap_or(NOT_RUN)
}

/// What a keeper is told.
#[derive(Clone, Copy, Debug, PartialEq, Eq)]
enum Word {
    Until(BootTime),
    End,
}

impl Word {
    fn read(line: &str) -> Option<Word> {
        match line.split_once(' ') {
            Some(("until", ms)) => ms.parse().ok().map(BootTime::of_ms).map(Word::Until),
            None if line == "end" => Some(Word::End),
            _ => None,
        }
    }
}

/// What wakes a keeper: its input, the end of a process, its timer.
struct Wakes {
    input: io::Stdin,
    is_ended: bool,
    unread: Vec<u8>,
    ended: UnixStream,
    timer: OwnedFd,
}

impl Wakes {
    fn new() -> io::Result<Wakes> {
        let (ended, to) = UnixStream::pair()?;
        ended.set_nonblocking(true)?;
        pipe::register(SIGCHLD, to)?;
        let input = io::stdin();
        fcntl_setfl(&input, fcntl_getfl(&input)? | OFlags::NONBLOCK)?;
        let timer = timerfd_create(TimerfdClockId::Boottime, TimerfdFlags::CLOEXEC | TimerfdFlags::NONBLOCK)?;
        Ok(Wakes { input, is_ended: false, unread: Vec::new(), ended, timer })
    }

    /// Waits, and tells what was said. It waits for half of the time: so a clock that is corrected is looked at again before.
    fn wait(&mut self, time: Duration) -> io::Result<Vec<Word>> {
        let half = (time / 2).clamp(Duration::from_millis(1), Duration::from_secs(1 << 30));
        let value = Timespec { tv_sec: half.as_secs() as _, tv_nsec: half.subsec_nanos() as _ };
        let once = Itimerspec { it_interval: Timespec { tv_sec: 0, tv_nsec: 0 }, it_value: value };
        timerfd_settime(&self.timer, TimerfdTimerFlags::empty(), &once)?;
        let mut fds = vec![PollFd::new(&self.ended, PollFlags::IN), PollFd::new(&self.timer, PollFlags::IN)];
        if !self.is_ended {
            fds.push(PollFd::new(&self.input, PollFlags::IN));
        }
        match poll(&mut fds, -1) {
            Ok(_) | Err(Errno::INTR) => {}
            Err(why) => return Err(why.into()),
        }
        drop(fds);
        let mut bytes = [0; 64];
        while matches!((&self.ended).read(&mut bytes), Ok(count) if count > 0) {}
        self.words()
    }

    /// What was said since; the end of the input has the command ended.
    fn words(&mut self) -> io::Result<Vec<Word>> {
        let mut bytes = [0; 4096];
        while !self.is_ended {
            match rustix::io::read(self.input.as_fd(), &mut bytes) {
                Ok(0) => self.is_ended = true,
                Ok(count) => self.unread.extend_from_slice(&bytes[..count]),
                Err(Errno::AGAIN) => break,
                Err(Errno::INTR) => {}
                Err(why) => return Err(why.into()),
            }
        }
        let whole = self.unread.iter().rposition(|byte| *byte == b'\n').map_or(0, |at| at + 1);
        let rest = self.unread.split_off(whole);
        let lines = std::mem::replace(&mut self.unread, rest);
        let said = String::from_utf8_lossy(&lines);
        Ok(said.lines().filter_map(Word::read).chain(self.is_ended.then_some(Word::End)).collect())
    }
}

#[cfg(test)]
mod tests {
    use super::*;

    #[test]
    fn words_of_a_keeper() {
        assert_eq!(Word::read("until 1700"), Some(Word::Until(BootTime::of_ms(1700))));
        assert_eq!(Word::read("end"), Some(Word::End));
        for line in ["", "until", "until -1", "until x", "end now"] {
            assert_eq!(Word::read(line), None, "{line}");
        }
    }

    #[test]
    fn it_is_asked_a_grace_before_it_is_killed_and_killed_in_time() {
        let at = BootTime::of_ms;
        let (grace, no_process) = (Duration::from_millis(300), getpid());
        let mut keeper = Keeper { command: no_process, until: at(2000), grace, killed_at: None, kills: 0, status: None, is_time_over: false };
        assert_eq!(keeper.next(at(100)), at(1700));
        keeper.obey(&Word::Until(at(3000)));
        assert_eq!(keeper.next(at(100)), at(2600), "a margin before the time, and a grace before that");
        keeper.grace = Duration::ZERO;
        keeper.end(at(2950));
        assert_eq!((keeper.killed_at, keeper.next(at(2800)), keeper.next(at(2950))), (Some(at(2900)), at(2900), at(2952)));
        for (kills, next) in [(1, 2952), (2, 2954), (7, 3078), (u32::MAX, 3078)] {
            keeper.kills = kills;
            assert_eq!(keeper.next(at(2950)), at(next), "{kills}");
        }
    }
}
