//! A command that ends with its worker, whatever ends that one: a process between them, in a session of its own, outlives the worker to kill the command. Where
//! the process between them is killed, the worker kills the command.

use super::interrupts::Interrupts;
use crate::own_session::{self, kill, terminate};
use crate::say::say;
use rustix::process::{setsid, Pid};
use std::ffi::OsString;
use std::io::{self, ErrorKind, Read, Write};
use std::net::Shutdown;
use std::os::unix::io::OwnedFd;
use std::os::unix::net::UnixStream;
use std::os::unix::process::{CommandExt, ExitStatusExt};
use std::process::{Child, Command, ExitStatus, Stdio};
use std::sync::mpsc::{channel, Receiver};
use std::thread;
use std::time::{Duration, Instant};

/// The program calls itself by this name, to guard a command.
const NAME: &str = "dumgerok: a guard";

/// The payload of the job, as hex digits, in the environment of the guard and of the command.
pub const PAYLOAD: &str = "DUMGEROK_PAYLOAD";

/// The status of a guard that can't run its command, as in a shell.
const NOT_RUN: u8 = 127;

/// By this byte the guard is told to have the command end; by the end of its input, to kill it.
const TERMINATE: u8 = b't';

/// How often a command is looked at that is to end.
const LOOK: Duration = Duration::from_millis(10);

/// A command that runs. Where this is dropped, or its process is gone, the command is killed with what it started.
pub struct Guarded {
    guard: Child,
    /// To the guard's input, which nobody else holds: by its end the guard knows that the command is to be killed. The guard says there which process the
    /// command is.
    hold: Option<UnixStream>,
}

impl Guarded {
    pub fn start(
        words: &[OsString],
        variables: impl IntoIterator<Item = (&'static str, String)>,
    ) -> io::Result<Guarded> {
        let (own, other) = UnixStream::pair()?;
        let mut command = Command::new("/proc/self/exe");
        command.arg0(NAME).args(words).envs(variables).stdin(Stdio::from(OwnedFd::from(other)));
        Ok(Guarded { guard: command.spawn()?, hold: Some(own) })
    }

    /// How the command ended, where it has. Where the guard was killed the command is killed.
    pub fn try_wait(&mut self) -> io::Result<Option<ExitStatus>> {
        let status = self.guard.try_wait()?;
        if status.map_or(false, |status| status.signal().is_some()) {
            self.kill_command();
        }
        Ok(status)
    }

    /// Has the command end, which has so long for it, and then kills it, and what it started.
    pub fn end(&mut self, grace: Duration) -> io::Result<()> {
        let until = Instant::now() + grace;
        if let Some(hold) = self.hold.as_mut().filter(|_| !grace.is_zero()) {
            let _gone_already = hold.write_all(&[TERMINATE]);
            while Instant::now() < until && self.try_wait()?.is_none() {
                thread::sleep(LOOK);
            }
        }
        if let Some(hold) = &self.hold {
            hold.shutdown(Shutdown::Write).or_else(|why| if why.kind() == ErrorKind::NotConnected { Ok(()) } else { Err(why) })?;
        }
        let status = self.guard.wait()?;
        if status.signal().is_some() {
            self.kill_command();
        }
        self.hold = None;
        Ok(())
    }

    /// Kills a command whose guard is gone. The guard said which it is once it ran; where it hadn't, there is none, or nothing is known of it.
    fn kill_command(&mut self) {
        let mut said = String::new();
        if let Some(mut hold) = self.hold.take() {
            let _no_more = hold.read_to_string(&mut said);
        }
        if let Ok(command) = said.trim().parse::<u32>() {
            let _gone = kill_by_number(command);
        }
    }
}

/// Kills a command of another process, and what it started, by a shell: only a process's own children have a handle here.
fn kill_by_number(command: u32) -> io::Result<ExitStatus> {
    let script = r#"kill -s KILL -- "$0"; kill -s KILL -- "-$0""#;
    Command::new("sh").args(["-c", script, &command.to_string()]).stdin(Stdio::null()).stderr(Stdio::null()).status()
}

/// Guards a command until it ends, where the program was called for that; the status to end with. None where it was called by another name.
pub fn become_guard() -> Option<u8> {
    let mut words = std::env::args_os();
    if words.next()? != NAME {
        return None;
    }
    Some(guard(words).unwrap_or_else(|why| {
        say(format!("dumgerokctl: the command can't be run: {why}"));
        NOT_RUN
    }))
}

fn guard(words: impl Iterator<Item = OsString>) -> io::Result<u8> {
    setsid()?;
    // a signal to all processes is the worker's to answer, and the command's
    Interrupts::register()?.set_idle(false);
    let (to, from) = channel();
    thread::Builder::new().spawn(move || kill_at_end_of_input(&from))?;
    let mut command = own_session::command(words).stdin(Stdio::piped()).spawn()?;
    let _there = to.send(Pid::from_child(&command));
    let _worker_gone = rustix::io::write(io::stdin(), format!("{}\n", command.id()).as_bytes());
    if let Some(mut input) = command.stdin.take() {
        let payload = hex::decode(std::env::var(PAYLOAD).unwrap_or_default()).unwrap_or_default();
        // 400 bytes at most, which a pipe holds; a command needn't read them
        let _unread = input.write_all(&payload);
    }
    let status = command.wait()?;
    Ok(status.code().or_else(|| status.signal().map(|signal| 128 + signal)).map_or(NOT_RUN, |code| code as u8))
}

/// Has the command end where the worker says so, and kills it at the end of the input.
fn kill_at_end_of_input(command: &Receiver<Pid>) {
    if let Ok(command) = command.recv() {
        for byte in io::stdin().lock().bytes().map_while(Result::ok) {
            if byte == TERMINATE {
                terminate(command);
            }
        }
        kill(command);
    }
}
