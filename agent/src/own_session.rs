//! A command in a session of its own, by which it is ended with all that it started, and which no signal to the terminal ends.

use crate::say::say;
use rustix::process::{kill_process, kill_process_group, setsid, Pid, Signal};
use std::ffi::OsStr;
use std::io::ErrorKind;
use std::os::unix::ffi::OsStrExt;
use std::os::unix::fs::PermissionsExt;
use std::os::unix::process::CommandExt;
use std::path::Path;
use std::process::Command;

/// A program calls itself by this name, to begin a session and to become the command in it.
const NAME: &str = "dumgerok: a command";

/// The status of a command that can't be run, as in a shell.
const NOT_RUN: u8 = 127;

/// A command, to be run in a session of its own.
pub fn command(words: impl IntoIterator<Item = impl AsRef<OsStr>>) -> Command {
    command_as(NAME, words)
}

/// The program itself, called by another name with these words.
pub fn command_as(name: &str, words: impl IntoIterator<Item = impl AsRef<OsStr>>) -> Command {
    let mut command = Command::new("/proc/self/exe");
    command.arg0(name).args(words);
    command
}

/// Becomes the command, where the program was called for that; the status to end with where that can't be. None where it was called by another name.
pub fn become_command() -> Option<u8> {
    let mut words = std::env::args_os();
    if words.next()? != NAME {
        return None;
    }
    let program = words.next()?;
    let why = match setsid() {
        Ok(_) => Command::new(&program).args(words).exec(),
        Err(why) => why.into(),
    };
    say(format!("dumgerok: {}: {why}", program.to_string_lossy()));
    Some(NOT_RUN)
}

/// Kills a command that wasn't waited for yet, and then what it started: one that has no session yet has started nothing.
pub fn kill(command: Pid) {
    let _ended_by_itself = kill_process(command, Signal::Kill);
    let _none = kill_process_group(command, Signal::Kill);
}

/// Has a command end that wasn't waited for yet, and what is in its process group.
pub fn terminate(command: Pid) {
    if kill_process_group(command, Signal::Term).is_err() {
        // it has no session yet
        let _ended_by_itself = kill_process(command, Signal::Term);
    }
}

/// Why a command can't be run, if so.
pub fn why_not(program: &OsStr) -> Option<String> {
    if program.as_bytes().contains(&b'/') {
        return why_not_at(Path::new(program));
    }
    let folders = std::env::var_os("PATH").unwrap_or_else(|| "/bin:/usr/bin".into());
    let is_there = std::env::split_paths(&folders).any(|folder| why_not_at(&folder.join(program)).is_none());
    (!is_there).then(|| "there is no such program in PATH".to_string())
}

fn why_not_at(path: &Path) -> Option<String> {
    match path.metadata() {
        Err(why) if why.kind() == ErrorKind::NotFound => Some("there is no such program".to_string()),
        Err(why) => Some(why.to_string()),
        Ok(found) if !found.is_file() => Some("it is no program".to_string()),
        Ok(found) => match found.permissions().mode() & 0o7777 {
            mode if mode & 0o111 == 0 => Some(format!("it may not be run (mode {mode:04o}): `chmod +x`")),
            _ => None,
        },
    }
}

#[cfg(test)]
mod tests {
    use super::*;

    #[test]
    fn commands_that_can_not_be_run() {
        for (program, why) in [
            ("sh", None),
            ("/bin/sh", None),
            ("no-such-command", Some("there is no such program in PATH")),
            ("/no/such/command", Some("there is no such program")),
            ("/bin", Some("it is no program")),
            ("/etc/passwd", Some("it may not be run (mode 0644): `chmod +x`")),
        ] {
            assert_eq!(why_not(OsStr::new(program)).as_deref(), why, "{program}");
        }
    }
}
