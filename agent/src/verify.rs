//! What the program finds in the node's file before the node opens it: what no crash leaves there was lost, or is of another time.

use log::{error, info, warn};
use rustix::fs::{flock, FlockOperation};
use rustix::io::Errno;
use std::fs::File;
use std::path::Path;
use std::process::{Command, ExitStatus, Output, Stdio};

/// A program that doesn't know the option says so by this status.
const UNKNOWN: i32 = 2;

/// So many of the lines that it prints are passed on to the log.
const MAX_TOLD: usize = 8;

#[derive(Debug, PartialEq, Eq)]
enum Found {
    /// The program can't verify a file.
    NotLooked,
    /// Another node may have written to it meanwhile.
    InUse,
    /// Nothing that keeps the node from its file; what may tell of an older state.
    Hints(Vec<String>),
    /// What no crash leaves.
    Broken(Vec<String>),
}

fn found(status: ExitStatus, text: &str) -> Found {
    let lines = |word: &str| -> Vec<String> {
        text.lines().filter(|line| line.split(' ').next() == Some(word)).take(MAX_TOLD).map(str::to_string).collect()
    };
    match lines("broken") {
        _ if status.code() == Some(UNKNOWN) => Found::NotLooked,
        broken if broken.is_empty() => Found::Hints(lines("hint")),
        broken => Found::Broken(broken),
    }
}

/// Whether another process has the file open as a node. Where none has, none gets it until this one is closed.
fn is_in_use(file: &File) -> bool {
    flock(file, FlockOperation::NonBlockingLockShared) == Err(Errno::WOULDBLOCK)
}

/// Whether a hint names a number that may have been given though the file doesn't count it: the node skips it by itself, and says so.
fn is_skipped(hint: &str) -> bool {
    hint.starts_with("hint counter_unsealed ")
}

/// What is to be done with a file. What else is wrong with it the node says itself.
#[derive(Debug, PartialEq, Eq)]
pub enum Verdict {
    /// The node may open it.
    Whole,
    /// It may not.
    Broken,
}

fn look(program: &Path, file: &Path) -> Found {
    let inspect = Command::new(program).args(["inspect", "--verify"]).arg(file).stdin(Stdio::null()).stderr(Stdio::null()).output();
    // one that can't be run doesn't run the node, either
    match inspect {
        Ok(Output { status, stdout, .. }) => found(status, &String::from_utf8_lossy(&stdout)),
        Err(_) => Found::NotLooked,
    }
}

/// Has the program verify a file, which is open here, and tells the log what it found. It looks without a lock, so that agents that begin at the same time don't
/// keep each other's nodes from the file. Half of a change of another node may look broken then: so it looks again where none has the file, and else concludes
/// nothing.
pub fn verified(program: &Path, path: &Path, file: &File) -> Verdict {
    let found = match look(program, path) {
        Found::Broken(_) if is_in_use(file) => Found::InUse,
        Found::Broken(_) => look(program, path),
        found => found,
    };
    let file = path.display();
    match found {
        Found::NotLooked => {
            info!("{file}: it isn't verified: {} doesn't know `inspect --verify`", program.display());
            Verdict::Whole
        }
        Found::InUse => {
            info!("{file}: it isn't verified: another process has it open");
            Verdict::Whole
        }
        Found::Hints(hints) => {
            for hint in hints.iter().filter(|hint| !is_skipped(hint)) {
                warn!("{file}: {hint}: this may be an older state than the node left");
            }
            Verdict::Whole
        }
        Found::Broken(broken) => {
            broken.iter().for_each(|one| error!("{file}: {one}: no crash leaves this: a write was lost, or the file was changed"));
            error!("{file}: `dumgerokctl export --salvage` prints the jobs that can still be read: put the file aside, and make a new one with `dumgerokctl format --jobs`");
            Verdict::Broken
        }
    }
}

#[cfg(test)]
mod tests {
    use super::*;
    use std::os::unix::process::ExitStatusExt;

    #[test]
    fn what_the_program_says_is_read() {
        let read = |code: i32, text: &str| found(ExitStatus::from_raw(code << 8), text);
        let whole = "kind node\nnode 2\ncount 7\n";
        let broken = format!("{whole}broken counter_slots 4 9\nhint job_differs 3\nbroken sealed_behind 12\n");
        assert_eq!(read(1, &broken), Found::Broken(vec!["broken counter_slots 4 9".to_string(), "broken sealed_behind 12".to_string()]));
        assert_eq!(read(0, &format!("{whole}hint job_differs 3\n")), Found::Hints(vec!["hint job_differs 3".to_string()]));
        for (code, text) in [(0, whole), (1, "kind node\ncount none\ndamaged_journal 5\n"), (5, ""), (7, ""), (0, "brokenness 1\n")] {
            assert_eq!(read(code, text), Found::Hints(vec![]), "{code}");
        }
        assert_eq!(["hint counter_unsealed 18446744073709551615", "hint job_differs 3", "broken counter_unsealed 3"].map(is_skipped), [true, false, false]);
        assert_eq!((read(2, ""), read(2, "broken counter_slots 4 9\n")), (Found::NotLooked, Found::NotLooked));
        assert_eq!(read(1, &"broken sealed_behind 12\n".repeat(100)), Found::Broken(vec!["broken sealed_behind 12".to_string(); MAX_TOLD]));
    }
}
