//! Which processes descend from one, by /proc.

use crate::system_calls::pid_of;
use rustix::process::{kill_process, Pid, RawPid, Signal};
use std::collections::BTreeMap;
use std::fs;

/// All that descend from a process, whatever sessions they began: its children, theirs, and so on.
pub fn descendants(of: Pid) -> Vec<Pid> {
    let mut children: BTreeMap<RawPid, Vec<RawPid>> = BTreeMap::new();
    for (child, parent) in processes() {
        children.entry(parent).or_default().push(child);
    }
    let mut found = children.remove(&of.as_raw_nonzero().get()).unwrap_or_default();
    let mut seen = 0;
    while let Some(parent) = found.get(seen) {
        found.extend(children.remove(parent).unwrap_or_default());
        seen += 1;
    }
    found.into_iter().filter_map(pid_of).collect()
}

/// Sends them a signal; those that ended meanwhile are past it.
pub fn send(signal: Signal, to: &[Pid]) {
    for pid in to {
        let _gone = kill_process(*pid, signal);
    }
}

/// Each process with its parent.
fn processes() -> Vec<(RawPid, RawPid)> {
    let folders = fs::read_dir("/proc").into_iter().flatten().flatten();
    let pids = folders.filter_map(|folder| folder.file_name().to_str()?.parse::<RawPid>().ok());
    pids.filter_map(|pid| Some((pid, parent(&fs::read_to_string(format!("/proc/{pid}/stat")).ok()?)?))).collect()
}

/// The parent in a line of `stat`: behind the name, which stands in brackets and may have any text, and the state.
fn parent(stat: &str) -> Option<RawPid> {
    stat.rsplit_once(')')?.1.split_whitespace().nth(1)?.parse().ok()
}

#[cfg(test)]
mod tests {
    use super::*;
    use std::io::{BufRead, BufReader};
    use std::process::{Command, Stdio};

    #[test]
    fn a_parent_stands_behind_any_name() {
        assert_eq!(parent("7 (a) b) c) S 5 7 7 0"), Some(5));
        assert_eq!(parent("7 (a"), None);
    }

    #[test]
    fn those_of_other_sessions_descend_too() {
        let script = "setsid sleep 1000 & sh -c 'sleep 1000 & echo there; wait' & wait";
        let mut child = Command::new("sh").args(["-c", script]).stdout(Stdio::piped()).spawn().unwrap();
        let mut line = String::new();
        BufReader::new(child.stdout.take().unwrap()).read_line(&mut line).unwrap();
        let own = Pid::from_child(&child);
        while descendants(own).len() < 3 {
            std::thread::yield_now();
        }
        let found = descendants(own);
        assert_eq!(found.len(), 3, "{found:?}");
        send(Signal::Kill, &found);
        child.kill().unwrap();
        child.wait().unwrap();
    }
}
