//! The words that `dumgerokd` is called with: the path of its configuration.

use std::ffi::OsString;
use std::path::PathBuf;

pub const USAGE: &str = "Usage: dumgerokd CONFIG";

pub const HELP: &str = "\
Runs the node of a Dumgerok cluster on this machine.

Usage: dumgerokd CONFIG

Arguments:
  CONFIG  The configuration, as /etc/dumgerok/node.toml

Options:
  -h, --help     Print help
  -V, --version  Print version

Exit statuses, which are the node's:
   0  by SIGTERM or SIGINT
   1  an address is in use or missing, another agent runs, the program can't be run, the node was killed or ended by itself, reading or writing failed,
      or there was no memory
   2  the configuration can't be read, or has more places than the file
   3  the device failed
   4  another process has the file open
   5  the file is another node's or another cluster's, no node's, or damaged
   6  the key can't be read, or others than its owner may read it
   7  the file isn't there, may not be opened, is no regular file, or was removed, cut off, written over or replaced while the node ran
   8  there was no room for a write
   9  the file was put back from a copy, or made with numbers that are too low
  10  the file holds what no crash leaves there

Example: dumgerokd /etc/dumgerok/node.toml
";

#[derive(Debug, PartialEq, Eq)]
pub enum Words {
    Config(PathBuf),
    Help,
    Version,
    Wrong(String),
}

/// What the words behind the program's name ask for. Behind `--` each is a path.
pub fn read(words: impl IntoIterator<Item = OsString>) -> Words {
    let (mut paths, mut has_options) = (Vec::new(), true);
    for word in words {
        match word.to_str().filter(|word| has_options && word.len() > 1 && word.starts_with('-')) {
            Some("--") => has_options = false,
            Some("-h" | "--help") => return Words::Help,
            Some("-V" | "--version") => return Words::Version,
            Some(option) => return Words::Wrong(format!("there is no option {option}")),
            None => paths.push(PathBuf::from(word)),
        }
    }
    match (paths.pop(), paths.pop()) {
        (Some(path), None) => Words::Config(path),
        (Some(second), Some(_)) => Words::Wrong(format!("one configuration is all that it reads, and {} is one more", second.display())),
        (None, _) => Words::Wrong("the configuration is missing".to_string()),
    }
}

#[cfg(test)]
mod tests {
    use super::*;

    #[test]
    fn one_path_is_read_and_what_else_is_said() {
        let of = |line: &str| read(line.split_whitespace().map(OsString::from));
        assert_eq!(of("/a.toml"), Words::Config(PathBuf::from("/a.toml")));
        assert_eq!([of("-- -h"), of("-")], [Words::Config(PathBuf::from("-h")), Words::Config(PathBuf::from("-"))]);
        assert_eq!([of("-h"), of("a --help"), of("-V"), of("--version b")], [Words::Help, Words::Help, Words::Version, Words::Version]);
        for (line, said) in [("", "is missing"), ("--", "is missing"), ("a b", "b is one more"), ("a b c", "one more"), ("--config a", "no option --config"), ("-x", "no option -x")] {
            assert!(matches!(of(line), Words::Wrong(why) if why.contains(said)), "{line}");
        }
        assert!(HELP.contains(USAGE));
    }
}
