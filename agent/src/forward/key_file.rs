//! A file of keys: one or two lines of 64 hex digits, which nobody but its owner may read. What is wrong with one is told without a word of what it holds.

use rustix::fs::OFlags;
use std::fs::OpenOptions;
use std::io::Read;
use std::os::unix::fs::{OpenOptionsExt, PermissionsExt};
use std::path::Path;
use thiserror::Error;

/// No more of it is read: two lines are far shorter, and what is longer is none.
const MAX_BYTES: u64 = 4096;

const DIGITS: usize = 64;

#[derive(Debug, Error, PartialEq, Eq)]
pub enum KeyError {
    #[error("it can't be read: {0}")]
    Unreadable(String),
    #[error("it is no regular file")]
    NoFile,
    #[error("others than its owner may read or write it (mode {mode:04o}): `chmod 600 {path}`")]
    Open { mode: u32, path: String },
    #[error("it has no line: a key is a line of 64 hex digits (`dumgerokctl key` makes one)")]
    Empty,
    #[error("it has more than two lines: the first one is the key that seals, a second one only opens")]
    Lines,
    #[error("line {line} {why}: a key is a line of 64 hex digits, and nothing else")]
    Line { line: usize, why: String },
}

/// The keys of a file. It is opened without a wait: a pipe would have its reader wait for a writer.
pub fn read_keys(path: &Path) -> Result<Vec<[u8; 32]>, KeyError> {
    let unreadable = |why: std::io::Error| KeyError::Unreadable(why.to_string());
    let flags = OFlags::NONBLOCK.bits();
    let file = OpenOptions::new().read(true).custom_flags(flags).open(path).map_err(unreadable)?;
    let about = file.metadata().map_err(unreadable)?;
    let mode = about.permissions().mode() & 0o7777;
    if !about.is_file() {
        return Err(KeyError::NoFile);
    }
    if mode & 0o077 != 0 {
        return Err(KeyError::Open { mode, path: path.display().to_string() });
    }
    let mut bytes = Vec::new();
    file.take(MAX_BYTES).read_to_end(&mut bytes).map_err(unreadable)?;
    keys_of(&String::from_utf8_lossy(&bytes))
}

pub(super) fn keys_of(text: &str) -> Result<Vec<[u8; 32]>, KeyError> {
    if text.is_empty() {
        return Err(KeyError::Empty);
    }
    let lines: Vec<&str> = text.strip_suffix('\n').unwrap_or(text).split('\n').collect();
    let keys = (1..).zip(&lines).map(|(line, digits)| key_of(digits).map_err(|why| KeyError::Line { line, why }));
    match keys.collect::<Result<Vec<_>, _>>()? {
        keys if keys.len() > 2 => Err(KeyError::Lines),
        keys => Ok(keys),
    }
}

fn key_of(digits: &str) -> Result<[u8; 32], String> {
    let mut key = [0; 32];
    if digits.is_empty() {
        return Err("is empty".to_string());
    }
    if digits.trim() != digits {
        return Err("has a blank or a carriage return at one end".to_string());
    }
    if let Some(at) = digits.chars().position(|digit| !digit.is_ascii_hexdigit()) {
        return Err(format!("has something at letter {} that is no hex digit", at + 1));
    }
    hex::decode_to_slice(digits, &mut key).map_err(|_| format!("has {} hex digits and not {DIGITS}", digits.len()))?;
    Ok(key)
}

#[cfg(test)]
mod tests {
    use super::*;
    use crate::chance::{Chance, TURNS};
    use std::fs::{self, Permissions};

    #[test]
    fn what_is_wrong_with_a_line_is_told_and_nothing_that_it_holds() {
        let key = "0a".repeat(32);
        for (text, said) in [
            (String::new(), "it has no line"),
            (format!("{key}\r\n"), "line 1 has a blank or a carriage return at one end"),
            (format!("{key} \n"), "line 1 has a blank"),
            (format!("{key}\n\n"), "line 2 is empty"),
            (format!("\n{key}\n"), "line 1 is empty"),
            (format!("{key}\n{}\n", &key[..60]), "line 2 has 60 hex digits and not 64"),
            (format!("{key}00\n"), "line 1 has 66 hex digits"),
            (format!("{}xy\n", &key[..62]), "line 1 has something at letter 63 that is no hex digit"),
            (format!("{key}\n").repeat(3), "it has more than two lines"),
        ] {
            let told = keys_of(&text).unwrap_err().to_string();
            assert!(told.starts_with(said) && !told.contains("0a0a"), "{text:?}: {told}");
        }
        for (text, count) in [(key.clone(), 1), (format!("{key}\n"), 1), (format!("{key}\n{}", key.to_uppercase()), 2)] {
            assert_eq!(keys_of(&text).map(|keys| keys.len()), Ok(count), "{text:?}");
        }
    }

    #[test]
    fn what_is_wrong_with_a_file_is_told() {
        let path = std::env::temp_dir().join(format!("dumgerok-key-{}", std::process::id()));
        let told = |path: &Path| read_keys(path).unwrap_err().to_string();
        assert_eq!(told(&path), "it can't be read: No such file or directory (os error 2)");
        fs::write(&path, "0a".repeat(32)).unwrap();
        fs::set_permissions(&path, Permissions::from_mode(0o640)).unwrap();
        let open = "others than its owner may read or write it (mode 0640): `chmod 600 ";
        assert!(told(&path).starts_with(open), "{}", told(&path));
        fs::set_permissions(&path, Permissions::from_mode(0o400)).unwrap();
        assert_eq!(read_keys(&path), Ok(vec![[10; 32]]));
        fs::remove_file(&path).unwrap();
        assert_eq!((told(Path::new("/dev/zero")), told(Path::new("/"))), (KeyError::NoFile.to_string(), KeyError::NoFile.to_string()));
    }

    #[test]
    fn whatever_a_file_holds_is_read_as_keys_or_refused() {
        let (mut chance, mut taken) = (Chance::of(14), 0);
        for _ in 0..TURNS {
            let keys: Vec<String> = (0..1 + chance.below(2)).map(|_| (0..8).map(|_| format!("{:08x}", chance.next() as u32)).collect()).collect();
            let right = keys.join("\n") + "\n";
            let odd = if chance.one_in(4) { right.clone() } else { chance.odd_text(&[&right], 200) };
            if let Ok(read) = keys_of(&odd) {
                let lines: Vec<String> = odd.lines().map(str::to_lowercase).collect();
                assert_eq!(read.iter().map(hex::encode).collect::<Vec<_>>(), lines, "{odd}");
                taken += 1;
            }
        }
        assert!(taken > 100, "{taken}");
    }
}
