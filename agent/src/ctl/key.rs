//! Makes a file of a key.

use super::Failure;
use std::fs::{File, OpenOptions};
use std::io::{ErrorKind, Read, Write};
use std::os::unix::fs::OpenOptionsExt;
use std::path::Path;

/// Writes a new key to a file that isn't there yet, which its owner alone may read.
pub fn make(path: &Path) -> Result<String, Failure> {
    let named = |why: std::io::Error| {
        let hint = match why.kind() {
            ErrorKind::AlreadyExists => ": it stays as it is. A second key is made in another file, and its line added to this one",
            _ => "",
        };
        Failure::NotDone(format!("{}: {why}{hint}", path.display()))
    };
    let mut secret = [0; 32];
    File::open("/dev/urandom").and_then(|mut from| from.read_exact(&mut secret)).map_err(named)?;
    let mut file = OpenOptions::new().write(true).create_new(true).mode(0o600).open(path).map_err(named)?;
    writeln!(file, "{}", hex::encode(secret)).and_then(|()| file.sync_all()).map_err(named)?;
    Ok(format!("{}: a key. Copy it to all machines; there it has to be the agent's user's, mode 0600\n", path.display()))
}

#[cfg(test)]
mod tests {
    use super::*;

    #[test]
    fn a_key_is_made_once_and_no_other_is_like_it() {
        let path = |name: &str| std::env::temp_dir().join(format!("dumgerok-{name}-{}", std::process::id()));
        let paths = [path("made"), path("made-too")];
        paths.iter().for_each(|path| drop(make(path).unwrap()));
        let refused = make(&paths[0]).unwrap_err().to_string();
        assert!(refused.contains("File exists") && refused.contains("it stays as it is"), "{refused}");
        let keys = paths.map(|path| {
            let keys = crate::forward::read_keys(&path).unwrap();
            std::fs::remove_file(&path).unwrap();
            keys
        });
        assert!(keys[0].len() == 1 && keys[0] != keys[1]);
    }
}
