//! Whether a file is still the one at its path. Where the node's was removed, or another one has its name, no later start finds what the node keeps; where
//! the agent's socket was, no client finds the agent.

use mio::Waker;
use std::fs;
use std::io::{self, ErrorKind};
use std::os::unix::fs::MetadataExt;
use std::path::{Path, PathBuf};
use std::sync::atomic::{AtomicBool, Ordering};
use std::sync::Arc;
use std::thread;
use std::time::Duration;

/// The paths are looked at so often.
const PAUSE: Duration = Duration::from_secs(2);

/// What no file is known by.
const NOBODY: (u64, u64) = (0, 0);

/// A path that is looked at.
struct Guarded {
    path: PathBuf,
    own: (u64, u64),
    is_gone: Arc<AtomicBool>,
    was_gone: bool,
}

impl Guarded {
    /// The file that is there now.
    fn new(path: &Path) -> Guarded {
        Guarded { path: path.to_path_buf(), own: identity(path).unwrap_or(NOBODY), is_gone: Arc::default(), was_gone: false }
    }

    /// Looks once; whether the file is newly found to be gone. One that is made anew is the one to guard.
    fn look(&mut self) -> bool {
        if self.is_gone.load(Ordering::SeqCst) {
            return false;
        }
        if self.was_gone {
            self.own = identity(&self.path).unwrap_or(NOBODY);
        }
        self.was_gone = !is_there(&self.path, self.own);
        self.is_gone.store(self.was_gone, Ordering::SeqCst);
        self.was_gone
    }
}

/// Whether a file is gone.
pub struct Guard(Arc<AtomicBool>);

impl Guard {
    /// Guards the files that are at these paths now. One thread looks at all, so that a file system that hangs stops nobody.
    pub fn start<const COUNT: usize>(paths: [&Path; COUNT], waker: Arc<Waker>) -> io::Result<[Guard; COUNT]> {
        let mut all = paths.map(Guarded::new);
        let guards = std::array::from_fn(|at| Guard(Arc::clone(&all[at].is_gone)));
        thread::Builder::new().spawn(move || loop {
            thread::sleep(PAUSE);
            let gone = all.iter_mut().map(Guarded::look).filter(|is_gone| *is_gone).count();
            // it is noticed with the next tick, too
            if gone > 0 && waker.wake().is_err() {
                return;
            }
        })?;
        Ok(guards)
    }

    pub fn is_gone(&self) -> bool {
        self.0.load(Ordering::SeqCst)
    }

    /// It was made anew, or couldn't be: in a while it is looked at again.
    pub fn again(&self) {
        self.0.store(false, Ordering::SeqCst);
    }
}

/// The device and the number of a file.
fn identity(path: &Path) -> io::Result<(u64, u64)> {
    fs::metadata(path).map(|found| (found.dev(), found.ino()))
}

/// Yes where it can't be told.
fn is_there(path: &Path, own: (u64, u64)) -> bool {
    match identity(path) {
        Ok(found) => found == own,
        Err(error) => error.kind() != ErrorKind::NotFound,
    }
}

#[cfg(test)]
mod tests {
    use super::*;

    #[test]
    fn a_file_that_is_made_anew_is_the_one_to_guard() {
        let path = std::env::temp_dir().join(format!("dumgerok-guarded-{}", std::process::id()));
        fs::write(&path, "").unwrap();
        let mut guarded = Guarded::new(&path);
        let guard = Guard(Arc::clone(&guarded.is_gone));
        assert!(!guarded.look() && !guard.is_gone());
        fs::remove_file(&path).unwrap();
        assert_eq!([guarded.look(), guard.is_gone(), guarded.look(), guard.is_gone()], [true, true, false, true], "told once");
        guard.again();
        assert!(guarded.look() && guard.is_gone(), "nobody could make it");
        fs::write(&path, "").unwrap();
        assert!(!guarded.look(), "nobody took that");
        guard.again();
        assert_eq!([guarded.look(), guarded.look(), guard.is_gone()], [false; 3]);
        fs::remove_file(&path).unwrap();
        assert!(guarded.look());
        assert!(Guarded::new(&path).look(), "it wasn't there at first");
    }

    #[test]
    fn a_file_is_known_again() {
        let path = std::env::temp_dir().join(format!("dumgerok-guard-{}", std::process::id()));
        fs::write(&path, "own").unwrap();
        let own = identity(&path).unwrap();
        fs::write(&path, "written to").unwrap();
        assert!(is_there(&path, own));
        let other = path.with_extension("other");
        fs::write(&other, "").unwrap();
        fs::rename(&other, &path).unwrap();
        assert!(!is_there(&path, own), "another one has its name");
        fs::remove_file(&path).unwrap();
        assert!(!is_there(&path, own));
        assert!(is_there(Path::new("/etc/hostname/x"), own), "it can't be told");
    }
}
