//! What the proved program says of a text.

use std::io::{self, Write};
use std::path::Path;
use std::process::{Command, ExitStatus, Stdio};

/// What the program prints for a text on its standard input, and how it ends.
pub fn asked(program: &Path, words: &[&str], text: &[u8]) -> io::Result<(String, ExitStatus)> {
    let mut child = Command::new(program).args(words).stdin(Stdio::piped()).stdout(Stdio::piped()).spawn()?;
    let input = child.stdin.take();
    let done = std::thread::scope(|scope| {
        scope.spawn(move || {
            // where it doesn't read to the end its status says why
            let _unread = input.map(|mut input| input.write_all(text));
        });
        child.wait_with_output()
    })?;
    Ok((String::from_utf8_lossy(&done.stdout).into_owned(), done.status))
}
