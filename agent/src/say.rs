//! Lines on standard error. `eprintln!` ends the program where they can't be written, as to a disk that is full.

use std::fmt::Display;
use std::io::{self, Write};

/// Writes a line to standard error. Where it can't be written nobody is told so.
pub fn say(line: impl Display) {
    let _untold = writeln!(io::stderr(), "{line}");
}
