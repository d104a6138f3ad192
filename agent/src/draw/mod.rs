//! Draws the run of a trace, as an SVG or as a page, or writes it for tools of others. What only the proved program can know it says: `invite trace --turns` the order in which the
//! entries can have come, how each node stands then and what is left, and `invite show` what each message says. Where each message came from and
//! which came to none follows from the trace and that order.

mod asked;
mod colours;
mod jobs;
mod lines;
mod message;
mod order;
mod page;
mod perfetto;
mod picture;
mod places;
mod run;
mod shiviz;
mod sources;
mod stays;
mod trace;

use clap::ValueEnum;
use run::Run;
use std::io;
use std::path::Path;
use std::process::ExitStatus;
use thiserror::Error;

#[derive(Debug, Error)]
pub enum DrawError {
    #[error("the program can't be run: {0}")]
    Program(#[from] io::Error),
    /// The program read the trace, and what it said of it can't be.
    #[error("the program says {0:?} of this trace")]
    Said(String),
    #[error("the program read this trace, and it can't be read here: {0}")]
    Trace(#[from] serde_json::Error),
}

/// As what a run is drawn.
#[derive(Clone, Copy, Debug, PartialEq, Eq, ValueEnum)]
pub enum Form {
    Svg,
    /// A page of HTML, which scrolls, zooms and searches; it needs no other file.
    Html,
    /// Chrome's trace events, which Perfetto reads.
    Perfetto,
    /// A log with vector clocks, which ShiViz reads.
    Shiviz,
}

/// The run of a trace, drawn, and how `invite trace --turns` ended; of a text that is no trace what that printed. Why entries are left it says on
/// standard error.
pub fn draw(program: &Path, text: &[u8], form: Form) -> Result<(String, ExitStatus), DrawError> {
    let (said, status) = asked::asked(program, &["trace", "--turns"], text)?;
    let drawn = match Run::of(program, text, &said)? {
        None => said,
        Some(run) => match form {
            Form::Svg => picture::svg(&run),
            Form::Html => page::html(&run),
            Form::Perfetto => perfetto::text(&run),
            Form::Shiviz => shiviz::text(&run),
        },
    };
    Ok((drawn, status))
}

/// A text of parts, each in the place of its name in braces. The names stand in the text in this order.
fn filled(text: &str, parts: &[(&str, &str)]) -> String {
    let mut whole = String::new();
    let mut rest = text;
    for (name, part) in parts {
        let (before, behind) = rest.split_once(&format!("{{{name}}}")).unwrap_or((rest, ""));
        whole.push_str(before);
        whole.push_str(part);
        rest = behind;
    }
    whole + rest
}

#[cfg(test)]
mod tests {
    use super::*;

    #[test]
    fn parts_stand_in_the_place_of_their_names() {
        assert_eq!(filled("a {b} c {d.e} {f}", &[("b", "{d.e}"), ("d.e", "2")]), "a {d.e} c 2 {f}");
    }
}
