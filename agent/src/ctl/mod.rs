//! `dumgerokctl`: what an operator types.

mod agent;
mod arguments;
mod commands;
mod drain;
mod event;
mod file;
mod follow;
mod format;
mod guarded;
mod interrupts;
mod job_lines;
mod key;
mod lead;
mod program;
mod show;
mod table;
mod values;
mod worker;

pub use arguments::Arguments;
pub use commands::run;
pub use guarded::become_guard;
pub(crate) use interrupts::Interrupts;

use std::io::{self, ErrorKind};
use std::os::unix::process::ExitStatusExt;
use std::process::{ExitCode, ExitStatus};
use thiserror::Error;

/// Why a command fails.
#[derive(Debug, Error)]
pub enum Failure {
    /// The agent answered that it didn't do it.
    #[error("refused: {0}")]
    Refused(String),
    #[error("{0}")]
    Usage(String),
    /// Something is in the way, and is left as it is.
    #[error("{0}")]
    NotDone(String),
    #[error("no agent answers: {0}")]
    NoAgent(io::Error),
    /// An agent is there, and this user may not ask it.
    #[error("refused: {0}")]
    NotPermitted(io::Error),
    /// An agent is there, and nothing came of it in time.
    #[error("no answer in time: {0}")]
    Late(String),
    #[error("the output can't be written: {0}")]
    Output(io::Error),
    /// A program that was called ended with this status. Why it did it said itself, where nothing stands here.
    #[error("{}", .why.as_deref().unwrap_or_default())]
    Program { status: u8, why: Option<String> },
}

/// What goes wrong with a connection.
impl From<io::Error> for Failure {
    fn from(why: io::Error) -> Failure {
        match why.kind() {
            ErrorKind::TimedOut => Failure::Late(why.to_string()),
            ErrorKind::PermissionDenied => Failure::NotPermitted(why),
            _ => Failure::NoAgent(why),
        }
    }
}

/// The status of `Late`, which no other failure has, whatever program was called.
const LATE: u8 = 9;

impl Failure {
    /// How a program ended that was called.
    fn of_status(status: ExitStatus) -> Result<(), Failure> {
        let by = status.signal().map(|signal| format!("the program was ended by signal {signal}"));
        match status.code().and_then(|code| u8::try_from(code).ok()) {
            Some(0) => Ok(()),
            code => Err(Failure::Program { status: code.unwrap_or(1), why: by }),
        }
    }

    /// Whether nothing is to be said: the program did.
    pub fn is_told(&self) -> bool {
        matches!(self, Failure::Program { why: None, .. })
    }

    pub fn status(&self) -> ExitCode {
        ExitCode::from(match self {
            Failure::Refused(_) | Failure::NotDone(_) | Failure::NotPermitted(_) | Failure::Output(_) => 1,
            Failure::Usage(_) => 2,
            Failure::NoAgent(_) => 3,
            Failure::Late(_) => LATE,
            Failure::Program { status, .. } => *status,
        })
    }
}
