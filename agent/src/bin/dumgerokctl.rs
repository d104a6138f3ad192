//! `dumgerokctl`: asks the agent of this machine.

#![forbid(unsafe_code)]

use clap::Parser;
use dumgerok_agent::{become_command, become_guard, become_keeper, run, say, Arguments};
use std::process::ExitCode;

fn main() -> ExitCode {
    if let Some(status) = become_command().or_else(become_guard).or_else(become_keeper) {
        return ExitCode::from(status);
    }
    match run(Arguments::parse()) {
        Ok(()) => ExitCode::SUCCESS,
        Err(failure) => {
            if !failure.is_told() {
                say(format!("dumgerokctl: {failure}"));
            }
            failure.status()
        }
    }
}
