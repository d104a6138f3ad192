//! A leader by the Rust client: who has the lease writes its epoch to a file, a line each time, and nobody else does meanwhile.
//!
//!     leader lead NAME FILE           while it leads, again and again
//!     leader lock NAME FILE COUNT     so many lines, once, under a lock

use dumgerok_client::{Agent, Error, Lease};
use std::fs::{File, OpenOptions};
use std::io::Write;
use std::process::ExitCode;
use std::thread;
use std::time::Duration;

const STEP: Duration = Duration::from_millis(5);

/// A step under a lease. One whose process was stopped before it writes may come late: a resource that can refuses smaller epochs than it has seen.
fn step(lease: &Lease, file: &mut File) -> Result<(), Error> {
    writeln!(file, "{}", lease.epoch).map_err(Error::NoAgent)?;
    thread::sleep(STEP);
    Ok(())
}

fn lead(agent: &Agent, name: &str, file: &mut File) -> Result<(), Error> {
    for lease in agent.lead(name) {
        let lease = lease?;
        println!("leads under epoch {}", lease.epoch);
        while lease.lasts() {
            step(&lease, file)?;
        }
        println!("epoch {} is over", lease.epoch);
    }
    Ok(())
}

fn lock(agent: &Agent, name: &str, file: &mut File, count: u32) -> Result<(), Error> {
    if let Some(lease) = agent.lock(name, None)? {
        for _ in (0..count).take_while(|_| lease.lasts()) {
            step(&lease, file)?;
        }
        println!("done under epoch {}", lease.epoch);
        // an error where it was over before
        lease.give_back()?;
    }
    Ok(())
}

fn main() -> ExitCode {
    let words: Vec<String> = std::env::args().skip(1).collect();
    let words: Vec<&str> = words.iter().map(String::as_str).collect();
    let opened = |path: &str| OpenOptions::new().create(true).append(true).open(path).map_err(Error::NoAgent);
    let agent = Agent::of_environment();
    let done = match words[..] {
        ["lead", name, path] => opened(path).and_then(|mut file| lead(&agent, name, &mut file)),
        ["lock", name, path, count] if count.parse::<u32>().is_ok() => {
            opened(path).and_then(|mut file| lock(&agent, name, &mut file, count.parse().unwrap_or(0)))
        }
        _ => {
            eprintln!("leader lead NAME FILE | leader lock NAME FILE COUNT");
            return ExitCode::from(2);
        }
    };
    match done {
        Ok(()) => ExitCode::SUCCESS,
        Err(why) => {
            eprintln!("{why}");
            ExitCode::FAILURE
        }
    }
}
