//! A worker by the Rust client: runs a command for each job, with the payload on its standard input.
//!
//!     worker [--queue N].. [--once] COMMAND [WORD..]

use dumgerok_client::{Agent, Back, Error, Job};
use std::io::Write;
use std::process::{Command, ExitCode, Stdio};
use std::thread;
use std::time::Duration;

/// A job that failed so often is put aside.
const TRIES: u32 = 5;

struct Words {
    queues: Vec<u8>,
    once: bool,
    command: Vec<String>,
}

fn words() -> Option<Words> {
    let (mut words, mut left) =
        (Words { queues: Vec::new(), once: false, command: Vec::new() }, std::env::args().skip(1));
    while let Some(word) = left.next() {
        match word.as_str() {
            "--queue" => words.queues.push(left.next()?.parse().ok()?),
            "--once" => words.once = true,
            _ => {
                words.command = std::iter::once(word).chain(left).collect();
                return Some(words);
            }
        }
    }
    None
}

/// Whether the command ended well; Stopped where the job went to another node meanwhile: then the command is killed.
fn run(command: &[String], job: &mut Job) -> Result<bool, Error> {
    let mut child = match Command::new(&command[0]).args(&command[1..]).stdin(Stdio::piped()).spawn() {
        Ok(child) => child,
        Err(_) => return Ok(false),
    };
    if let Some(mut input) = child.stdin.take() {
        // 400 bytes at most, which a pipe holds; a command needn't read them
        let _unread = input.write_all(&job.payload);
    }
    loop {
        if let Ok(Some(status)) = child.try_wait() {
            return Ok(status.success());
        }
        if job.is_stopped() {
            let _ended = child.kill().and_then(|()| child.wait());
            return Err(Error::Stopped);
        }
        thread::sleep(Duration::from_millis(20));
    }
}

fn work(command: &[String], mut job: Job) -> Result<(), Error> {
    let (name, attempt) = (job.name(), job.attempt);
    let back = if attempt < TRIES { Back::After(Duration::from_millis(500) * attempt) } else { Back::Aside };
    match run(command, &mut job)? {
        true => job.finish()?,
        false => job.give_back(back)?,
    }
    println!("job {name}, given for the {attempt}. time, is over");
    Ok(())
}

fn main() -> ExitCode {
    let words = match words() {
        Some(words) => words,
        None => {
            eprintln!("worker [--queue N].. [--once] COMMAND [WORD..]");
            return ExitCode::from(2);
        }
    };
    let agent = Agent::of_environment();
    loop {
        let done = agent.take(&words.queues, true).and_then(|job| job.map_or(Ok(()), |job| work(&words.command, job)));
        match done {
            Ok(()) if words.once => return ExitCode::SUCCESS,
            Ok(()) => {}
            Err(why) if words.once => {
                eprintln!("{why}");
                return ExitCode::FAILURE;
            }
            Err(why) => eprintln!("{why}"),
        }
    }
}
