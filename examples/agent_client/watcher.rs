//! A watcher by the Rust client: submits a job under a key, and prints what changes until the job is gone.
//!
//!     watcher QUEUE TEXT KEY

use dumgerok_client::{Agent, Change, Error, JobKey, Seen, Submission};
use std::process::ExitCode;
use std::time::Duration;

/// By so many missing beats, three, an agent that hangs is noticed.
const BEAT: Duration = Duration::from_millis(500);

fn watch(agent: &Agent, submission: &Submission) -> Result<(), Error> {
    let mut kept: Option<JobKey> = None;
    for seen in agent.watch(BEAT) {
        match seen? {
            Seen::Back { state: Some(state), gap, restarted } => {
                println!(
                    "members {:?}, coordinator {}, gap {gap}, restarted {restarted}",
                    state.group.members, state.group.coordinator
                )
            }
            Seen::Back { state: None, .. } => println!("nothing was missed"),
            Seen::Lost(why) => println!("nothing is known: {why}"),
            Seen::Change(Change::Group(group)) => {
                println!("members {:?}, coordinator {}", group.members, group.coordinator)
            }
            Seen::Change(Change::Gone(job)) if kept == Some(job) => {
                println!("gone {}:{}", job.origin, job.id);
                return Ok(());
            }
            Seen::Change(_) => {}
        }
        if kept.is_none() {
            let job = agent.submit(submission)?;
            println!("kept {}:{}", job.origin, job.id);
            kept = Some(job);
        }
    }
    Ok(())
}

fn main() -> ExitCode {
    let words: Vec<String> = std::env::args().skip(1).collect();
    let (queue, text, key) = match &words[..] {
        [queue, text, key] => (queue.parse(), text.as_str(), key.as_str()),
        _ => (Ok(u8::MAX), "", ""),
    };
    let queue = match queue {
        Ok(queue) if queue < 16 => queue,
        _ => {
            eprintln!("watcher QUEUE TEXT KEY");
            return ExitCode::from(2);
        }
    };
    match watch(&Agent::of_environment(), &Submission::new(queue, text).with_key(key)) {
        Ok(()) => ExitCode::SUCCESS,
        Err(why) => {
            eprintln!("{why}");
            ExitCode::FAILURE
        }
    }
}
