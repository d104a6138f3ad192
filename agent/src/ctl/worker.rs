//! Works on jobs by running a command for each, over one connection.

use super::agent::Agent;
use super::guarded::{Guarded, PAYLOAD};
use super::interrupts::Interrupts;
use super::show;
use super::Failure;
use crate::own_session;
use crate::say::say;
use dumgerok_client::{Back, JobKey, Request};
use serde_json::Value;
use std::ffi::OsString;
use std::io;
use std::path::Path;
use std::sync::mpsc::{channel, Receiver, RecvTimeoutError};
use std::thread;
use std::time::{Duration, Instant};

/// How often a running command is looked at.
const LOOK: Duration = Duration::from_millis(20);

/// A job whose command failed waits for so long, and twice as long after each further failure.
const FIRST_PAUSE: Duration = Duration::from_millis(500);
const LONGEST_PAUSE: Duration = Duration::from_secs(30);

/// Behind so many failures in a row the worker itself pauses, too: a command that always fails doesn't go through all jobs.
const MAX_FAILURES: u32 = 8;

/// What came of a job.
enum Outcome {
    Done,
    /// Its command failed, or ran for too long.
    Failed(&'static str),
    /// It is put aside: it failed that often.
    Aside(u64),
    /// It isn't this node's any more.
    Stopped,
    /// Its command ended well, and its end was refused for the reason of this name.
    NotFinished(String),
}

/// How a command ended.
enum Ended {
    Well,
    Badly,
    Late,
    Stopped,
}

pub struct Worker<'a> {
    pub socket: &'a Path,
    pub queues: &'a [u8],
    pub once: bool,
    /// A command that runs for longer is ended, and its job has failed.
    pub timeout: Option<Duration>,
    /// A command that is to end has so long for it, from a SIGTERM on.
    pub grace: Duration,
    /// A job that failed so often is put aside.
    pub tries: Option<u64>,
    pub command: &'a [OsString],
}

/// Waits for the next job. Events of jobs before it are passed over.
pub fn next_job(agent: &mut Agent, queues: &[u8]) -> Result<Value, Failure> {
    agent.say(&Request::Take { queues, wait: true })?;
    loop {
        let line = agent.hear()?;
        if !line["ok"].is_null() {
            return accepted(line);
        }
    }
}

fn accepted(reply: Value) -> Result<Value, Failure> {
    match reply["ok"] == true {
        true => Ok(reply),
        false => Err(Failure::Refused(reply["error"].as_str().unwrap_or("?").to_string())),
    }
}

/// A connection whose lines are read by a thread.
struct Link {
    agent: Agent,
    lines: Receiver<Value>,
}

impl Link {
    fn open(socket: &Path) -> io::Result<Link> {
        let mut agent = Agent::connect(socket)?;
        let mut reader = agent.reader()?;
        let (to, lines) = channel();
        thread::Builder::new().spawn(move || {
            while let Ok(line) = reader.hear() {
                if to.send(line).is_err() {
                    return;
                }
            }
        })?;
        Ok(Link { agent, lines })
    }

    /// The answer to a request; events before it are passed over.
    fn ask(&mut self, request: &Request) -> Result<Value, Failure> {
        let said = self.agent.say(request);
        let reply = self.lines.iter().find(|line| !line["ok"].is_null());
        match (reply, said) {
            (Some(reply), _) => Ok(reply),
            (None, Err(why)) => Err(why.into()),
            (None, Ok(())) => Err(ended().into()),
        }
    }
}

fn ended() -> io::Error {
    io::Error::new(io::ErrorKind::UnexpectedEof, "the agent ended the connection")
}

impl Worker<'_> {
    pub fn work(&self) -> Result<(), Failure> {
        let program = self.command.first().ok_or_else(|| Failure::Usage("no COMMAND".to_string()))?;
        if let Some(why) = own_session::why_not(program) {
            return Err(Failure::Usage(format!("{}: {why}", program.to_string_lossy())));
        }
        let (interrupts, mut link, mut failures) = (Interrupts::register()?, Link::open(self.socket)?, 0);
        loop {
            let job = accepted(link.ask(&Request::Take { queues: self.queues, wait: true })?)?;
            let outcome = self.run(&mut link, &job, &interrupts)?;
            told(&job, &outcome);
            match outcome {
                Outcome::Done if self.once => return Ok(()),
                _ if self.once => return Err(Failure::Refused("NotDone".to_string())),
                Outcome::Failed(_) | Outcome::Aside(_) | Outcome::NotFinished(_) => failures += 1,
                Outcome::Done | Outcome::Stopped => failures = 0,
            }
            if failures > MAX_FAILURES {
                thread::sleep(pause(u64::from(failures - MAX_FAILURES)));
            }
        }
    }

    fn run(&self, link: &mut Link, job: &Value, interrupts: &Interrupts) -> Result<Outcome, Failure> {
        let attempt = job["attempt"].as_u64().unwrap_or(1);
        if self.tries.map_or(false, |tries| attempt > tries) {
            // its worker ended each time, as by the job itself
            return self.give_back(link, job, attempt, "");
        }
        interrupts.set_idle(false);
        let ended = self.watch_over(&mut self.spawn(job)?, &link.lines, job, interrupts);
        interrupts.set_idle(true);
        interrupts.end()?;
        match ended? {
            Ended::Well => self.finish(link, job, attempt),
            Ended::Badly => self.give_back(link, job, attempt, "failed"),
            Ended::Late => self.give_back(link, job, attempt, "ran for too long"),
            Ended::Stopped => Ok(Outcome::Stopped),
        }
    }

    fn finish(&self, link: &mut Link, job: &Value, attempt: u64) -> Result<Outcome, Failure> {
        let reply = link.ask(&Request::finish(key_of(job)))?;
        if reply["ok"] == true {
            return Ok(Outcome::Done);
        }
        let error = reply["error"].as_str().unwrap_or("?").to_string();
        if error != "UnknownJob" {
            self.give_back(link, job, attempt, "")?;
        }
        Ok(Outcome::NotFinished(error))
    }

    /// Gives a job back, to be taken again after a pause, or puts it aside.
    fn give_back(&self, link: &mut Link, job: &Value, attempt: u64, why: &'static str) -> Result<Outcome, Failure> {
        let is_last = self.tries.map_or(false, |tries| attempt >= tries);
        let back = if is_last { Back::Aside } else { Back::After(pause(attempt)) };
        match link.ask(&Request::give_back(key_of(job), back))? {
            reply if reply["ok"] == false && reply["error"] == "UnknownJob" => Ok(Outcome::Stopped),
            reply => accepted(reply).map(|_| if is_last { Outcome::Aside(attempt) } else { Outcome::Failed(why) }),
        }
    }

    fn spawn(&self, job: &Value) -> Result<Guarded, Failure> {
        let number = |name, field: &str| (name, job[field].to_string());
        let variables = [
            (PAYLOAD, job["payload"].as_str().unwrap_or_default().to_string()),
            number("DUMGEROK_ORIGIN", "origin"),
            number("DUMGEROK_ID", "id"),
            number("DUMGEROK_QUEUE", "queue"),
            number("DUMGEROK_PRIORITY", "priority"),
            number("DUMGEROK_ATTEMPT", "attempt"),
        ];
        let named = |why| Failure::Usage(format!("the command can't be run: {why}"));
        Guarded::start(self.command, variables).map_err(named)
    }

    /// Waits until a command ends, or ends it: where its job went elsewhere, a signal came or its time is over.
    fn watch_over(
        &self,
        command: &mut Guarded,
        lines: &Receiver<Value>,
        job: &Value,
        interrupts: &Interrupts,
    ) -> Result<Ended, Failure> {
        let begin = Instant::now();
        loop {
            if let Some(status) = command.try_wait()? {
                return Ok(if status.success() { Ended::Well } else { Ended::Badly });
            }
            let is_stopped = match lines.recv_timeout(LOOK) {
                Ok(event) => is_stop(&event, job),
                Err(RecvTimeoutError::Timeout) => false,
                Err(RecvTimeoutError::Disconnected) => {
                    command.end(self.grace)?;
                    return Err(ended().into());
                }
            };
            let is_late = self.timeout.map_or(false, |timeout| begin.elapsed() >= timeout);
            if is_stopped || interrupts.have_come() || is_late {
                command.end(self.grace)?;
                return Ok(if is_late && !is_stopped { Ended::Late } else { Ended::Stopped });
            }
        }
    }
}

fn key_of(job: &Value) -> JobKey {
    let number = |field: &str| job[field].as_u64().unwrap_or_default();
    JobKey { origin: number("origin") as u8, id: number("id") }
}

/// How long a job waits that failed so often.
fn pause(attempt: u64) -> Duration {
    let doublings = attempt.saturating_sub(1).min(6) as u32;
    (FIRST_PAUSE * 2u32.pow(doublings)).min(LONGEST_PAUSE)
}

/// Says what came of a job, but for one that is done.
fn told(job: &Value, outcome: &Outcome) {
    let name = format!("{}:{}", job["origin"], job["id"]);
    let what = match outcome {
        Outcome::Done => return,
        Outcome::Failed(why) => format!("the command of job {name} {why}, it is taken again"),
        Outcome::Aside(attempt) => {
            format!("job {name} was given {attempt} times, it is put aside: `dumgerokctl kick` has it given again")
        }
        Outcome::Stopped => format!("job {name} went to another node, its command was ended"),
        Outcome::NotFinished(error) if error == "UnknownJob" => {
            format!("job {name} went to another node before its command ended")
        }
        Outcome::NotFinished(error) => {
            format!("the command of job {name} ended well, and its end was refused: {error}")
        }
    };
    say(format!("dumgerokctl: {what}"));
}

fn is_stop(event: &Value, job: &Value) -> bool {
    event["event"] == "stop" && event["origin"] == job["origin"] && event["id"] == job["id"]
}

/// One job for a person, as `finish` takes it.
pub fn shown(job: &Value) -> String {
    let [origin, id, queue] = ["origin", "id", "queue"].map(|name| job[name].to_string());
    format!("{origin} {id} of queue {queue}: {}\n", show::payload(job["payload"].as_str().unwrap_or_default()))
}

#[cfg(test)]
mod tests {
    use super::*;

    #[test]
    fn a_pause_doubles_up_to_half_a_minute() {
        let ms: Vec<u128> = (1..10).map(|attempt| pause(attempt).as_millis()).collect();
        assert_eq!(ms, [500, 1000, 2000, 4000, 8000, 16_000, 30_000, 30_000, 30_000]);
    }
}
