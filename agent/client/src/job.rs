//! A job that a client works on.

use super::{Connection, Error, Given, JobKey, Request};
use serde_json::Value;
use std::io::ErrorKind;
use std::time::Duration;

/// The node, or another machine, answers within that.
pub(crate) const FAR_ANSWER: Duration = Duration::from_secs(60);

/// How a job is given back.
#[derive(Clone, Copy, Debug, PartialEq, Eq)]
pub enum Back {
    /// Nobody is given it before this time is over.
    After(Duration),
    /// Nobody is given it until `dumgerokctl kick`.
    Aside,
}

/// Where it is dropped without an end, another client is given it.
pub struct Job {
    pub key: JobKey,
    pub queue: u8,
    pub priority: u8,
    pub payload: Vec<u8>,
    /// How often the agent gave it, this time included.
    pub attempt: u32,
    connection: Connection,
    is_stopped: bool,
}

impl Job {
    pub(crate) fn new(given: Given, connection: Connection) -> Job {
        let Given { key, queue, priority, payload, attempt } = given;
        let payload = hex::decode(payload).unwrap_or_default();
        Job { key, queue, priority, payload, attempt, connection, is_stopped: false }
    }

    /// Its name, the same each time that it is given.
    pub fn name(&self) -> String {
        format!("{}:{}", self.key.origin, self.key.id)
    }

    fn is_stop(&self, line: &Value) -> bool {
        line["event"] == "stop" && line["origin"] == self.key.origin && line["id"] == self.key.id
    }

    /// Whether work on it is to end: it went to another node, or the agent ended.
    pub fn is_stopped(&mut self) -> bool {
        while !self.is_stopped {
            match self.connection.hear_now() {
                Ok(Some(line)) => self.is_stopped = self.is_stop(&line),
                Ok(None) => return false,
                Err(_) => self.is_stopped = true,
            }
        }
        true
    }

    /// The work is done.
    pub fn finish(self) -> Result<(), Error> {
        let job = self.key;
        self.end(&Request::finish(job))
    }

    /// The work can't be done now, or at all.
    pub fn give_back(self, back: Back) -> Result<(), Error> {
        let job = self.key;
        self.end(&Request::give_back(job, back))
    }

    fn end(mut self, request: &Request) -> Result<(), Error> {
        if self.is_stopped() {
            return Err(Error::Stopped);
        }
        let asked = self.connection.be_patient_for(Some(FAR_ANSWER)).and_then(|()| self.connection.say(request));
        let reply = asked
            .and_then(|()| self.connection.answer(drop))
            .map_err(|why| Error::lost(late(&why, FAR_ANSWER), true))?;
        Error::checked(reply).map(drop)
    }
}

/// A wait that ended is told as one.
pub(crate) fn late(why: &std::io::Error, wait: Duration) -> String {
    match why.kind() {
        ErrorKind::WouldBlock | ErrorKind::TimedOut => format!("no answer in {} s", wait.as_secs_f64()),
        _ => why.to_string(),
    }
}
