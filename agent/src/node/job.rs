//! A job, as lines and requests name it.

use super::line::LineError;
use serde::{Deserialize, Serialize};
use std::fmt;
use thiserror::Error;

/// The node that keeps a job, and the id that it gave it.
#[derive(Clone, Copy, Debug, PartialEq, Eq, PartialOrd, Ord, Hash, Serialize, Deserialize)]
pub struct JobKey {
    pub origin: u8,
    pub id: u64,
}

/// A job's bytes as hex digits, at most 800 of them. It is a word of the node's lines, so nothing else is made one, wherever it comes from.
#[derive(Clone, Debug, Default, PartialEq, Eq, Serialize, Deserialize)]
#[serde(try_from = "String")]
pub struct Payload(String);

/// Why something is no payload.
#[derive(Debug, Error, PartialEq, Eq)]
pub enum PayloadError {
    #[error("a payload has at most {} bytes, and this one has {0}", Payload::MAX_BYTES)]
    TooLong(usize),
    #[error("hex digits come in twos, and these are {0}")]
    OddDigits(usize),
    #[error("{0:?} is no hex digit")]
    NoDigit(char),
}

impl TryFrom<String> for Payload {
    type Error = PayloadError;

    fn try_from(digits: String) -> Result<Payload, PayloadError> {
        Payload::of_hex(&digits)
    }
}

impl Payload {
    const MAX_BYTES: usize = 400;

    pub fn of_bytes(bytes: &[u8]) -> Result<Payload, PayloadError> {
        if bytes.len() > Payload::MAX_BYTES {
            return Err(PayloadError::TooLong(bytes.len()));
        }
        Ok(Payload(hex::encode(bytes)))
    }

    /// Of hex digits, of either case.
    pub fn of_hex(digits: &str) -> Result<Payload, PayloadError> {
        if let Some(other) = digits.chars().find(|digit| !digit.is_ascii_hexdigit()) {
            return Err(PayloadError::NoDigit(other));
        }
        let bytes = hex::decode(digits).map_err(|_| PayloadError::OddDigits(digits.len()))?;
        Payload::of_bytes(&bytes)
    }

    /// As the node's lines have it: `-` for no bytes.
    fn of_word(word: &str) -> Result<Payload, LineError> {
        let digits = if word == "-" { "" } else { word };
        Payload::of_hex(digits).map_err(|_| LineError)
    }

    pub fn hex(&self) -> &str {
        &self.0
    }
}

impl fmt::Display for Payload {
    fn fmt(&self, f: &mut fmt::Formatter<'_>) -> fmt::Result {
        f.write_str(if self.0.is_empty() { "-" } else { &self.0 })
    }
}

#[derive(Clone, Debug, PartialEq, Eq)]
pub struct Job {
    pub key: JobKey,
    pub queue: u8,
    pub payload: Payload,
    pub priority: u8,
}

impl Job {
    /// Reads `ORIGIN ID QUEUE HEX [P]`.
    pub fn read(words: &[&str]) -> Result<Job, LineError> {
        let (origin, rest) = words.split_first().ok_or(LineError)?;
        Job::read_of(origin.parse()?, rest)
    }

    /// Reads `ID QUEUE HEX [P]`, of a job that `origin` keeps.
    pub fn read_of(origin: u8, words: &[&str]) -> Result<Job, LineError> {
        let (id, queue, payload, priority) = match words {
            [id, queue, payload] => (id, queue, payload, "0"),
            [id, queue, payload, priority] => (id, queue, payload, *priority),
            _ => return Err(LineError),
        };
        let key = JobKey { origin, id: id.parse()? };
        Ok(Job { key, queue: queue.parse()?, payload: Payload::of_word(payload)?, priority: priority.parse()? })
    }
}
