//! What changes at the node, over restarts of the agent.

use super::agent::PAUSE;
use super::{Agent, Change, Connection, Error, Request, State, PATIENCE};
use serde::Deserialize;
use serde_json::Value;
use std::collections::VecDeque;
use std::thread;
use std::time::Duration;

/// So many missing beats end a connection.
const BEATS: u32 = 3;

/// What a watcher sees.
#[derive(Clone, Debug, PartialEq)]
pub enum Seen {
    /// The agent answers. `state` is there where changes may have been missed, or at the begin; `gap` says whether some may have been, and `restarted`
    /// whether it is another life of the agent.
    Back {
        state: Option<Box<State>>,
        gap: bool,
        restarted: bool,
    },
    Change(Change),
    /// The connection ended, or no beat came: until the agent is back nothing is known.
    Lost(String),
}

/// An iterator without an end. One that was refused from the begin says why once, and ends.
pub struct Watch {
    agent: Agent,
    every: Duration,
    connection: Option<Connection>,
    last: Option<u64>,
    life: Option<String>,
    is_lost: bool,
    is_over: bool,
    seen: VecDeque<Seen>,
}

impl Watch {
    pub(crate) fn new(agent: Agent, every: Duration) -> Watch {
        Watch {
            agent,
            every,
            connection: None,
            last: None,
            life: None,
            is_lost: false,
            is_over: false,
            seen: VecDeque::new(),
        }
    }

    /// Opens a connection; what the agent says first.
    fn begin(&mut self) -> Result<Seen, Error> {
        let mut connection = self.agent.open()?;
        let request = Request::Watch { since: self.last, every_ms: Some(self.every.as_millis() as u64) };
        let asked = connection.be_patient_for(Some(PATIENCE)).and_then(|()| connection.ask(&request));
        let line = Error::checked(asked.map_err(|why| Error::lost(why, false))?)?;
        let patience = connection.be_patient_for(Some(self.every * BEATS));
        patience.map_err(|why| Error::lost(why, false))?;
        let state = State::deserialize(&line).ok().filter(|_| !line["event"].is_null()).map(Box::new);
        let life = line["life"].as_str().unwrap_or_default().to_string();
        let back = Seen::Back {
            gap: self.last.is_some() && state.is_some(),
            restarted: self.life.as_ref().map_or(false, |known| *known != life),
            state,
        };
        self.note(&line);
        (self.connection, self.life, self.is_lost) = (Some(connection), Some(life), false);
        Ok(back)
    }

    fn note(&mut self, line: &Value) {
        self.last = line["change"].as_u64().or(self.last);
    }

    fn lose(&mut self, why: String) {
        self.connection = None;
        if !std::mem::replace(&mut self.is_lost, true) {
            self.seen.push_back(Seen::Lost(why));
        }
    }

    fn step(&mut self) -> Result<(), Error> {
        match self.connection.as_mut().map(Connection::hear) {
            Some(Ok(line)) => {
                self.note(&line);
                self.seen.push_back(Seen::Change(Change::of(line)));
            }
            Some(Err(why)) => self.lose(super::job::late(&why, self.every * BEATS)),
            None => match self.begin() {
                Ok(back) => self.seen.push_back(back),
                Err(why @ Error::Refused { .. }) if self.life.is_none() => return Err(why),
                Err(why) => {
                    self.lose(why.to_string());
                    thread::sleep(PAUSE);
                }
            },
        }
        Ok(())
    }
}

impl Iterator for Watch {
    type Item = Result<Seen, Error>;

    fn next(&mut self) -> Option<Self::Item> {
        while !self.is_over {
            if let Some(seen) = self.seen.pop_front() {
                return Some(Ok(seen));
            }
            if let Err(why) = self.step() {
                self.is_over = true;
                return Some(Err(why));
            }
        }
        None
    }
}
