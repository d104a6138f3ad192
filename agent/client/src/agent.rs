//! The agent at a socket.

use super::job::{late, FAR_ANSWER};
use super::{socket, Connection, Error, Given, Job, JobKey, Member, Request, State, Submission, Watch, PATIENCE};
use serde::Deserialize;
use serde_json::Value;
use std::path::PathBuf;
use std::thread;
use std::time::{Duration, Instant};

/// Between two tries.
pub(crate) const PAUSE: Duration = Duration::from_millis(200);

/// The agent at a socket. One that isn't there is waited for, for some time.
#[derive(Clone, Debug)]
pub struct Agent {
    pub socket: PathBuf,
    /// How long an agent that isn't there, or that ends before it answers, is waited for.
    pub patience: Duration,
}

impl Agent {
    pub fn new(socket: impl Into<PathBuf>) -> Agent {
        Agent { socket: socket.into(), patience: PATIENCE }
    }

    /// At $DUMGEROK_SOCKET, or at /run/dumgerok/agent.sock.
    pub fn of_environment() -> Agent {
        Agent::new(socket(None))
    }

    pub(crate) fn open(&self) -> Result<Connection, Error> {
        Connection::open(&self.socket).map_err(Error::NoAgent)
    }

    /// One try: the connection, and the answer to a request on it.
    fn try_once(&self, request: &Request, wait: Option<Duration>) -> Result<(Connection, Value), Error> {
        let mut connection = self.open()?;
        let asked = connection.be_patient_for(wait).and_then(|()| connection.say(request));
        let reply = asked
            .and_then(|()| connection.answer(drop))
            .map_err(|why| Error::lost(late(&why, wait.unwrap_or_default()), true))?;
        Error::checked(reply).map(|reply| (connection, reply))
    }

    /// Tries again while that does no harm: where nobody was there, and where what is asked may be done twice.
    fn ask(&self, request: &Request, wait: Duration, may_be_repeated: bool) -> Result<Value, Error> {
        let (end, changes, mut is_in_doubt) =
            (Instant::now() + self.patience, matches!(request, Request::Submit(_)), false);
        loop {
            let why = match self.try_once(request, Some(wait)) {
                Ok((_, reply)) => return Ok(reply),
                Err(why) => why,
            };
            let is_sure = matches!(why, Error::Refused { is_in_doubt: false, .. });
            // what one try left in doubt no later one makes sure
            is_in_doubt |= changes && why.is_in_doubt();
            if is_sure || (is_in_doubt && !may_be_repeated) || Instant::now() >= end {
                return Err(why.doubted(is_in_doubt));
            }
            thread::sleep(PAUSE);
        }
    }

    fn read<T: for<'a> Deserialize<'a>>(reply: &Value) -> Result<T, Error> {
        T::deserialize(reply).map_err(|why| Error::lost(format!("an answer that can't be read: {why}"), true))
    }

    /// The node and its group.
    pub fn status(&self) -> Result<State, Error> {
        Agent::read(&self.ask(&Request::Status, PATIENCE, true)?)
    }

    /// All nodes of the cluster.
    pub fn members(&self) -> Result<Vec<Member>, Error> {
        Agent::read(&self.ask(&Request::Members, PATIENCE, true)?["members"])
    }

    /// Has a job kept. Under a key it is submitted again where it is in doubt; else that is the error to look at.
    pub fn submit(&self, submission: &Submission) -> Result<JobKey, Error> {
        Agent::read(&self.ask(&Request::Submit(submission), FAR_ANSWER, submission.has_key())?)
    }

    /// The next job of these queues, or of all where there are none of them; None where there is none and it isn't waited for. It is waited for over restarts
    /// of the agent.
    pub fn take(&self, queues: &[u8], wait: bool) -> Result<Option<Job>, Error> {
        let end = Instant::now() + self.patience;
        loop {
            match self.try_once(&Request::Take { queues, wait }, if wait { None } else { Some(PATIENCE) }) {
                Ok((connection, reply)) => return Ok(Some(Job::new(Agent::read::<Given>(&reply)?, connection))),
                Err(why) if why.is_refused("NoJob") => return Ok(None),
                Err(why) if why.is_soon_over() && (wait || Instant::now() < end) => thread::sleep(PAUSE),
                Err(why) => return Err(why),
            }
        }
    }

    /// Jobs that were put aside here may be given again; how many those are.
    pub fn kick(&self, queue: Option<u8>) -> Result<u64, Error> {
        let reply = self.ask(&Request::Kick { queue, origin: None, id: None }, PATIENCE, true)?;
        Agent::read(&reply["kicked"])
    }

    /// The state and each change from now on, without an end; and beats each `every`, by which an agent that hangs is noticed.
    pub fn watch(&self, every: Duration) -> Watch {
        Watch::new(self.clone(), every)
    }
}
