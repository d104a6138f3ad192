//! Leases: who has one may act alone.

use super::agent::PAUSE;
use super::{Agent, Connection, Error, Request};
use rustix::time::{clock_gettime_dynamic, DynamicClockId};
use serde_json::Value;
use std::io::ErrorKind;
use std::sync::{Arc, Condvar, Mutex, MutexGuard, PoisonError};
use std::thread::{self, JoinHandle};
use std::time::{Duration, Instant};

/// Until the agent tells how long a lease is granted it is asked so often; then 16 times in that, which is twice as often as it has to be.
const FIRST_PAUSE: Duration = Duration::from_millis(20);
const HEARD: u64 = 16;

/// A machine that is drained is asked again so much later.
const LONG_PAUSE: Duration = Duration::from_secs(1);

/// The agent's own answers are waited for so long, and that to the end of a lease.
const ANSWER: Duration = Duration::from_secs(10);
const LAST_ANSWER: Duration = Duration::from_secs(1);

/// The time since the machine was started, by the clock by which leases end; None where the machine has no such clock.
fn boot_time() -> Option<Duration> {
    let now = clock_gettime_dynamic(DynamicClockId::Boottime).ok()?;
    Some(Duration::new(u64::try_from(now.tv_sec).ok()?, u32::try_from(now.tv_nsec).ok()?))
}

/// A lease that was had. While it `lasts` nobody else in the cluster has one of its name, as long as the machines' clocks go right: look before each step. A
/// process may be stopped behind its look, so let what is written to refuse a smaller epoch than it has seen. A thread renews the lease; where it is dropped it
/// may go to another at once. Where the machine is drained it doesn't last any more: whoever has it ends its work and gives it back.
pub struct Lease {
    pub name: String,
    /// Greater than that of each lease of this name before.
    pub epoch: u64,
    keeping: Keeping,
}

impl Lease {
    /// It may be relied on for so long, unless it is renewed, also to end its work.
    pub fn left(&self) -> Duration {
        let until = self.keeping.shared.lock().until;
        boot_time().map_or(Duration::ZERO, |now| until.saturating_sub(now))
    }

    /// Whether it may be relied on now, and isn't to be given back.
    pub fn lasts(&self) -> bool {
        let left = self.left();
        let mut known = self.keeping.shared.lock();
        known.is_left |= known.is_drained || left == Duration::ZERO;
        !known.is_left
    }

    /// Its work is done. An error where the lease was over before, or a look said that it doesn't last.
    pub fn give_back(self) -> Result<(), Error> {
        let is_left = self.keeping.shared.lock().is_left;
        match !is_left && self.left() > Duration::ZERO {
            true => Ok(()),
            false => Err(Error::lost(format!("the lease {} was over before its work was", self.name), false)),
        }
    }
}

/// What the thread and who waits for it share.
#[derive(Default)]
struct Known {
    epoch: Option<u64>,
    until: Duration,
    failure: Option<Error>,
    is_over: bool,
    /// Whether the machine is drained.
    is_drained: bool,
    /// Whether a look said that the lease doesn't last.
    is_left: bool,
    /// By which the agent is asked.
    connection: Option<Connection>,
}

#[derive(Default)]
struct Shared {
    known: Mutex<Known>,
    news: Condvar,
}

impl Shared {
    fn lock(&self) -> MutexGuard<'_, Known> {
        self.known.lock().unwrap_or_else(PoisonError::into_inner)
    }

    fn say(&self, request: &Request) -> Result<(), Error> {
        let said = self.lock().connection.as_mut().map_or(Ok(()), |connection| connection.say(request));
        said.map_err(|why| Error::lost(why, false))
    }

    fn is_over(&self) -> bool {
        self.lock().is_over
    }

    /// A line came that is no answer to `acquire`.
    fn take(&self, line: &Value) -> Result<(), Error> {
        let mut known = self.lock();
        let epoch = line["epoch"].as_u64();
        known.is_drained = line["draining"].as_bool().unwrap_or(known.is_drained);
        if known.is_drained && known.epoch.is_none() {
            return Err(Error::lost("this machine is drained", false));
        }
        match line["event"].as_str() {
            // a renewal may have a greater epoch: what goes on under the lease keeps the first one
            Some("held") if known.epoch <= epoch => {
                known.until = Duration::from_millis(line["until_ms"].as_u64().unwrap_or(0));
                known.epoch = known.epoch.or(epoch);
                self.news.notify_all();
                Ok(())
            }
            Some("refused") if line["why"] != "Silent" => {
                Err(Error::Refused { name: line["why"].as_str().unwrap_or("?").to_string(), why: None, is_in_doubt: false })
            }
            Some("held" | "lost" | "refused") => Err(Error::lost("the lease is over", false)),
            _ => Ok(()),
        }
    }
}

/// The thread that asks for a lease, over restarts of the agent until it is had, and then renews it.
struct Keeping {
    shared: Arc<Shared>,
    thread: Option<JoinHandle<()>>,
}

impl Keeping {
    fn begin(agent: Agent, name: String) -> Result<Keeping, Error> {
        let shared = Arc::new(Shared::default());
        let of_thread = Arc::clone(&shared);
        let thread = thread::Builder::new().spawn(move || keep(&agent, &name, &of_thread));
        Ok(Keeping { shared, thread: Some(thread.map_err(Error::NoAgent)?) })
    }

    /// The epoch once it is had; None where that isn't so in time.
    fn wait(&self, wait: Option<Duration>) -> Result<Option<u64>, Error> {
        let begin = Instant::now();
        let mut known = self.shared.lock();
        loop {
            if let Some(why) = known.failure.take() {
                return Err(why);
            }
            let left = wait.map(|wait| wait.saturating_sub(begin.elapsed()));
            if known.epoch.is_some() || left == Some(Duration::ZERO) {
                return Ok(known.epoch);
            }
            let waited = self.shared.news.wait_timeout(known, left.unwrap_or(ANSWER));
            known = waited.unwrap_or_else(PoisonError::into_inner).0;
        }
    }
}

impl Drop for Keeping {
    /// Nothing relies on it any more: it is given back.
    fn drop(&mut self) {
        self.shared.lock().is_over = true;
        // whose answer wakes the thread
        let _ended = self.shared.say(&Request::Status);
        if let Some(thread) = self.thread.take() {
            let _panicked = thread.join();
        }
    }
}

fn keep(agent: &Agent, name: &str, shared: &Shared) {
    loop {
        let done = hold(agent, name, shared);
        let mut known = shared.lock();
        known.connection = None;
        match done {
            Err(why) if !why.is_soon_over() => known.failure = Some(why),
            _ if known.epoch.is_none() && !known.is_over => {
                let pause = if known.is_drained { LONG_PAUSE } else { PAUSE };
                drop(known);
                thread::sleep(pause);
                continue;
            }
            _ => {}
        }
        shared.news.notify_all();
        return;
    }
}

/// Asks for a lease on a connection, and is heard there, until it is to be given back.
fn hold(agent: &Agent, name: &str, shared: &Shared) -> Result<(), Error> {
    let lost = |why| Error::lost(why, false);
    let mut connection = agent.open()?;
    connection.be_patient_for(Some(ANSWER)).map_err(lost)?;
    let asked = boot_time();
    let answer = connection.ask(&Request::Acquire { name }).map_err(lost).and_then(Error::checked)?;
    let now = answer["now_ms"].as_u64().map(Duration::from_millis);
    // whole milliseconds: what is left of one is left out
    let is_own_clock = now.map_or(false, |now| asked <= Some(now + Duration::from_millis(1)) && Some(now) <= boot_time());
    if !is_own_clock {
        let name = "OtherClock".to_string();
        return Err(Error::Refused { name, why: Some("the agent's clock is another one than this process has".to_string()), is_in_doubt: false });
    }
    let mut reader = connection.reader().map_err(lost)?;
    shared.lock().connection = Some(connection);
    // at once, for the machine may be drained
    shared.say(&Request::Status)?;
    listen(&mut reader, shared)?;
    reader.be_patient_for(Some(LAST_ANSWER)).map_err(lost)?;
    shared.say(&Request::Release { name })?;
    while !reader.answer(drop).map_err(lost)?["phase"].is_null() {}
    Ok(())
}

/// Hears what comes, and asks where nothing does: one who asks for nothing is taken for stopped.
fn listen(reader: &mut Connection, shared: &Shared) -> Result<(), Error> {
    let lost = |why| Error::lost(why, false);
    let mut pause = FIRST_PAUSE;
    while !shared.is_over() {
        reader.be_patient_for(Some(pause)).map_err(lost)?;
        match reader.hear() {
            Ok(line) => {
                let ms = line["lease_ms"].as_u64().filter(|ms| *ms > 0);
                pause = ms.map_or(pause, |ms| Duration::from_millis((ms / HEARD).max(1)));
                shared.take(&line)?;
            }
            Err(why) if matches!(why.kind(), ErrorKind::WouldBlock | ErrorKind::TimedOut) => shared.say(&Request::Status)?,
            Err(why) => return Err(lost(why)),
        }
    }
    Ok(())
}

impl Agent {
    /// The lease of a name, which is waited for without an end, or for so long: then it is None. Who runs a command of its own runs it by `dumgerokctl lock`,
    /// which kills it in time.
    pub fn lock(&self, name: &str, wait: Option<Duration>) -> Result<Option<Lease>, Error> {
        let keeping = Keeping::begin(self.clone(), name.to_string())?;
        let epoch = keeping.wait(wait)?;
        Ok(epoch.map(|epoch| Lease { name: name.to_string(), epoch, keeping }))
    }

    /// A lease for each time that this process comes to have it, without an end. One has to be dropped before the next one is asked for.
    pub fn lead<'a>(&'a self, name: &'a str) -> impl Iterator<Item = Result<Lease, Error>> + 'a {
        std::iter::repeat_with(move || self.lock(name, None)).filter_map(Result::transpose)
    }
}

#[cfg(test)]
mod tests {
    use super::*;
    use serde_json::json;

    #[test]
    fn a_machine_that_is_drained_has_no_lease_for_long() {
        let (shared, status) = (Shared::default(), |draining: bool| json!({"ok": true, "phase": "Normal", "draining": draining}));
        shared.take(&status(false)).unwrap();
        assert!(matches!(shared.take(&status(true)), Err(Error::Lost { .. })), "none is asked for there");
        shared.take(&status(false)).unwrap();
        shared.take(&json!({"event": "held", "name": "a", "epoch": 7, "until_ms": 5000})).unwrap();
        shared.take(&status(true)).unwrap();
        shared.take(&json!({"event": "held", "name": "a", "epoch": 7, "until_ms": 6000})).unwrap();
        let known = shared.lock();
        assert!(known.is_drained && known.until == Duration::from_millis(6000), "it counts on until it is given back");
    }

    #[test]
    fn a_lease_is_as_the_agent_last_told_it() {
        let shared = Shared::default();
        let told = || {
            let known = shared.lock();
            (known.epoch, known.until)
        };
        shared.take(&json!({"ok": true, "phase": "Normal", "lease_ms": 2000})).unwrap();
        assert_eq!(told().0, None);
        for (until, epoch) in [(1500, 7), (1800, 9), (2100, 7)] {
            shared.take(&json!({"event": "held", "name": "a", "epoch": epoch, "until_ms": until})).unwrap();
            assert_eq!(told(), (Some(7), Duration::from_millis(until)));
        }
        for line in [
            json!({"event": "held", "name": "a", "epoch": 6, "until_ms": 5000}),
            json!({"event": "lost", "name": "a", "epoch": 7}),
            json!({"event": "refused", "name": "a", "why": "Silent"}),
        ] {
            assert!(matches!(shared.take(&line), Err(Error::Lost { is_in_doubt: false, .. })), "{line}");
        }
        assert!(shared.take(&json!({"event": "refused", "name": "a", "why": "Full"})).unwrap_err().is_refused("Full"));
        assert_eq!(told(), (Some(7), Duration::from_millis(2100)), "what was told counts on");
    }
}
