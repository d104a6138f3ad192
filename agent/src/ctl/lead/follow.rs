//! What an agent says to one who goes by it, over as many connections as it takes.

use super::super::agent::Agent;
use super::super::Failure;
use super::pace::Pace;
use crate::boot_time::BootTime;
use crate::say::say;
use serde_json::{json, Value};
use signal_hook::consts::SIGCHLD;
use signal_hook::iterator::Signals;
use std::collections::{BTreeMap, BTreeSet};
use std::io;
use std::path::Path;
use std::sync::mpsc::{channel, Receiver, Sender};
use std::thread;
use std::time::Duration;

/// Where there is no agent it is looked for so often.
const LOOK: Duration = Duration::from_millis(200);

/// A group without a majority that is younger than this may be on its way to a greater one.
const SETTLES: Duration = Duration::from_secs(1);

/// What wakes one who follows. Lines and ends are those of a connection, by its number.
enum News {
    Line(u64, Value),
    Ended(u64),
    Child,
}

/// A lease, and until when it may be relied on.
#[derive(Clone, Copy, Debug, PartialEq, Eq)]
pub struct Held {
    pub epoch: u64,
    pub until: BootTime,
}

impl Held {
    /// What is held behind an event that says so. The epoch of a renewal may be a greater one: what runs under the lease keeps the one that it was given.
    fn told(before: Option<Held>, epoch: u64, until: BootTime) -> Held {
        Held { epoch: before.map_or(epoch, |before| before.epoch), until }
    }
}

/// An answer to `status`, and when it was asked for: it was so at some time behind that.
#[derive(Clone, Debug)]
pub struct Said {
    pub status: Value,
    pub asked: BootTime,
}

impl Said {
    /// Whether it works in a group that is made: a young one of a minority is the first step to a greater one, where a member left.
    pub fn is_made(&self) -> bool {
        let is_young = self.status["since_ms"].as_u64().map_or(true, |since| since < SETTLES.as_millis() as u64);
        self.status["phase"] == "Normal" && (self.status["majority"] == true || !is_young)
    }

    pub fn own(&self) -> Option<u8> {
        self.status["node"].as_u64().and_then(|node| u8::try_from(node).ok())
    }

    pub fn members(&self) -> Vec<u8> {
        nodes(&self.status, "members")
    }

    /// Whether this machine is to have no lease.
    pub fn is_drained(&self) -> bool {
        self.status["draining"] == true
    }

    pub fn has_leases(&self) -> bool {
        self.status["lease_ms"].as_u64().map_or(false, |ms| ms > 0)
    }
}

fn nodes(of: &Value, field: &str) -> Vec<u8> {
    let all = of[field].as_array().map(Vec::as_slice).unwrap_or_default();
    all.iter().filter_map(|node| u8::try_from(node.as_u64()?).ok()).collect()
}

pub struct Follow<'a> {
    socket: &'a Path,
    /// It is asked for its status so often.
    pause: Duration,
    agent: Option<Agent>,
    connection: u64,
    to: Sender<News>,
    from: Receiver<News>,
    serial: u64,
    /// The questions without an answer, and when they were asked.
    asked: BTreeMap<u64, BootTime>,
    /// When it is asked, or looked for, again.
    next: BootTime,
    was_told: bool,
    /// The last answer of all, and the last of a node that lives and works in a group that is made.
    pub last: Option<Said>,
    pub made: Option<Said>,
    /// Whether it is asked which machines are silent, too, where it has leases; the number of that question, and the last answer.
    asks_silent: bool,
    silent_asked: Option<u64>,
    silent: Vec<u8>,
    /// The leases that were asked for on this connection, and what is held of them.
    claims: BTreeMap<String, Option<Held>>,
    pace: Pace,
}

impl Follow<'_> {
    pub fn start(socket: &Path, pause: Duration, asks_silent: bool) -> io::Result<Follow<'_>> {
        let (to, from) = channel();
        let (mut signals, wakes) = (Signals::new([SIGCHLD])?, to.clone());
        thread::Builder::new().spawn(move || signals.forever().all(|_| wakes.send(News::Child).is_ok()))?;
        Ok(Follow {
            socket,
            pause,
            agent: None,
            connection: 0,
            to,
            from,
            serial: 0,
            asked: BTreeMap::new(),
            next: BootTime::now(),
            was_told: false,
            last: None,
            made: None,
            asks_silent,
            silent_asked: None,
            silent: Vec::new(),
            claims: BTreeMap::new(),
            pace: Pace::new(BootTime::now()),
        })
    }

    /// Waits for something new for so long at most; whether a child ended.
    pub fn wait(&mut self, longest: Duration) -> Result<bool, Failure> {
        let now = BootTime::now();
        if now >= self.next {
            // who has a lease has to be heard more often than others
            let kept = self.kept().filter(|_| !self.claims.is_empty());
            self.next = now.after(kept.map_or(self.pause, |kept| (kept / 8).min(self.pause)));
            if self.agent.is_none() {
                self.connect();
            }
            self.ask(json!({"do": "status"}));
            if self.asks_silent && self.last.as_ref().map_or(false, Said::has_leases) {
                self.silent_asked = self.ask(json!({"do": "silent"}));
            }
        }
        let mut news = self.from.recv_timeout(longest.min(self.next.since(BootTime::now()))).ok();
        let mut has_child_ended = false;
        while let Some(one) = news {
            match one {
                News::Child => has_child_ended = true,
                News::Line(connection, line) if connection == self.connection => self.take(line)?,
                News::Ended(connection) if connection == self.connection => self.lose("the agent ended the connection"),
                News::Line(..) | News::Ended(_) => {}
            }
            news = self.from.try_recv().ok();
        }
        Ok(has_child_ended)
    }

    /// For how long grants are kept.
    fn kept(&self) -> Option<Duration> {
        self.last.as_ref()?.status["lease_ms"].as_u64().map(Duration::from_millis)
    }

    fn connect(&mut self) {
        let connected = Agent::connect(self.socket).and_then(|mut agent| {
            self.connection += 1;
            let (mut reader, to, connection) = (agent.reader()?, self.to.clone(), self.connection);
            thread::Builder::new().spawn(move || {
                while let Ok(line) = reader.hear() {
                    if to.send(News::Line(connection, line)).is_err() {
                        return;
                    }
                }
                let _over = to.send(News::Ended(connection));
            })?;
            agent.say(&json!({"do": "watch"}))?;
            Ok(agent)
        });
        match connected {
            Ok(agent) => {
                if std::mem::take(&mut self.was_told) {
                    say("dumgerokctl: an agent answers again");
                }
                self.agent = Some(agent);
            }
            Err(why) => self.lose(&why.to_string()),
        }
    }

    /// There is no connection: what was asked for on it is void.
    fn lose(&mut self, why: &str) {
        if !std::mem::replace(&mut self.was_told, true) {
            say(format!("dumgerokctl: {why}; it is looked for"));
        }
        self.agent = None;
        self.asked.clear();
        self.claims.clear();
        self.silent.clear();
        self.next = BootTime::now().after(LOOK);
    }

    /// The members of a group to which shards fall: those whose machines aren't drained, and answer.
    pub fn owners(&self, said: &Said) -> Vec<u8> {
        let drained = nodes(&said.status, "drained");
        let has_part = |member: &u8| !drained.contains(member) && !self.silent.contains(member);
        said.members().into_iter().filter(has_part).collect()
    }

    /// Asks something that is to be answered; the question's number.
    fn ask(&mut self, mut question: Value) -> Option<u64> {
        self.serial += 1;
        question["request"] = json!(self.serial);
        // before it is said: the answer was so at some time behind this
        let asked = BootTime::now();
        match self.agent.as_mut()?.say(&question) {
            Ok(()) => {
                self.asked.insert(self.serial, asked);
                Some(self.serial)
            }
            Err(why) => {
                self.lose(&why.to_string());
                None
            }
        }
    }

    fn take(&mut self, line: Value) -> Result<(), Failure> {
        let name = line["name"].as_str().unwrap_or_default();
        match line["event"].as_str() {
            Some("held") => {
                let held = line["epoch"].as_u64().zip(line["until_ms"].as_u64());
                if let (Some(claim), Some((epoch, until))) = (self.claims.get_mut(name), held) {
                    let before = claim.replace(Held::told(*claim, epoch, BootTime::of_ms(until)));
                    if before.is_none() {
                        self.pace.had(BootTime::now());
                    }
                }
            }
            Some("lost") => drop(self.claims.get_mut(name).map(Option::take)),
            Some("refused") => {
                self.claims.remove(name);
                // after a time in which this process was stopped it asks anew
                let why = line["why"].as_str().unwrap_or("?");
                return if why == "Silent" { Ok(()) } else { Err(Failure::Refused(why.to_string())) };
            }
            // what changed is asked for at once
            Some("group" | "majority" | "state") => self.next = BootTime::now(),
            _ => {
                let number = line["request"].as_u64();
                let asked = number.and_then(|number| self.asked.remove(&number));
                if number.is_some() && number == self.silent_asked {
                    // an agent of before refuses: then all that are members count
                    self.silent = nodes(&line, "silent");
                    return Ok(());
                }
                return asked.map_or(Ok(()), |asked| self.take_answer(line, asked));
            }
        }
        Ok(())
    }

    fn take_answer(&mut self, line: Value, asked: BootTime) -> Result<(), Failure> {
        if line["ok"] == false {
            // a lease that is given back while the agent gives it up itself, since this process was stopped
            if line["error"] == "Unclaimed" {
                return Ok(());
            }
            let why = line["why"].as_str().or(line["error"].as_str()).unwrap_or("?");
            return Err(Failure::Refused(why.to_string()));
        }
        if let Some(now_ms) = line["now_ms"].as_u64() {
            let is_own_clock = (asked.ms()..=BootTime::now().ms()).contains(&now_ms);
            let other = || Failure::Usage("the agent's clock is another one than this machine's".to_string());
            return is_own_clock.then_some(()).ok_or_else(other);
        }
        if !line["phase"].is_null() {
            let said = Said { status: line, asked };
            if said.is_made() && said.status["alive"] == true {
                self.made = Some(said.clone());
            }
            self.last = Some(said);
        }
        Ok(())
    }

    /// Asks for some of the leases of these names, for which it isn't asked yet, and gives up some for which it was asked in vain.
    pub fn claim_some(&mut self, names: &BTreeSet<String>) {
        let kept = self.kept().unwrap_or(Duration::MAX);
        if self.pace.is_late(self.waits(), names.len(), kept, BootTime::now()) {
            let waited: Vec<String> = self.claims.iter().filter(|(_, held)| held.is_none()).map(|(name, _)| name.clone()).collect();
            waited.iter().for_each(|name| self.give_back(name));
        }
        for name in self.pace.next(names, self.waits()) {
            if self.ask(json!({"do": "acquire", "name": name})).is_some() {
                self.claims.insert(name, None);
            }
        }
    }

    pub fn held(&self, name: &str) -> Option<Held> {
        self.claims.get(name).copied().flatten()
    }

    /// The leases that were asked for.
    pub fn claimed(&self) -> BTreeSet<String> {
        self.claims.keys().cloned().collect()
    }

    fn waits(&self) -> usize {
        self.claims.values().filter(|held| held.is_none()).count()
    }

    /// Nothing relies on a lease any more: it may go to another machine at once.
    pub fn give_back(&mut self, name: &str) {
        if self.claims.remove(name).is_some() {
            self.ask(json!({"do": "release", "name": name}));
        }
    }

    /// Whether all that was asked is answered.
    pub fn is_answered(&self) -> bool {
        self.asked.is_empty()
    }
}

#[cfg(test)]
mod tests {
    use super::*;

    #[test]
    fn a_lease_that_is_renewed_under_a_greater_epoch_keeps_its_first_one() {
        let at = BootTime::of_ms;
        let held = Held::told(None, 256, at(1000));
        assert_eq!(held, Held { epoch: 256, until: at(1000) });
        assert_eq!(Held::told(Some(held), 384, at(2000)), Held { epoch: 256, until: at(2000) });
        assert_eq!(Held::told(None, 384, at(2000)).epoch, 384);
    }

    #[test]
    fn a_lease_that_the_agent_gave_up_itself_needs_no_giving_back() {
        let mut follow = Follow::start(Path::new("/no/agent"), LOOK, false).unwrap();
        let mut answered = |error: &str| follow.take_answer(json!({"ok": false, "error": error}), BootTime::now()).is_ok();
        assert!(answered("Unclaimed") && !answered("Full") && !answered("NoLeases"));
    }
}
