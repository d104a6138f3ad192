//! A stand-in for the process of leases: it answers the lines that its agent says, votes, and asks for its own clients. Its promises are those of `invite lease`;
//! how soon it asks again is its own.

mod message;

use crate::chance::Chance;
use message::{Body, Client, Message};
use std::collections::{BTreeMap, BTreeSet};

/// Why a vote is refused: the voter waits behind its start, another client has the grant, or the epoch is too small.
const WAITS: u8 = 1;
const HELD: u8 = 2;
const EPOCH: u8 = 3;

/// So many epochs are reserved at a time.
const BLOCK: u64 = 512;

/// Epochs of one machine are so far apart.
const STRIDE: u64 = 128;

/// What stays where the process ends: how many blocks of epochs were taken, and the longest time for which grants were kept.
#[derive(Default)]
pub(super) struct LeaseDisk {
    blocks: u64,
    pub(super) longest: u64,
}

/// By what a process begins.
#[derive(Clone, Copy)]
pub(super) struct Terms {
    pub(super) own: u8,
    pub(super) voters: u8,
    /// For how long a grant is kept, in milliseconds.
    pub(super) keeps: u64,
    pub(super) is_sealed: bool,
    /// One in so many writes fails, and then the process ends; 0: none.
    pub(super) fails: u64,
}

impl Terms {
    /// For how long a client relies on a lease.
    pub(super) fn relies(&self) -> u64 {
        (31 * self.keeps - 128) / 33
    }

    fn round_trip(&self) -> u64 {
        self.keeps / 100
    }
}

/// What a voter keeps of a name.
struct Vote {
    last: u64,
    holder: Option<Client>,
    ends: u64,
}

/// Who wants a name here.
#[derive(Default)]
struct Want {
    user: u64,
    /// Under which it asks.
    epoch: u64,
    /// Its last request: the number, when it was sent, and who answered.
    number: u64,
    sent: u64,
    granted: BTreeSet<u8>,
    refused: BTreeSet<u8>,
    is_asking: bool,
    /// Under which epoch it holds, and until when.
    held: Option<(u64, u64)>,
    due: u64,
    tries: u32,
    /// Whether its lease is to be renewed under a greater epoch.
    is_outrun: bool,
}

pub(super) struct Grantor {
    terms: Terms,
    number: u64,
    /// No epoch up to the one is granted, for an earlier process may have done so, and none above the other one, which isn't reserved.
    floor: u64,
    bound: u64,
    /// For how much longer an earlier process kept grants.
    longer: u64,
    began: Option<u64>,
    now: u64,
    greatest: u64,
    requests: u64,
    votes: BTreeMap<String, Vote>,
    wants: BTreeMap<String, Want>,
    out: String,
    pub(super) has_failed: bool,
}

impl Grantor {
    /// A process that begins; None where its disk fails.
    pub(super) fn begin(terms: Terms, disk: &mut LeaseDisk, chance: &mut Chance) -> Option<Grantor> {
        let has_failed = terms.fails > 0 && chance.one_in(terms.fails);
        if !has_failed || chance.one_in(2) {
            disk.blocks += 1;
        }
        if has_failed {
            return None;
        }
        let longer = disk.longest.saturating_sub(terms.keeps);
        disk.longest = disk.longest.max(terms.keeps);
        let (number, floor, bound) = (disk.blocks, disk.blocks * BLOCK - 1, (disk.blocks + 1) * BLOCK - 1);
        Some(Grantor {
            terms,
            number,
            floor,
            bound,
            longer,
            began: None,
            now: 0,
            greatest: floor,
            requests: 0,
            votes: BTreeMap::new(),
            wants: BTreeMap::new(),
            out: String::new(),
            has_failed: false,
        })
    }

    /// What it says first.
    pub(super) fn greeting(&self) -> String {
        format!("process {}\n", self.number)
    }

    /// Its whole answer to a line.
    pub(super) fn answer(&mut self, disk: &mut LeaseDisk, line: &str, chance: &mut Chance) -> String {
        let words: Vec<&str> = line.split(' ').collect();
        let now = words.get(1).and_then(|word| word.parse().ok()).unwrap_or_else(|| panic!("{line:?} has no time"));
        assert!(now >= self.now, "the agent's time goes back: {line}");
        self.now = now;
        self.began.get_or_insert(now);
        self.serve_due(disk, chance);
        match words[..] {
            ["tick", _] => {}
            ["deliver", _, hex] => self.deliver(disk, &hex::decode(hex).unwrap(), chance),
            ["acquire", _, name, user] => self.acquire(disk, name, user.parse().unwrap(), chance),
            ["release", _, name, user] => self.release(name, user.parse().unwrap()),
            _ => panic!("{line:?} is no line of an agent"),
        }
        let said = std::mem::take(&mut self.out);
        if self.has_failed {
            return "fault Device\n".to_string();
        }
        let due = self.wants.values().map(|want| want.due).min();
        said + &due.map_or("next\n".to_string(), |due| format!("next {due}\n"))
    }

    fn say(&mut self, line: String) {
        self.out += &line;
        self.out.push('\n');
    }

    fn send(&mut self, to: u8, message: &Message) {
        let bytes = message.encode(self.terms.is_sealed);
        self.say(format!("send {to} {}", hex::encode(bytes)));
    }

    fn others(&self) -> impl Iterator<Item = u8> {
        let own = self.terms.own;
        (0..self.terms.voters).filter(move |voter| *voter != own)
    }

    fn client(&self, user: u64) -> Client {
        Client { machine: self.terms.own, process: self.number, user }
    }

    /// Before it asks or grants, the grants that an earlier process kept for longer than it does are to be over.
    fn has_opened(&self) -> bool {
        self.now >= self.began.unwrap_or(self.now) + self.longer
    }
}

/// Those who want a lease here.
impl Grantor {
    fn acquire(&mut self, disk: &mut LeaseDisk, name: &str, user: u64, chance: &mut Chance) {
        if !self.has_opened() {
            return self.say(format!("refused Waiting {name} {user}"));
        }
        assert!(!self.wants.contains_key(name), "the agent asks for {name}, which a client here wants");
        let mut want = Want { user, ..Want::default() };
        self.ask(disk, name, &mut want, chance);
        self.wants.insert(name.to_string(), want);
    }

    fn release(&mut self, name: &str, user: u64) {
        match self.wants.remove(name) {
            Some(mut want) if want.user == user => self.stop(name, &mut want),
            other => {
                self.wants.extend(other.map(|want| (name.to_string(), want)));
                self.say(format!("refused Unclaimed {name} {user}"));
            }
        }
    }

    fn serve_due(&mut self, disk: &mut LeaseDisk, chance: &mut Chance) {
        let names: Vec<String> = self.wants.iter().filter(|(_, want)| want.due <= self.now).map(|(name, _)| name.clone()).collect();
        for name in names {
            let mut want = self.wants.remove(&name).unwrap();
            match want.held {
                Some((_, until)) if self.now < until => self.renew(disk, &name, &mut want, until, chance),
                Some(_) => {
                    self.stop(&name, &mut want);
                    self.ask(disk, &name, &mut want, chance);
                }
                None if want.is_asking => self.rest(&name, &mut want, self.now, chance),
                None => self.ask(disk, &name, &mut want, chance),
            }
            self.wants.insert(name, want);
        }
    }

    /// The next epoch above all that it knows of, which no other machine asks under.
    fn raise(&mut self) -> u64 {
        self.greatest = (self.greatest / STRIDE + 1) * STRIDE + u64::from(self.terms.own);
        self.greatest
    }

    fn patience(&self) -> u64 {
        8 * self.terms.round_trip()
    }

    fn ask(&mut self, disk: &mut LeaseDisk, name: &str, want: &mut Want, chance: &mut Chance) {
        (want.epoch, want.is_asking, want.is_outrun, want.due) = (self.raise(), true, false, self.now + self.patience());
        self.request(disk, name, want, chance);
    }

    fn renew(&mut self, disk: &mut LeaseDisk, name: &str, want: &mut Want, until: u64, chance: &mut Chance) {
        want.due = (self.now + self.terms.relies() / 12).min(until);
        if std::mem::take(&mut want.is_outrun) {
            want.epoch = self.raise();
        }
        self.request(disk, name, want, chance);
    }

    /// Asks all voters, its own first.
    fn request(&mut self, disk: &mut LeaseDisk, name: &str, want: &mut Want, chance: &mut Chance) {
        self.requests += 1;
        (want.number, want.sent) = (self.requests, self.now);
        want.granted.clear();
        want.refused.clear();
        let (client, number, own) = (self.client(want.user), want.number, self.terms.own);
        let body = Body::Request { number, keeps: self.terms.keeps, voters: u64::from(self.terms.voters) };
        for voter in self.others() {
            self.send(voter, &Message { client, voter, epoch: want.epoch, body, name: name.to_string() });
        }
        match self.vote(disk, name, client, want.epoch, chance) {
            Ok(()) => self.granted(name, want, own, number),
            Err((reason, lasts)) => {
                let epoch = self.greatest_of(name);
                self.refused(name, want, own, (reason, lasts, epoch), chance);
            }
        }
    }

    /// A voter granted the request of this number: with more than half of them it is held, by when that was sent.
    fn granted(&mut self, name: &str, want: &mut Want, voter: u8, number: u64) {
        if want.number != number || !(want.is_asking || want.held.is_some()) {
            return;
        }
        want.granted.insert(voter);
        let until = want.sent + self.terms.relies();
        let is_news = want.held.map_or(true, |held| held.0 != want.epoch || held.1 < until);
        if 2 * want.granted.len() > usize::from(self.terms.voters) && until > self.now && is_news {
            want.held = Some((want.epoch, until));
            (want.is_asking, want.tries, want.due) = (false, 0, want.sent + self.terms.relies() / 3);
            self.say(format!("held {name} {} {} {until}", want.user, want.epoch));
        }
    }

    /// A voter refused it, for a reason that lasts for so long, and knows of an epoch.
    fn refused(&mut self, name: &str, want: &mut Want, voter: u8, (reason, lasts, epoch): (u8, u64, u64), chance: &mut Chance) {
        self.greatest = self.greatest.max(epoch);
        want.refused.insert(voter);
        if want.held.is_some() {
            if reason == EPOCH && epoch >= want.epoch {
                (want.is_outrun, want.due) = (true, self.now);
            }
        } else if want.is_asking && 2 * want.refused.len() >= usize::from(self.terms.voters) {
            let free = if reason == EPOCH { self.now } else { self.now + lasts.min(self.terms.keeps) };
            self.rest(name, want, free, chance);
        }
    }

    /// Relies on no epoch any more: its user is told so first, and then the voters.
    fn stop(&mut self, name: &str, want: &mut Want) {
        let held = want.held.take();
        if let Some((epoch, _)) = held {
            self.say(format!("lost {name} {epoch}"));
        }
        if held.is_some() || std::mem::take(&mut want.is_asking) {
            for epoch in held.map(|(epoch, _)| epoch).into_iter().filter(|epoch| *epoch != want.epoch).chain([want.epoch]) {
                self.give_up(name, want.user, epoch);
            }
        }
    }

    fn give_up(&mut self, name: &str, user: u64, epoch: u64) {
        let client = self.client(user);
        self.free(name, client, epoch);
        for voter in self.others() {
            self.send(voter, &Message { client, voter, epoch, body: Body::Release, name: name.to_string() });
        }
    }

    /// Gives up, and asks again at random behind this time.
    fn rest(&mut self, name: &str, want: &mut Want, from: u64, chance: &mut Chance) {
        self.stop(name, want);
        want.due = from + 1 + chance.below((2 * self.terms.round_trip()) << want.tries.min(3));
        want.tries += 1;
    }
}

/// What it is as a voter, and what comes of others.
impl Grantor {
    fn greatest_of(&self, name: &str) -> u64 {
        self.votes.get(name).map_or(self.floor, |vote| vote.last)
    }

    /// Grants a lease, or says why it doesn't, and for how long at most.
    fn vote(&mut self, disk: &mut LeaseDisk, name: &str, client: Client, epoch: u64, chance: &mut Chance) -> Result<(), (u8, u64)> {
        let votes_from = self.began.unwrap_or(self.now) + self.longer + self.terms.keeps;
        if self.now < votes_from {
            return Err((WAITS, votes_from - self.now));
        }
        let (last, holder, ends) = self.votes.get(name).map_or((self.floor, None, 0), |vote| (vote.last, vote.holder, vote.ends));
        let (is_own, is_free) = (holder == Some(client), holder.is_none() || ends <= self.now);
        if !is_own && !is_free {
            return Err((HELD, ends - self.now));
        }
        if epoch < last || (epoch == last && !is_own) || !self.reserve(disk, epoch, chance) {
            return Err((EPOCH, 0));
        }
        self.votes.insert(name.to_string(), Vote { last: epoch, holder: Some(client), ends: self.now + self.terms.keeps });
        Ok(())
    }

    /// Reserves epochs up to this one on the disk.
    fn reserve(&mut self, disk: &mut LeaseDisk, epoch: u64, chance: &mut Chance) -> bool {
        if epoch > self.bound {
            self.has_failed |= self.terms.fails > 0 && chance.one_in(self.terms.fails);
            if !self.has_failed || chance.one_in(2) {
                disk.blocks = epoch / BLOCK;
            }
            self.bound = (epoch / BLOCK + 1) * BLOCK - 1;
        }
        !self.has_failed
    }

    fn free(&mut self, name: &str, client: Client, epoch: u64) {
        if let Some(vote) = self.votes.get_mut(name).filter(|vote| vote.holder == Some(client) && vote.last == epoch) {
            vote.holder = None;
        }
    }

    fn deliver(&mut self, disk: &mut LeaseDisk, bytes: &[u8], chance: &mut Chance) {
        let message = match Message::decode(bytes, self.terms.is_sealed) {
            Some(message) => message,
            None => return self.say(format!("refused {}", if self.terms.is_sealed { "Forged" } else { "Bad" })),
        };
        let terms = (self.terms.keeps, u64::from(self.terms.voters));
        let (is_for_client, is_for_voter) = (message.client.machine == self.terms.own, message.voter == self.terms.own);
        match message.body {
            Body::Request { number, keeps, voters } if is_for_voter && (keeps, voters) == terms => {
                self.take_request(disk, message, number, chance);
            }
            Body::Release if is_for_voter => {
                self.free(&message.name, message.client, message.epoch);
                self.wake(&message.name, chance);
            }
            Body::Grant { number } if is_for_client && message.client.process == self.number => self.take_grant(message, number),
            Body::Refusal { number, reason, lasts } if is_for_client && message.client.process == self.number => {
                let wanted = self.wants.remove_entry(&message.name);
                if let Some((name, mut want)) = wanted {
                    if want.user == message.client.user && want.number == number {
                        self.refused(&name, &mut want, message.voter, (reason, lasts, message.epoch), chance);
                    }
                    self.wants.insert(name, want);
                }
            }
            _ => {}
        }
    }

    /// Who asks here gives up for one who asks under a greater epoch: else each has its own machine's vote alone.
    fn take_request(&mut self, disk: &mut LeaseDisk, message: Message, number: u64, chance: &mut Chance) {
        self.greatest = self.greatest.max(message.epoch);
        if let Some((name, mut want)) = self.wants.remove_entry(&message.name) {
            if want.held.is_none() && want.is_asking && want.epoch < message.epoch {
                self.rest(&name, &mut want, self.now + self.patience(), chance);
            }
            self.wants.insert(name, want);
        }
        let (epoch, body) = match self.vote(disk, &message.name, message.client, message.epoch, chance) {
            Ok(()) => (message.epoch, Body::Grant { number }),
            Err((reason, lasts)) => (self.greatest_of(&message.name), Body::Refusal { number, reason, lasts }),
        };
        self.send(message.client.machine, &Message { epoch, body, ..message });
    }

    /// A grant of an epoch that is given up is answered by its release.
    fn take_grant(&mut self, message: Message, number: u64) {
        let mut wanted = self.wants.remove_entry(&message.name);
        let mut is_relied_on = false;
        if let Some((name, want)) = wanted.as_mut().filter(|(_, want)| want.user == message.client.user) {
            let is_held = want.held.map_or(false, |held| held.0 == message.epoch);
            is_relied_on = is_held || (message.epoch == want.epoch && (want.is_asking || want.held.is_some()));
            self.granted(name, want, message.voter, number);
        }
        self.wants.extend(wanted);
        if !is_relied_on {
            self.send(message.voter, &Message { body: Body::Release, ..message });
        }
    }

    /// Lets nobody wait longer for a name that was freed.
    fn wake(&mut self, name: &str, chance: &mut Chance) {
        let soon = self.now + 1 + chance.below(2 * self.terms.round_trip());
        if let Some(want) = self.wants.get_mut(name).filter(|want| want.held.is_none() && !want.is_asking) {
            want.due = want.due.min(soon);
        }
    }
}
