//! All clients.

use super::client::{Client, Next};
use super::{Beats, Door, Peer};
use crate::protocol::{Reply, Tag, Wanted};
use log::{debug, warn};
use std::collections::{BTreeMap, BTreeSet, VecDeque};
use std::io::{self, ErrorKind};
use std::ops::Bound::{Excluded, Unbounded};
use std::time::{Duration, Instant};

/// So many are served at a time. For one more the connection of another that is idle ends, else its own.
const MAX_CLIENTS: usize = 256;

/// So many of them may stay: watch, wait for a job or work on one. The places that are left are for those who ask and go.
const MAX_STAYING: usize = 240;

/// So many requests to take a job may wait.
const MAX_WAITING: usize = 1024;

/// So many that came are taken at a time.
const MAX_AT_A_TIME: usize = 64;

/// Where one that came can't be taken it is tried again so much later.
const PAUSE: Duration = Duration::from_secs(1);

pub type ClientId = usize;

/// A request for a job that isn't there yet.
pub struct Waiting {
    pub client: ClientId,
    pub tag: Tag,
    pub wanted: Wanted,
}

pub struct Clients<D: Door> {
    door: D,
    /// Whether more clients may be waiting to be taken; not before this time where one couldn't be.
    has_more: bool,
    not_before: Option<Instant>,
    /// Tokens from this one on are clients'.
    first: ClientId,
    next: ClientId,
    all: BTreeMap<ClientId, Client<D::Stream>>,
    /// Who had its turn last.
    turn: ClientId,
    waiting: VecDeque<Waiting>,
    /// Clients that ended and weren't given up yet.
    gone: Vec<ClientId>,
    pub cut_off: u64,
}

impl<D: Door> Clients<D> {
    /// Those that come in at a door.
    pub fn at(door: D, first: ClientId) -> Clients<D> {
        Clients {
            door,
            has_more: true,
            not_before: None,
            first,
            next: first,
            all: BTreeMap::new(),
            turn: first,
            waiting: VecDeque::new(),
            gone: Vec::new(),
            cut_off: 0,
        }
    }

    /// Listens at the path anew, where its socket was removed. Those that are served go on.
    pub fn listen_again(&mut self) -> io::Result<()> {
        self.door.open_again()?;
        self.has_more = true;
        Ok(())
    }

    /// Who a client is; None where the system doesn't say so.
    pub fn peer(&self, id: ClientId) -> Option<Peer> {
        self.all.get(&id)?.peer().ok()
    }

    pub fn count(&self) -> usize {
        self.all.len()
    }

    /// One came.
    pub fn wake_listener(&mut self) {
        self.has_more = true;
    }

    /// Whether more of those that came can be taken now.
    pub fn has_more_to_take(&self) -> bool {
        self.has_more && self.not_before.is_none()
    }

    /// Takes those that came; `holders` are those that work on a job.
    pub fn accept(&mut self, now: Instant, holders: impl Fn() -> BTreeSet<ClientId>) {
        if !self.has_more || self.not_before.map_or(false, |at| now < at) {
            return;
        }
        self.not_before = None;
        for _ in 0..MAX_AT_A_TIME {
            match self.door.next() {
                Ok(stream) => {
                    if self.all.len() >= MAX_CLIENTS {
                        self.end_one(&holders());
                    }
                    self.add(Client::new(stream, now));
                }
                Err(error) if error.kind() == ErrorKind::WouldBlock => {
                    self.has_more = false;
                    return;
                }
                Err(error) if matches!(error.kind(), ErrorKind::Interrupted | ErrorKind::ConnectionAborted) => {}
                // there is no file descriptor or no memory for it: it waits
                Err(error) => {
                    warn!("a client can't be taken: {error}");
                    self.not_before = Some(now + PAUSE);
                    return;
                }
            }
        }
    }

    /// Ends the connection on which nothing was asked for the longest, of those whose client waits for nothing and works on nothing.
    fn end_one(&mut self, holders: &BTreeSet<ClientId>) {
        let idle = self.all.iter().filter(|(id, client)| client.is_idle() && !holders.contains(id));
        if let Some(id) = idle.min_by_key(|(_, client)| client.asked).map(|(id, _)| *id) {
            self.tell(id, &Reply::refused("TooManyClients"));
            self.remove(id);
        }
    }

    fn add(&mut self, mut client: Client<D::Stream>) {
        if self.all.len() >= MAX_CLIENTS {
            client.tell(&Reply::refused("TooManyClients").line());
            return;
        }
        let id = self.next;
        self.next = if id == usize::MAX - 1 { self.first } else { id + 1 };
        if self.door.admit(client.stream(), id).is_ok() {
            self.all.insert(id, client);
        }
    }

    /// Something came of a client, it takes more, or it hung up.
    pub fn wake(&mut self, id: ClientId, has_hung_up: bool) {
        let is_there = self.all.get_mut(&id).map(|client| {
            client.wake(has_hung_up);
            client.flush() && !client.is_gone()
        });
        if is_there == Some(false) {
            self.remove(id);
        }
    }

    /// Whether some may have requests; those that were put back count where they have their turn.
    pub fn have_input(&self, has_turn: bool) -> bool {
        self.all.values().any(|client| client.has_input(has_turn))
    }

    /// These, from the one behind the last that had its turn while there was room.
    pub fn in_turn(&self, has_turn: bool) -> Vec<ClientId> {
        let behind = self.all.range((Excluded(self.turn), Unbounded));
        let others = self.all.range(..=self.turn);
        behind.chain(others).filter(|(_, client)| client.has_input(has_turn)).map(|(id, _)| *id).collect()
    }

    /// Requests of this client are taken while there is room.
    pub fn had_turn(&mut self, id: ClientId) {
        self.turn = id;
    }

    /// A request of a client waits until there is room.
    pub fn put_back(&mut self, id: ClientId, line: Vec<u8>) {
        if let Some(client) = self.all.get_mut(&id) {
            client.put_back(line);
        }
    }

    pub fn next_line(&mut self, id: ClientId, now: Instant) -> Option<Vec<u8>> {
        match self.all.get_mut(&id)?.next_line(now) {
            Next::Line(line) => return Some(line),
            Next::Nothing => return None,
            Next::TooLong => self.tell(id, &Reply::refused("TooLong")),
            Next::Gone => {}
        }
        self.remove(id);
        None
    }

    /// Whether a client is there now: one that ended just now may not have been noticed yet.
    pub fn is_there(&mut self, id: ClientId) -> bool {
        self.all.get_mut(&id).map_or(false, |client| client.look() && !client.is_gone())
    }

    /// A client is owed an answer.
    pub fn owe(&mut self, id: ClientId) {
        if let Some(client) = self.all.get_mut(&id) {
            client.owed += 1;
        }
    }

    /// Gives a client an answer that it is owed.
    pub fn answer(&mut self, id: ClientId, reply: &Reply) {
        if let Some(client) = self.all.get_mut(&id) {
            client.owed = client.owed.saturating_sub(1);
        }
        self.tell(id, reply);
        if self.all.get(&id).map_or(false, Client::is_gone) {
            self.remove(id);
        }
    }

    fn remove(&mut self, id: ClientId) {
        if self.all.remove(&id).is_some() {
            self.waiting.retain(|waiting| waiting.client != id);
            self.gone.push(id);
        }
    }

    /// Those that ended since the last time.
    pub fn take_gone(&mut self) -> Vec<ClientId> {
        std::mem::take(&mut self.gone)
    }

    pub fn tell(&mut self, id: ClientId, reply: &Reply) {
        self.tell_line(id, &reply.line());
    }

    /// How long ago a client asked for something last; None where it is gone.
    pub fn silence(&self, id: ClientId, now: Instant) -> Option<Duration> {
        self.all.get(&id).map(|client| now.saturating_duration_since(client.asked))
    }

    /// Tells lines that were written before.
    pub fn tell_lines(&mut self, id: ClientId, lines: &[u8]) {
        self.tell_line(id, lines);
    }

    fn tell_line(&mut self, id: ClientId, line: &[u8]) {
        let told = self.all.get_mut(&id).map(|client| (client.is_deaf(), client.tell(line)));
        if let Some((is_deaf, false)) = told {
            if is_deaf {
                debug!("client {id} is cut off: it doesn't read");
                self.cut_off += 1;
            }
            self.remove(id);
        }
    }

    /// Whether a client may watch, or take a job; `holders` are those that work on one.
    pub fn may_stay(&self, id: ClientId, holders: impl Fn() -> BTreeSet<ClientId>) -> bool {
        if self.all.len() <= MAX_STAYING {
            return true;
        }
        let watchers = self.all.iter().filter(|(_, client)| client.watches).map(|(id, _)| *id);
        let mut staying = holders();
        staying.extend(watchers.chain(self.waiting.iter().map(|one| one.client)));
        staying.contains(&id) || staying.len() < MAX_STAYING
    }

    pub fn watch(&mut self, id: ClientId, beats: Option<Beats>) {
        if let Some(client) = self.all.get_mut(&id) {
            (client.watches, client.beats) = (true, beats);
        }
    }

    /// When the next beat of a watcher is due.
    pub fn next_beat(&self) -> Option<Instant> {
        self.all.values().filter_map(|client| client.beats.as_ref().map(Beats::next)).min()
    }

    /// Those whose beat is due: they are to be told one now.
    pub fn take_beats(&mut self, now: Instant) -> Vec<ClientId> {
        let is_due = |client: &mut Client<D::Stream>| client.beats.as_mut().map_or(false, |beats| beats.take(now));
        self.all.iter_mut().filter_map(|(id, client)| is_due(client).then_some(*id)).collect()
    }

    pub fn tell_watchers(&mut self, line: &[u8]) {
        let watchers: Vec<ClientId> = self.all.iter().filter(|(_, client)| client.watches).map(|(id, _)| *id).collect();
        for id in watchers {
            self.tell_line(id, line);
        }
    }

    /// A request waits for a job; false where too many do.
    pub fn wait(&mut self, waiting: Waiting) -> bool {
        let has_room = self.waiting.len() < MAX_WAITING;
        if has_room {
            self.waiting.push_back(waiting);
        }
        has_room
    }

    /// The oldest request that waits for a job of this queue.
    pub fn take_first_waiting(&mut self, queue: u8) -> Option<Waiting> {
        let at = self.waiting.iter().position(|one| one.wanted.has(queue))?;
        self.waiting.remove(at)
    }

    /// A request that was the first one goes on waiting as such.
    pub fn wait_first(&mut self, waiting: Waiting) {
        self.waiting.push_front(waiting);
    }

    /// Those that wait, the oldest request first.
    pub fn take_waiting(&mut self) -> VecDeque<Waiting> {
        std::mem::take(&mut self.waiting)
    }

    /// These go on waiting, but for those of clients that ended meanwhile: a job that is given to such a one would be given to nobody else.
    pub fn wait_on(&mut self, mut waiting: VecDeque<Waiting>) {
        waiting.retain(|one| self.all.contains_key(&one.client));
        self.waiting = waiting;
    }

    pub fn waiting_count(&self) -> usize {
        self.waiting.len()
    }

    /// How many of the requests that wait would take a job of this queue.
    pub fn waiting_for(&self, queue: u8) -> usize {
        self.waiting.iter().filter(|one| one.wanted.has(queue)).count()
    }
}

#[cfg(test)]
mod tests {
    use super::super::SocketDoor;
    use super::*;
    use mio::{Poll, Token};

    const FIRST: ClientId = 16;

    /// The clients at a socket, and the ends of so many that came.
    fn clients(name: &str, count: usize) -> (Clients<SocketDoor>, Vec<std::os::unix::net::UnixStream>) {
        let path = std::env::temp_dir().join(format!("dumgerok-{name}-{}", std::process::id()));
        let poll = Poll::new().unwrap();
        let mut clients = Clients::at(SocketDoor::open(&path, poll.registry(), Token(0)).unwrap(), FIRST);
        let connect = |_| std::os::unix::net::UnixStream::connect(&path).unwrap();
        let links = (0..count).map(connect).collect();
        while clients.count() < count {
            clients.accept(Instant::now(), BTreeSet::new);
        }
        (clients, links)
    }

    fn wait(clients: &mut Clients<SocketDoor>, client: ClientId, queue: u8) {
        assert!(clients.wait(Waiting { client, tag: None, wanted: Wanted::of(&[queue]) }));
    }

    #[test]
    fn a_client_that_ends_while_it_is_answered_waits_no_more() {
        let (mut clients, mut links) = clients("waits", 2);
        [(FIRST, 1), (FIRST, 2), (FIRST + 1, 2)].into_iter().for_each(|(id, queue)| wait(&mut clients, id, queue));
        let waiting = clients.take_waiting();
        drop(links.remove(0));
        clients.answer(FIRST, &Reply::ok());
        assert_eq!(clients.take_gone(), [FIRST]);
        clients.wait_on(waiting);
        assert_eq!(clients.take_first_waiting(2).map(|one| one.client), Some(FIRST + 1));
        assert_eq!(clients.waiting_count(), 0);
        [(FIRST + 1, 2), (FIRST + 1, 3)].into_iter().for_each(|(id, queue)| wait(&mut clients, id, queue));
        assert_eq!([2, 3, 4].map(|queue| clients.waiting_for(queue)), [1, 1, 0]);
    }
}
