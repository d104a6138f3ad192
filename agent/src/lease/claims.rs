//! Which local clients ask for which names. Those that ask for the same name stand in a row: the process is given one at a time, each under a number that no
//! other one has, so that each comes to have an epoch of its own.

use crate::boot_time::BootTime;
use crate::service::ClientId;
use std::collections::{BTreeMap, BTreeSet, VecDeque};

/// So many names may be asked for here, as many as the process takes; and so many clients for one.
const MAX_NAMES: usize = 1024;
const MAX_IN_A_ROW: usize = 256;

/// What the process is to be told.
#[derive(Clone, Debug, PartialEq, Eq)]
pub enum Order {
    Acquire { name: String, number: u64 },
    Release { name: String, number: u64 },
}

/// Why a client's request isn't taken.
#[derive(Clone, Copy, Debug, PartialEq, Eq)]
pub enum Refusal {
    /// It asks for this name already.
    Claimed,
    /// There is no room for one more.
    Full,
    /// It doesn't ask for this name.
    Unclaimed,
}

/// What a client is told.
#[derive(Clone, Debug, PartialEq, Eq)]
pub enum Told {
    Held { client: ClientId, name: String, epoch: u64, until: BootTime },
    Lost { client: ClientId, name: String, epoch: u64 },
}

/// The one for whom the process asks.
struct Current {
    number: u64,
    /// None: it is gone, and so is what it was told of once that time is over.
    client: Option<ClientId>,
    /// The epoch under which it holds, and until when it was told that it may rely on it.
    epoch: Option<u64>,
    told: Option<BootTime>,
}

impl Current {
    /// When a client that is gone is over: it may rely on what it was told until then, and what it runs with it.
    fn over(&self) -> Option<BootTime> {
        self.client.is_none().then(|| self.told.unwrap_or(BootTime::of_ms(0)))
    }
}

#[derive(Default)]
struct Row {
    current: Option<Current>,
    waiting: VecDeque<ClientId>,
}

#[derive(Default)]
pub struct Claims {
    rows: BTreeMap<String, Row>,
    /// The number that was given last.
    last: u64,
}

impl Claims {
    /// A client asks for a name.
    pub fn acquire(&mut self, client: ClientId, name: &str) -> Result<Option<Order>, Refusal> {
        if !self.rows.contains_key(name) && self.rows.len() >= MAX_NAMES {
            return Err(Refusal::Full);
        }
        let row = self.rows.entry(name.to_string()).or_default();
        let is_current = row.current.as_ref().map_or(false, |current| current.client == Some(client));
        if is_current || row.waiting.contains(&client) {
            return Err(Refusal::Claimed);
        }
        if row.waiting.len() >= MAX_IN_A_ROW {
            return Err(Refusal::Full);
        }
        row.waiting.push_back(client);
        Ok(self.next(name))
    }

    /// A client asks no more for a name, and nothing relies on it: it may go to others at once.
    pub fn release(&mut self, client: ClientId, name: &str) -> Result<Vec<Order>, Refusal> {
        let row = self.rows.get_mut(name).ok_or(Refusal::Unclaimed)?;
        let waiting = row.waiting.len();
        row.waiting.retain(|other| *other != client);
        if row.waiting.len() < waiting {
            self.forget(name);
            return Ok(Vec::new());
        }
        match &row.current {
            Some(current) if current.client == Some(client) => Ok(self.give_up(name)),
            _ => Err(Refusal::Unclaimed),
        }
    }

    /// A client is gone without a word: what it was told it may rely on until then.
    pub fn gone(&mut self, client: ClientId) {
        for row in self.rows.values_mut() {
            row.waiting.retain(|other| *other != client);
            if let Some(current) = row.current.as_mut().filter(|current| current.client == Some(client)) {
                current.client = None;
            }
        }
    }

    /// The client for whom a name is asked or held under a number.
    pub fn client(&self, name: &str, number: u64) -> Option<ClientId> {
        self.rows.get(name)?.current.as_ref().filter(|current| current.number == number)?.client
    }

    /// A client that is there, and silent, is told of this name no more: as of one that is gone.
    pub fn leave(&mut self, name: &str, number: u64) {
        let current = self.rows.get_mut(name).and_then(|row| row.current.as_mut());
        if let Some(current) = current.filter(|current| current.number == number) {
            current.client = None;
        }
    }

    /// Gives up what clients that are gone may rely on no more.
    pub fn give_up_gone(&mut self, now: BootTime) -> Vec<Order> {
        let is_over = |row: &Row| row.current.as_ref().and_then(Current::over).map_or(false, |over| over <= now);
        let names: Vec<String> = self.rows.iter().filter(|(_, row)| is_over(row)).map(|(name, _)| name.clone()).collect();
        names.iter().flat_map(|name| self.give_up(name)).collect()
    }

    /// When there is something to give up next.
    pub fn next_over(&self) -> Option<BootTime> {
        self.rows.values().filter_map(|row| row.current.as_ref().and_then(Current::over)).min()
    }

    /// The process says that a name is held; what a client is told, where it is still there.
    pub fn held(&mut self, name: &str, number: u64, epoch: u64, until: BootTime) -> Option<Told> {
        let current = self.rows.get_mut(name)?.current.as_mut().filter(|current| current.number == number)?;
        current.epoch = Some(epoch);
        let client = current.client?;
        current.told = Some(current.told.map_or(until, |told| told.max(until)));
        Some(Told::Held { client, name: name.to_string(), epoch, until })
    }

    /// The process says that a name is held no more.
    pub fn lost(&mut self, name: &str, epoch: u64) -> Option<Told> {
        let current = self.rows.get_mut(name)?.current.as_mut().filter(|current| current.epoch == Some(epoch))?;
        current.epoch = None;
        Some(Told::Lost { client: current.client?, name: name.to_string(), epoch })
    }

    /// The process didn't take a request: who made it is told so, and another one is tried.
    pub fn refused(&mut self, name: &str, number: u64) -> (Option<ClientId>, Option<Order>) {
        let is_it = |row: &&mut Row| row.current.as_ref().map_or(false, |current| current.number == number);
        let current = self.rows.get_mut(name).filter(is_it).and_then(|row| row.current.take());
        let next = self.next(name);
        self.forget(name);
        (current.and_then(|current| current.client), next)
    }

    /// The process is another one: nothing is held of what was, and each name is asked for anew.
    pub fn begin_anew(&mut self) -> (Vec<Told>, Vec<Order>) {
        let (mut told, mut orders) = (Vec::new(), Vec::new());
        for (name, row) in &mut self.rows {
            if let Some(current) = &mut row.current {
                self.last += 1;
                current.number = self.last;
                let lost = current.epoch.take().zip(current.client);
                told.extend(lost.map(|(epoch, client)| Told::Lost { client, name: name.clone(), epoch }));
                orders.push(Order::Acquire { name: name.clone(), number: current.number });
            }
        }
        (told, orders)
    }

    /// The order for a client for whom the process is to ask once more.
    pub fn again(&self, name: &str, number: u64) -> Option<Order> {
        let current = self.rows.get(name)?.current.as_ref().filter(|current| current.number == number)?;
        Some(Order::Acquire { name: name.to_string(), number: current.number })
    }

    /// Those who ask for a name, or have one.
    pub fn clients(&self) -> BTreeSet<ClientId> {
        let current = self.rows.values().filter_map(|row| row.current.as_ref()?.client);
        current.chain(self.rows.values().flat_map(|row| row.waiting.iter().copied())).collect()
    }

    /// What is held now, with its epoch and until when a client was told so.
    pub fn all_held(&self) -> impl Iterator<Item = (&str, u64, BootTime)> {
        self.rows.iter().filter_map(|(name, row)| {
            let current = row.current.as_ref()?;
            Some((name.as_str(), current.epoch?, current.told?))
        })
    }

    fn give_up(&mut self, name: &str) -> Vec<Order> {
        let current = self.rows.get_mut(name).and_then(|row| row.current.take());
        let released = current.map(|current| Order::Release { name: name.to_string(), number: current.number });
        let next = self.next(name);
        self.forget(name);
        released.into_iter().chain(next).collect()
    }

    /// Has the process ask for the first that waits, where it asks for nobody.
    fn next(&mut self, name: &str) -> Option<Order> {
        let row = self.rows.get_mut(name).filter(|row| row.current.is_none())?;
        let client = row.waiting.pop_front()?;
        self.last += 1;
        row.current = Some(Current { number: self.last, client: Some(client), epoch: None, told: None });
        Some(Order::Acquire { name: name.to_string(), number: self.last })
    }

    fn forget(&mut self, name: &str) {
        let is_empty = |row: &Row| row.current.is_none() && row.waiting.is_empty();
        if self.rows.get(name).map_or(false, is_empty) {
            self.rows.remove(name);
        }
    }
}

#[cfg(test)]
mod tests {
    use super::*;

    fn acquire(number: u64) -> Order {
        Order::Acquire { name: "a".to_string(), number }
    }

    fn release(number: u64) -> Order {
        Order::Release { name: "a".to_string(), number }
    }

    fn at(ms: u64) -> BootTime {
        BootTime::of_ms(ms)
    }

    #[test]
    fn clients_of_one_name_stand_in_a_row() {
        let mut claims = Claims::default();
        assert_eq!(claims.acquire(7, "a"), Ok(Some(acquire(1))));
        assert_eq!((claims.acquire(8, "a"), claims.acquire(9, "a")), (Ok(None), Ok(None)));
        assert_eq!((claims.acquire(7, "a"), claims.acquire(8, "a")), (Err(Refusal::Claimed), Err(Refusal::Claimed)));
        assert_eq!(claims.release(8, "a"), Ok(vec![]));
        assert_eq!((claims.release(8, "a"), claims.release(8, "b")), (Err(Refusal::Unclaimed), Err(Refusal::Unclaimed)));
        assert_eq!(claims.release(7, "a"), Ok(vec![release(1), acquire(2)]));
        assert_eq!(claims.release(9, "a"), Ok(vec![release(2)]));
        assert!(claims.rows.is_empty());
    }

    #[test]
    fn a_client_that_is_gone_keeps_its_name_for_as_long_as_it_was_told() {
        let mut claims = Claims::default();
        claims.acquire(7, "a").unwrap();
        let told = Told::Held { client: 7, name: "a".to_string(), epoch: 5, until: at(1800) };
        assert_eq!(claims.held("a", 1, 5, at(1800)), Some(told));
        claims.gone(7);
        assert_eq!(claims.held("a", 1, 5, at(2400)), None, "of a renewal it hears nothing");
        assert_eq!((claims.acquire(8, "a"), claims.next_over()), (Ok(None), Some(at(1800))));
        assert_eq!(claims.give_up_gone(at(1799)), []);
        assert_eq!(claims.give_up_gone(at(1800)), [release(1), acquire(2)]);
        assert_eq!(claims.held("a", 1, 5, at(3000)), None, "the one before isn't the one behind");
    }

    #[test]
    fn one_that_was_told_nothing_is_over_at_once() {
        let mut claims = Claims::default();
        claims.acquire(7, "a").unwrap();
        claims.gone(7);
        assert_eq!(claims.give_up_gone(at(0)), [release(1)]);
        assert_eq!(claims.next_over(), None);
    }

    #[test]
    fn with_another_process_what_was_held_is_lost_and_asked_for_anew() {
        let mut claims = Claims::default();
        claims.acquire(7, "a").unwrap();
        claims.held("a", 1, 5, at(1800));
        let lost = Told::Lost { client: 7, name: "a".to_string(), epoch: 5 };
        assert_eq!(claims.begin_anew(), (vec![lost.clone()], vec![acquire(2)]));
        assert_eq!((claims.held("a", 1, 5, at(1900)), claims.lost("a", 5)), (None, None));
        claims.gone(7);
        assert_eq!(claims.give_up_gone(at(1799)), [], "it may rely on what it was told until then all the same");
        assert_eq!(claims.give_up_gone(at(1800)), [release(2)]);
    }

    #[test]
    fn what_the_process_refuses_is_asked_for_by_the_next() {
        let mut claims = Claims::default();
        claims.acquire(7, "a").unwrap();
        claims.acquire(8, "a").unwrap();
        assert_eq!(claims.refused("a", 9), (None, None), "of one that was before");
        assert_eq!(claims.refused("a", 1), (Some(7), Some(acquire(2))));
    }
}
