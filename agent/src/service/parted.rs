//! Who works on jobs that left the node's hand while the next group is being made: it may give them back to this machine, and then nobody else has them.

use super::ClientId;
use crate::node::JobKey;
use crate::protocol::Tag;
use std::collections::BTreeMap;
use std::time::Instant;

#[derive(Debug, PartialEq, Eq)]
pub struct Parted {
    queue: u8,
    pub client: ClientId,
    until: Instant,
    /// What its client asked when it was done meanwhile: that is for the node once the job is back.
    pub finish: Option<Tag>,
}

#[derive(Default)]
pub struct PartedJobs {
    jobs: BTreeMap<JobKey, Parted>,
}

impl PartedJobs {
    /// A job left whose client may go on with it until then.
    pub fn put(&mut self, key: JobKey, queue: u8, client: ClientId, until: Instant) {
        self.jobs.entry(key).or_insert(Parted { queue, client, until, finish: None });
    }

    /// A client gives a job back.
    pub fn leave(&mut self, key: JobKey, client: ClientId) {
        if self.jobs.get(&key).map(|parted| parted.client) == Some(client) {
            self.jobs.remove(&key);
        }
    }

    /// A job came back.
    pub fn take_back(&mut self, key: JobKey) -> Option<Parted> {
        self.jobs.remove(&key)
    }

    /// A client says that it is done with a job; whether that waits for the job.
    pub fn finish(&mut self, key: JobKey, client: ClientId, tag: &Tag) -> bool {
        let parted = self.jobs.get_mut(&key).filter(|parted| parted.client == client && parted.finish.is_none());
        parted.map(|parted| parted.finish = Some(tag.clone())).is_some()
    }

    /// Those that don't come back, with their clients: of queues that this node has no more, and those whose time is over.
    pub fn take_over(&mut self, may_come: impl Fn(u8) -> bool, now: Instant) -> Vec<(JobKey, Parted)> {
        let is_over = |parted: &Parted| parted.until <= now || !may_come(parted.queue);
        let over: Vec<JobKey> = self.jobs.iter().filter(|(_, parted)| is_over(parted)).map(|(key, _)| *key).collect();
        over.iter().filter_map(|key| Some((*key, self.jobs.remove(key)?))).collect()
    }

    pub fn next_over(&self) -> Option<Instant> {
        self.jobs.values().map(|parted| parted.until).min()
    }

    /// A client ended.
    pub fn give_up(&mut self, client: ClientId) {
        self.jobs.retain(|_, parted| parted.client != client);
    }

    pub fn clients(&self) -> impl Iterator<Item = ClientId> + '_ {
        self.jobs.values().map(|parted| parted.client)
    }
}

#[cfg(test)]
mod tests {
    use super::*;
    use std::time::Duration;

    #[test]
    fn a_job_comes_back_to_its_client_or_doesn_t_in_time() {
        let (now, key, mut parted) = (Instant::now(), |id| JobKey { origin: 0, id }, PartedJobs::default());
        let at = |ms| now + Duration::from_millis(ms);
        let over = |rows: Vec<(JobKey, Parted)>| rows.into_iter().map(|(key, parted)| (key.id, parted.client)).collect::<Vec<_>>();
        for (id, queue, client, ms) in [(1, 4, 7, 500), (2, 5, 8, 500), (3, 5, 9, 900), (2, 5, 8, 2000)] {
            parted.put(key(id), queue, client, at(ms));
        }
        let tag = Tag::default();
        assert_eq!([(1, 8), (1, 7), (1, 7), (4, 7)].map(|(id, client)| parted.finish(key(id), client, &tag)), [false, true, false, false]);
        assert_eq!(parted.take_back(key(1)).map(|parted| (parted.client, parted.finish)), Some((7, Some(tag))));
        assert_eq!((parted.take_back(key(1)), over(parted.take_over(|queue| queue == 5, at(499)))), (None, vec![]));
        assert_eq!((parted.next_over(), over(parted.take_over(|_| true, at(500)))), (Some(at(500)), vec![(2, 8)]), "its first time counts");
        parted.leave(key(3), 8);
        parted.put(key(4), 6, 9, at(900));
        assert_eq!(over(parted.take_over(|queue| queue == 5, now)), [(4, 9)]);
        assert_eq!(parted.clients().collect::<Vec<_>>(), [9]);
        parted.put(key(5), 6, 8, at(900));
        parted.leave(key(5), 8);
        parted.give_up(9);
        assert_eq!((parted.next_over(), over(parted.take_over(|_| false, at(9000)))), (None, vec![]));
    }
}
