//! Looks names up in a thread of its own: a name server that doesn't answer stops nobody.

use log::warn;
use mio::Waker;
use std::io;
use std::net::{SocketAddr, ToSocketAddrs};
use std::sync::mpsc::{sync_channel, Receiver, SyncSender};
use std::sync::Arc;
use std::thread;

/// What a name was found to mean; no addresses where it can't be found.
pub struct Found {
    pub at: usize,
    pub name: String,
    pub addresses: Vec<SocketAddr>,
}

/// Where names are looked up, one at a time.
pub trait Names {
    fn is_busy(&self) -> bool;

    fn look_up(&mut self, at: usize, name: String);

    /// What was found since.
    fn found(&mut self) -> Option<Found>;
}

/// One name is looked up at a time. The thread begins with the first one: an agent of whom all addresses are spelled out has none.
pub struct Resolver {
    waker: Arc<Waker>,
    to: Option<SyncSender<(usize, String)>>,
    back: SyncSender<Found>,
    from: Receiver<Found>,
    is_busy: bool,
}

impl Resolver {
    pub fn new(waker: Arc<Waker>) -> Resolver {
        let (back, from) = sync_channel(1);
        Resolver { waker, to: None, back, from, is_busy: false }
    }

    fn begin(&self) -> io::Result<SyncSender<(usize, String)>> {
        let (to, names) = sync_channel::<(usize, String)>(1);
        let (back, waker) = (self.back.clone(), Arc::clone(&self.waker));
        thread::Builder::new().spawn(move || {
            for (at, name) in names {
                let addresses = name.to_socket_addrs().map(Iterator::collect).unwrap_or_default();
                if back.send(Found { at, name, addresses }).is_err() || waker.wake().is_err() {
                    return;
                }
            }
        })?;
        Ok(to)
    }
}

impl Names for Resolver {
    fn is_busy(&self) -> bool {
        self.is_busy
    }

    /// Where there is no thread for it the next turn of the name tries again.
    fn look_up(&mut self, at: usize, name: String) {
        if self.to.is_none() {
            match self.begin() {
                Ok(to) => self.to = Some(to),
                Err(why) => warn!("{name} can't be looked up: {why}"),
            }
        }
        self.is_busy = self.to.as_ref().map_or(false, |to| to.try_send((at, name)).is_ok());
    }

    fn found(&mut self) -> Option<Found> {
        let found = self.from.try_recv().ok()?;
        self.is_busy = false;
        Some(found)
    }
}
