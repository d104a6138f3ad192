//! A job that is submitted at a machine whose node doesn't coordinate: the agents carry it to the coordinator's machine, at least once, and its id
//! back. Their datagrams are sealed where there is a key, and none is taken that was recorded: each names the life of its receiver and a
//! number that rises in it.

mod about;
mod datagram;
mod inbox;
mod key_file;
mod keys;
#[cfg(test)]
mod model;
mod numbers;
pub mod of_leases;
mod outbox;
mod relayed;
mod seal;
mod stamps;

pub use about::{About, Introductions};
pub use datagram::{is_of_agents, is_of_another_version, marked, unmarked, Datagram, News, Outcome, Submission, Token, What};
pub use inbox::{Inbox, Verdict};
pub use key_file::{read_keys, KeyError};
pub use keys::{Key, Keys, Knows, Turn};
pub use numbers::{Ledger, Numbers, OwnNumbers, Told};
pub use outbox::{Client, Due, Given, Outbox};
pub use relayed::{is_relayed, Leg, Relayed};
pub use seal::Seal;

use std::io::Read;

/// A number that no other life of an agent has.
pub fn new_life() -> std::io::Result<u64> {
    let mut bytes = [0; 8];
    std::fs::File::open("/dev/urandom")?.read_exact(&mut bytes)?;
    Ok(u64::from_be_bytes(bytes))
}
