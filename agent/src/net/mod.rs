//! Datagrams between the machines of a cluster.

mod backlog;
mod cipher;
mod kernel;
mod link;
mod pace;
mod peers;
mod refusals;
mod ways;

pub use backlog::Backlog;
pub use cipher::{is_encrypted, Cipher, LONGER};
pub use link::{Link, Network, MAX_DATAGRAM};
pub use pace::{GroupBytes, Leaves, Pace};
pub use peers::{News, Peer, Peers};
pub use refusals::{Refusals, Step};
pub use ways::{Sending, Ways};
