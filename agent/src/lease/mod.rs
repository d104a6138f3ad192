//! Leases: the process `invite lease`, and the local clients that ask it for names. The process alone decides who holds what; the agent carries its messages
//! and tells it the time. It keeps to three things: each line is handed over with the time of that moment, no name is released while somebody here may still
//! rely on it, and nobody is told of a lease but who asked for it under the number that the process was given.

mod claims;
mod exchange;
mod line;
mod process;
mod silence;
mod voters;

pub use claims::{Claims, Order, Refusal, Told};
pub use exchange::LeaseExchange;
pub use line::LeaseLine;
pub use process::{LeasePort, LeaseProcess};
pub use silence::Silence;
pub use voters::{read_voters, write_voters, Voters, Voting};

/// A name of a lease has so many bytes at most.
const MAX_NAME: usize = 64;

/// Whether a text may be the name of a lease: it is a word of a line.
pub fn is_name(text: &str) -> bool {
    (1..=MAX_NAME).contains(&text.len()) && text.bytes().all(|byte| byte.is_ascii_graphic())
}
