//! Local services at the Unix socket.

mod attempts;
mod client;
mod clients;
mod door;
mod hand;
mod parted;
mod peer;
mod watch;

pub use clients::{ClientId, Clients, Waiting};
pub use door::{is_left, Door, SocketDoor, Stream};
pub use hand::{Back, Given, Hand};
pub use peer::Peer;
pub use watch::{Beats, Changes};
