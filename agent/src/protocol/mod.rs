//! What services ask and are answered at the socket: JSON, one object a line. docs/SOCKET.md and protocol.json say what each line has.

mod reply;
mod request;
mod wanted;

pub use reply::Reply;
pub use request::{key_of, named, payload_of, text_of, Envelope, Request, RequestError, Tag};
pub use wanted::{Wanted, LAST_QUEUE, QUEUES};

/// The version of these lines. A request may name it; one that names another is refused.
pub const VERSION: u64 = 1;
