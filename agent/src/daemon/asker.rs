//! On whose behalf the node is asked.

use crate::forward::{Key, Token};
use crate::node::{JobKey, Lane};
use crate::protocol::Tag;
use crate::service::ClientId;
use std::net::SocketAddr;
use std::time::Instant;

/// Where a datagram came from.
#[derive(Clone, Copy, Debug)]
pub struct Origin {
    pub at: SocketAddr,
    /// Then it is of a machine that has the key.
    pub was_encrypted: bool,
    /// Whose agent carried it on, where it didn't come from its sender's.
    pub through: Option<u8>,
}

#[derive(Clone, Debug)]
pub enum Asker {
    Start,
    Tick,
    /// A message that names `sender`, of this kind.
    Datagram {
        sender: u8,
        from: Origin,
        kind: &'static str,
    },
    /// A submission of a local client, by its number in the outbox.
    Submission {
        serial: u64,
        key: Option<Key>,
    },
    /// A submission of another agent.
    Forwarded {
        from: u8,
        token: Token,
        key: Option<Key>,
    },
    Finish {
        client: ClientId,
        tag: Tag,
        key: JobKey,
    },
    Compact {
        client: ClientId,
        tag: Tag,
        since: Instant,
    },
    Jobs {
        client: ClientId,
        tag: Tag,
        queue: Option<u8>,
        skip: usize,
        limit: usize,
    },
    /// A node is given up.
    Lost,
    /// It is told the time in front of something, and not since something is due.
    Time,
    /// The page asks for the jobs.
    Page,
}

impl Asker {
    pub fn lane(&self) -> Lane {
        match self {
            Asker::Datagram { .. } | Asker::Forwarded { .. } | Asker::Time => Lane::Network,
            _ => Lane::Local,
        }
    }
}
