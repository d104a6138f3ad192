//! Requests that change the machine for all its clients, or take a job from another one: who asked stands in the log, and where the configuration names a
//! group of those who may, all others are refused.

use super::core::{Core, Ports};
use crate::protocol::{Reply, Request};
use crate::service::ClientId;
use log::{info, warn};

/// What a request asks for, where that is such a one.
pub(super) fn what_is_changed(request: &Request) -> Option<&'static str> {
    match request {
        Request::Compact {} => Some("compact"),
        Request::Record { on: true } => Some("record on"),
        Request::Record { on: false } => Some("record off"),
        Request::Drain { on: true } => Some("drain"),
        Request::Drain { on: false } => Some("drain off"),
        _ => None,
    }
}

impl<P: Ports> Core<P> {
    /// The refusal, where this client may not ask for it.
    pub(super) fn refuses(&self, client: ClientId, what: &str) -> Option<Reply> {
        let peer = self.clients.peer(client);
        let who = peer.as_ref().map_or_else(|| "somebody of whom the system says nothing".to_string(), ToString::to_string);
        let (name, group) = match &self.admin {
            Some((name, group)) => (name, *group),
            None => {
                info!("{what}: asked for by {who}");
                return None;
            }
        };
        if peer.map_or(false, |peer| peer.is_admin(group)) {
            info!("{what}: asked for by {who}");
            return None;
        }
        warn!("{what}: refused to {who}, who isn't of the group {name}");
        Some(Reply::refused("NotPermitted").with("why", format!("this is for the group {name}, root and the agent's user alone")))
    }
}
