//! One agent for each machine: it owns `invite node` as its child, carries the node's messages as datagrams, tells it the time, and answers
//! local services. It decides nothing: whatever it does wrong may cost a message, and never a promise.

#![deny(unsafe_code)]

mod boot_time;
#[cfg(test)]
mod chance;
mod clock;
pub mod command_line;
mod config;
mod ctl;
mod daemon;
mod draw;
mod fill;
mod forward;
mod http;
mod judge;
mod keeper;
mod lease;
mod log_lines;
mod metrics;
pub mod names;
mod net;
mod node;
mod node_file;
mod notify;
mod own_session;
mod piped;
mod protocol;
mod record;
mod resolver;
mod say;
mod service;
mod system_calls;
mod verify;
mod view;

pub use config::{Config, LogLevel};
pub use ctl::{become_guard, run, Arguments};
pub use daemon::{Beginning, Daemon};
pub use forward::KeyError;
pub use keeper::become_keeper;
pub use log_lines::LogLines;
pub use node_file::{drop_cache, places};
pub use own_session::become_command;
pub use say::say;
pub use system_calls::share_memory;
pub use verify::{verified, Verdict};
