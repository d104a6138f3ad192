//! HTTP on the loopback, or where the configuration wants it: probes, Prometheus, and a page for a look at the cluster.

mod records;
mod request;
mod server;

pub use records::Records;
pub use request::Hosts;
pub use server::{Page, Pages, Response, Server, NEXT_PART, THREADS};

/// The page that `/` shows: one file, which asks `/state` for all that it draws.
pub const PAGE: &str = include_str!("page.html");
