//! Asks the Dumgerok agent of this machine, over restarts of the agent.
//!
//! ```no_run
//! use dumgerok_client::{Agent, Submission};
//! let agent = Agent::of_environment();
//! let job = agent.submit(&Submission::new(3, "resize 17").with_key("order 17"))?;
//! println!("node {} keeps it as {}", job.origin, job.id);
//! while let Some(job) = agent.take(&[3], true)? {
//!     println!("{:?}, for the {}. time", job.payload, job.attempt);
//!     job.finish()?;
//! }
//! for lease in agent.lead("lead") {
//!     let lease = lease?;
//!     while lease.lasts() {
//!         println!("a step under epoch {}", lease.epoch);
//!     }
//! }
//! # Ok::<(), dumgerok_client::Error>(())
//! ```
//!
//! SOCKET.md says what answers and events have.

#![forbid(unsafe_code)]

mod agent;
mod connection;
mod error;
mod job;
mod lease;
mod lines;
mod watch;

pub use agent::Agent;
pub use connection::{socket, Connection, PATIENCE};
pub use error::Error;
pub use job::{Back, Job};
pub use lease::Lease;
pub use lines::{Change, Given, Group, JobKey, Member, Request, State, Submission};
pub use watch::{Seen, Watch};
