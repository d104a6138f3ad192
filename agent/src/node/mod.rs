//! The node: the process `invite node`, what it is asked, and what its lines say.

mod answer;
mod exchange;
mod group;
mod job;
mod line;
mod process;
mod refusal;

pub use answer::{Answer, Closing};
pub use exchange::{Exchange, Lane};
pub use group::{Group, GroupNumber, Phase};
pub use job::{Job, JobKey, Payload, PayloadError};
pub use line::Line;
pub use process::NodeProcess;
pub use refusal::Refusal;
