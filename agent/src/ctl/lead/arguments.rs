//! The command lines of `lead`, `lock`, `own` and `on-change`.

use super::super::arguments::Asks;
use super::super::Failure;
use super::shards::MOST_SHARDS;
use super::{on_change, Gate, Lead, What};
use clap::Args;
use std::ffi::OsString;
use std::path::Path;
use std::time::Duration;

/// A lease's name has so many bytes at most; what shards have behind it fits, too.
const MAX_NAME: usize = 64;
const MAX_NAME_OF_SHARDS: usize = 60;

fn name(text: &str) -> Result<String, String> {
    named(text, MAX_NAME)
}

fn name_of_shards(text: &str) -> Result<String, String> {
    named(text, MAX_NAME_OF_SHARDS)
}

fn named(text: &str, most: usize) -> Result<String, String> {
    let is_one = (1..=most).contains(&text.len()) && text.bytes().all(|byte| byte.is_ascii_graphic());
    is_one.then(|| text.to_string()).ok_or_else(|| format!("a name is 1 to {most} letters, digits and signs of ASCII"))
}

/// How a command ends.
#[derive(Args)]
pub struct Ends {
    /// COMMAND is asked to end by SIGTERM so many milliseconds before it is killed; 0: it is killed at once
    #[arg(long, value_name = "MS", default_value_t = 300, value_parser = clap::value_parser!(u64).range(..=60_000))]
    pub grace: u64,
    /// What is run, and where it ends run again
    #[arg(last = true, required = true)]
    pub command: Vec<OsString>,
    #[command(flatten)]
    pub asks: Asks,
}

/// What has to be so for a command to run.
#[derive(Args)]
pub struct Gates {
    /// Only in a group of more than half of all nodes: rarely two, and for seconds
    #[arg(long)]
    pub majority: bool,
    /// Only under a lease: never two, as long as clocks go right; the default where the agent has leases
    #[arg(long, conflicts_with = "majority")]
    pub lease: bool,
    /// Without a lease COMMAND ends where the agent confirms nothing for so many milliseconds
    #[arg(long, value_name = "MS", default_value_t = 2000, value_parser = clap::value_parser!(u64).range(200..=600_000))]
    pub within: u64,
}

impl Gates {
    fn gate(&self) -> Option<Gate> {
        match (self.lease, self.majority) {
            (true, _) => Some(Gate::Lease),
            (_, true) => Some(Gate::Majority),
            _ => None,
        }
    }
}

#[derive(Args)]
pub struct Leads {
    #[command(flatten)]
    gates: Gates,
    /// The name of the lease: services of other names may be led by other machines
    #[arg(long, value_name = "NAME", default_value = "lead", value_parser = name)]
    name: String,
    #[command(flatten)]
    pub ends: Ends,
}

#[derive(Args)]
pub struct Locks {
    /// The name of the lock
    #[arg(value_parser = name)]
    name: String,
    /// Waits without an end until it has the lock; else it gives up after two seconds
    #[arg(long)]
    wait: bool,
    #[command(flatten)]
    pub ends: Ends,
}

#[derive(Args)]
pub struct Owns {
    /// How many shards there are, 1 to 4096
    #[arg(value_parser = clap::value_parser!(u32).range(1..=i64::from(MOST_SHARDS)))]
    shards: u32,
    #[command(flatten)]
    gates: Gates,
    /// What the names of the shards' leases begin with
    #[arg(long, value_name = "NAME", default_value = "own", value_parser = name_of_shards)]
    name: String,
    #[command(flatten)]
    pub ends: Ends,
}

#[derive(Args)]
pub struct OnChanges {
    #[command(flatten)]
    pub ends: Ends,
}

/// The time for which a lock is tried for.
const TRY: Duration = Duration::from_secs(2);

impl Leads {
    pub fn run(&self, socket: &Path) -> Result<(), Failure> {
        self.ends.lead(socket, What::Leader, self.gates.gate(), &self.name, self.gates.within)
    }
}

impl Locks {
    pub fn run(&self, socket: &Path) -> Result<(), Failure> {
        let what = What::Once { waits: self.wait };
        self.ends.lead(socket, what, Some(Gate::Lease), &self.name, TRY.as_millis() as u64)
    }
}

impl Owns {
    pub fn run(&self, socket: &Path) -> Result<(), Failure> {
        self.ends.lead(socket, What::Shards(self.shards), self.gates.gate(), &self.name, self.gates.within)
    }
}

impl OnChanges {
    pub fn run(&self, socket: &Path) -> Result<(), Failure> {
        on_change::run(socket, &self.ends.command, Duration::from_millis(self.ends.grace))
    }
}

impl Ends {
    fn lead(&self, socket: &Path, what: What, gate: Option<Gate>, name: &str, within: u64) -> Result<(), Failure> {
        let (within, grace) = (Duration::from_millis(within), Duration::from_millis(self.grace));
        if grace * 2 > within {
            return Err(Failure::Usage(format!("--grace {}: it is at most half of the time that counts, {} ms", self.grace, within.as_millis())));
        }
        Lead { socket, command: &self.command, what, gate, name, within, grace }.run()
    }
}

#[cfg(test)]
mod tests {
    use super::*;

    #[test]
    fn names_of_leases() {
        for (text, is_one) in [("lead", true), ("db/1!~", true), ("", false), ("a b", false), ("\u{e9}", false), ("a\n", false)] {
            assert_eq!(name(text).is_ok(), is_one, "{text:?}");
        }
        let longest = "a".repeat(64);
        assert!(name(&longest).is_ok() && name(&(longest.clone() + "a")).is_err());
        assert!(name_of_shards(&longest[..60]).is_ok() && name_of_shards(&longest[..61]).is_err());
        assert!(name(&format!("{}.{}", &longest[..60], super::super::shards::LEASES - 1)).is_ok());
    }
}
