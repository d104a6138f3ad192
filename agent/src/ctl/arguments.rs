//! The command line.

use super::lead::{Leads, Locks, OnChanges, Owns};
use super::values::{key, node, places, priority, queue, seconds, slots, tries, Stride};
use crate::draw::Form;
use crate::queue_range;
use clap::{Args, Parser, Subcommand, ValueEnum};
use clap_complete::Shell;
use std::ffi::OsString;
use std::path::PathBuf;
use std::time::Duration;

/// Asks the Dumgerok agent of this machine.
///
/// The exit status is 0 for ok, 1 for refused or where the output can't be written, 2 for a command line that can't be read, 3 where no
/// agent answers, 9 where one is there and its answer doesn't come in time.
#[derive(Parser)]
#[command(name = "dumgerokctl", version)]
pub struct Arguments {
    #[command(flatten)]
    pub asks: Asks,
    #[command(subcommand)]
    pub command: Command,
}

/// How the agent is asked. It may stand in front of a command and behind it.
#[derive(Args, Clone, Default)]
pub struct Asks {
    /// The agent's socket; else that of $DUMGEROK_SOCKET, or /run/dumgerok/agent.sock
    #[arg(short, long, value_name = "PATH")]
    pub socket: Option<PathBuf>,
    /// Prints what is answered, a line of JSON each
    #[arg(long)]
    pub json: bool,
}

#[derive(Subcommand)]
pub enum Command {
    /// The node and its group
    #[command(after_help = "Example: dumgerokctl status --json")]
    Status(Asks),
    /// All nodes: in the group or not, which queues they work on, when they were heard
    #[command(after_help = "Example: dumgerokctl members")]
    Members(Asks),
    /// The jobs that this node keeps, and those that it works on
    #[command(after_help = "Example: dumgerokctl jobs --queue 0 --limit 10")]
    Jobs {
        #[arg(long, value_parser = queue, help = concat!("Those of this queue alone, ", queue_range!()))]
        queue: Option<u8>,
        /// Leaves so many out
        #[arg(long, value_name = "N", default_value_t = 0)]
        skip: usize,
        /// Prints so many at most
        #[arg(long, value_name = "N", default_value_t = 100)]
        limit: usize,
        #[command(flatten)]
        asks: Asks,
    },
    /// The state, and then each change as it comes
    #[command(after_help = "Example: dumgerokctl watch --json")]
    Watch {
        /// What came behind this change, in place of the state
        #[arg(long, value_name = "CHANGE")]
        since: Option<u64>,
        #[command(flatten)]
        asks: Asks,
    },
    /// Has a job kept, at any machine, and prints the node that keeps it and its id
    #[command(after_help = "Examples: dumgerokctl submit 0 'echo hello'\n          printf 'a secret' | dumgerokctl submit 0 - --priority 9")]
    Submit {
        #[arg(value_parser = queue, help = concat!("The job's queue, ", queue_range!(), ": of n members the one at place QUEUE mod n works on it"))]
        queue: u8,
        /// The job's payload, at most 400 bytes; - reads it from standard input, where no list of processes shows it
        text: String,
        /// Jobs of greater priority, up to 255, are worked on first
        #[arg(long, value_name = "N", value_parser = priority, default_value = "0")]
        priority: u8,
        /// The payload is hex digits
        #[arg(long)]
        hex: bool,
        /// Submitted again under this key within ten minutes, at any machine, it is the same job
        #[arg(long, value_name = "TEXT", value_parser = key)]
        key: Option<String>,
        #[command(flatten)]
        asks: Asks,
    },
    /// Works on jobs: runs COMMAND for each, and finishes those whose command ends with status 0
    ///
    /// COMMAND has the payload on its standard input, and DUMGEROK_ORIGIN, DUMGEROK_ID, DUMGEROK_QUEUE, DUMGEROK_PRIORITY,
    /// DUMGEROK_ATTEMPT (1 when it is given first) and DUMGEROK_PAYLOAD (as hex digits) in its environment. A job whose command fails is
    /// taken again after a pause: half a second, twice as long each time, up to half a minute. Where the job goes to another node, or the
    /// worker is ended, its command is ended with what it started in its process group. Without COMMAND one job is printed, and may be given
    /// to others until it is finished.
    #[command(after_help = "Example: dumgerokctl take --queue 0,3 --timeout 60 --grace 5 --tries 5 -- sh")]
    Take {
        #[arg(long, value_name = "QUEUE", value_parser = queue, use_value_delimiter = true)]
        #[arg(help = concat!("Those of these queues alone, ", queue_range!(), "; it may be given several times"))]
        queue: Vec<u8>,
        /// Ends after one job
        #[arg(long)]
        once: bool,
        /// Ends a command that runs for longer; its job has failed
        #[arg(long, value_name = "SECONDS", value_parser = seconds)]
        timeout: Option<Duration>,
        /// Where a command is to end it has so long for it from a SIGTERM on; then it is killed
        #[arg(long, value_name = "SECONDS", value_parser = seconds, default_value = "0")]
        grace: Duration,
        /// Puts a job aside that was given so often and failed: `kick` has it given again
        #[arg(long, value_name = "N", value_parser = tries)]
        tries: Option<u64>,
        /// What is run for each job
        #[arg(last = true)]
        command: Vec<OsString>,
        #[command(flatten)]
        asks: Asks,
    },
    /// The work on a job is done
    #[command(after_help = "Example: dumgerokctl finish 1 1764000000007")]
    Finish {
        /// The node that keeps the job, as `submit`, `take` and `jobs` print it
        #[arg(value_parser = node)]
        origin: u8,
        /// The job's id there
        id: u64,
        /// Also where a client works on it, which is told to stop
        #[arg(long)]
        force: bool,
        #[command(flatten)]
        asks: Asks,
    },
    /// Has jobs that were put aside at this machine given again, and prints how many they are
    #[command(after_help = "Example: dumgerokctl kick --queue 3")]
    Kick {
        #[arg(long, value_parser = queue, conflicts_with = "origin", help = concat!("Those of this queue alone, ", queue_range!()))]
        queue: Option<u8>,
        /// This job alone: the node that keeps it
        #[arg(value_parser = node, requires = "id")]
        origin: Option<u8>,
        /// And its id there
        id: Option<u64>,
        #[command(flatten)]
        asks: Asks,
    },
    /// Has new jobs kept at other machines, and waits until this one keeps none and has no lease, as before it is stopped
    ///
    /// Its node goes on as a member of the group. What it keeps is worked on by those who own the queues. Commands of `lead`, `lock` and `own` that run under a
    /// lease are ended, and their leases given back.
    #[command(after_help = "Example: dumgerokctl drain --wait 60 && systemctl stop dumgerok")]
    Drain {
        /// For so long at most; else without an end
        #[arg(long, value_name = "SECONDS", value_parser = seconds)]
        wait: Option<Duration>,
        /// Has new jobs kept here again, as a restart of the agent does
        #[arg(long, conflicts_with = "wait")]
        off: bool,
        #[command(flatten)]
        asks: Asks,
    },
    /// Tells those that watch of something, at all machines, as well as it goes
    #[command(after_help = "Example: dumgerokctl event deploy 'version 7'")]
    Event {
        /// 1 to 64 letters, digits and signs of ASCII
        name: String,
        /// At most 400 bytes
        text: String,
        #[command(flatten)]
        asks: Asks,
    },
    /// Compacts the node's journal
    #[command(after_help = "Example: dumgerokctl compact")]
    Compact(Asks),
    /// Begins or ends the record of what the node is asked and answers
    #[command(after_help = "Example: dumgerokctl record on")]
    Record {
        /// Whether there is one from now on
        state: OnOff,
        #[command(flatten)]
        asks: Asks,
    },
    /// Makes the file of a node, once in the life of a machine, and says how long a compaction of it takes
    ///
    /// Called by root it makes the file as the owner of the folder, who the agent runs as.
    #[command(after_help = "Example: dumgerokctl format --slots 1024")]
    Format {
        /// The configuration of the node
        #[arg(long, value_name = "PATH", default_value = "/etc/dumgerok/node.toml")]
        config: PathBuf,
        /// How many records the journal holds, 4 to 4096, and two fewer how many jobs are pending at most
        #[arg(long, value_name = "N", value_parser = slots, default_value = "128")]
        slots: u32,
        /// For how many machines there is a place, 1 to 128: as many as the files of the other nodes have
        #[arg(long, value_name = "N", value_parser = places, default_value = "16")]
        places: usize,
        /// The bytes of the file for each sector: 512 writes less, for devices that never tear a block of 4096
        #[arg(long, value_name = "BYTES", default_value = "4096")]
        stride: Stride,
        /// The node's group numbers and ids begin behind this; else behind the time
        #[arg(long, value_name = "N")]
        first: Option<u64>,
        /// Takes the time though the kernel says that this machine's clock was never synchronized: it is known to be right
        #[arg(long, conflicts_with = "first")]
        clock_unchecked: bool,
        /// A file of jobs that it begins with, as `export` prints them; - for standard input
        #[arg(long, value_name = "PATH")]
        jobs: Option<PathBuf>,
        /// Where the file is there already that is no mistake: nothing is done
        #[arg(long, conflicts_with = "lease")]
        if_missing: bool,
        /// Makes the file of leases alone, where `lease_ms` was set later: else it is made, too, where there is none
        #[arg(long, conflicts_with_all = ["slots", "places", "first", "jobs"])]
        lease: bool,
    },
    /// Makes a file of a key, for its owner alone: copy it to all machines, and give it to the agent's user there
    #[command(after_help = "Example: dumgerokctl key /etc/dumgerok/key")]
    Key {
        /// Where there is none of this name
        file: PathBuf,
    },
    /// What a file holds: whose it is, its counts, its jobs by queue, or what is damaged and where
    #[command(after_help = "Example: dumgerokctl inspect")]
    Inspect {
        #[command(flatten)]
        look: Look,
        /// Prints, too, what no crash leaves in a file, as broken, and what may tell of an older state, as a hint
        #[arg(long)]
        verify: bool,
    },
    /// The jobs of a file, a line each
    #[command(after_help = "Example: dumgerokctl export > jobs")]
    Export {
        #[command(flatten)]
        look: Look,
        /// Prints each job that can still be read, in front of what is damaged and behind it
        #[arg(long)]
        salvage: bool,
    },
    /// Has the records of all nodes judged: whether a cluster can have done what stands there
    ///
    /// The trace of them stands in $TMPDIR, else /tmp, meanwhile, and takes up to five times their room.
    ///
    /// With --follow they are judged again as they grow, with the parts that come, until an entry can't have been: then that is said, and the status is 1.
    /// Entries that repeat are forgotten.
    #[command(after_help = "Example: dumgerokctl judge node*/record.*")]
    Judge {
        /// The files of the records of all nodes, in any order; with --follow agents, too, that serve theirs: http://HOST:PORT
        #[arg(required = true)]
        files: Vec<PathBuf>,
        /// The proved program
        #[arg(long, value_name = "PATH", default_value = "/usr/lib/dumgerok/invite")]
        program: PathBuf,
        /// Prints the trace, and has nothing judged
        #[arg(long, conflicts_with = "follow")]
        trace: bool,
        /// Says in words why the records are no run
        #[arg(long, conflicts_with_all = ["follow", "trace"])]
        why: bool,
        /// Goes on as the records grow
        #[arg(long)]
        follow: bool,
        /// Writes numbers for Prometheus to this file
        #[arg(long, value_name = "FILE", requires = "follow")]
        metrics: Option<PathBuf>,
        /// A message may be missing for so long in its sender's record, while all agents answer
        #[arg(long, value_name = "SECONDS", value_parser = seconds, default_value = "1", requires = "follow")]
        patience: Duration,
        /// Ends with status 1 where the entries that are kept take more megabytes
        #[arg(long, value_name = "MB", default_value_t = 1000, requires = "follow")]
        most: usize,
    },
    /// Says in words why the entries of a trace are no run
    ///
    /// Of an entry that can't be: what its node says that it sent beside what it would have sent. Of each that waits: what it waits for in turn, in one line for all
    /// that wait for the same in the end. The status is that of `invite trace`.
    #[command(after_help = "Example: dumgerokctl why trace.json")]
    Why {
        /// The file of the trace; else standard input
        file: Option<PathBuf>,
        /// The proved program
        #[arg(long, value_name = "PATH", default_value = "/usr/lib/dumgerok/invite")]
        program: PathBuf,
    },
    /// Draws the run of a trace: a row for each node, a mark for each entry, an arrow for each message that came
    ///
    /// The order is the one that stands beside the trace, as far as it goes, and then one that the proved program finds. The status is that of
    /// `invite trace`.
    #[command(after_help = "Example: dumgerokctl judge --trace node*/record.* | dumgerokctl draw --to html > run.html")]
    Draw {
        /// The file of the trace; else standard input
        file: Option<PathBuf>,
        /// A picture, a page for long runs, or a file for Perfetto or ShiViz
        #[arg(long, value_name = "FORM", value_enum, default_value = "svg")]
        to: Form,
        /// The proved program
        #[arg(long, value_name = "PATH", default_value = "/usr/lib/dumgerok/invite")]
        program: PathBuf,
    },
    /// Runs COMMAND while this machine leads
    ///
    /// COMMAND has DUMGEROK_GROUP, DUMGEROK_COORDINATOR, DUMGEROK_MEMBERS, and under a lease DUMGEROK_EPOCH, in its environment. It is ended with all that
    /// it started before another machine may lead, whatever becomes of this command, the agent or the node.
    #[command(after_help = "Example: dumgerokctl lead --majority -- /usr/local/bin/scheduler")]
    Lead(Leads),
    /// Runs COMMAND once, under a lock that one in the cluster has at a time
    ///
    /// It ends with COMMAND's status; with 1 where the lock can't be had, or was lost while COMMAND ran.
    #[command(after_help = "Example: dumgerokctl lock backup --wait -- /usr/local/bin/backup")]
    Lock(Locks),
    /// The leases that this machine has
    #[command(after_help = "Example: dumgerokctl leases")]
    Leases(Asks),
    /// Runs COMMAND for each shard that this machine owns
    ///
    /// Each of SHARDS shards has one owner among the members of the group, and few move where these change. COMMAND has DUMGEROK_SHARD, 0 to SHARDS - 1,
    /// in its environment, beside what that of `lead` has.
    #[command(after_help = "Example: dumgerokctl own 64 -- /usr/local/bin/shard")]
    Own(Owns),
    /// Runs COMMAND for each change of the group
    ///
    /// Changes that come while it runs are joined. COMMAND has DUMGEROK_PHASE, DUMGEROK_GROUP, DUMGEROK_COORDINATOR, DUMGEROK_MEMBERS, DUMGEROK_QUEUES,
    /// DUMGEROK_LEADS, DUMGEROK_MAJORITY, DUMGEROK_NODE and DUMGEROK_ALIVE in its environment.
    #[command(after_help = "Example: dumgerokctl on-change -- /usr/local/bin/notify")]
    OnChange(OnChanges),
    /// Prints completions for a shell
    #[command(after_help = "Example: dumgerokctl completions bash")]
    Completions { shell: Shell },
}

impl Command {
    /// How its agent is to be asked, where the command asks one.
    pub fn asks(&self) -> Option<&Asks> {
        use Command::{Compact, Drain, Event, Finish, Jobs, Kick, Lead, Leases, Lock, Members, OnChange, Own, Record, Status, Submit, Take, Watch};
        match self {
            Status(asks) | Members(asks) | Compact(asks) | Leases(asks) => Some(asks),
            Jobs { asks, .. } | Watch { asks, .. } | Submit { asks, .. } => Some(asks),
            Take { asks, .. } | Finish { asks, .. } | Record { asks, .. } => Some(asks),
            Kick { asks, .. } | Drain { asks, .. } | Event { asks, .. } => Some(asks),
            Lead(leads) => Some(&leads.ends.asks),
            Lock(locks) => Some(&locks.ends.asks),
            Own(owns) => Some(&owns.ends.asks),
            OnChange(changes) => Some(&changes.ends.asks),
            _ => None,
        }
    }
}

/// A file that is looked at. It isn't locked, and nothing is written to it.
#[derive(Args)]
pub struct Look {
    /// The file of a node or of a store; else that of the configuration
    pub file: Option<PathBuf>,
    /// The configuration of the node
    #[arg(long, value_name = "PATH", default_value = "/etc/dumgerok/node.toml")]
    pub config: PathBuf,
    /// The proved program, where FILE is given; else that of the configuration
    #[arg(long, value_name = "PATH", default_value = "/usr/lib/dumgerok/invite")]
    pub program: PathBuf,
    /// Prints it as lines of JSON
    #[arg(long)]
    pub json: bool,
}

#[derive(Clone, Copy, PartialEq, Eq, ValueEnum)]
pub enum OnOff {
    On,
    Off,
}
