//! Three cores in memory, each with a stand-in for its node, and in a quarter of the runs for its process of leases, over a network and by clocks that a seed
//! makes: what was acknowledged, refused, given and told is held to models. Machines are killed and begin anew, nodes and processes of leases fail, groups
//! change, datagrams are lost, late, doubled and out of order, and clients hang up. Clocks go right to one part in 32, and wrong in an eighth of the runs with
//! leases, where two may hold one at a time, and epochs rise all the same.
//!
//! `build test --release --lib simulation` makes 10,000 runs, by the seeds from 1 on. DUMGEROK_SEED and DUMGEROK_RUNS have others, and DUMGEROK_TRACE prints
//! all that is said: with `--nocapture` and one run that is the story of a seed that failed.

mod grantor;
mod lease_model;
mod machine;
mod memory;
mod model;
mod node;
mod odd;
mod people;
mod pipes;
mod ports;
mod world;

use crate::metrics::Metrics;
use model::Tally;
use std::fs::{self, OpenOptions};
use std::io::Write;
use std::os::unix::fs::OpenOptionsExt;
use std::panic::{catch_unwind, AssertUnwindSafe};
use std::path::PathBuf;
use std::sync::atomic::{AtomicU64, Ordering};
use std::sync::Mutex;
use std::thread;
use world::{Bed, World};

/// So many runs are made where nothing else is said.
const RUNS: u64 = if cfg!(debug_assertions) { 120 } else { 10_000 };

fn number_of(name: &str) -> Option<u64> {
    std::env::var(name).ok().map(|text| text.parse().unwrap())
}

/// A file with one key, for as long as this is there.
struct KeyFile(PathBuf);

impl KeyFile {
    fn new(name: &str) -> KeyFile {
        let path = std::env::temp_dir().join(format!("dumgerok-{name}-{}.key", std::process::id()));
        let mut file = OpenOptions::new().create(true).truncate(true).write(true).mode(0o600).open(&path).unwrap();
        writeln!(file, "{}", "5a".repeat(32)).unwrap();
        KeyFile(path)
    }

    fn bed(&self) -> Bed {
        Bed { metrics: Metrics::new("simulated", &[]).unwrap(), key: self.0.clone() }
    }
}

impl Drop for KeyFile {
    fn drop(&mut self) {
        drop(fs::remove_file(&self.0));
    }
}

/// The runs of these seeds, on all processors; panics with the least seed of those that fail.
fn runs(first: u64, count: u64) -> Tally {
    let (next, all, key) = (AtomicU64::new(first), Mutex::new((Tally::default(), Vec::new())), KeyFile::new("runs"));
    thread::scope(|scope| {
        for _ in 0..thread::available_parallelism().map_or(1, usize::from) {
            scope.spawn(|| {
                let bed = key.bed();
                loop {
                    let seed = next.fetch_add(1, Ordering::SeqCst);
                    if seed >= first + count || !all.lock().unwrap().1.is_empty() {
                        return;
                    }
                    match catch_unwind(AssertUnwindSafe(|| World::run(seed, &bed).0)) {
                        Ok(tally) => all.lock().unwrap().0.add(tally),
                        Err(_) => all.lock().unwrap().1.push(seed),
                    }
                }
            });
        }
    });
    let (tally, failed) = all.into_inner().unwrap();
    assert!(failed.is_empty(), "seed {} fails", failed.iter().min().unwrap());
    tally
}

#[test]
fn jobs_are_kept_given_and_told_whatever_befalls() {
    let runs_made = number_of("DUMGEROK_RUNS").unwrap_or(RUNS);
    let tally = runs(number_of("DUMGEROK_SEED").unwrap_or(1), runs_made);
    println!("{runs_made} runs: {tally:?}");
    if runs_made >= 100 {
        let counts = [tally.kept, tally.refused, tally.doubted, tally.given, tally.stopped, tally.keyed, tally.ends];
        assert!(counts.iter().chain(&tally.leases.counts()).all(|count| *count > 0), "{tally:?}");
    }
}

#[test]
fn a_seed_makes_one_run() {
    let key = KeyFile::new("seeds");
    let bed = key.bed();
    for seed in (4..8).chain(24..32) {
        assert_eq!(World::run(seed, &bed).1, World::run(seed, &bed).1, "seed {seed}");
    }
}
