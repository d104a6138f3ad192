//! Makes the file of a node.

use super::job_lines::check;
use super::values::Stride;
use super::Failure;
use crate::config::Config;
use crate::names;
use crate::system_calls::is_clock_synchronized;
use rustix::process::geteuid;
use std::fs;
use std::io::{self, Read, Write};
use std::os::unix::fs::MetadataExt;
use std::os::unix::process::CommandExt;
use std::path::Path;
use std::process::{Command, Stdio};
use std::time::{Instant, SystemTime, UNIX_EPOCH};

/// A clock that shows less than this, in milliseconds, was never set: so long ago there was no Dumgerok.
const EARLIEST: u64 = 1_750_000_000_000;

const CLOCK: &str = "the clock of this machine isn't set, and the numbers of the file are to begin behind those of an older one: set it, or give --first";

const UNSYNCHRONIZED: &str = "the clock of this machine was never synchronized, as its kernel says (`timedatectl`), and the numbers of the file are to begin behind those \
    of an older one: have it synchronized, or give --clock-unchecked where it is right, or --first";

/// The status of the program where a folder isn't there.
const NO_FOLDER: u8 = 7;

/// What is asked for.
pub struct Format<'a> {
    pub slots: u32,
    pub places: usize,
    pub stride: Stride,
    pub first: Option<u64>,
    /// Whether the clock is right, whatever the kernel says of it.
    pub is_clock_known: bool,
    pub jobs: Option<&'a Path>,
}

fn first_by(now: SystemTime) -> Option<u64> {
    let since = now.duration_since(UNIX_EPOCH).ok()?.as_millis();
    u64::try_from(since).ok().filter(|since| *since >= EARLIEST)
}

/// What numbers begin behind that are above those of a file that was lost: the time, of a clock that is known to be right or was synchronized.
fn first_by_clock(is_known: bool) -> Result<u64, Failure> {
    let first = first_by(SystemTime::now()).ok_or_else(|| Failure::Usage(CLOCK.to_string()))?;
    if is_known || is_clock_synchronized() {
        return Ok(first);
    }
    Err(Failure::Usage(UNSYNCHRONIZED.to_string()))
}

impl Format<'_> {
    /// Makes the file; what is said of it then. Its counts and ids begin behind the time, so that a machine which lost its file gives no number again.
    pub fn make(&self, config: &Config) -> Result<String, Failure> {
        let file = config.file.display();
        if fs::symlink_metadata(&config.file).is_ok() {
            return Err(Failure::NotDone(format!("{file} stays as it is: {}", what_is_there(config))));
        }
        if config.nodes.len() > self.places {
            return Err(Failure::Usage(format!("--places: `nodes` has {} places", config.nodes.len())));
        }
        let first = self.first_number()?;
        let jobs = self.jobs.map(text_of).transpose()?;
        if let Some(text) = &jobs {
            check(text, first, self.slots).map_err(|why| Failure::Usage(format!("--jobs: {why}")))?;
        }
        let begin = Instant::now();
        self.run(config, first, jobs.as_deref())?;
        let (stride, most, took) = (self.stride.bytes(), self.slots - 2, begin.elapsed().as_secs_f64());
        Ok(format!(
            "{file} is made, in {took:.2} s: node {} of {} places, {} slots of {stride} bytes. At most {most} jobs may be pending. \
             A compaction makes 4 syncs, and takes no longer than this did.\n",
            config.id,
            self.places,
            self.slots
        ))
    }

    /// What the numbers of the file begin behind.
    fn first_number(&self) -> Result<u64, Failure> {
        if let Some(first) = self.first {
            return Ok(first);
        }
        first_by_clock(self.is_clock_known)
    }

    fn run(&self, config: &Config, first: u64, jobs: Option<&str>) -> Result<(), Failure> {
        let named = |why: io::Error| Failure::Usage(format!("{}: {why}", config.program.display()));
        let numbers = [u64::from(self.slots), u64::from(config.id), self.places as u64, first];
        let mut command = Command::new(&config.program);
        command.arg("format").arg(&config.file).args(numbers.map(|number| number.to_string()));
        command.args(["--stride", &self.stride.bytes().to_string()]).arg("--cluster").arg(&config.cluster);
        if jobs.is_some() {
            command.args(["--jobs", "-"]);
        }
        as_owner(&mut command, &config.file)?;
        let mut child = command.stdin(Stdio::piped()).spawn().map_err(named)?;
        if let Some(mut input) = child.stdin.take() {
            // where it doesn't read to the end its status says why
            let _unread = input.write_all(jobs.unwrap_or_default().as_bytes());
        }
        Failure::of_status(child.wait().map_err(named)?)
    }
}

/// Makes the file of leases; what is said of it then. Its epochs begin behind the time, so that a machine which lost its file gives none again.
pub fn make_leases(config: &Config, is_clock_known: bool) -> Result<String, Failure> {
    let (path, named) = (config.lease_file(), |why: io::Error| Failure::Usage(format!("{}: {why}", config.program.display())));
    let file = path.display();
    if fs::symlink_metadata(&path).is_ok() {
        return Err(Failure::NotDone(format!("{file} stays as it is: a file of leases is made once")));
    }
    let first = first_by_clock(is_clock_known)? / 1000;
    let mut command = Command::new(&config.program);
    command.args(["format", "--lease"]).arg(&path).args([config.id.to_string(), first.to_string()]);
    as_owner(&mut command, &path)?;
    Failure::of_status(command.status().map_err(named)?)?;
    Ok(format!("{file} is made: the leases of node {}\n", config.id))
}

/// Has root make the file as the owner of its folder: the agent, who runs as that one, couldn't open a file that is root's.
fn as_owner(command: &mut Command, file: &Path) -> Result<(), Failure> {
    let folder = file.parent().filter(|folder| !folder.as_os_str().is_empty()).unwrap_or_else(|| Path::new("."));
    let found = match fs::metadata(folder) {
        Ok(found) => found,
        Err(why) if why.kind() == io::ErrorKind::NotFound => {
            let why = format!("{}: this folder isn't there: is its file system mounted?", folder.display());
            return Err(Failure::Program { status: NO_FOLDER, why: Some(why) });
        }
        // whatever else it is the program says
        Err(_) => return Ok(()),
    };
    if geteuid().is_root() && found.uid() != 0 {
        command.uid(found.uid()).gid(found.gid());
    }
    Ok(())
}

/// Whose file it is that is there already.
fn what_is_there(config: &Config) -> String {
    let asked = Command::new(&config.program).arg("inspect").arg(&config.file).stderr(Stdio::null()).output();
    let text = asked.map(|done| String::from_utf8_lossy(&done.stdout).into_owned()).unwrap_or_default();
    let value = |name: &str| text.lines().find_map(|line| line.strip_prefix(name)).map(str::to_string);
    let owner = fs::metadata(&config.file).map_or(String::new(), |found| format!(", and is {}'s", names::user(found.uid())));
    match (value("node "), value("nodes "), value("jobs ")) {
        (Some(node), Some(nodes), Some(jobs)) => {
            format!("it is the file of node {node} of {nodes}, keeps {jobs} jobs{owner}. A node's file is made once")
        }
        (Some(node), Some(nodes), None) => format!("it is a damaged file of node {node} of {nodes}{owner} (`dumgerokctl inspect`)"),
        _ => format!("something is there that is no node's file{owner}"),
    }
}

fn text_of(path: &Path) -> Result<String, Failure> {
    let mut text = String::new();
    let read = match path.to_str() {
        Some("-") => io::stdin().read_to_string(&mut text).map(|_| text),
        _ => fs::read_to_string(path),
    };
    read.map_err(|why| Failure::Usage(format!("--jobs: {}: {why}", path.display())))
}

#[cfg(test)]
mod tests {
    use super::*;
    use std::time::Duration;

    #[test]
    fn a_clock_that_was_never_set_gives_no_numbers() {
        for (seconds, first) in
            [(0, None), (86_400, None), (1_749_999_999, None), (1_764_000_000, Some(1_764_000_000_000))]
        {
            assert_eq!(first_by(UNIX_EPOCH + Duration::from_secs(seconds)), first);
        }
        assert_eq!(first_by(UNIX_EPOCH - Duration::from_secs(1)), None);
    }
}
