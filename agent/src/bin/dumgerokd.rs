//! `dumgerokd CONFIG`: the agent of a machine.

#![forbid(unsafe_code)]

use anyhow::Context;
use dumgerok_agent::command_line::{self, Words};
use dumgerok_agent::{
    become_command, drop_cache, names, places, say, share_memory, verified, Beginning, Config, Daemon, KeyError, LogLevel, LogLines, Verdict,
};
use log::{error, info, LevelFilter};
use rustix::fs::fstat;
use rustix::process::geteuid;
use std::fs::{File, OpenOptions};
use std::io::{ErrorKind, Write};
use std::os::unix::fs::MetadataExt;
use std::path::{Path, PathBuf};
use std::process::ExitCode;

const CONFIG: u8 = 2;
const DEVICE: u8 = 3;
const KEY: u8 = 6;
const UNUSABLE: u8 = 7;
const BROKEN: u8 = 10;

/// A line for each message; with the priority in front where the journal reads it.
fn log_as(level: LogLevel, lines: LogLines) {
    let filter = match level {
        LogLevel::Error => LevelFilter::Error,
        LogLevel::Warning => LevelFilter::Warn,
        LogLevel::Info => LevelFilter::Info,
        LogLevel::Debug => LevelFilter::Debug,
    };
    let mut builder = env_logger::Builder::new();
    builder.filter_level(filter).target(env_logger::Target::Pipe(Box::new(lines)));
    if is_read_by_journal() {
        builder.format(|out, record| {
            let priority = [3, 3, 4, 6, 7, 7][record.level() as usize];
            writeln!(out, "<{priority}>{}", record.args())
        });
    } else {
        builder.format(|out, record| writeln!(out, "dumgerokd: {}", record.args()));
    }
    builder.init();
}

/// Whether standard error goes to the journal: what names its stream is inherited by processes whose output goes elsewhere, too.
fn is_read_by_journal() -> bool {
    let own = fstat(std::io::stderr()).map(|found| format!("{}:{}", found.st_dev, found.st_ino));
    matches!((std::env::var("JOURNAL_STREAM"), own), (Ok(stream), Ok(own)) if stream == own)
}

/// Opens the file, or answers the status to end with: so the node isn't blamed for what the machine doesn't permit. None where the node is to say what is
/// wrong with it.
fn opened(path: &Path, config: &Path) -> Result<Option<File>, u8> {
    let file = path.display();
    match OpenOptions::new().read(true).write(true).open(path) {
        Ok(opened) if opened.metadata().map_or(false, |found| found.is_file()) => Ok(Some(opened)),
        Ok(_) => Ok(None),
        Err(why) if why.kind() == ErrorKind::NotFound && !is_folder_there(path) => {
            error!("{file}: its folder isn't there: is its file system mounted?");
            Err(UNUSABLE)
        }
        Err(why) if why.kind() == ErrorKind::NotFound => {
            error!("{file}: there is no such file. Was there one, is its file system mounted? For a new node {} makes it", format_command(config));
            Err(UNUSABLE)
        }
        Err(why) if why.kind() == ErrorKind::PermissionDenied => {
            let (own, owner) = (names::user(geteuid().as_raw()), path.metadata().map(|found| names::user(found.uid())));
            let whose = owner.map_or(String::new(), |owner| format!(": it is {owner}'s (`chown {own}: {file}`)"));
            error!("{file}: this user, {own}, may not open it{whose}");
            Err(UNUSABLE)
        }
        Err(_) => Ok(None),
    }
}

fn is_folder_there(path: &Path) -> bool {
    path.parent().map_or(true, |folder| folder.as_os_str().is_empty() || folder.is_dir())
}

/// The command that makes the file, as the agent's user: a file that is root's it couldn't open.
fn format_command(config: &Path) -> String {
    let with = match config.to_str() {
        Some("/etc/dumgerok/node.toml") => String::new(),
        _ => format!(" --config {}", config.display()),
    };
    match geteuid() {
        root if root.is_root() => format!("`dumgerokctl format{with}`"),
        user => format!("`runuser -u {} -- dumgerokctl format{with}`", names::user(user.as_raw())),
    }
}

/// The configuration with as many places as the file has, or the status to end with. Where that can't be told the node says what is wrong with the file.
fn with_places_of_file(config: Config, path: &Path) -> Result<Config, u8> {
    let count = if config.file.is_file() { places(&config.file) } else { None };
    let count = count.unwrap_or(config.nodes.len());
    let has_group = config.admin().map(|_| ());
    has_group.and_then(|()| config.with_places(count)).map_err(|why| {
        error!("{}: {why}", path.display());
        CONFIG
    })
}

fn run(config: Config, path: PathBuf, beginning: &Beginning) -> anyhow::Result<u8> {
    let opened = opened(&config.file, &path);
    let (file, config) = match opened.and_then(|file| Ok((file, with_places_of_file(config, &path)?))) {
        Ok(both) => both,
        Err(status) => return Ok(status),
    };
    // A device may have failed under the node before: nothing is read but what it holds.
    if let Some(file) = file {
        drop_cache(&file).with_context(|| format!("{}: the system doesn't let go of it", config.file.display()))?;
        if verified(&config.program, &config.file, &file) == Verdict::Broken {
            return Ok(BROKEN);
        }
    }
    let (machines, places) = (config.machines(), config.nodes.len());
    info!("node {} of cluster {}, {machines} nodes in {places} places, at {}", config.id, config.cluster, config.listens_at());
    let file = config.file.clone();
    let status = Daemon::start(config, path)?.run(beginning)?;
    if status == DEVICE {
        error!("{}: look why the device failed before the agent is started again", file.display());
    }
    Ok(status)
}

/// Writes a text to standard output.
fn told(text: &str) -> ExitCode {
    match std::io::stdout().write_all(text.as_bytes()) {
        Ok(()) => ExitCode::SUCCESS,
        Err(_) => ExitCode::FAILURE,
    }
}

fn main() -> ExitCode {
    if let Some(status) = become_command() {
        return ExitCode::from(status);
    }
    share_memory();
    let beginning = match Beginning::register() {
        Ok(beginning) => beginning,
        Err(why) => {
            say(format!("dumgerokd: signals can't be waited for: {why}"));
            return ExitCode::FAILURE;
        }
    };
    let path = match command_line::read(std::env::args_os().skip(1)) {
        Words::Config(path) => path,
        Words::Help => return told(command_line::HELP),
        Words::Version => return told(concat!("dumgerokd ", env!("CARGO_PKG_VERSION"), "\n")),
        Words::Wrong(why) => {
            say(format!("dumgerokd: {why}\n{}; dumgerokd --help tells more", command_line::USAGE));
            return ExitCode::from(CONFIG);
        }
    };
    let config = match Config::read(&path) {
        Ok(config) => config,
        Err(why) => {
            say(format!("dumgerokd: {}: {why}", path.display()));
            return ExitCode::from(CONFIG);
        }
    };
    let lines = match LogLines::start(std::io::stderr()) {
        Ok(lines) => lines,
        Err(why) => {
            say(format!("dumgerokd: there is no thread for the log: {why}"));
            return ExitCode::FAILURE;
        }
    };
    log_as(config.log, lines.clone());
    let status = run(config, path, &beginning).unwrap_or_else(|why| {
        error!("{why:#}");
        let is_key = why.downcast_ref::<KeyError>().is_some();
        if is_key {
            KEY
        } else {
            1
        }
    });
    lines.finish();
    ExitCode::from(status)
}
