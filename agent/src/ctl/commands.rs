//! What each command does.

use super::agent::{socket, Agent, PATIENCE};
use super::arguments::{Arguments, Command, OnOff};
use super::follow::Follower;
use super::worker::{self, Worker};
use super::format::{make_leases, Format};
use super::{drain, event, file, key, program, show, Failure};
use crate::judge::Trace;
use clap::CommandFactory;
use dumgerok_client::{JobKey, Request, Submission};
use serde_json::Value;
use std::io::{self, ErrorKind, Read, Write};
use std::path::Path;
use std::process::ExitStatus;
use std::time::{Duration, Instant};

/// For what the node has to answer it is waited so long: for longer than systemd's watchdog lets a node be without an answer.
const NODE_PATIENCE: Duration = Duration::from_secs(60);

/// No more of a payload is read from standard input: its line is one that an agent takes, and it is far too long.
const MAX_INPUT: u64 = 4096;

/// Writes text; a reader that went away ends the command without a word.
pub(super) fn print(text: &str) -> Result<(), Failure> {
    let mut out = io::stdout().lock();
    printed(out.write_all(text.as_bytes()).and_then(|()| out.flush()))
}

fn print_trace(trace: &Trace) -> Result<(), Failure> {
    let mut out = io::BufWriter::new(io::stdout().lock());
    printed(trace.write(&mut out).and_then(|()| writeln!(out)).and_then(|()| out.flush()))
}

fn printed(written: io::Result<()>) -> Result<(), Failure> {
    match written {
        Err(why) if why.kind() == ErrorKind::BrokenPipe => std::process::exit(0),
        written => written.map_err(Failure::Output),
    }
}

pub fn run(arguments: Arguments) -> Result<(), Failure> {
    let Arguments { asks: before, command } = arguments;
    if let Some(asks) = command.asks() {
        let given = asks.socket.clone().or(before.socket);
        return with_agent(&socket(given), asks.json || before.json, command);
    }
    match &command {
        Command::Format { config, lease: true, clock_unchecked, .. } => {
            print(&make_leases(&program::read(config)?, *clock_unchecked)?)
        }
        Command::Format { config, slots, places, stride, first, clock_unchecked, jobs, if_missing, lease: false } => {
            let (jobs, is_clock_known) = (jobs.as_deref(), *clock_unchecked);
            let format = Format { slots: *slots, places: *places, stride: *stride, first: *first, is_clock_known, jobs };
            let config = program::read(config)?;
            if *if_missing && config.file.exists() {
                print(&format!("{} is there\n", config.file.display()))?;
            } else {
                print(&format.make(&config)?)?;
            }
            if config.lease_ms > 0 && !config.lease_file().exists() {
                print(&make_leases(&config, is_clock_known || first.is_some())?)?;
            }
            Ok(())
        }
        Command::Key { file } => print(&key::make(file)?),
        Command::Inspect { look, verify } => shown(program::look(look, "inspect", verify.then_some("--verify"))?, look.json || before.json, file::inspected),
        Command::Export { look, salvage } => shown(program::look(look, "export", salvage.then_some("--salvage"))?, look.json || before.json, file::exported),
        Command::Judge { files, trace: true, .. } => print_trace(&program::trace_of(files, true)?),
        Command::Judge { files, program, follow: true, metrics, patience, most, .. } => {
            Follower { program, metrics: metrics.as_deref(), patience: *patience, most: *most }.follow(files)
        }
        Command::Judge { files, program, why, .. } => program::judge(files, program, *why),
        Command::Why { file, program } => {
            let (text, status) = program::explained(file.as_deref(), program)?;
            print(&text)?;
            Failure::of_status(status)
        }
        Command::Draw { file, to, program } => {
            let (text, status) = program::drawn(file.as_deref(), *to, program)?;
            print(&text)?;
            Failure::of_status(status)
        }
        Command::Completions { shell } => {
            let mut script = Vec::new();
            clap_complete::generate(*shell, &mut Arguments::command(), "dumgerokctl", &mut script);
            print(&String::from_utf8_lossy(&script))
        }
        // these ask an agent
        _ => Ok(()),
    }
}

/// Prints what the program said of a file; how the program ended is how the command ends.
fn shown((text, status): (String, ExitStatus), is_json: bool, as_json: fn(&str) -> String) -> Result<(), Failure> {
    if is_json {
        print(&as_json(&text))?;
    } else {
        print(&text)?;
    }
    match Failure::of_status(status) {
        Err(Failure::Program { status, why: None }) if text.starts_with("too_small ") => {
            let why = Some("this is no node's file: it is shorter than the least one".to_string());
            Err(Failure::Program { status, why })
        }
        done => done,
    }
}

fn with_agent(socket: &Path, is_json: bool, command: Command) -> Result<(), Failure> {
    let asked = |request: Request, shown: fn(&Value) -> String| ask(socket, is_json, &request, shown);
    match command {
        Command::Status(_) => asked(Request::Status, show::status),
        Command::Members(_) => asked(Request::Members, show::members),
        Command::Jobs { queue, skip, limit, .. } => {
            asked(Request::Jobs { queue, skip, limit }, show::jobs)
        }
        Command::Submit { queue, text, priority, hex, key, .. } => {
            let submission = Submission::of_hex(queue, payload(text, hex)?).with_priority(priority);
            let submission = key.into_iter().fold(submission, Submission::with_key);
            asked(Request::Submit(&submission), kept)
        }
        Command::Finish { origin, id, force, .. } => {
            asked(Request::Finish { job: JobKey { origin, id }, ok: true, after_ms: None, aside: false, force }, silent)
        }
        Command::Kick { queue, origin, id, .. } => asked(Request::Kick { queue, origin, id }, kicked),
        Command::Drain { off: true, .. } => asked(Request::Drain { on: false }, silent),
        Command::Drain { wait, .. } => print(&drain::drained(socket, is_json, wait)?),
        Command::Event { name, text, .. } => print(&event::told(socket, is_json, &name, &text)?),
        Command::Compact(_) => asked(Request::Compact, silent),
        Command::Record { state, .. } => asked(Request::Record { on: state == OnOff::On }, silent),
        Command::Watch { since, .. } => watch(socket, is_json, since),
        Command::Take { queue, command, .. } if command.is_empty() => {
            let job = worker::next_job(&mut Agent::connect(socket)?, &queue)?;
            print(&if is_json { format!("{job}\n") } else { worker::shown(&job) })
        }
        Command::Leases(_) => asked(Request::Leases, show::all_leases),
        Command::Lead(leads) => leads.run(socket),
        Command::Lock(locks) => locks.run(socket),
        Command::Own(owns) => owns.run(socket),
        Command::OnChange(changes) => changes.run(socket),
        Command::Take { queue, once, timeout, grace, tries, command, .. } => {
            Worker { socket, queues: &queue, once, timeout, grace, tries, command: &command }.work()
        }
        // these ask no agent
        _ => Ok(()),
    }
}

/// The digits of a payload. What comes of standard input may be any bytes.
fn payload(text: String, is_hex: bool) -> Result<String, Failure> {
    if text != "-" {
        return Ok(if is_hex { text } else { hex::encode(text) });
    }
    let mut bytes = Vec::new();
    let read = io::stdin().take(MAX_INPUT).read_to_end(&mut bytes);
    read.map_err(|why| Failure::Usage(format!("standard input can't be read: {why}")))?;
    Ok(if is_hex { String::from_utf8_lossy(&bytes).trim().to_string() } else { hex::encode(&bytes) })
}

fn kept(reply: &Value) -> String {
    format!("node {} keeps it as {}\n", reply["origin"], reply["id"])
}

fn kicked(reply: &Value) -> String {
    format!("{} jobs may be given again\n", reply["kicked"])
}

fn silent(_: &Value) -> String {
    String::new()
}

fn ask(socket: &Path, is_json: bool, request: &Request, shown: fn(&Value) -> String) -> Result<(), Failure> {
    let agent = Agent::connect(socket)?;
    let said = answer(agent, socket, request, (PATIENCE, NODE_PATIENCE));
    let reply = said.map_err(|failure| unsure(failure, request))?;
    if is_json {
        print(&format!("{reply}\n"))?;
    } else if reply["ok"] == true {
        print(&shown(&reply))?;
    }
    match reply["ok"] == true {
        true => Ok(()),
        false => Err(refused(&reply)),
    }
}

/// Whether the agent answers by itself.
fn is_its_own(request: &Request) -> bool {
    use Request::{Drain, Finish, Kick, Members, Record, Status};
    matches!(request, Status | Members | Record { .. } | Kick { .. } | Drain { .. } | Finish { ok: false, .. })
}

/// The answer to a request: at once where the agent answers by itself. Where the node or another machine has to answer it is waited for while the agent
/// answers at all; for a submission the agent sets the end of that.
fn answer(
    mut agent: Agent,
    socket: &Path,
    request: &Request,
    (patience, node_patience): (Duration, Duration),
) -> Result<Value, Failure> {
    let begin = Instant::now();
    agent.be_patient_for(Some(patience))?;
    let mut said = agent.ask(request);
    while matches!(&said, Err(why) if why.kind() == ErrorKind::TimedOut) {
        if is_its_own(request) {
            break;
        }
        let mut other = Agent::connect(socket)?;
        other.be_patient_for(Some(patience))?;
        other.ask(&Request::Status)?;
        if begin.elapsed() >= node_patience && !matches!(request, Request::Submit(_)) {
            return Err(Failure::Late("the agent answers, and its node doesn't".to_string()));
        }
        said = agent.hear();
    }
    Ok(said?)
}

/// What was asked for without an answer may be done.
fn unsure(failure: Failure, request: &Request) -> Failure {
    use Request::{Compact, Finish, Record, Submit};
    match failure {
        Failure::Late(why) if matches!(request, Submit(_) | Finish { .. } | Compact | Record { .. }) => {
            Failure::Late(format!("{why}; what was asked may be done all the same"))
        }
        other => other,
    }
}

pub(super) fn refused(reply: &Value) -> Failure {
    let why = reply["why"].as_str().map_or(String::new(), |why| format!(" ({why})"));
    let maybe = if reply["may_be_kept"] == true { ", it may be kept all the same" } else { "" };
    Failure::Refused(format!("{}{maybe}{why}", reply["error"].as_str().unwrap_or("?")))
}

fn watch(socket: &Path, is_json: bool, since: Option<u64>) -> Result<(), Failure> {
    let mut agent = Agent::connect(socket)?;
    agent.be_patient_for(Some(PATIENCE))?;
    let mut line = agent.ask(&Request::Watch { since, every_ms: None })?;
    if line["ok"] == false {
        return Err(refused(&line));
    }
    agent.be_patient_for(None)?;
    loop {
        if is_json {
            print(&format!("{line}\n"))?;
        } else if !line["event"].is_null() {
            print(&show::event(&line))?;
        }
        line = agent.hear()?;
    }
}

#[cfg(test)]
mod tests {
    use super::*;
    use serde_json::json;
    use std::io::{BufRead, BufReader};
    use std::os::unix::net::{UnixListener, UnixStream};
    use std::thread;

    /// An agent that answers `status`, and other requests once it was asked for its status so often.
    fn slow_agent(name: &str, probes: usize) -> std::path::PathBuf {
        let path = std::env::temp_dir().join(format!("dumgerok-{name}-{}", std::process::id()));
        let _none = std::fs::remove_file(&path);
        let listener = UnixListener::bind(&path).unwrap();
        thread::spawn(move || {
            let (mut asked, mut waiting) = (0, Vec::<UnixStream>::new());
            for stream in listener.incoming().map(Result::unwrap) {
                let mut line = String::new();
                BufReader::new(&stream).read_line(&mut line).unwrap();
                if line.contains("status") {
                    asked += 1;
                    writeln!(&stream, "{}", json!({"ok": true})).unwrap();
                } else {
                    waiting.push(stream);
                }
                if asked == probes {
                    waiting.drain(..).for_each(|stream| writeln!(&stream, "{}", json!({"ok": true, "n": 7})).unwrap());
                }
            }
        });
        path
    }

    const SECOND: Duration = Duration::from_secs(1);

    fn asked(socket: &Path, request: &Request, node_patience: Duration) -> Result<Value, Failure> {
        let said = answer(Agent::connect(socket).unwrap(), socket, request, (SECOND, node_patience));
        std::fs::remove_file(socket).unwrap();
        said
    }

    #[test]
    fn an_agent_that_answers_is_waited_for() {
        let submission = Submission::new(0, "x");
        for (name, request, node_patience) in
            [("jobs", Request::Jobs { queue: None, skip: 0, limit: 1 }, SECOND * 60), ("submit", Request::Submit(&submission), Duration::ZERO)]
        {
            let said = asked(&slow_agent(name, 2), &request, node_patience);
            assert_eq!(said.unwrap()["n"], 7, "{name}");
        }
    }

    #[test]
    fn a_node_that_hangs_is_not_waited_for_without_an_end() {
        let request = Request::finish(JobKey { origin: 0, id: 1 });
        let said = asked(&slow_agent("hangs", usize::MAX), &request, SECOND);
        match said.map_err(|failure| unsure(failure, &request)) {
            Err(Failure::Late(why)) => assert!(why.contains("its node doesn't; what was asked may be done"), "{why}"),
            other => panic!("{other:?}"),
        }
    }
}
