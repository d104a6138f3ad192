//! Commands that the proved program does, over the file of a configuration.

use super::arguments::Look;
use super::commands::print;
use super::Failure;
use crate::config::Config;
use crate::draw::{draw, DrawError, Form};
use crate::judge::{self, RecordError, Why};
use crate::say::say;
use std::collections::HashMap;
use std::fs;
use std::io::{self, BufRead, BufReader, Read, Write};
use std::path::{Path, PathBuf};
use std::process::{Child, Command, ExitStatus, Output, Stdio};

pub fn read(path: &Path) -> Result<Config, Failure> {
    Config::read(path).map_err(|why| Failure::Usage(format!("{}: {why}", path.display())))
}

/// What `inspect` or `export` prints of a file, and how it ends. What is wrong with the file itself it says on standard error.
pub fn look(look: &Look, word: &str, option: Option<&str>) -> Result<(String, ExitStatus), Failure> {
    let (program, file) = match &look.file {
        Some(file) => (look.program.clone(), file.clone()),
        None => read(&look.config).map(|config| (config.program, config.file))?,
    };
    let named = |why| Failure::Usage(format!("{}: {why}", program.display()));
    let done = Command::new(&program).arg(word).args(option).arg(file).stderr(Stdio::inherit()).output().map_err(named)?;
    Ok((String::from_utf8_lossy(&done.stdout).into_owned(), done.status))
}

/// One trace of the records of all nodes, whose entries say when they were, where that is asked for.
pub fn trace_of(files: &[PathBuf], has_times: bool) -> Result<judge::Trace, Failure> {
    let read = judge::read(files).and_then(|records| judge::trace_of(records, has_times));
    read.map_err(unread)
}

/// A record that can't be read, or in which a node said what it can't have.
pub fn unread(why: RecordError) -> Failure {
    match why {
        RecordError::Untrue { .. } => Failure::NotDone(why.to_string()),
        RecordError::Away { host, why } => Failure::NoAgent(io::Error::new(why.kind(), format!("http://{host}: {why}"))),
        why => Failure::Usage(why.to_string()),
    }
}

/// Lets `invite trace` judge the records of all nodes. Where they are no run it says where the entry stands that can't have been; and where all that is left of
/// them waits for messages that nobody sent, as where a record lost its end, that.
/// With `why` the program's own words stand in ours.
pub fn judge(files: &[PathBuf], program: &Path, why: bool) -> Result<(), Failure> {
    let trace = trace_of(files, false)?;
    let named = |why| Failure::Usage(format!("{}: {why}", program.display()));
    let done = judged(program, &[], &trace, if why { Stdio::piped() } else { Stdio::inherit() }).map_err(named)?;
    let verdict = String::from_utf8_lossy(&done.stdout);
    print(&verdict)?;
    if why {
        // of a run nothing more is asked
        let mut text = Vec::new();
        if !done.status.success() {
            trace.write(&mut text).map_err(named)?;
        }
        let place = |node, entry| trace.place(node, entry).map_or_else(String::new, |(path, line)| format!(" ({}, line {line})", path.display()));
        print(&why_of(program, &text, &done, place)?)?;
    }
    if let Some((node, entry)) = culprit(&verdict) {
        let place = trace.place(node, entry).map_or_else(String::new, |(path, line)| format!("ends in {}, line {line}", path.display()));
        // they may be far more than is to be held
        let mut turning = given(program, &["--turns"], &trace, Stdio::null()).map_err(named)?;
        let turns = turning.stdout.take().into_iter().flat_map(|out| BufReader::new(out).lines()).map_while(Result::ok);
        let told = told_otherwise(turns, node, entry, || trace.told(node, entry));
        turning.wait().map_err(named)?;
        match told {
            Some(why) => say(format_args!("dumgerokctl: in the answer that {place}, {why}")),
            None => say(format_args!("dumgerokctl: that entry {place}")),
        }
    }
    if done.status.code() == Some(1) && judged_ongoing(program, &trace).map_err(named)? {
        say("dumgerokctl: each entry that is left waits for a message that no record has: did one lose its end, as by a loss of power?");
    }
    Failure::of_status(done.status)
}

/// What a node told of an entry that isn't true, beside how it stands behind it by the program's turns; none where they don't have it, as where its node stops there.
pub fn told_otherwise<T: AsRef<str>>(mut turns: impl Iterator<Item = T>, node: usize, entry: usize, told: impl FnOnce() -> String) -> Option<String> {
    let begin = format!("turn {node} {entry} ");
    let stand = turns.find_map(|line| line.as_ref().strip_prefix(&begin).map(str::to_string))?;
    let stand = match stand.split(' ').collect::<Vec<_>>().as_slice() {
        [phase, group, coordinator, members, hand] => format!("{phase} {coordinator} {group} {members}, with {hand} jobs in hand"),
        words => words.join(" "),
    };
    Some(format!("node {node} told {}, and stands as {stand}", told()))
}

/// Whether a trace may be that of a run that goes on.
fn judged_ongoing(program: &Path, trace: &judge::Trace) -> io::Result<bool> {
    judged(program, &["--ongoing"], trace, Stdio::null()).map(|done| done.status.success() && done.stdout.starts_with(b"Ongoing"))
}

/// What the program prints of a trace, and how it ends.
fn judged(program: &Path, options: &[&str], trace: &judge::Trace, errors: Stdio) -> io::Result<Output> {
    given(program, options, trace, errors)?.wait_with_output()
}

/// The program, which was given a trace.
fn given(program: &Path, options: &[&str], trace: &judge::Trace, errors: Stdio) -> io::Result<Child> {
    let mut child = Command::new(program).arg("trace").args(options).stdin(Stdio::piped()).stdout(Stdio::piped()).stderr(errors).spawn()?;
    if let Some(input) = child.stdin.take() {
        // where it doesn't read to the end its status says why
        let _unread = trace.write(&mut io::BufWriter::new(input));
    }
    Ok(child)
}

/// The node and the entry that a verdict names: `NotARun NODE INDEX`.
pub fn culprit(verdict: &str) -> Option<(usize, usize)> {
    match verdict.split_whitespace().collect::<Vec<_>>().as_slice() {
        ["NotARun", node, entry] => Some((node.parse().ok()?, entry.parse().ok()?)),
        _ => None,
    }
}

/// All of a file, or of standard input.
fn text_of(file: Option<&Path>) -> Result<Vec<u8>, Failure> {
    match file {
        Some(path) => fs::read(path).map_err(|why| Failure::Usage(format!("{}: {why}", path.display()))),
        None => {
            let mut text = Vec::new();
            let read = io::stdin().lock().read_to_end(&mut text);
            read.map(|_| text).map_err(|why| Failure::Usage(format!("standard input can't be read: {why}")))
        }
    }
}

/// What the program prints for a text on its standard input, and says on standard error.
fn asked(program: &Path, word: &str, text: &[u8]) -> io::Result<Output> {
    let mut child = Command::new(program).arg(word).stdin(Stdio::piped()).stdout(Stdio::piped()).stderr(Stdio::piped()).spawn()?;
    let input = child.stdin.take();
    std::thread::scope(|scope| {
        // where it doesn't read to the end its status says why
        scope.spawn(move || input.map(|mut input| input.write_all(text)));
        child.wait_with_output()
    })
}

/// Why a trace of which the program said this is no run, in words; what the program said, where no entry is left.
fn why_of(program: &Path, trace: &[u8], done: &Output, place: impl Fn(usize, usize) -> String) -> Result<String, Failure> {
    let named = |why| Failure::Usage(format!("{}: {why}", program.display()));
    let said = String::from_utf8_lossy(&done.stderr);
    let read = Why::of(trace, &said).map_err(|why| Failure::NotDone(format!("the program read this trace, and it can't be read here: {why}")))?;
    let why = match read {
        Some(why) => why,
        None => return Ok(said.into_owned()),
    };
    let messages = why.messages();
    let lines: String = messages.iter().map(|digits| format!("{digits}\n")).collect();
    let shown = asked(program, "show", lines.as_bytes()).map_err(named)?;
    let shown = String::from_utf8_lossy(&shown.stdout);
    let words: HashMap<&str, &str> = messages.iter().map(String::as_str).zip(shown.lines()).collect();
    Ok(why.text(|digits| words.get(digits).unwrap_or(&digits).to_string(), place))
}

/// The verdict on a trace and why it is no run, in words, and how the program ended that read it.
pub fn explained(file: Option<&Path>, program: &Path) -> Result<(String, ExitStatus), Failure> {
    let text = text_of(file)?;
    let done = asked(program, "trace", &text).map_err(|why| Failure::Usage(format!("{}: {why}", program.display())))?;
    let verdict = String::from_utf8_lossy(&done.stdout).into_owned();
    let why = why_of(program, &text, &done, |_, _| String::new())?;
    Ok((verdict + &why, done.status))
}

/// The run of a trace, drawn, and how the program ended that read it.
pub fn drawn(file: Option<&Path>, form: Form, program: &Path) -> Result<(String, ExitStatus), Failure> {
    draw(program, &text_of(file)?, form).map_err(|why| match why {
        DrawError::Program(why) => Failure::Usage(format!("{}: {why}", program.display())),
        why => Failure::NotDone(why.to_string()),
    })
}

#[cfg(test)]
mod tests {
    use super::*;

    #[test]
    fn what_was_told_is_said_beside_how_the_node_stands() {
        let turns = "possible\nturn 1 5 Down\nturn 0 5 Normal 1:2 1 0,1 3\nturn 0 55 Election 0:1 0 - 0\n";
        let said = |node, entry| told_otherwise(turns.lines(), node, entry, || r#"{"took":""}"#.to_string());
        assert_eq!(said(0, 5).unwrap(), r#"node 0 told {"took":""}, and stands as Normal 1 1:2 0,1, with 3 jobs in hand"#);
        assert_eq!(said(1, 5).unwrap(), r#"node 1 told {"took":""}, and stands as Down"#);
        assert_eq!([said(0, 6), said(2, 5)], [None, None]);
    }
}
