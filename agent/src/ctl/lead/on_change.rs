//! A command that runs once for each change of the group: changes that come while it runs are joined.

use super::super::interrupts::Interrupts;
use super::super::Failure;
use super::follow::{Follow, Said};
use super::LOOK;
use crate::boot_time::BootTime;
use crate::keeper::Kept;
use crate::own_session;
use crate::say::say;
use serde_json::Value;
use std::ffi::OsString;
use std::path::Path;
use std::time::Duration;

/// An agent is asked so often, though it says each change by itself.
const PAUSE: Duration = Duration::from_secs(10);

/// What a command is told, and by which a change is known.
const FIELDS: [(&str, &str); 9] = [
    ("DUMGEROK_NODE", "node"),
    ("DUMGEROK_PHASE", "phase"),
    ("DUMGEROK_GROUP", "group"),
    ("DUMGEROK_COORDINATOR", "coordinator"),
    ("DUMGEROK_MEMBERS", "members"),
    ("DUMGEROK_QUEUES", "queues"),
    ("DUMGEROK_LEADS", "is_coordinator"),
    ("DUMGEROK_MAJORITY", "majority"),
    ("DUMGEROK_ALIVE", "alive"),
];

type Variables = Vec<(&'static str, String)>;

pub fn run(socket: &Path, command: &[OsString], grace: Duration) -> Result<(), Failure> {
    let program = command.first().ok_or_else(|| Failure::Usage("no COMMAND".to_string()))?;
    if let Some(why) = own_session::why_not(program) {
        return Err(Failure::Usage(format!("{}: {why}", program.to_string_lossy())));
    }
    let interrupts = Interrupts::register()?;
    interrupts.set_idle(false);
    let mut follow = Follow::start(socket, PAUSE, false)?;
    let (mut told, mut running): (Option<Variables>, Option<Kept>) = (None, None);
    while !interrupts.have_come() || running.is_some() {
        follow.wait(LOOK)?;
        if let Some(kept) = &mut running {
            match kept.try_wait()? {
                Some(status) if !status.success() => say(format!("dumgerokctl: the command ended ({status})")),
                Some(_) => {}
                None if interrupts.have_come() => {
                    kept.end();
                    continue;
                }
                None => continue,
            }
            running = None;
        }
        let now = follow.last.as_ref().map(variables);
        if now.is_some() && now != told && !interrupts.have_come() {
            let named = |why| Failure::Usage(format!("the command can't be run: {why}"));
            running = Some(Kept::start(command, now.clone().unwrap_or_default(), BootTime::NEVER, grace).map_err(named)?);
            told = now;
        }
    }
    Ok(interrupts.end()?)
}

fn variables(said: &Said) -> Variables {
    let text = |field: &Value| match field {
        Value::String(text) => text.clone(),
        Value::Array(all) => all.iter().map(Value::to_string).collect::<Vec<_>>().join(","),
        other => other.to_string(),
    };
    FIELDS.iter().map(|(name, field)| (*name, text(&said.status[*field]))).collect()
}
