//! Drains a machine: new jobs are kept elsewhere, commands under leases end, and it is waited until its node keeps no job and it has no lease.

use super::agent::{Agent, PATIENCE};
use super::Failure;
use dumgerok_client::Request;
use serde_json::Value;
use std::path::Path;
use std::thread;
use std::time::{Duration, Instant};

/// How often the agent is asked how far it is.
const LOOK: Duration = Duration::from_millis(200);

/// What is said once the node keeps no job and leads no other one, and the machine has no lease.
pub fn drained(socket: &Path, is_json: bool, wait: Option<Duration>) -> Result<String, Failure> {
    let begin = Instant::now();
    loop {
        ask(socket, &Request::Drain { on: true })?;
        let status = ask(socket, &Request::Status)?;
        match left(&status) {
            None if is_json => return Ok(format!("{status}\n")),
            None => return Ok(format!("node {} keeps no job\n", status["node"])),
            Some(left) if wait.map_or(false, |wait| begin.elapsed() >= wait) => return Err(Failure::Late(left)),
            Some(_) => thread::sleep(LOOK),
        }
    }
}

fn ask(socket: &Path, request: &Request) -> Result<Value, Failure> {
    let mut agent = Agent::connect(socket)?;
    agent.be_patient_for(Some(PATIENCE))?;
    let reply = agent.ask(request)?;
    match reply["ok"] == true {
        true => Ok(reply),
        false => Err(Failure::Refused(reply["error"].as_str().unwrap_or("?").to_string())),
    }
}

/// What keeps a machine from being drained; None where nothing does.
fn left(status: &Value) -> Option<String> {
    let leads_others =
        status["is_coordinator"] == true && status["members"].as_array().map_or(false, |members| members.len() > 1);
    let leases = status["leases"].as_u64().unwrap_or(0);
    match status["pending"].as_u64() {
        Some(0) if status["phase"] != "Normal" => Some("its group is being made".to_string()),
        Some(0) if leads_others => Some("it still leads its group".to_string()),
        Some(0) if leases > 0 => Some(format!("it has {leases} leases")),
        Some(0) => None,
        Some(pending) => Some(format!("it keeps {pending} jobs that aren't done")),
        None => Some("it doesn't say how many jobs it keeps".to_string()),
    }
}

#[cfg(test)]
mod tests {
    use super::*;
    use serde_json::json;

    #[test]
    fn a_machine_is_drained_once_it_keeps_nothing_and_leads_nobody() {
        let status = |pending: u64, leads: bool, members: &[u8]| json!({"pending": pending, "phase": "Normal", "is_coordinator": leads, "members": members});
        for (status, said) in [
            (status(0, false, &[0, 1]), None),
            (status(0, true, &[0]), None),
            (status(0, true, &[0, 1]), Some("it still leads its group")),
            (status(3, false, &[0, 1]), Some("it keeps 3 jobs that aren't done")),
            (json!({"pending": 0, "phase": "Normal", "leases": 2}), Some("it has 2 leases")),
            (json!({"pending": 0, "phase": "Election"}), Some("its group is being made")),
            (json!({}), Some("it doesn't say how many jobs it keeps")),
        ] {
            assert_eq!(left(&status).as_deref(), said, "{status}");
        }
    }
}
