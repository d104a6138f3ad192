//! Tells all machines of something.

use super::agent::{Agent, PATIENCE};
use super::Failure;
use serde_json::{json, Value};
use std::path::Path;

/// What is said once the agent sent it to the others. Whether it comes to them isn't known.
pub fn told(socket: &Path, is_json: bool, name: &str, text: &str) -> Result<String, Failure> {
    let mut agent = Agent::connect(socket)?;
    agent.be_patient_for(Some(PATIENCE))?;
    let reply: Value = agent.ask(&json!({"do": "event", "name": name, "text": text}))?;
    match reply["ok"] == true {
        true if is_json => Ok(format!("{reply}\n")),
        true => Ok(format!("sent to {} other machines\n", reply["sent"])),
        false => Err(super::commands::refused(&reply)),
    }
}
