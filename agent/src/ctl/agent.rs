//! A connection to the agent, whose errors say what to do about them.

use crate::names;
use dumgerok_client::Connection;
pub use dumgerok_client::{socket, PATIENCE};
use serde::Serialize;
use serde_json::Value;
use std::io::{self, ErrorKind};
use std::os::unix::fs::MetadataExt;
use std::path::Path;
use std::time::Duration;

pub struct Agent(Connection);

impl Agent {
    pub fn connect(socket: &Path) -> io::Result<Agent> {
        Connection::open(socket).map(Agent).map_err(|error| named(socket, in_time(error)))
    }

    pub fn say(&mut self, request: &impl Serialize) -> io::Result<()> {
        self.0.say(request).map_err(in_time)
    }

    /// The next line of the agent. After one that didn't come in time it may be heard again.
    pub fn hear(&mut self) -> io::Result<Value> {
        self.0.hear().map_err(in_time)
    }

    /// A second one that hears the same connection, for a thread; then this one hears nothing more.
    pub fn reader(&mut self) -> io::Result<Agent> {
        self.0.reader().map(Agent)
    }

    /// The answer to a request. An agent that ends the connection before it has the whole request says why.
    pub fn ask(&mut self, request: &impl Serialize) -> io::Result<Value> {
        self.0.ask(request).map_err(in_time)
    }

    /// From now on it is an error where nothing comes for so long; None: it is waited for.
    pub fn be_patient_for(&mut self, patience: Option<Duration>) -> io::Result<()> {
        self.0.be_patient_for(patience)
    }
}

/// An error with the socket where it came about, and what to do about it where that isn't plain.
fn named(socket: &Path, error: io::Error) -> io::Error {
    let path = socket.display();
    let hint = match (error.kind(), socket.metadata()) {
        (ErrorKind::PermissionDenied, Ok(found)) => match names::group(found.gid()) {
            group if found.mode() & 0o060 == 0o060 => {
                format!(": root and the group {group} may ask (`usermod -aG {group} USER`, and log in anew)")
            }
            _ => format!(": {} alone may ask", names::user(found.uid())),
        },
        (ErrorKind::PermissionDenied, Err(_)) => ": this user may not look into its folder".to_string(),
        (ErrorKind::NotFound, _) => ": is the service running (`systemctl status dumgerok`), and its `socket` this one?".to_string(),
        (ErrorKind::ConnectionRefused, _) => ": the agent ended (`systemctl status dumgerok`)".to_string(),
        _ => String::new(),
    };
    io::Error::new(error.kind(), format!("{path}: {error}{hint}"))
}

/// A wait that ended is told as one.
fn in_time(error: io::Error) -> io::Error {
    let seconds = PATIENCE.as_secs();
    match error.kind() {
        ErrorKind::WouldBlock => io::Error::new(
            ErrorKind::TimedOut,
            format!("it is there, and says nothing for {seconds} s: look at the service (`systemctl status dumgerok`)"),
        ),
        _ => error,
    }
}

#[cfg(test)]
mod tests {
    use super::*;
    use std::os::unix::fs::PermissionsExt;

    #[test]
    fn whoever_may_not_ask_is_told_who_may() {
        let path = std::env::temp_dir().join(format!("dumgerok-named-{}", std::process::id()));
        std::fs::write(&path, "").unwrap();
        let told = |kind: ErrorKind, mode: u32| {
            std::fs::set_permissions(&path, std::fs::Permissions::from_mode(mode)).unwrap();
            let said = named(&path, kind.into());
            assert_eq!(said.kind(), kind);
            said.to_string()
        };
        let (own, group) = (names::user(path.metadata().unwrap().uid()), names::group(path.metadata().unwrap().gid()));
        let said = told(ErrorKind::PermissionDenied, 0o660);
        assert!(said.ends_with(&format!(": root and the group {group} may ask (`usermod -aG {group} USER`, and log in anew)")), "{said}");
        assert!(told(ErrorKind::PermissionDenied, 0o600).ends_with(&format!(": {own} alone may ask")));
        assert!(told(ErrorKind::ConnectionRefused, 0o660).ends_with("the agent ended (`systemctl status dumgerok`)"));
        std::fs::remove_file(&path).unwrap();
        assert!(named(Path::new("/nowhere/x"), ErrorKind::NotFound.into()).to_string().contains("is the service running"));
        assert_eq!(in_time(ErrorKind::WouldBlock.into()).kind(), ErrorKind::TimedOut);
    }
}
