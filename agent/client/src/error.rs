//! What goes wrong.

use serde_json::Value;
use std::io;
use thiserror::Error;

#[derive(Debug, Error)]
pub enum Error {
    /// Nobody listens at the socket, or this user may not ask: nothing was done.
    #[error("no agent answers: {0}")]
    NoAgent(io::Error),
    /// The connection ended, or no answer came in time. Where it is in doubt, what was asked may be done.
    #[error("the answer is lost: {why}")]
    Lost { why: String, is_in_doubt: bool },
    /// The agent doesn't do it, for the reason of this name.
    #[error("refused: {name}{}", .why.as_ref().map_or(String::new(), |why| format!(" ({why})")))]
    Refused { name: String, why: Option<String>, is_in_doubt: bool },
    /// The job isn't this node's any more: it is to be left alone.
    #[error("the job went to another node")]
    Stopped,
}

impl Error {
    /// Whether what was asked may be done all the same.
    pub fn is_in_doubt(&self) -> bool {
        matches!(self, Error::Lost { is_in_doubt: true, .. } | Error::Refused { is_in_doubt: true, .. })
    }

    /// Whether it was refused for this reason.
    pub fn is_refused(&self, reason: &str) -> bool {
        matches!(self, Error::Refused { name, .. } if name == reason)
    }

    /// Whether it may go by itself, as a restart of the agent does.
    pub(crate) fn is_soon_over(&self) -> bool {
        matches!(self, Error::NoAgent(_) | Error::Lost { .. }) || self.is_refused("TooManyClients") || self.is_refused("Busy")
    }

    /// The same, of what may be done or isn't.
    pub(crate) fn doubted(self, is_in_doubt: bool) -> Error {
        match self {
            Error::Lost { why, .. } => Error::Lost { why, is_in_doubt },
            Error::Refused { name, why, .. } => Error::Refused { name, why, is_in_doubt },
            Error::NoAgent(why) if is_in_doubt => Error::Lost { why: why.to_string(), is_in_doubt },
            other => other,
        }
    }

    pub(crate) fn lost(why: impl ToString, is_in_doubt: bool) -> Error {
        Error::Lost { why: why.to_string(), is_in_doubt }
    }

    /// An answer that isn't refused.
    pub(crate) fn checked(reply: Value) -> Result<Value, Error> {
        if reply["ok"] == true {
            return Ok(reply);
        }
        let text = |name: &str| reply[name].as_str().map(str::to_string);
        let name = text("error").unwrap_or_default();
        let is_in_doubt = reply["may_be_kept"] == true || name == "Device";
        Err(Error::Refused { name, why: text("why"), is_in_doubt })
    }
}

#[cfg(test)]
mod tests {
    use super::*;
    use serde_json::json;

    #[test]
    fn a_refusal_says_whether_it_is_in_doubt() {
        for (reply, in_doubt) in [
            (json!({"ok": false, "error": "Full", "why": "x"}), false),
            (json!({"ok": false, "error": "Full", "may_be_kept": true}), true),
            (json!({"ok": false, "error": "Device"}), true),
        ] {
            let error = Error::checked(reply).unwrap_err();
            assert_eq!(error.is_in_doubt(), in_doubt, "{error}");
        }
        let error = Error::checked(json!({"ok": false, "error": "Full", "why": "x"})).unwrap_err();
        assert!(error.is_refused("Full") && !error.is_refused("Device") && error.to_string() == "refused: Full (x)");
        assert!(Error::checked(json!({"ok": true})).is_ok() && Error::lost("x", true).is_in_doubt());
    }
}
