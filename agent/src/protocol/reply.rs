//! Replies and events.

use super::{RequestError, Tag};
use serde::Serialize;
use serde_json::{json, Map, Value};
use std::fmt::Display;

/// An object that becomes a line.
#[derive(Clone, Debug)]
pub struct Reply(Map<String, Value>);

impl Reply {
    pub fn ok() -> Reply {
        Reply(Map::new()).with("ok", true)
    }

    /// Nothing was done, for the reason of this name.
    pub fn refused(name: impl Display) -> Reply {
        Reply(Map::new()).with("ok", false).with("error", name.to_string())
    }

    pub fn unreadable(error: &RequestError) -> Reply {
        Reply::refused(error.name()).with("why", error.to_string())
    }

    pub fn event(name: &str) -> Reply {
        Reply(Map::new()).with("event", name)
    }

    pub fn with(mut self, name: &str, value: impl Serialize) -> Reply {
        self.0.insert(name.to_string(), json!(value));
        self
    }

    /// With all fields of a record.
    pub fn and(mut self, record: impl Serialize) -> Reply {
        if let Value::Object(fields) = json!(record) {
            self.0.extend(fields);
        }
        self
    }

    /// To a request that named itself by a tag.
    pub fn tagged(self, tag: &Tag) -> Reply {
        match tag {
            Some(tag) => self.with("request", tag),
            None => self,
        }
    }

    pub fn line(&self) -> Vec<u8> {
        let mut line = serde_json::to_vec(&self.0).unwrap_or_default();
        line.push(b'\n');
        line
    }
}
