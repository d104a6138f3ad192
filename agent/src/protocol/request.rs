//! Requests.

use super::{LAST_QUEUE, VERSION};
use crate::forward::Key;
use crate::lease::is_name;
use crate::node::{Payload, PayloadError};
use serde::Deserialize;
use serde_json::{Map, Value};
use thiserror::Error;

/// What a client puts at `request`: its answer has it again.
pub type Tag = Option<Value>;

const MAX_TAG: usize = 200;
const MAX_KEY: usize = 200;
const MAX_TEXT: usize = 400;

/// A job that is given back waits for a day at most.
const MAX_AFTER_MS: u64 = 86_400_000;

#[derive(Clone, Debug, Deserialize, PartialEq, Eq)]
#[serde(tag = "do", rename_all = "lowercase", deny_unknown_fields)]
pub enum Request {
    Status {},
    Members {},
    /// The jobs that the node keeps and works on: those of a queue or of all, without the first `skip`, and `limit` of them at most.
    Jobs {
        queue: Option<u8>,
        #[serde(default)]
        skip: usize,
        limit: Option<usize>,
    },
    Submit {
        queue: u8,
        #[serde(default)]
        priority: u8,
        text: Option<String>,
        hex: Option<String>,
        /// One that is made again under its key is one job.
        key: Option<String>,
    },
    /// A job of one of these queues to be worked on: one that nobody works on now, or, with `wait`, the next one.
    Take {
        queue: Option<u8>,
        queues: Option<Vec<u8>>,
        #[serde(default)]
        wait: bool,
    },
    /// The work on a job is done; or, where `ok` is false, it is given back: to be given again after some time, or put aside.
    Finish {
        origin: u8,
        id: u64,
        #[serde(default = "yes")]
        ok: bool,
        after_ms: Option<u64>,
        #[serde(default)]
        aside: bool,
        /// Also where another client works on it, which is told to stop.
        #[serde(default)]
        force: bool,
    },
    /// Jobs that were put aside may be given again: those of a queue or of all, or one.
    Kick {
        queue: Option<u8>,
        origin: Option<u8>,
        id: Option<u64>,
    },
    /// Each change from now on, behind the state; or all that came behind change `since`. With `every_ms` a beat comes that often, too.
    Watch {
        since: Option<u64>,
        every_ms: Option<u64>,
    },
    /// From now on new jobs are to be kept elsewhere; or, where `on` is false, here again.
    Drain {
        #[serde(default = "yes")]
        on: bool,
    },
    Compact {},
    Record {
        on: bool,
    },
    /// Asks for a lease: events say when it is held, and when it is lost.
    Acquire {
        name: String,
    },
    /// Nothing relies on the lease any more, or it is asked for no more.
    Release {
        name: String,
    },
    Leases {},
    /// Which machines' agents answer nothing.
    Silent {},
    /// All machines are told of this, as well as it goes.
    Event {
        name: String,
        text: String,
    },
}

fn yes() -> bool {
    true
}

#[derive(Debug, Error, PartialEq, Eq)]
pub enum RequestError {
    #[error("a request is one object of JSON a line")]
    NoObject,
    #[error("this agent speaks version {VERSION}")]
    Version,
    #[error("{0}")]
    Unreadable(String),
    #[error("a queue is a number from 0 to {LAST_QUEUE}")]
    Queue,
    #[error("a priority is a number from 0 to 255")]
    Priority,
    #[error("`every_ms` is a number from 100 to 60000, `after_ms` one from 0 to {MAX_AFTER_MS}")]
    Interval,
    #[error("`after_ms` and `aside` go with `\"ok\": false`, one of them")]
    Back,
    #[error("a key is a text of 1 to {MAX_KEY} bytes")]
    Key,
    #[error("a job has `origin` and `id`")]
    HalfKey,
    #[error("an event has a text of at most {MAX_TEXT} bytes, few of them control characters")]
    Text,
    #[error("a name is 1 to 64 letters, digits and signs of ASCII")]
    Name,
    #[error("{0}")]
    Payload(#[from] PayloadError),
    #[error("a payload is `text` or `hex`, and here are both")]
    TwoPayloads,
    #[error("a payload is missing: `text` or `hex`")]
    NoPayload,
}

impl RequestError {
    /// The word at `error` in the reply.
    pub fn name(&self) -> &'static str {
        match self {
            RequestError::NoObject => "NoObject",
            RequestError::Version => "Version",
            RequestError::Unreadable(_) | RequestError::Back | RequestError::HalfKey => "Unreadable",
            RequestError::Queue => "BadQueue",
            RequestError::Priority => "BadPriority",
            RequestError::Interval => "BadInterval",
            RequestError::Key => "BadKey",
            RequestError::Name => "BadName",
            RequestError::Text => "BadPayload",
            RequestError::Payload(_) | RequestError::TwoPayloads | RequestError::NoPayload => "BadPayload",
        }
    }
}

/// A request, and what its answer is to be known by.
pub struct Envelope {
    pub tag: Tag,
    pub request: Result<Request, RequestError>,
}

impl Envelope {
    pub fn read(line: &[u8]) -> Envelope {
        let mut object = match serde_json::from_slice::<Map<String, Value>>(line) {
            Ok(object) => object,
            Err(_) => return Envelope { tag: None, request: Err(RequestError::NoObject) },
        };
        let is_short = |tag: &Value| tag.is_number() || tag.as_str().map_or(false, |text| text.len() <= MAX_TAG);
        let tag = object.remove("request").filter(is_short);
        let request = match object.remove("v") {
            Some(version) if version != VERSION => Err(RequestError::Version),
            _ => Envelope::request_of(object),
        };
        Envelope { tag, request }
    }

    /// Whether the node is asked for the answer.
    pub fn asks_node(&self) -> bool {
        use Request::{Compact, Finish, Jobs, Submit};
        matches!(self.request, Ok(Submit { .. } | Finish { ok: true, .. } | Jobs { .. } | Compact {}))
    }

    fn request_of(object: Map<String, Value>) -> Result<Request, RequestError> {
        for (field, range, error) in [
            ("queue", 0..=u64::from(LAST_QUEUE), RequestError::Queue),
            ("priority", 0..=255, RequestError::Priority),
            ("every_ms", 100..=60_000, RequestError::Interval),
            ("after_ms", 0..=MAX_AFTER_MS, RequestError::Interval),
        ] {
            let is_wrong =
                |value: &Value| !value.is_null() && value.as_u64().map_or(true, |value| !range.contains(&value));
            if object.get(field).map_or(false, is_wrong) {
                return Err(error);
            }
        }
        serde_json::from_value(Value::Object(object)).map_err(|error| RequestError::Unreadable(error.to_string()))
    }
}

/// The key of a submission.
pub fn key_of(key: Option<String>) -> Result<Option<Key>, RequestError> {
    match key {
        Some(key) if key.is_empty() || key.len() > MAX_KEY => Err(RequestError::Key),
        key => Ok(key.map(|key| Key::of(&key))),
    }
}

/// The text of an event, which travels as JSON in one datagram.
pub fn text_of(text: String) -> Result<String, RequestError> {
    let spelled = serde_json::to_string(&text).map_or(usize::MAX, |spelled| spelled.len());
    (text.len() <= MAX_TEXT && spelled <= 2 * MAX_TEXT + 2).then_some(text).ok_or(RequestError::Text)
}

/// The name of a lease, or of an event.
pub fn named(name: String) -> Result<String, RequestError> {
    is_name(&name).then_some(name).ok_or(RequestError::Name)
}

/// The payload of a submitted job.
pub fn payload_of(text: Option<String>, hex: Option<String>) -> Result<Payload, RequestError> {
    match (text, hex) {
        (Some(text), None) => Ok(Payload::of_bytes(text.as_bytes())?),
        (None, Some(hex)) => Ok(Payload::of_hex(&hex)?),
        (Some(_), Some(_)) => Err(RequestError::TwoPayloads),
        (None, None) => Err(RequestError::NoPayload),
    }
}

#[cfg(test)]
mod tests {
    use super::*;
    use crate::chance::{Chance, TURNS};

    fn read(line: &str) -> Result<Request, RequestError> {
        Envelope::read(line.as_bytes()).request
    }

    #[test]
    fn requests() {
        assert_eq!(read(r#"{"do":"status"}"#), Ok(Request::Status {}));
        assert_eq!(read(r#"{"v":1,"do":"take","wait":true}"#), Ok(Request::Take { queue: None, queues: None, wait: true }));
        let job = Request::Submit { queue: 3, priority: 0, text: Some("hi".to_string()), hex: None, key: None };
        assert_eq!(read(r#"{"do":"submit","queue":3,"text":"hi","request":7}"#), Ok(job));
        let back = Request::Finish { origin: 1, id: 7, ok: false, after_ms: Some(0), aside: false, force: false };
        assert_eq!(read(r#"{"do":"finish","origin":1,"id":7,"ok":false,"after_ms":0}"#), Ok(back));
        let watch = |since, every_ms| Ok(Request::Watch { since, every_ms });
        assert_eq!(read(r#"{"do":"watch"}"#), watch(None, None));
        assert_eq!(read(r#"{"do":"watch","since":7,"every_ms":100}"#), watch(Some(7), Some(100)));
        assert_eq!(Envelope::read(br#"{"do":"status","request":"a"}"#).tag, Some(Value::from("a")));
        assert_eq!(Envelope::read(br#"{"do":"status","request":[1]}"#).tag, None);
    }

    #[test]
    fn keys() {
        let key = |text: &str| key_of(Some(text.to_string()));
        assert_eq!((key_of(None), key(""), key(&"k".repeat(201))), (Ok(None), Err(RequestError::Key), Err(RequestError::Key)));
        assert!(key("a") == key("a") && key("a") != key("b") && key(&"k".repeat(200)).is_ok());
    }

    #[test]
    fn what_is_no_request() {
        for (line, name) in [
            ("", "NoObject"),
            ("[1]", "NoObject"),
            ("{} x", "NoObject"),
            ("{}", "Unreadable"),
            (r#"{"do":1}"#, "Unreadable"),
            (r#"{"do":"dance"}"#, "Unreadable"),
            (r#"{"do":"status","all":true}"#, "Unreadable"),
            (r#"{"do":"submit","queue":-1,"text":""}"#, "BadQueue"),
            (r#"{"do":"submit","queue":"1","text":""}"#, "BadQueue"),
            (r#"{"do":"submit","queue":1,"text":"","priority":256}"#, "BadPriority"),
            (r#"{"do":"submit","queue":16,"text":""}"#, "BadQueue"),
            (r#"{"do":"take","queue":16}"#, "BadQueue"),
            (r#"{"do":"take","queues":[300]}"#, "Unreadable"),
            (r#"{"do":"finish","origin":1,"id":7,"ok":false,"after_ms":86400001}"#, "BadInterval"),
            (r#"{"do":"watch","every_ms":99}"#, "BadInterval"),
            (r#"{"do":"watch","every_ms":60001}"#, "BadInterval"),
            (r#"{"do":"watch","every_ms":1.5}"#, "BadInterval"),
            (r#"{"v":2,"do":"status"}"#, "Version"),
        ] {
            assert_eq!(read(line).unwrap_err().name(), name, "{line}");
        }
        let said = |text: Option<&str>, hex: Option<&str>| {
            payload_of(text.map(str::to_string), hex.map(str::to_string)).unwrap_err().to_string()
        };
        assert_eq!(said(Some(&"a".repeat(401)), None), "a payload has at most 400 bytes, and this one has 401");
        assert_eq!(said(None, Some(&"00".repeat(500))), "a payload has at most 400 bytes, and this one has 500");
        assert_eq!(said(None, Some("abc")), "hex digits come in twos, and these are 3");
        assert_eq!(said(None, Some("xyz")), "'x' is no hex digit");
        assert_eq!(said(Some(""), Some("")), "a payload is `text` or `hex`, and here are both");
        assert_eq!(said(None, None), "a payload is missing: `text` or `hex`");
        assert_eq!(payload_of(Some("hi".to_string()), None).unwrap().hex(), "6869");
    }

    #[test]
    fn whatever_comes_as_a_request_is_read_or_refused() {
        let right = [
            r#"{"v":1,"do":"status","request":7}"#,
            r#"{"do":"submit","queue":3,"priority":255,"text":"hi","key":"k","request":"a"}"#,
            r#"{"do":"submit","queue":15,"hex":"6869"}"#,
            r#"{"do":"take","queues":[0,15],"wait":true}"#,
            r#"{"do":"finish","origin":1,"id":7,"ok":false,"after_ms":0,"aside":false,"force":true}"#,
            r#"{"do":"watch","since":7,"every_ms":100}"#,
            r#"{"do":"kick","queue":1}"#,
            r#"{"do":"event","name":"n","text":"t"}"#,
            r#"{"do":"jobs","skip":1,"limit":18446744073709551615}"#,
        ];
        assert!(right.iter().all(|line| read(line).is_ok()));
        let (mut chance, mut taken) = (Chance::of(5), 0);
        for _ in 0..TURNS {
            let Envelope { tag, request } = Envelope::read(&chance.odd(&right, 200));
            assert!(tag.map_or(true, |tag| tag.to_string().len() <= 6 * MAX_TAG + 2));
            match request {
                Ok(Request::Submit { queue, text, hex, .. }) => {
                    let payload = payload_of(text, hex);
                    assert!(queue <= LAST_QUEUE && payload.map_or(true, |payload| payload.hex().len() <= 800));
                    taken += 1;
                }
                Ok(_) => taken += 1,
                Err(why) => assert!(!why.name().is_empty() && !why.to_string().is_empty()),
            }
        }
        assert!(taken > 40, "{taken}");
        let deep = "[".repeat(16 * 1024);
        assert_eq!([&deep, &format!("{{\"do\":{deep}")].map(|line| read(line)), [Err(RequestError::NoObject), Err(RequestError::NoObject)]);
    }
}
