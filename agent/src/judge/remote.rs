//! The record of a node, read over HTTP from its agent, by a thread of its own: one that doesn't answer holds up no other.

use super::records::Head;
use super::source::{Bytes, Cursor, Piece};
use super::RecordError;
use crate::http::NEXT_PART;
use httparse::{Response, Status, EMPTY_HEADER};
use serde_json::Value;
use std::io::{self, ErrorKind, Read, Write};
use std::net::{TcpStream, ToSocketAddrs};
use std::path::PathBuf;
use std::sync::mpsc::{sync_channel, Receiver, SyncSender};
use std::sync::{Arc, Mutex, PoisonError};
use std::thread;
use std::time::{Duration, Instant};

const SCHEME: &str = "http://";

/// An agent is asked again after so long.
const PAUSE: Duration = Duration::from_millis(150);

/// So long it may take to be reached, and each piece of its answer to come.
const PATIENCE: Duration = Duration::from_secs(2);

/// Of whom all was read within so long, nothing is missing that others heard before.
pub const FRESH: Duration = Duration::from_millis(700);

/// So many pieces are read ahead, and where there was one the next may come so soon.
const AHEAD: usize = 2;
const SOON: Duration = Duration::from_millis(20);

/// An answer is shorter: a piece and its head.
const MAX_ANSWER: u64 = 1024 * 1024;
const MAX_HEADERS: usize = 32;

/// Whether a word names an agent, and no file.
pub fn is_agent(word: &str) -> bool {
    word.starts_with(SCHEME)
}

/// When all that its agent had was read last; none before it was.
type Heard = Arc<Mutex<Option<Instant>>>;

pub struct Remote {
    pieces: Receiver<Result<Piece, RecordError>>,
    heard: Heard,
    /// Whether there was a piece when one was asked for last.
    comes: bool,
}

impl Remote {
    /// Begins to read the record of the agent whose pages are at a URL, from its first part on; and what that says of its node.
    pub fn begin(url: &str) -> Result<(Head, Remote), RecordError> {
        let place = Arc::new(AgentPlace { host: url.trim_start_matches(SCHEME).trim_end_matches('/').to_string() });
        let (first, head) = place.begin()?;
        let (to, pieces) = sync_channel(AHEAD);
        let heard = Heard::default();
        let reader = Reader { place, first, to, heard: Arc::clone(&heard), cursor: Cursor::default() };
        thread::spawn(move || reader.run());
        Ok((head, Remote { pieces, heard, comes: false }))
    }

    pub fn next(&mut self) -> Result<Option<Piece>, RecordError> {
        let piece = if self.comes { self.pieces.recv_timeout(SOON).ok() } else { self.pieces.try_recv().ok() };
        self.comes = piece.is_some();
        piece.transpose()
    }

    pub fn is_unheard(&self) -> bool {
        let heard = self.heard.lock().unwrap_or_else(PoisonError::into_inner);
        heard.map_or(true, |heard| heard.elapsed() > FRESH)
    }
}

/// What reads on as long as somebody wants it.
struct Reader {
    place: Arc<AgentPlace>,
    /// The number of the first part.
    first: u64,
    to: SyncSender<Result<Piece, RecordError>>,
    heard: Heard,
    cursor: Cursor,
}

impl Reader {
    fn run(mut self) {
        loop {
            let (place, first) = (Arc::clone(&self.place), self.first);
            let begun = Instant::now();
            let read = self.cursor.next(|part| place.path_of(first + u64::from(part)), |part, offset| place.part(first + u64::from(part), offset));
            let is_wanted = match read {
                Ok(Some(piece)) => self.to.send(Ok(piece)).is_ok(),
                Ok(None) => {
                    *self.heard.lock().unwrap_or_else(PoisonError::into_inner) = Some(begun);
                    thread::sleep(PAUSE);
                    true
                }
                // it is away, and may come back
                Err(RecordError::Away { .. }) => {
                    thread::sleep(PAUSE);
                    true
                }
                Err(why) => {
                    let _unwanted = self.to.send(Err(why));
                    false
                }
            };
            if !is_wanted {
                return;
            }
        }
    }
}

/// Where an agent's pages are: HOST:PORT.
struct AgentPlace {
    host: String,
}

/// What an agent answers.
struct Answer {
    status: u16,
    has_next: bool,
    body: Vec<u8>,
}

impl AgentPlace {
    fn path_of(&self, part: u64) -> PathBuf {
        PathBuf::from(format!("{SCHEME}{}/record/{part}", self.host))
    }

    fn fault(&self, why: io::Error) -> RecordError {
        RecordError::Away { host: self.host.clone(), why }
    }

    /// The number of the first part, and what its first line says.
    fn begin(&self) -> Result<(u64, Head), RecordError> {
        let unserved = || RecordError::Unserved { host: self.host.clone() };
        let list = self.get("/record").map_err(|why| self.fault(why))?;
        let list: Value = serde_json::from_slice(&list.body).map_err(|_| unserved())?;
        let first = list["first"].as_u64().ok_or_else(unserved)?;
        let part = self.part(first, 0)?;
        let line = part.bytes.split(|byte| *byte == b'\n').next().unwrap_or_default();
        let head = Head::read(&String::from_utf8_lossy(line)).ok_or_else(unserved)?;
        Ok((first, head))
    }

    fn part(&self, part: u64, offset: u64) -> Result<Bytes, RecordError> {
        let answer = self.get(&format!("/record/{part}/{offset}")).map_err(|why| self.fault(why))?;
        match answer.status {
            200 => Ok(Bytes { bytes: answer.body, has_next: answer.has_next }),
            404 => Err(RecordError::Deleted { path: self.path_of(part) }),
            status => Err(self.fault(io::Error::new(ErrorKind::Other, format!("status {status}")))),
        }
    }

    fn get(&self, path: &str) -> io::Result<Answer> {
        let mut link = self.connect()?;
        link.set_read_timeout(Some(PATIENCE))?;
        link.set_write_timeout(Some(PATIENCE))?;
        write!(link, "GET {path} HTTP/1.1\r\nHost: {}\r\nConnection: close\r\n\r\n", self.host)?;
        let mut bytes = Vec::new();
        link.take(MAX_ANSWER).read_to_end(&mut bytes)?;
        answer_of(&bytes)
    }

    fn connect(&self) -> io::Result<TcpStream> {
        let mut last = io::Error::new(ErrorKind::NotFound, "no such host");
        for address in self.host.to_socket_addrs()? {
            match TcpStream::connect_timeout(&address, PATIENCE) {
                Ok(link) => return Ok(link),
                Err(why) => last = why,
            }
        }
        Err(last)
    }
}

/// An answer that is whole.
fn answer_of(bytes: &[u8]) -> io::Result<Answer> {
    let bad = || io::Error::new(ErrorKind::InvalidData, "no answer of an agent");
    let mut headers = [EMPTY_HEADER; MAX_HEADERS];
    let mut response = Response::new(&mut headers);
    let body = match response.parse(bytes) {
        Ok(Status::Complete(end)) => bytes.get(end..).unwrap_or_default(),
        _ => return Err(bad()),
    };
    let named = |name: &str| response.headers.iter().find(|header| header.name.eq_ignore_ascii_case(name));
    let length = named("Content-Length").and_then(|header| std::str::from_utf8(header.value).ok()?.parse::<usize>().ok());
    if length != Some(body.len()) {
        return Err(bad());
    }
    Ok(Answer { status: response.code.ok_or_else(bad)?, has_next: named(NEXT_PART).is_some(), body: body.to_vec() })
}

#[cfg(test)]
mod tests {
    use super::*;
    use crate::chance::{Chance, TURNS};

    #[test]
    fn only_a_whole_answer_is_one() {
        let read = |text: &str| answer_of(text.as_bytes()).map(|answer| (answer.status, answer.has_next, String::from_utf8(answer.body).unwrap())).ok();
        let text = "HTTP/1.1 200 OK\r\ncontent-length: 5\r\nRecord-Next: 3\r\n\r\nab\ncd";
        assert_eq!(read(text), Some((200, true, "ab\ncd".to_string())));
        assert_eq!(read(&text.replace("Record-Next: 3\r\n", "")), Some((200, false, "ab\ncd".to_string())));
        assert_eq!((read(&text[..text.len() - 1]), read(&text[..20]), read(&text.replace("content-length: 5\r\n", "")), read("")), (None, None, None, None));
    }

    #[test]
    fn whatever_an_agent_answers_is_whole_or_none() {
        let right = "HTTP/1.1 200 OK\r\ncontent-length: 5\r\nRecord-Next: 3\r\n\r\nab\ncd";
        let (mut chance, mut taken) = (Chance::of(20), 0);
        for _ in 0..TURNS {
            let odd = chance.odd(&[right], 200);
            if let Ok(answer) = answer_of(&odd) {
                assert!(odd.ends_with(&answer.body));
                taken += 1;
            }
        }
        assert!(taken > 100, "{taken}");
    }
}
