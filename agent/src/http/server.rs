//! The server: a thread takes connections, and each has one of its own for its only request, which the loop answers. It reads no more of a request than its
//! head, for so long at most, and ends the connection behind the answer: so however many come, they take no more than a few threads, and none while nobody
//! asks.

use super::records::Records;
use super::request::{read_head, Head, Hosts};
use log::warn;
use mio::Waker;
use std::io::{self, Read, Write};
use std::net::{Shutdown, SocketAddr, TcpListener, TcpStream};
use std::sync::mpsc::{sync_channel, Receiver, SyncSender};
use std::sync::Arc;
use std::thread;
use std::time::{Duration, Instant};

/// So many requests are served at a time: so many wait for the loop at most.
pub const THREADS: usize = 8;

/// So long a request may take to come, and its answer to be taken.
const PATIENCE: Duration = Duration::from_secs(2);

/// The header that says which part of a record follows the one that was asked for.
pub const NEXT_PART: &str = "Record-Next";

#[derive(Clone, Debug)]
pub struct Response {
    pub status: u16,
    content_type: &'static str,
    pub body: Vec<u8>,
    pub next_part: Option<u64>,
}

impl Response {
    pub fn text(status: u16, body: &str) -> Response {
        Response { status, ..Response::page("text/plain; charset=utf-8", format!("{body}\n")) }
    }

    /// A probe's answer.
    pub fn probe(is_so: bool, why_not: &str) -> Response {
        if is_so {
            Response::text(200, "ok")
        } else {
            Response::text(503, why_not)
        }
    }

    pub fn json(body: String) -> Response {
        Response::page("application/json", body)
    }

    pub fn page(content_type: &'static str, body: String) -> Response {
        Response { status: 200, content_type, body: body.into_bytes(), next_part: None }
    }

    /// Bytes of a part of a record, and the number of the next one, where that is there.
    pub fn piece(body: Vec<u8>, next_part: Option<u64>) -> Response {
        Response { status: 200, content_type: "text/plain; charset=utf-8", body, next_part }
    }

    /// What stands before its body.
    fn head(&self) -> String {
        let reason = match self.status {
            200 => "OK",
            404 => "Not Found",
            405 => "Method Not Allowed",
            421 => "Misdirected Request",
            503 => "Service Unavailable",
            _ => "Bad Request",
        };
        let csp = "default-src 'none'; style-src 'unsafe-inline'; script-src 'unsafe-inline'; connect-src 'self'";
        let next = self.next_part.map(|part| format!("{NEXT_PART}: {part}"));
        let head = [
            format!("HTTP/1.1 {} {reason}", self.status),
            format!("Content-Type: {}", self.content_type),
            format!("Content-Length: {}", self.body.len()),
            format!("Content-Security-Policy: {csp}"),
            "Cache-Control: no-store".to_string(),
            "Allow: GET, HEAD".to_string(),
            "Connection: close".to_string(),
        ];
        head.into_iter().chain(next).collect::<Vec<_>>().join("\r\n") + "\r\n\r\n"
    }
}

/// A page that somebody asks for.
pub struct Page {
    pub path: String,
    to: SyncSender<Response>,
}

impl Page {
    /// Whoever asked may be gone by now.
    pub fn answer(self, response: Response) {
        let _gone = self.to.try_send(response);
    }
}

/// Where pages are asked for.
pub trait Pages {
    /// The next page that is asked for.
    fn next(&self) -> Option<Page>;
}

pub struct Server {
    from: Receiver<Page>,
}

impl Server {
    /// With a record that is served, too, where there is one to be.
    pub fn start(at: SocketAddr, hosts: Hosts, records: Option<Records>, waker: Arc<Waker>) -> io::Result<Server> {
        let listener = TcpListener::bind(at)?;
        let (to, from) = sync_channel(THREADS);
        let desk = Arc::new(Desk { hosts, records, to, waker });
        thread::Builder::new().spawn(move || serve(&listener, &desk))?;
        Ok(Server { from })
    }
}

impl Pages for Server {
    fn next(&self) -> Option<Page> {
        self.from.try_recv().ok()
    }
}

/// What each request needs.
struct Desk {
    hosts: Hosts,
    records: Option<Records>,
    to: SyncSender<Page>,
    waker: Arc<Waker>,
}

/// Takes connections while there are threads for them; those behind them wait in the system's queue.
fn serve(listener: &TcpListener, desk: &Arc<Desk>) {
    let (free, turns) = sync_channel(THREADS);
    for _ in 0..THREADS {
        let _has_room = free.try_send(());
    }
    while turns.recv().is_ok() {
        let (desk, own) = (Arc::clone(desk), free.clone());
        let begun = accepted(listener).and_then(|stream| {
            thread::Builder::new().spawn(move || {
                // one that went away isn't told
                drop(serve_one(&stream, &desk));
                let _has_room = own.try_send(());
            })
        });
        if let Err(error) = begun {
            warn!("HTTP: {error}");
            thread::sleep(Duration::from_secs(1));
            let _has_room = free.try_send(());
        }
    }
}

/// The next connection.
fn accepted(listener: &TcpListener) -> io::Result<TcpStream> {
    loop {
        match listener.accept() {
            Ok((stream, _)) => return Ok(stream),
            Err(error) if matches!(error.kind(), io::ErrorKind::Interrupted | io::ErrorKind::ConnectionAborted) => {}
            Err(error) => return Err(error),
        }
    }
}

fn serve_one(stream: &TcpStream, desk: &Desk) -> io::Result<()> {
    let until = Instant::now() + PATIENCE;
    let (response, is_head) = match read_head(&mut Timed { stream, until }, &desk.hosts)? {
        Head::Get { path, is_head } => (desk.records.as_ref().and_then(|records| records.response_to(&path)).unwrap_or_else(|| response_to(path, desk)), is_head),
        Head::Other => (Response::text(405, "GET and HEAD alone"), false),
        Head::Elsewhere => (Response::text(421, desk.hosts.advice()), false),
        Head::Unreadable => (Response::text(400, "this is no request"), false),
    };
    let until = Instant::now() + PATIENCE;
    let mut out = Timed { stream, until };
    out.write_all(response.head().as_bytes())?;
    if !is_head {
        out.write_all(&response.body)?;
    }
    stream.shutdown(Shutdown::Write)
}

fn response_to(path: String, desk: &Desk) -> Response {
    let (back, response) = sync_channel(1);
    let is_taken = desk.to.try_send(Page { path, to: back }).is_ok() && desk.waker.wake().is_ok();
    let answered = if is_taken { response.recv_timeout(PATIENCE).ok() } else { None };
    answered.unwrap_or_else(|| Response::text(503, "the agent doesn't answer"))
}

/// A connection on which all that is read, or all that is written, takes until then at most.
struct Timed<'a> {
    stream: &'a TcpStream,
    until: Instant,
}

impl Timed<'_> {
    fn left(&self) -> io::Result<Option<Duration>> {
        let left = self.until.saturating_duration_since(Instant::now());
        if left.is_zero() {
            return Err(io::ErrorKind::TimedOut.into());
        }
        Ok(Some(left))
    }
}

impl Read for Timed<'_> {
    fn read(&mut self, bytes: &mut [u8]) -> io::Result<usize> {
        self.stream.set_read_timeout(self.left()?)?;
        self.stream.read(bytes)
    }
}

impl Write for Timed<'_> {
    fn write(&mut self, bytes: &[u8]) -> io::Result<usize> {
        self.stream.set_write_timeout(self.left()?)?;
        self.stream.write(bytes)
    }

    fn flush(&mut self) -> io::Result<()> {
        Ok(())
    }
}
