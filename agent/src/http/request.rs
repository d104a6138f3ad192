//! The head of a request.

use httparse::{Request, Status, EMPTY_HEADER};
use std::io::{self, ErrorKind, Read};
use std::net::IpAddr;

/// So long a head may be, with so many lines.
const MAX_BYTES: usize = 8 * 1024;
const MAX_HEADERS: usize = 64;

/// In the name of which hosts the pages may be asked for: a page elsewhere whose own name was bound to this machine's address is none of them.
#[derive(Clone, Debug, PartialEq, Eq)]
pub enum Hosts {
    /// This machine's loopback.
    Loopback,
    /// Any address as such, the loopback, and these names.
    Anywhere(Vec<String>),
}

impl Hosts {
    /// What one that asked in the name of another host is told.
    pub fn advice(&self) -> &'static str {
        match self {
            Hosts::Loopback => "this is asked of another host: ask localhost or an address of the loopback, as 127.0.0.1",
            Hosts::Anywhere(_) => "this is asked of another host: ask an address, localhost, or a host that `nodes` names",
        }
    }

    /// Whether HOST[:PORT] is one of them.
    fn has(&self, host: &str) -> bool {
        let name = match host.rsplit_once(':') {
            Some((name, port)) if port.bytes().all(|byte| byte.is_ascii_digit()) && !name.ends_with(':') => name,
            _ => host,
        };
        let bare = name.strip_prefix('[').and_then(|name| name.strip_suffix(']')).unwrap_or(name);
        let address = bare.parse::<IpAddr>();
        let is_local = bare.eq_ignore_ascii_case("localhost") || address.as_ref().map_or(false, IpAddr::is_loopback);
        match self {
            Hosts::Loopback => is_local,
            Hosts::Anywhere(names) => is_local || address.is_ok() || names.iter().any(|name| name.eq_ignore_ascii_case(bare)),
        }
    }
}

/// What is asked for.
#[derive(Debug, PartialEq, Eq)]
pub enum Head {
    /// By GET, or by HEAD, which is answered without a body: the path, without what stands behind `?`.
    Get { path: String, is_head: bool },
    /// By another method.
    Other,
    /// In the name of another host.
    Elsewhere,
    Unreadable,
}

/// Reads until the head is whole. An error where the connection ends before, or nothing comes in time.
pub fn read_head(from: &mut impl Read, hosts: &Hosts) -> io::Result<Head> {
    let (mut bytes, mut piece) = (Vec::new(), [0; 1024]);
    loop {
        let count = match from.read(&mut piece) {
            Ok(0) => return Err(ErrorKind::UnexpectedEof.into()),
            Ok(count) => count,
            Err(error) if error.kind() == ErrorKind::Interrupted => continue,
            Err(error) => return Err(error),
        };
        bytes.extend_from_slice(&piece[..count]);
        if let Some(head) = head_of(&bytes, hosts) {
            return Ok(head);
        }
    }
}

/// None where it isn't whole.
fn head_of(bytes: &[u8], hosts: &Hosts) -> Option<Head> {
    let mut headers = [EMPTY_HEADER; MAX_HEADERS];
    let mut request = Request::new(&mut headers);
    match request.parse(bytes) {
        Ok(Status::Partial) if bytes.len() < MAX_BYTES => None,
        Ok(Status::Complete(_)) => Some(asked(&request, hosts)),
        _ => Some(Head::Unreadable),
    }
}

fn asked(request: &Request, hosts: &Hosts) -> Head {
    let is_head = match request.method {
        Some("GET") => false,
        Some("HEAD") => true,
        _ => return Head::Other,
    };
    // an absolute form, as to a proxy, names the host itself
    let (host, path) = match split(request.path.unwrap_or_default()) {
        (Some(host), path) => (Some(host.to_string()), path),
        (None, path) => (host_of(request), path),
    };
    if host.map_or(false, |host| !hosts.has(&host)) {
        return Head::Elsewhere;
    }
    Head::Get { path: path.split('?').next().unwrap_or_default().to_string(), is_head }
}

/// The host and the path of a target.
fn split(target: &str) -> (Option<&str>, &str) {
    let scheme = target.get(..7).filter(|scheme| scheme.eq_ignore_ascii_case("http://"));
    match scheme.and_then(|_| target.get(7..)) {
        Some(rest) => match rest.find('/') {
            Some(at) => (Some(&rest[..at]), &rest[at..]),
            None => (Some(rest), "/"),
        },
        None => (None, target),
    }
}

fn host_of(request: &Request) -> Option<String> {
    let named = request.headers.iter().find(|header| header.name.eq_ignore_ascii_case("host"));
    named.map(|header| String::from_utf8_lossy(header.value).trim().to_string())
}

#[cfg(test)]
mod tests {
    use super::*;
    use crate::chance::{Chance, TURNS};

    #[test]
    fn heads() {
        let read = |text: &str| read_head(&mut text.as_bytes(), &Hosts::Loopback).map_err(|error| error.kind());
        let get = |path: &str| Ok(Head::Get { path: path.to_string(), is_head: false });
        assert_eq!(read("GET /a?b=1 HTTP/1.1\r\nHost: localhost\r\n\r\nmore"), get("/a"));
        assert_eq!(read("GET / HTTP/1.0\n\n"), get("/"));
        assert_eq!(read("HEAD /a HTTP/1.1\r\nhost: [::1]:7080\r\n\r\n"), Ok(Head::Get { path: "/a".to_string(), is_head: true }));
        assert_eq!(read("GET http://127.0.0.1:7080/a?b HTTP/1.1\r\nHost: evil.example\r\n\r\n"), get("/a"));
        assert_eq!(read("GET HTTP://localhost HTTP/1.1\r\n\r\n"), get("/"));
        for host in ["evil.example", "evil.example:7080", "10.0.0.1", "localhost.evil.example", "[::2]:1", "", "127.0.0.1.evil"] {
            assert_eq!(read(&format!("GET /a HTTP/1.1\r\nHost: {host}\r\n\r\n")), Ok(Head::Elsewhere), "{host}");
        }
        for host in ["127.0.0.1", "127.0.0.1:7080", "LOCALHOST:1", "::1", "[::1]", "127.9.9.9"] {
            assert_eq!(read(&format!("GET /a HTTP/1.1\r\nHost: {host}\r\n\r\n")), get("/a"), "{host}");
        }
        assert_eq!(read("POST /a HTTP/1.1\r\nContent-Length: 3\r\n\r\nabc"), Ok(Head::Other));
        for bad in ["\u{1}\u{2}\r\n\r\n".to_string(), format!("GET / HTTP/1.1\r\nA: {}", "b".repeat(MAX_BYTES))] {
            assert_eq!(read(&bad), Ok(Head::Unreadable), "{}", bad.len());
        }
        let many = format!("GET / HTTP/1.1\r\n{}\r\n", "A: b\r\n".repeat(MAX_HEADERS + 1));
        assert_eq!(read(&many), Ok(Head::Unreadable));
        assert_eq!(read("GET / HT"), Err(ErrorKind::UnexpectedEof));
    }

    #[test]
    fn beyond_the_loopback_addresses_and_named_hosts_are_answered() {
        let hosts = Hosts::Anywhere(vec!["db-1.example".to_string()]);
        let all = ["10.0.0.1:7080", "[fe80::1]:7080", "localhost", "DB-1.example:7080", "db-1.example"];
        assert!(all.iter().all(|host| hosts.has(host)));
        assert!(["evil.example", "evil.db-1.example", "db-1.example.evil:7080", "10.0.0.1.evil", ""].iter().all(|host| !hosts.has(host)));
        assert!(!Hosts::Loopback.has("db-1.example") && !Hosts::Loopback.has("10.0.0.1"));
    }

    #[test]
    fn a_head_may_come_in_pieces() {
        struct Slow<'a>(&'a [u8]);
        impl Read for Slow<'_> {
            fn read(&mut self, bytes: &mut [u8]) -> io::Result<usize> {
                self.0.read(&mut bytes[..1])
            }
        }
        let head = read_head(&mut Slow(b"GET /metrics HTTP/1.1\r\nHost: [::1]\r\n\r\n"), &Hosts::Loopback).unwrap();
        assert_eq!(head, Head::Get { path: "/metrics".to_string(), is_head: false });
    }

    /// Gives what it has again and again, some bytes at a time.
    struct Endless<'a>(&'a [u8], usize);

    impl Read for Endless<'_> {
        fn read(&mut self, bytes: &mut [u8]) -> io::Result<usize> {
            let count = bytes.len().min(self.0.len());
            bytes[..count].copy_from_slice(&self.0[..count]);
            self.1 += count;
            Ok(count)
        }
    }

    #[test]
    fn whatever_comes_is_read_or_refused_and_no_more_of_it_than_a_head() {
        let right = ["GET /a?b=1 HTTP/1.1\r\nHost: localhost\r\n\r\n", "HEAD http://127.0.0.1:7080/x HTTP/1.0\r\n\r\n", "POST / HTTP/1.1\r\nHost: [::1]\r\nA: b\r\n\r\n"];
        let hosts = [Hosts::Loopback, Hosts::Anywhere(vec!["node-0".to_string()])];
        let mut chance = Chance::of(11);
        for turn in 0..TURNS {
            let odd = chance.odd(&right, 300);
            if let Ok(Head::Get { path, .. }) = read_head(&mut &odd[..], &hosts[turn as usize % 2]) {
                assert!(path.len() <= odd.len() && !path.contains(['?', ' ', '\n']), "{path}");
            }
        }
        for piece in [&b"GET / HTTP/1.1\r\n"[..], b"a", b"\r\n", b"A: b\r\n", b"\0", b"GET /"] {
            let mut endless = Endless(piece, 0);
            assert_eq!(read_head(&mut endless, &hosts[0]).unwrap(), Head::Unreadable);
            assert!(endless.1 <= MAX_BYTES + 1024, "{}", endless.1);
        }
    }
}
