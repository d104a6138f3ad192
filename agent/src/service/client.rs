//! One client: what it wrote and wasn't read yet, and what it wasn't told yet.

use super::{Beats, Peer, Stream};
use std::io::{self, ErrorKind};
use std::time::Instant;

/// So long a request may be.
const MAX_LINE: usize = 16 * 1024;

/// A client that leaves more than so many bytes unread is cut off at the next line to it.
const MAX_UNREAD: usize = 256 * 1024;

pub struct Client<S> {
    stream: S,
    input: Vec<u8>,
    /// The end of its first line, and so many bytes have none.
    line_end: Option<usize>,
    seen: usize,
    output: Vec<u8>,
    /// Whether more of its input may be waiting.
    is_readable: bool,
    /// Whether its next request waits until the node has room.
    is_waiting: bool,
    /// Whether its input ended: it may wait for answers all the same.
    is_ended: bool,
    /// Whether nothing that is written to it will be read.
    has_hung_up: bool,
    /// Requests that have no answer yet.
    pub owed: usize,
    pub watches: bool,
    pub beats: Option<Beats>,
    /// When it came, or asked for something last.
    pub asked: Instant,
}

/// What a look at a client's input gives.
pub enum Next {
    Line(Vec<u8>),
    Nothing,
    TooLong,
    Gone,
}

impl<S: Stream> Client<S> {
    pub fn new(stream: S, now: Instant) -> Client<S> {
        Client {
            stream,
            input: Vec::new(),
            line_end: None,
            seen: 0,
            output: Vec::new(),
            is_readable: true,
            is_waiting: false,
            is_ended: false,
            has_hung_up: false,
            owed: 0,
            watches: false,
            beats: None,
            asked: now,
        }
    }

    pub fn stream(&mut self) -> &mut S {
        &mut self.stream
    }

    pub fn peer(&self) -> io::Result<Peer> {
        self.stream.peer()
    }

    /// Something came of it, it takes more, or it hung up.
    pub fn wake(&mut self, has_hung_up: bool) {
        self.is_readable = !self.is_ended;
        self.has_hung_up |= has_hung_up;
    }

    /// Whether nobody is there any more who would be told something. A watcher is there until it hangs up.
    pub fn is_gone(&self) -> bool {
        let is_served = self.owed == 0 && !self.watches && self.output.is_empty();
        self.is_ended && (self.has_hung_up || is_served)
    }

    /// Its next request.
    pub fn next_line(&mut self, now: Instant) -> Next {
        self.is_waiting = false;
        loop {
            if let Some(end) = self.line_end {
                let rest = self.input.split_off(end + 1);
                let line = std::mem::replace(&mut self.input, rest);
                self.asked = now;
                self.look_for_line(0);
                return Next::Line(line);
            }
            if self.input.len() >= MAX_LINE {
                return Next::TooLong;
            }
            match self.fill() {
                Ok(true) => {}
                Ok(false) if self.is_gone() => return Next::Gone,
                Ok(false) => return Next::Nothing,
                Err(_) => return Next::Gone,
            }
        }
    }

    /// Reads what it wrote, unless much of it waits already; false where it is gone.
    pub fn look(&mut self) -> bool {
        self.is_readable = !self.is_ended;
        while self.input.len() < MAX_LINE {
            match self.fill() {
                Ok(true) => {}
                Ok(false) => return true,
                Err(_) => return false,
            }
        }
        true
    }

    /// Reads once more; false where nothing is there now.
    fn fill(&mut self) -> io::Result<bool> {
        let mut piece = [0; 4096];
        while self.is_readable {
            match self.stream.read(&mut piece) {
                Ok(0) => (self.is_readable, self.is_ended) = (false, true),
                Ok(count) => {
                    self.input.extend_from_slice(&piece[..count]);
                    self.look_for_line(self.seen);
                    return Ok(true);
                }
                Err(error) if error.kind() == ErrorKind::WouldBlock => self.is_readable = false,
                Err(error) if error.kind() == ErrorKind::Interrupted => {}
                Err(error) => return Err(error),
            }
        }
        Ok(false)
    }

    /// Looks for the end of the first line behind so many bytes, which have none.
    fn look_for_line(&mut self, seen: usize) {
        self.line_end = self.input[seen..].iter().position(|byte| *byte == b'\n').map(|at| seen + at);
        self.seen = self.line_end.unwrap_or(self.input.len());
    }

    /// Puts its request back, until the node has room for it.
    pub fn put_back(&mut self, line: Vec<u8>) {
        let rest = std::mem::replace(&mut self.input, line);
        self.input.extend(rest);
        self.look_for_line(0);
        self.is_waiting = true;
    }

    /// Whether it may have a request; one that was put back counts where those have their turn.
    pub fn has_input(&self, has_turn: bool) -> bool {
        (has_turn || !self.is_waiting) && (self.is_readable || self.line_end.is_some())
    }

    /// Whether it has asked for nothing that it wasn't told.
    pub fn is_idle(&self) -> bool {
        self.owed == 0 && !self.watches && !self.has_input(true)
    }

    /// Whether it leaves so much unread that it is cut off at the next line to it.
    pub fn is_deaf(&self) -> bool {
        self.output.len() > MAX_UNREAD
    }

    /// Tells it a line; false where it is to be cut off, or is gone.
    pub fn tell(&mut self, line: &[u8]) -> bool {
        if self.is_deaf() {
            return false;
        }
        self.output.extend_from_slice(line);
        self.flush()
    }

    /// Writes what it takes now; false where it is gone.
    pub fn flush(&mut self) -> bool {
        let mut written = 0;
        while written < self.output.len() {
            match self.stream.write(&self.output[written..]) {
                Ok(0) => return false,
                Ok(count) => written += count,
                Err(error) if error.kind() == ErrorKind::Interrupted => {}
                Err(error) if error.kind() == ErrorKind::WouldBlock => break,
                Err(_) => return false,
            }
        }
        self.output.drain(..written);
        if self.output.is_empty() && self.output.capacity() > MAX_UNREAD {
            self.output = Vec::new();
        }
        true
    }
}

#[cfg(test)]
mod tests {
    use super::*;
    use crate::chance::{Chance, TURNS};
    use std::collections::VecDeque;
    use std::io::{Read, Write};

    /// What a client wrote, and what it was told.
    struct Ends {
        written: VecDeque<u8>,
        told: Vec<u8>,
        takes: usize,
    }

    impl Read for Ends {
        fn read(&mut self, bytes: &mut [u8]) -> io::Result<usize> {
            if self.written.is_empty() { Err(ErrorKind::WouldBlock.into()) } else { self.written.read(bytes) }
        }
    }

    impl Write for Ends {
        fn write(&mut self, bytes: &[u8]) -> io::Result<usize> {
            let count = bytes.len().min(self.takes);
            (self.takes, self.told) = (self.takes - count, [&self.told, &bytes[..count]].concat());
            if count == 0 { Err(ErrorKind::WouldBlock.into()) } else { Ok(count) }
        }

        fn flush(&mut self) -> io::Result<()> {
            Ok(())
        }
    }

    impl Stream for Ends {
        fn peer(&self) -> io::Result<Peer> {
            Err(ErrorKind::Unsupported.into())
        }
    }

    #[test]
    fn lines_are_what_stands_between_two_ends_in_whatever_pieces_they_come() {
        let (mut chance, now) = (Chance::of(19), Instant::now());
        for _ in 0..TURNS / 10 {
            let mut client = Client::new(Ends { written: VecDeque::new(), told: Vec::new(), takes: 0 }, now);
            let (mut all, mut lines) = (Vec::new(), Vec::new());
            for _ in 0..chance.below(30) {
                let bytes = chance.odd(&["{\"do\":\"status\"}\n{\"do\"", ":\"members\"}\n\n"], 400);
                all.extend_from_slice(&bytes);
                client.stream().written.extend(bytes);
                client.wake(false);
                while let Next::Line(line) = client.next_line(now) {
                    lines.push(line);
                }
            }
            let whole = all.iter().rposition(|byte| *byte == b'\n').map_or(0, |end| end + 1);
            assert_eq!(lines.concat(), all[..whole]);
            assert!(lines.iter().all(|line| line.iter().filter(|byte| **byte == b'\n').count() == 1 && line.ends_with(b"\n")));
        }
    }

    #[test]
    fn a_line_without_an_end_and_what_is_not_read_are_not_held() {
        let now = Instant::now();
        let mut client = Client::new(Ends { written: VecDeque::from(vec![b'x'; 1 << 20]), told: Vec::new(), takes: 0 }, now);
        assert!(matches!(client.next_line(now), Next::TooLong) && client.input.len() <= MAX_LINE + 4096);
        let told = (0..10_000).take_while(|_| client.tell(&[b'y'; 1000])).count();
        assert!(told > 200 && client.output.len() <= MAX_UNREAD + 2000, "{told}");
        client.stream().takes = usize::MAX;
        assert!(client.flush() && client.output.capacity() == 0);
    }
}
