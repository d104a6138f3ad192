//! What the node is asked and what it answers, as bytes and without the pipes that carry them.

use super::answer::{Answer, Closing};
use crate::record::Record;
use log::{error, warn};
use std::collections::VecDeque;
use std::io;

/// Bytes of requests of each lane that may be on their way: of both together less than a pipe holds.
const MAX_ON_THE_WAY: usize = 24 * 1024;

/// The node's longest line is far shorter.
const MAX_LINE: usize = 64 * 1024;

/// Where a request comes from. Each has its own room, so that neither keeps the other from the node.
#[derive(Clone, Copy, Debug, PartialEq, Eq)]
pub enum Lane {
    Network,
    Local,
}

struct Request<A> {
    asker: A,
    lane: Lane,
    text: String,
    /// Whether it stands in the record.
    is_recorded: bool,
}

/// Who asked what the node hasn't answered yet, and what it is to read next.
pub struct Exchange<A> {
    own: u8,
    asked: VecDeque<Request<A>>,
    on_the_way: [usize; 2],
    record: Option<Record>,
    unwritten: Vec<u8>,
    unread: Vec<u8>,
    /// The lines of an answer that isn't closed yet.
    texts: Vec<String>,
}

/// A life as the node takes it: 16 bytes.
pub(super) fn digits_of(life: u64) -> String {
    format!("{life:032x}")
}

impl<A> Exchange<A> {
    /// With node `own`.
    pub fn new(own: u8) -> Exchange<A> {
        let (asked, unwritten, unread, texts) = (VecDeque::new(), Vec::new(), Vec::new(), Vec::new());
        Exchange { own, asked, on_the_way: [0; 2], record: None, unwritten, unread, texts }
    }

    /// Whether a request of this lane would be taken now.
    pub fn has_room(&self, lane: Lane) -> bool {
        self.on_the_way[lane as usize] < MAX_ON_THE_WAY
    }

    /// Whether half of the room of this lane is free.
    pub fn has_half_its_room(&self, lane: Lane) -> bool {
        self.on_the_way[lane as usize] < MAX_ON_THE_WAY / 2
    }

    /// Whether an answer of it is to come.
    pub fn is_asked(&self) -> bool {
        !self.asked.is_empty()
    }

    /// Takes a request; it stands in the record by then.
    pub fn ask(&mut self, asker: A, lane: Lane, text: String) {
        self.on_the_way[lane as usize] += text.len() + 1;
        self.record_by(|record| record.take_request(&text));
        self.unwritten.extend_from_slice(text.as_bytes());
        self.unwritten.push(b'\n');
        self.asked.push_back(Request { asker, lane, text, is_recorded: self.is_recorded() });
    }

    /// Tells the node in which life another one opens what is sealed: it answers nothing.
    pub fn tell_life(&mut self, other: u8, life: u64) {
        self.unwritten.extend_from_slice(format!("life {other} {}\n", digits_of(life)).as_bytes());
    }

    /// Begins the record. Where requests are on their way it begins behind them.
    pub fn begin_record(&mut self, record: Record) {
        self.record = Some(record);
    }

    /// Ends the record.
    pub fn end_record(&mut self) {
        if let Some(Err(why)) = self.record.take().map(Record::end) {
            warn!("the record has no end: {why}");
        }
    }

    pub fn is_recorded(&self) -> bool {
        self.record.is_some()
    }

    /// Writes a line to the record.
    pub fn write_down(&mut self, line: &str) {
        self.record_by(|record| record.take([line]).and_then(|()| record.flush()));
    }

    /// Does something to the record. Where that fails there is none from then on.
    fn record_by(&mut self, write: impl FnOnce(&mut Record) -> io::Result<()>) {
        if let Some(Err(why)) = self.record.as_mut().map(write) {
            error!("the record ends: {why}");
            self.end_record();
        }
    }

    /// Writes the record out.
    pub fn flush_record(&mut self) {
        self.record_by(Record::flush);
    }

    /// What the node is to read and wasn't given yet.
    pub fn unwritten(&mut self) -> &mut Vec<u8> {
        &mut self.unwritten
    }

    /// The node wrote this. Whole answers are put to `answers`; false where a line has no end.
    pub fn hear(&mut self, bytes: &[u8], answers: &mut Vec<Answer<A>>) -> bool {
        self.unread.extend_from_slice(bytes);
        self.cut_lines(answers);
        if self.unread.len() > MAX_LINE {
            warn!("the node wrote a line of more than {MAX_LINE} bytes");
        }
        self.unread.len() <= MAX_LINE
    }

    fn cut_lines(&mut self, answers: &mut Vec<Answer<A>>) {
        let unread = std::mem::take(&mut self.unread);
        let mut lines = unread.split(|byte| *byte == b'\n').peekable();
        while let Some(line) = lines.next() {
            if lines.peek().is_none() {
                self.unread = line.to_vec();
                return;
            }
            let text = String::from_utf8_lossy(line).into_owned();
            answers.extend(self.heard(text));
        }
    }

    /// One line; an answer where it closes one.
    fn heard(&mut self, text: String) -> Option<Answer<A>> {
        let closing = match Closing::read(&text) {
            Some(closing) => closing,
            None => {
                self.texts.push(text);
                return None;
            }
        };
        let texts = std::mem::take(&mut self.texts);
        let request = self.asked.pop_front()?;
        self.on_the_way[request.lane as usize] -= request.text.len() + 1;
        if request.is_recorded {
            self.record_by(|record| record.take(texts.iter().chain([&text]).map(String::as_str)));
        }
        let (answer, faults) = Answer::of(self.own, request.asker, &texts, closing);
        if !faults.is_empty() {
            let word = request.text.split(' ').next().unwrap_or_default();
            warn!("{} lines of the answer to a request `{word}` can't be read", faults.len());
        }
        Some(answer)
    }
}

#[cfg(test)]
mod tests {
    use super::*;
    use crate::chance::{Chance, TURNS};
    use crate::node::Refusal;

    const SAID: &str = "send 1 0101\ngroup Normal 1 1:5 0,1\nkeeps 1 2 3\nok 1\nrefused 2 NotCoordinator 1\ntake 1 7 3 6869 9\nnext 1200\nok 3 id 8\nbad 4\nfault 5 Device\n";

    fn asked(count: usize) -> Exchange<usize> {
        let mut exchange = Exchange::new(1);
        (0..count).for_each(|at| exchange.ask(at, if at % 2 == 0 { Lane::Network } else { Lane::Local }, format!("deliver {at}")));
        exchange
    }

    #[test]
    fn answers_are_the_same_in_whatever_pieces_they_come() {
        let mut chance = Chance::of(1);
        let (mut whole, mut all) = (asked(5), Vec::new());
        assert!(whole.hear(SAID.as_bytes(), &mut all));
        let closings: Vec<Closing> = all.iter().map(|answer| answer.closing.clone()).collect();
        assert_eq!(closings, [Closing::Ok(None), Closing::Elsewhere(1), Closing::Ok(Some(8)), Closing::Bad, Closing::Fault]);
        assert_eq!((all[0].lines.len(), all[2].lines.len(), closings[3].refusal()), (3, 2, Some(Refusal::Unreadable)));
        for _ in 0..TURNS / 10 {
            let (mut exchange, mut answers, mut rest) = (asked(5), Vec::new(), SAID.as_bytes());
            while !rest.is_empty() {
                let (front, behind) = rest.split_at(1 + chance.below(rest.len() as u64) as usize);
                assert!(exchange.hear(front, &mut answers));
                rest = behind;
            }
            assert!(answers.iter().map(|answer| (answer.asker, &answer.lines, &answer.closing)).eq(all.iter().map(|answer| (answer.asker, &answer.lines, &answer.closing))));
            assert_eq!((exchange.is_asked(), exchange.on_the_way), (false, [0; 2]));
        }
    }

    #[test]
    fn whatever_the_node_writes_is_heard() {
        let mut chance = Chance::of(2);
        for _ in 0..TURNS {
            let (mut exchange, mut answers) = (asked(4), Vec::new());
            for _ in 0..3 {
                exchange.hear(&chance.odd(&[SAID], 300), &mut answers);
            }
            assert!(answers.len() <= 4 && exchange.unread.len() <= MAX_LINE);
            assert_eq!(exchange.asked.len() + answers.len(), 4, "each answer is of one request");
        }
        let (mut exchange, mut answers) = (asked(1), Vec::new());
        let heard = (0..100).take_while(|_| exchange.hear(&[b'x'; 4096], &mut answers)).count();
        assert_eq!(heard, MAX_LINE / 4096, "a line without an end isn't held");
    }
}
