//! What is known of the entries of a history beside their text, as it is stored behind one another.

use super::history::Place;
use super::order::{Message, Sent, Turn};
use super::store::Span;
use std::collections::HashMap;
use std::io::{self, BufRead, BufReader, Read, Write};
use std::iter::repeat;

/// Of an entry: so many bytes of text, and the messages of the record, with their seals.
#[derive(Clone, Debug, PartialEq, Eq)]
pub struct Note {
    pub place: Place,
    pub length: usize,
    pub brought: Option<Message>,
    pub sent: Vec<Message>,
}

impl Note {
    pub fn write(&self, out: &mut impl Write) -> io::Result<()> {
        for number in [self.place.0, self.place.1, short(self.length)?, short(self.sent.len())?] {
            out.write_all(&number.to_le_bytes())?;
        }
        out.write_all(&[u8::from(self.brought.is_some())])?;
        self.brought.iter().chain(&self.sent).try_for_each(|message| out.write_all(message.bytes()))
    }

    fn read(from: &mut impl Read) -> io::Result<Note> {
        let mut numbers = [0; 4];
        for number in &mut numbers {
            *number = u32::from_le_bytes(bytes(from)?);
        }
        let [part, line, length, sent] = numbers;
        let brought = if bytes(from)? == [1] { Some(Message::from_bytes(bytes(from)?)) } else { None };
        let sent = (0..sent).map(|_| bytes(from).map(Message::from_bytes)).collect::<io::Result<_>>()?;
        Ok(Note { place: (part, line), length: length as usize, brought, sent })
    }
}

fn short(number: usize) -> io::Result<u32> {
    u32::try_from(number).map_err(|_| io::ErrorKind::InvalidData.into())
}

fn bytes<const COUNT: usize>(from: &mut impl Read) -> io::Result<[u8; COUNT]> {
    let mut bytes = [0; COUNT];
    from.read_exact(&mut bytes).map(|()| bytes)
}

/// The notes that stand somewhere.
pub struct Notes<'t>(BufReader<Span<'t>>);

impl<'t> Notes<'t> {
    pub fn of(span: Span<'t>) -> Notes<'t> {
        Notes(BufReader::new(span))
    }
}

impl Iterator for Notes<'_> {
    type Item = io::Result<Note>;

    fn next(&mut self) -> Option<io::Result<Note>> {
        match self.0.fill_buf() {
            Ok([]) => None,
            Ok(_) => Some(Note::read(&mut self.0)),
            Err(why) => Some(Err(why)),
        }
    }
}

/// Of the notes of a history what isn't stored: it comes behind them, or is the same for many.
#[derive(Default)]
pub struct Since {
    /// For so many entries, one behind the other, the node's clock by then.
    times: Vec<(usize, u64)>,
    /// Of a message that was sent again, under another seal, the entry that sent it, its place there, and what it was then.
    again: Vec<(u32, u32, Message)>,
    /// How many messages were sent, those that were sent again among them.
    pub sendings: usize,
}

impl Since {
    /// The times of the entries.
    pub fn times(&self) -> impl Iterator<Item = u64> + '_ {
        self.times.iter().flat_map(|(count, time)| repeat(*time).take(*count))
    }

    /// What an order needs to know of the entries.
    pub fn turns<'s>(&'s self, notes: Notes<'s>) -> impl Iterator<Item = io::Result<Turn>> + 's {
        let mut again = &self.again[..];
        (0..).zip(notes).zip(self.times()).map(move |((entry, note), time)| {
            let Note { brought, sent, .. } = note?;
            let own = again.iter().take_while(|(of, _, _)| *of == entry).count();
            let (copies, rest) = again.split_at(own);
            again = rest;
            let copies_of = |place: u32, first: Message| copies.iter().filter(move |(_, of, copy)| *of == place && *copy != first).map(|(_, _, copy)| *copy).collect();
            let sent = (0..).zip(sent).map(|(place, first)| Sent { first, again: copies_of(place, first) }).collect();
            Ok(Turn { time, sent, brought })
        })
    }
}

/// What is noted of a history that is read.
#[derive(Default)]
pub struct Noting {
    /// The notes that aren't stored yet.
    notes: Vec<Note>,
    /// How many entries there were by now, and how many of them have a time.
    count: usize,
    timed: usize,
    /// Of each message that was sent, as the trace has it, the last entry that sent it, and its place there.
    sent: HashMap<Message, (u32, u32)>,
    since: Since,
}

impl Noting {
    pub fn count(&self) -> usize {
        self.count
    }

    /// Notes the next entry, which sent these messages, as the trace has them.
    pub fn put(&mut self, note: Note, messages: Vec<Message>) {
        let entry = u32::try_from(self.count).unwrap_or(u32::MAX);
        self.sent.extend(messages.into_iter().zip((0..).map(|place| (entry, place))));
        self.since.sendings += note.sent.len();
        self.notes.push(note);
        self.count += 1;
    }

    /// The text of the last entry has so many bytes more.
    pub fn lengthen(&mut self, more: usize) {
        self.notes.last_mut().into_iter().for_each(|note| note.length += more);
    }

    /// The entries that have no time yet were by now.
    pub fn timed(&mut self, time: u64) {
        match self.since.times.last_mut() {
            Some((count, last)) if *last == time => *count += self.count - self.timed,
            _ if self.count > self.timed => self.since.times.push((self.count - self.timed, time)),
            _ => {}
        }
        self.timed = self.count;
    }

    /// A message, as the trace has it, is sent again.
    pub fn sent_again(&mut self, message: Message, copy: Message) {
        if let Some((entry, place)) = self.sent.get(&message) {
            self.since.again.push((*entry, *place, copy));
            self.since.sendings += 1;
        }
    }

    /// Stores the notes so far.
    pub fn store(&mut self, out: &mut impl Write) -> io::Result<()> {
        self.notes.drain(..).try_for_each(|note| note.write(out))
    }

    pub fn end(mut self) -> Since {
        self.since.again.sort_by_key(|(entry, place, _)| (*entry, *place));
        self.since
    }
}

#[cfg(test)]
mod tests {
    use super::super::store::Store;
    use super::*;

    #[test]
    fn what_was_noted_is_read_as_turns() {
        let message = |digits: &str| Message::of(digits);
        let note = |line, length, brought, sent: &[&str]| Note { place: (1, line), length, brought, sent: sent.iter().map(|digits| message(digits)).collect() };
        let (mut noting, mut store) = (Noting::default(), Store::new().unwrap());
        noting.put(note(3, 17, None, &["aa01", "bb02"]), vec![message("aa"), message("bb")]);
        noting.lengthen(4);
        noting.sent_again(message("bb"), message("bb03"));
        noting.timed(7);
        noting.store(&mut store).unwrap();
        noting.put(note(5, 9, Some(message("cc")), &["aa04"]), vec![message("aa")]);
        // the last that sent it sends it again; what is the same, is no other; and what nobody sent is not noted
        noting.sent_again(message("aa"), message("aa05"));
        noting.sent_again(message("aa"), message("aa04"));
        noting.sent_again(message("bb"), message("bb06"));
        noting.sent_again(message("dd"), message("dd"));
        noting.timed(7);
        noting.put(note(6, 1, None, &[]), Vec::new());
        noting.timed(8);
        noting.timed(9);
        noting.store(&mut store).unwrap();
        let (count, since, stored) = (noting.count(), noting.end(), store.end().unwrap());
        assert_eq!((count, since.sendings, since.times().collect::<Vec<_>>(), since.times.len()), (3, 7, vec![7, 7, 8], 2));
        let notes: Vec<Note> = Notes::of(stored.all()).map(Result::unwrap).collect();
        assert_eq!(notes, [note(3, 21, None, &["aa01", "bb02"]), note(5, 9, Some(message("cc")), &["aa04"]), note(6, 1, None, &[])]);
        let turns: Vec<Turn> = since.turns(Notes::of(stored.all())).map(Result::unwrap).collect();
        let sent = |first, again: &[&str]| Sent { first: message(first), again: again.iter().map(|digits| message(digits)).collect() };
        let expected = [
            Turn { time: 7, sent: vec![sent("aa01", &[]), sent("bb02", &["bb03", "bb06"])], brought: None },
            Turn { time: 7, sent: vec![sent("aa04", &["aa05"])], brought: Some(message("cc")) },
            Turn { time: 8, sent: vec![], brought: None },
        ];
        assert_eq!(turns, expected);
        assert!(Notes::of(stored.span(0..20)).any(|note| note.is_err()), "half a note is none");
    }
}
