//! Where a record that grows is read from, piece by piece: its files, or its agent.

use super::history::Place;
use super::records::Head;
use super::remote::{Remote, FRESH};
use super::RecordError;
use std::fs::File;
use std::io::{self, BufRead, BufReader, Read, Seek, SeekFrom};
use std::path::{Path, PathBuf};
use std::time::Duration;

/// So much of a file is read at a time: no line is longer.
const PIECE: u64 = 256 * 1024;

/// Whole lines that stand one behind the other in a part.
pub struct Piece {
    /// Its part, counted from 0, and what that is called.
    pub part: u32,
    pub path: PathBuf,
    /// The number of its first line there, from 1.
    first: u32,
    text: String,
}

impl Piece {
    /// The lines, each with where it stands, without the first one of a part.
    pub fn lines(&self) -> impl Iterator<Item = (Place, &str)> + Clone {
        (self.first..).zip(self.text.lines()).map(move |(line, text)| ((self.part, line), text)).filter(|((_, line), _)| *line > 1)
    }
}

/// Bytes of a part from some place on, and whether the next part is there, as was looked before they were read: where it is, nothing comes to this one any more.
pub struct Bytes {
    pub bytes: Vec<u8>,
    pub has_next: bool,
}

/// How far a record was read: in which of its parts, how many bytes and lines of it.
#[derive(Default)]
pub struct Cursor {
    part: u32,
    offset: u64,
    lines: u32,
}

impl Cursor {
    /// The whole lines that come next, by what reads a part from some place on; none where there are none yet. A line without its line feed is read again: an agent
    /// that begins anew cuts it off.
    pub fn next(&mut self, path_of: impl Fn(u32) -> PathBuf, read: impl Fn(u32, u64) -> Result<Bytes, RecordError>) -> Result<Option<Piece>, RecordError> {
        loop {
            let Bytes { mut bytes, has_next } = read(self.part, self.offset)?;
            bytes.truncate(bytes.iter().rposition(|byte| *byte == b'\n').map_or(0, |end| end + 1));
            if !bytes.is_empty() {
                let lines = bytes.iter().filter(|byte| **byte == b'\n').count();
                let first = self.lines.saturating_add(1);
                self.offset += bytes.len() as u64;
                self.lines = self.lines.saturating_add(u32::try_from(lines).unwrap_or(u32::MAX));
                return Ok(Some(Piece { part: self.part, path: path_of(self.part), first, text: String::from_utf8_lossy(&bytes).into_owned() }));
            }
            if !has_next {
                return Ok(None);
            }
            *self = Cursor { part: self.part.saturating_add(1), ..Cursor::default() };
        }
    }
}

/// The files of a record: those that were named, and behind them those that its agent begins.
pub struct Files {
    paths: Vec<PathBuf>,
    cursor: Cursor,
}

impl Files {
    pub fn new(paths: Vec<PathBuf>) -> Files {
        Files { paths, cursor: Cursor::default() }
    }

    fn next(&mut self) -> Result<Option<Piece>, RecordError> {
        if self.cursor.part as usize + 1 == self.paths.len() {
            self.paths.extend(self.paths.last().and_then(|last| next_of(last)));
        }
        let paths = &self.paths;
        let path_of = |part: u32| paths.get(part as usize).cloned().unwrap_or_default();
        self.cursor.next(path_of, |part, offset| {
            let bytes = read_from(&path_of(part), offset).map_err(|why| RecordError::Unreadable { path: path_of(part), why })?;
            Ok(Bytes { bytes, has_next: part as usize + 1 < paths.len() })
        })
    }
}

fn read_from(path: &Path, offset: u64) -> io::Result<Vec<u8>> {
    let (mut file, mut bytes) = (File::open(path)?, Vec::new());
    file.seek(SeekFrom::Start(offset))?;
    file.take(PIECE).read_to_end(&mut bytes)?;
    Ok(bytes)
}

/// The part behind one, where its agent began it: `record.1` is followed by `record.2`.
fn next_of(path: &Path) -> Option<PathBuf> {
    let name = path.file_name()?.to_str()?;
    let (stem, part) = name.rsplit_once('.')?;
    let next = path.with_file_name(format!("{stem}.{}", part.parse::<u64>().ok()?.checked_add(1)?));
    let head = first_line(&next).ok()?;
    Head::read(&head).map(|_| next)
}

/// The first line of a file, where it is whole; else an empty one.
pub fn first_line(path: &Path) -> io::Result<String> {
    let mut line = String::new();
    BufReader::new(File::open(path)?).read_line(&mut line)?;
    Ok(line.strip_suffix('\n').unwrap_or_default().to_string())
}

pub enum Source {
    Files(Files),
    Agent(Remote),
}

impl Source {
    pub fn next(&mut self) -> Result<Option<Piece>, RecordError> {
        match self {
            Source::Files(files) => files.next(),
            Source::Agent(remote) => remote.next(),
        }
    }

    /// What stands there was read so long ago at most, unless nobody answers.
    pub fn lag(&self) -> Duration {
        match self {
            Source::Files(_) => Duration::ZERO,
            Source::Agent(_) => FRESH,
        }
    }

    /// Whether it isn't known what stands there by now.
    pub fn is_unheard(&self) -> bool {
        match self {
            Source::Files(_) => false,
            Source::Agent(remote) => remote.is_unheard(),
        }
    }
}

#[cfg(test)]
mod tests {
    use super::*;

    /// What a cursor gives next of these parts: the part, the number of its first line, and the lines.
    fn next(cursor: &mut Cursor, parts: &[&str]) -> Option<(u32, u32, String)> {
        let path_of = |part: u32| PathBuf::from(part.to_string());
        let read = |part: u32, offset: u64| {
            let bytes = parts[part as usize].as_bytes().get(offset as usize..).unwrap_or_default().to_vec();
            Ok(Bytes { bytes, has_next: part as usize + 1 < parts.len() })
        };
        cursor.next(path_of, read).unwrap().map(|piece| {
            assert_eq!(piece.path, path_of(piece.part));
            (piece.part, piece.first, piece.text)
        })
    }

    #[test]
    fn whole_lines_come_once_and_then_those_of_the_next_part() {
        let mut cursor = Cursor::default();
        let piece = |part, first, text: &str| Some((part, first, text.to_string()));
        assert_eq!(next(&mut cursor, &["head\nsta"]), piece(0, 1, "head\n"));
        assert_eq!(next(&mut cursor, &["head\nsta"]), None);
        // an agent that began anew cut half a line off
        assert_eq!(next(&mut cursor, &["head\n> recover\nok 1\n> ti"]), piece(0, 2, "> recover\nok 1\n"));
        assert_eq!(next(&mut cursor, &["head\n> recover\nok 1\n> tick 9\n", "he"]), piece(0, 4, "> tick 9\n"));
        assert_eq!(next(&mut cursor, &["head\n> recover\nok 1\n> tick 9\n", "he"]), None);
        assert_eq!(next(&mut cursor, &["", "head\nok 2\n", "head\n"]), piece(1, 1, "head\nok 2\n"));
        assert_eq!(next(&mut cursor, &["", "head\nok 2\n", "head\n"]), piece(2, 1, "head\n"));
    }
}
