//! What is too much for memory stands in a file of the folder for temporary ones. It has no name there, so nothing of it is left.

use std::env;
use std::fs::{self, File, OpenOptions};
use std::io::{self, BufReader, BufWriter, ErrorKind, Read, Write};
use std::ops::Range;
use std::os::unix::fs::{FileExt, OpenOptionsExt};
use std::path::Path;

/// So many names are tried where files of another one stand.
const TRIES: u32 = 1000;

/// A new file, to be read and written, that nobody else finds.
pub fn unnamed(folder: &Path) -> io::Result<File> {
    let new = |number: u32| {
        let path = folder.join(format!("dumgerokctl-{}-{number}", std::process::id()));
        let file = OpenOptions::new().read(true).write(true).create_new(true).mode(0o600).open(&path)?;
        fs::remove_file(&path)?;
        Ok(file)
    };
    let is_another = |made: &io::Result<File>| matches!(made, Err(why) if why.kind() == ErrorKind::AlreadyExists);
    (0..TRIES).map(new).find(|made| !is_another(made)).unwrap_or_else(|| Err(ErrorKind::AlreadyExists.into()))
}

/// What is written there, one behind the other.
pub struct Store {
    out: BufWriter<File>,
    length: u64,
}

impl Store {
    pub fn new() -> io::Result<Store> {
        Ok(Store { out: BufWriter::new(unnamed(&env::temp_dir())?), length: 0 })
    }

    /// How many bytes were written.
    pub fn length(&self) -> u64 {
        self.length
    }

    /// All was written.
    pub fn end(self) -> io::Result<Stored> {
        Ok(Stored { file: self.out.into_inner()?, length: self.length })
    }
}

impl Write for Store {
    fn write(&mut self, bytes: &[u8]) -> io::Result<usize> {
        let count = self.out.write(bytes)?;
        self.length += count as u64;
        Ok(count)
    }

    fn flush(&mut self) -> io::Result<()> {
        self.out.flush()
    }
}

/// What stands there.
pub struct Stored {
    file: File,
    length: u64,
}

impl Stored {
    pub fn all(&self) -> Span<'_> {
        self.span(0..self.length)
    }

    pub fn span(&self, range: Range<u64>) -> Span<'_> {
        Span { file: &self.file, range }
    }
}

/// The bytes of a file between two places, all of which are there.
pub struct Span<'f> {
    file: &'f File,
    range: Range<u64>,
}

impl<'f> Span<'f> {
    pub fn of(file: &'f File, range: Range<u64>) -> Span<'f> {
        Span { file, range }
    }

    pub fn buffered(self) -> BufReader<Span<'f>> {
        BufReader::new(self)
    }
}

impl Read for Span<'_> {
    fn read(&mut self, bytes: &mut [u8]) -> io::Result<usize> {
        let left = usize::try_from(self.range.end - self.range.start).unwrap_or(usize::MAX);
        let wanted = bytes.len().min(left);
        let count = self.file.read_at(&mut bytes[..wanted], self.range.start)?;
        if count == 0 && wanted > 0 {
            return Err(ErrorKind::UnexpectedEof.into());
        }
        self.range.start += count as u64;
        Ok(count)
    }
}

#[cfg(test)]
mod tests {
    use super::*;
    use std::os::unix::fs::MetadataExt;

    fn text(mut span: Span) -> io::Result<String> {
        let mut text = String::new();
        span.read_to_string(&mut text).map(|_| text)
    }

    #[test]
    fn what_is_written_is_read_from_any_place() {
        let mut store = Store::new().unwrap();
        write!(store, "one,").unwrap();
        let begin = store.length();
        write!(store, "two").unwrap();
        let stored = store.end().unwrap();
        assert_eq!((begin, text(stored.all()).unwrap(), text(stored.span(begin..7)).unwrap()), (4, "one,two".to_string(), "two".to_string()));
        assert_eq!(text(stored.span(4..8)).map_err(|why| why.kind()), Err(ErrorKind::UnexpectedEof), "it ends before");
    }

    #[test]
    fn nothing_of_it_has_a_name_and_what_has_one_stays() {
        let folder = env::temp_dir().join(format!("dumgerok-store-{}", std::process::id()));
        fs::create_dir_all(&folder).unwrap();
        let other = folder.join(format!("dumgerokctl-{}-0", std::process::id()));
        fs::write(&other, "x").unwrap();
        assert_eq!(unnamed(&folder).unwrap().metadata().unwrap().nlink(), 0);
        assert_eq!((fs::read_dir(&folder).unwrap().count(), fs::read(&other).unwrap()), (1, b"x".to_vec()));
        fs::remove_dir_all(&folder).unwrap();
        assert_eq!(unnamed(&folder).map_err(|why| why.kind()).err(), Some(ErrorKind::NotFound));
    }
}
