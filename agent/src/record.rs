//! The record of a node: what it was asked and answered, in files that rotate. `dumgerokctl judge` makes a trace of the records of all nodes.
//!
//! A file begins with a line `# dumgerok record 1 node N of M part P cluster NAME`. Then stand `start MS` where a process of the node began, with the
//! Unix time by then, each request behind `> `, and the lines of answers, in the order of the requests. A request stands in the file before the node is
//! asked, an answer before anything that it says is done. So where a process ends only what the last requests brought about is in doubt, and nothing of it
//! left the machine. An agent that is started anew goes on in the last file where that has
//! room, so that however often it is started no more is kept than the configuration says. Where the record ends while the node runs on, `off` stands
//! there.

use crate::config::Config;
use log::warn;
use rustix::fs::{flock, FlockOperation};
use rustix::io::Errno;
use std::fs::{self, File, OpenOptions};
use std::io::{self, BufRead, BufReader, BufWriter, ErrorKind, Read, Seek, SeekFrom, Write};
use std::os::unix::fs::OpenOptionsExt;
use std::path::{Path, PathBuf};

const MEGABYTE: u64 = 1_000_000;

const OFF: &[u8] = b"off\n";

/// What is taken between two writes of the agent seldom is more.
const ROOM: usize = 32 * 1024;

/// A line of the record is shorter.
const MAX_LINE: u64 = 128 * 1024;

pub struct Record {
    path: PathBuf,
    /// What stands in each file's first line behind the number of the part.
    node: String,
    cluster: String,
    part: u64,
    max_bytes: u64,
    max_files: u64,
    file: BufWriter<File>,
    written: u64,
    /// So much of it is with the system.
    whole: u64,
}

impl Record {
    /// Goes on with the record at a path: in its last part where that has room, else in a new one.
    pub fn open(path: &Path, config: &Config) -> io::Result<Record> {
        let node = format!("node {} of {}", config.id, config.nodes.len());
        let (cluster, max_bytes) = (config.cluster.clone(), config.record_mb * MEGABYTE);
        let last = parts(path)?.into_iter().max().unwrap_or(0);
        let begun = match last {
            0 => None,
            _ => go_on(&part_of(path, last), &head(&node, last, &cluster))?.filter(|(_, written)| *written < max_bytes),
        };
        let is_new = begun.is_none();
        let part = last + u64::from(is_new);
        let (file, written) = match begun {
            Some(begun) => begun,
            None => (create(&part_of(path, part))?, 0),
        };
        let (path, file, max_files) = (path.to_path_buf(), BufWriter::with_capacity(ROOM, file), u64::from(config.record_files));
        let mut record = Record { path, node, cluster, part, max_bytes, max_files, file, written, whole: written };
        if is_new {
            record.begin()?;
        }
        Ok(record)
    }

    /// Writes the first line of a part, and deletes the parts that are too many then.
    fn begin(&mut self) -> io::Result<()> {
        self.put(&head(&self.node, self.part, &self.cluster))?;
        let kept = self.max_files.min(self.part);
        for old in parts(&self.path)?.into_iter().filter(|part| *part <= self.part - kept) {
            match fs::remove_file(part_of(&self.path, old)) {
                Err(error) if error.kind() != ErrorKind::NotFound => warn!("{}: {error}", self.path.display()),
                _ => {}
            }
        }
        Ok(())
    }

    fn put(&mut self, line: &str) -> io::Result<()> {
        self.written += line.len() as u64 + 1;
        self.file.write_all(line.as_bytes())?;
        self.file.write_all(b"\n")
    }

    /// Takes lines; `flush` writes them.
    pub fn take<'a>(&mut self, lines: impl IntoIterator<Item = &'a str>) -> io::Result<()> {
        lines.into_iter().try_for_each(|line| self.put(line))
    }

    /// Takes a request.
    pub fn take_request(&mut self, text: &str) -> io::Result<()> {
        self.written += 2;
        self.file.write_all(b"> ")?;
        self.put(text)
    }

    /// Has all that was taken with the system before it returns.
    pub fn flush(&mut self) -> io::Result<()> {
        if self.whole == self.written {
            return Ok(());
        }
        self.write_out()?;
        if self.written >= self.max_bytes {
            self.rotate()?;
        }
        Ok(())
    }

    fn write_out(&mut self) -> io::Result<()> {
        self.file.flush()?;
        self.whole = self.written;
        Ok(())
    }

    /// Ends it while the node runs on. Where a write failed, as on a device that is full, that stands in place of what wasn't written whole.
    pub fn end(self) -> io::Result<()> {
        let (mut file, _unwritten) = self.file.into_parts();
        file.set_len(self.whole)?;
        file.write_all(OFF)
    }

    fn rotate(&mut self) -> io::Result<()> {
        self.part += 1;
        self.file = BufWriter::with_capacity(ROOM, create(&part_of(&self.path, self.part))?);
        (self.written, self.whole) = (0, 0);
        self.begin()?;
        self.write_out()
    }
}

fn head(node: &str, part: u64, cluster: &str) -> String {
    format!("# dumgerok record 1 {node} part {part} cluster {cluster}")
}

fn create(path: &Path) -> io::Result<File> {
    own(OpenOptions::new().create_new(true).append(true).mode(0o640).open(path)?)
}

/// A part that no other agent writes: two with one path would delete each other's parts. It is locked until it is closed.
fn own(file: File) -> io::Result<File> {
    match flock(&file, FlockOperation::NonBlockingLockExclusive) {
        Ok(()) => Ok(file),
        Err(why) if why == Errno::WOULDBLOCK => Err(io::Error::new(ErrorKind::AddrInUse, "another agent writes it")),
        Err(why) => Err(why.into()),
    }
}

/// Opens a part that was begun, and its length. A last line without a line feed, of an agent that was killed, is cut off. None where it has another first
/// line, or is another user's.
fn go_on(path: &Path, head: &str) -> io::Result<Option<(File, u64)>> {
    let mut file = match OpenOptions::new().read(true).append(true).open(path) {
        Err(error) if error.kind() == ErrorKind::PermissionDenied => return Ok(None),
        opened => own(opened?)?,
    };
    let mut first = Vec::new();
    BufReader::new(&file).take(MAX_LINE).read_until(b'\n', &mut first)?;
    if first != format!("{head}\n").as_bytes() {
        return Ok(None);
    }
    let length = file.metadata()?.len();
    let from = length.saturating_sub(MAX_LINE);
    let mut tail = Vec::new();
    file.seek(SeekFrom::Start(from))?;
    (&file).take(MAX_LINE).read_to_end(&mut tail)?;
    let whole = match tail.iter().rposition(|byte| *byte == b'\n') {
        Some(end) => from + end as u64 + 1,
        None => return Ok(None),
    };
    file.set_len(whole)?;
    Ok(Some((file, whole)))
}

pub(crate) fn part_of(path: &Path, part: u64) -> PathBuf {
    let mut name = path.as_os_str().to_owned();
    name.push(format!(".{part}"));
    name.into()
}

/// The numbers of the parts that are there.
pub(crate) fn parts(path: &Path) -> io::Result<Vec<u64>> {
    let folder = path.parent().filter(|folder| !folder.as_os_str().is_empty()).unwrap_or_else(|| Path::new("."));
    let name = path.file_name().unwrap_or_default().to_string_lossy().into_owned() + ".";
    let mut parts = Vec::new();
    for entry in fs::read_dir(folder)? {
        let entry = entry?.file_name().to_string_lossy().into_owned();
        let part = entry.strip_prefix(&name).and_then(|part| part.parse::<u64>().ok());
        // a number with no next one is none that an agent gave
        parts.extend(part.filter(|part| *part < u64::MAX && part.to_string().len() + name.len() == entry.len()));
    }
    Ok(parts)
}

#[cfg(test)]
mod tests {
    use super::*;
    use crate::chance::{Chance, TURNS};

    const TEXT: &str =
        "cluster = \"c\"\nid = 1\nnodes = [\"a:1\", \"b:1\"]\nfile = \"f\"\nrecord_mb = 1\nrecord_files = 2\n";

    fn folder(name: &str) -> PathBuf {
        let folder = std::env::temp_dir().join(format!("dumgerok-{name}-{}", std::process::id()));
        fs::create_dir_all(&folder).unwrap();
        folder
    }

    fn write<'a>(record: &mut Record, lines: impl IntoIterator<Item = &'a str>) -> io::Result<()> {
        record.take(lines).and_then(|()| record.flush())
    }

    fn names(folder: &Path) -> Vec<String> {
        let name = |entry: io::Result<fs::DirEntry>| entry.unwrap().file_name().into_string().unwrap();
        let mut names: Vec<String> = fs::read_dir(folder).unwrap().map(name).collect();
        names.sort();
        names
    }

    #[test]
    fn it_rotates_and_keeps_no_more_than_it_may() {
        let (folder, config) = (folder("record"), Config::parse(TEXT).unwrap());
        let path = folder.join("record");
        let mut record = Record::open(&path, &config).unwrap();
        let line = "x".repeat(400_000);
        (0..9).for_each(|_| write(&mut record, [line.as_str()]).unwrap());
        assert_eq!(names(&folder), ["record.3", "record.4"]);
        drop(record);
        // a part of another node there, and older ones than those that are kept
        ["record.1", "record.2"].iter().for_each(|old| fs::write(folder.join(old), "old\n").unwrap());
        let foreign = format!("record.{}", u64::MAX);
        fs::write(folder.join(&foreign), "of somebody else\n").unwrap();
        fs::write(folder.join("record.4"), "# dumgerok record 1 node 0 of 2 part 4 cluster c\n").unwrap();
        Record::open(&path, &config).unwrap().flush().unwrap();
        assert_eq!(names(&folder), [&*foreign, "record.4", "record.5"]);
        let first = fs::read_to_string(folder.join("record.5")).unwrap();
        assert_eq!(first, "# dumgerok record 1 node 1 of 2 part 5 cluster c\n");
        fs::remove_dir_all(&folder).unwrap();
    }

    #[test]
    fn an_agent_that_is_started_anew_goes_on_in_the_last_part() {
        let (folder, config) = (folder("again"), Config::parse(TEXT).unwrap());
        let path = folder.join("record");
        for start in 0..9 {
            write(&mut Record::open(&path, &config).unwrap(), ["start", "> recover"]).unwrap();
            // killed in the middle of a line
            let mut file = OpenOptions::new().append(true).open(folder.join("record.1")).unwrap();
            file.write_all(if start % 2 == 0 { b"ok" } else { b"" }).unwrap();
        }
        assert_eq!(names(&folder), ["record.1"]);
        let head = "# dumgerok record 1 node 1 of 2 part 1 cluster c\n".to_string();
        let text = fs::read_to_string(folder.join("record.1")).unwrap();
        assert_eq!(text, head + &"start\n> recover\n".repeat(9) + "ok");
        fs::remove_dir_all(&folder).unwrap();
    }

    #[test]
    fn a_record_that_another_agent_writes_is_left_alone() {
        let (folder, config) = (folder("locked"), Config::parse(TEXT).unwrap());
        let path = folder.join("record");
        let mut record = Record::open(&path, &config).unwrap();
        let other = Config { id: 0, ..config.clone() };
        for config in [&config, &other] {
            let refused = Record::open(&path, config).map(drop).unwrap_err().to_string();
            assert_eq!(refused, "another agent writes it");
        }
        let line = "x".repeat(400_000);
        (0..3).for_each(|_| write(&mut record, [line.as_str()]).unwrap());
        assert!(Record::open(&path, &other).is_err(), "in its next part, too");
        assert_eq!(names(&folder), ["record.1", "record.2"]);
        drop(record);
        Record::open(&path, &config).unwrap();
        fs::remove_dir_all(&folder).unwrap();
    }

    #[test]
    fn where_it_ends_stands_in_place_of_what_was_not_written_whole() {
        let (folder, config) = (folder("off"), Config::parse(TEXT).unwrap());
        let mut record = Record::open(&folder.join("record"), &config).unwrap();
        write(&mut record, ["start"]).unwrap();
        record.put("a line that stays in memory").unwrap();
        // and one of which a part came through
        let mut file = OpenOptions::new().append(true).open(folder.join("record.1")).unwrap();
        file.write_all(b"> subm").unwrap();
        record.end().unwrap();
        let text = fs::read_to_string(folder.join("record.1")).unwrap();
        assert_eq!(text, "# dumgerok record 1 node 1 of 2 part 1 cluster c\nstart\noff\n");
        fs::remove_dir_all(&folder).unwrap();
    }

    #[test]
    fn it_goes_on_in_whatever_file_is_there() {
        let (folder, config, mut chance) = (folder("odd"), crate::config::Config::parse(TEXT).unwrap(), Chance::of(15));
        let path = folder.join("record");
        for _ in 0..TURNS / 10 {
            let right = format!("{}\n> tick 1\nok 1\n> tick 2\nok", head("node 1 of 2", 1, "c"));
            let odd = chance.odd(&[&right], 100);
            fs::write(part_of(&path, 1), &odd).unwrap();
            let mut record = Record::open(&path, &config).unwrap();
            let part = record.part;
            record.take(["behind it"]).and_then(|()| record.flush()).unwrap();
            drop(record);
            let whole = odd.iter().rposition(|byte| *byte == b'\n').map_or(0, |end| end + 1);
            let begun = if part == 1 { odd[..whole].to_vec() } else { format!("{}\n", head("node 1 of 2", 2, "c")).into_bytes() };
            assert_eq!(fs::read(part_of(&path, part)).unwrap(), [&begun[..], b"behind it\n"].concat());
            (1..=part).for_each(|part| drop(fs::remove_file(part_of(&path, part))));
        }
        fs::remove_dir_all(&folder).unwrap();
    }
}
