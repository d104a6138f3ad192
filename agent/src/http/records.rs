//! Parts of the node's record, for who follows it from elsewhere: in pieces, from where they were read last. Each is read by the thread of its request, so
//! that the agent waits for no disk.

use super::server::Response;
use crate::record::{part_of, parts};
use serde_json::json;
use std::fs::File;
use std::io::{self, ErrorKind, Read, Seek, SeekFrom};
use std::path::PathBuf;

/// So much of a part is answered at a time: no line is longer.
const PIECE: u64 = 256 * 1024;

const PATH: &str = "/record";

/// A record that whoever reaches the pages may read.
pub struct Records {
    path: PathBuf,
}

impl Records {
    pub fn new(path: PathBuf) -> Records {
        Records { path }
    }

    /// What is answered to `/record`, which parts there are, and to `/record/PART/OFFSET`, which the bytes are from there on; none where another page is asked for.
    pub fn response_to(&self, path: &str) -> Option<Response> {
        let rest = path.strip_prefix(PATH).filter(|rest| rest.is_empty() || rest.starts_with('/'))?;
        let numbers: Result<Vec<u64>, _> = rest.split('/').skip(1).map(str::parse).collect();
        let answered = match numbers.as_deref() {
            Ok([]) => self.list(),
            Ok([part, offset]) => self.piece(*part, *offset),
            _ => Err(ErrorKind::NotFound.into()),
        };
        Some(answered.unwrap_or_else(|why| match why.kind() {
            ErrorKind::NotFound => Response::text(404, "no such part"),
            _ => Response::text(503, &why.to_string()),
        }))
    }

    fn list(&self) -> io::Result<Response> {
        let parts = parts(&self.path)?;
        let (first, last) = (parts.iter().min().ok_or(ErrorKind::NotFound)?, parts.iter().max());
        Ok(Response::json(json!({ "first": first, "last": last }).to_string()))
    }

    /// Whether the next part is there is looked at first: then nothing comes to this one any more.
    fn piece(&self, part: u64, offset: u64) -> io::Result<Response> {
        let next = part.checked_add(1).filter(|next| part_of(&self.path, *next).exists());
        let mut file = File::open(part_of(&self.path, part))?;
        file.seek(SeekFrom::Start(offset))?;
        let mut bytes = Vec::new();
        file.take(PIECE).read_to_end(&mut bytes)?;
        Ok(Response::piece(bytes, next))
    }
}

#[cfg(test)]
mod tests {
    use super::*;
    use crate::chance::{Chance, TURNS};
    use std::fs;

    #[test]
    fn parts_are_given_from_where_they_are_asked_for() {
        let folder = std::env::temp_dir().join(format!("dumgerok-records-{}", std::process::id()));
        fs::create_dir_all(&folder).unwrap();
        let records = Records::new(folder.join("record"));
        let asked = |path: &str| records.response_to(path).map(|response| (response.status, String::from_utf8(response.body).unwrap(), response.next_part));
        assert_eq!(asked("/record").unwrap().0, 404);
        fs::write(folder.join("record.2"), "a line\nand half").unwrap();
        fs::write(folder.join("record.3"), "x".repeat(300_000)).unwrap();
        fs::write(folder.join("secret"), "of somebody else").unwrap();
        assert_eq!(asked("/record").unwrap().1, "{\"first\":2,\"last\":3}");
        assert_eq!(asked("/record/2/0").unwrap(), (200, "a line\nand half".to_string(), Some(3)));
        assert_eq!(asked("/record/2/7").unwrap(), (200, "and half".to_string(), Some(3)));
        assert_eq!(asked("/record/2/99").unwrap(), (200, String::new(), Some(3)));
        assert_eq!(asked("/record/3/0").map(|(status, text, next)| (status, text.len(), next)), Some((200, PIECE as usize, None)));
        for path in ["/record/1/0", "/record/4/0", "/record/2", "/record/2/0/0", "/record/2/-1", "/record//0", "/record/../secret/0", "/record/18446744073709551615/0"] {
            assert_eq!(asked(path).map(|(status, ..)| status), Some(404), "{path}");
        }
        assert!(["/", "/recorded", "/metrics"].iter().all(|path| asked(path).is_none()));
        fs::remove_dir_all(&folder).unwrap();
    }

    #[test]
    fn whatever_path_is_asked_for_no_other_file_is_read() {
        let folder = std::env::temp_dir().join(format!("dumgerok-odd-paths-{}", std::process::id()));
        fs::create_dir_all(&folder).unwrap();
        fs::write(folder.join("record.2"), "of the record").unwrap();
        fs::write(folder.join("secret"), "of somebody else").unwrap();
        let (mut chance, records) = (Chance::of(12), Records::new(folder.join("record")));
        for _ in 0..TURNS {
            let path = chance.odd_text(&["/record", "/record/2/0", "/record/2/7", "/record/../secret/0"], 30);
            let said = records.response_to(&path).map(|response| (response.status, String::from_utf8(response.body).unwrap()));
            let is_right = |status: u16, text: &str| status != 200 || "of the record".ends_with(text) || text.starts_with('{');
            assert!(said.as_ref().map_or(true, |(status, text)| is_right(*status, text)), "{path}: {said:?}");
        }
        fs::remove_dir_all(&folder).unwrap();
    }
}
