//! The record of a node that goes on, as far as it was read.

use super::history::Place;
use super::message::Begin;
use super::source::{Piece, Source};
use super::{kept_at, RecordError};
use std::collections::VecDeque;
use std::path::PathBuf;
use std::time::Duration;

/// So many pieces of a record are read before what stands in them is judged: so of a long one, too, no more is kept than has to be.
const AT_ONCE: usize = 16;

pub struct Growing {
    pub node: usize,
    source: Source,
    /// Its parts, by the names that are said of them.
    pub paths: Vec<PathBuf>,
    /// What was read before all nodes had begun.
    held: VecDeque<Piece>,
    /// What its file kept when it began; none before it began.
    pub begin: Option<Begin>,
    /// Whether there is more than was read at once.
    pub has_more: bool,
    /// Whether its agent didn't answer lately, when it was read.
    pub is_unheard: bool,
}

impl Growing {
    pub fn new(node: usize, source: Source) -> Growing {
        Growing { node, source, paths: Vec::new(), held: VecDeque::new(), begin: None, has_more: false, is_unheard: false }
    }

    /// Reads the lines that are new, and gives them on with where they stand.
    pub fn read(&mut self, mut heard: impl FnMut(Place, &str) -> Result<(), RecordError>) -> Result<bool, RecordError> {
        // all that was heard before is read now
        self.is_unheard = self.source.is_unheard();
        for count in 0..AT_ONCE {
            let piece = match self.held.pop_front() {
                Some(piece) => piece,
                None => match self.source.next()? {
                    Some(piece) => piece,
                    None => {
                        self.has_more = false;
                        return Ok(count > 0);
                    }
                },
            };
            self.name(&piece);
            piece.lines().try_for_each(|(place, line)| heard(place, line)).map_err(|why| why.in_one_of(&self.paths))?;
        }
        self.has_more = true;
        Ok(true)
    }

    fn name(&mut self, piece: &Piece) {
        while self.paths.len() <= piece.part as usize {
            self.paths.push(piece.path.clone());
        }
    }

    /// Looks how it began, if it has; whether that is new.
    pub fn look_for_begin(&mut self) -> Result<bool, RecordError> {
        if self.begin.is_some() {
            return Ok(false);
        }
        while self.begin.is_none() {
            match self.source.next()? {
                Some(piece) => self.held.push_back(piece),
                None => return Ok(false),
            }
            let mut lines = self.held.iter().flat_map(Piece::lines).map(|(_, line)| line);
            if lines.clone().next().map_or(false, |first| !first.starts_with("start")) {
                return Err(RecordError::NoBegin { node: self.node, what: "the node ran already" });
            }
            self.begin = lines.find(|line| line.starts_with("keeps ")).map(|line| kept_at(self.node, line)).transpose()?;
        }
        Ok(true)
    }

    pub fn lag(&self) -> Duration {
        self.source.lag()
    }

    /// Whether it isn't known what stands there by now.
    pub fn is_behind(&self) -> bool {
        self.has_more || self.is_unheard
    }
}
