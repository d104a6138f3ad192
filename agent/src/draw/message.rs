//! What the program says of messages.

use super::asked::asked;
use super::DrawError;
use std::path::Path;

/// A job: the node that keeps it, and the id that this gave it.
pub type Job = (usize, u64);

/// What `invite show` says of a message.
#[derive(Clone, Debug, PartialEq, Eq)]
pub struct Message {
    pub digits: String,
    pub sender: u8,
    pub receiver: u8,
    /// The name of its kind, with its answer where it is one.
    pub kind: String,
    /// The group that it names, if it names one.
    pub group: Option<String>,
    /// The job of a Work or a Done.
    pub job: Option<Job>,
    /// What else it says: the members of a Ready, queue, payload and priority of a Work.
    pub more: String,
}

impl Message {
    /// `2>0 Here 0:2 yes`: sender, receiver, name and fields.
    fn of(digits: &str, line: &str) -> Option<Message> {
        let words: Vec<&str> = line.split(' ').collect();
        let (ends, fields) = words.split_first()?;
        let (sender, receiver) = ends.split_once('>')?;
        let (sender, receiver) = (sender.parse().ok()?, receiver.parse().ok()?);
        let (name, fields) = fields.split_first()?;
        let group = fields.iter().find(|word| word.contains(':')).map(|group| group.to_string());
        let answer = fields.iter().find(|word| matches!(**word, "yes" | "no"));
        let kind = answer.map_or_else(|| name.to_string(), |answer| format!("{name} {answer}"));
        let (job, more) = match (*name, fields) {
            ("Work", [_, id, queue, payload, rest @ ..]) => {
                let priority = rest.first().map_or_else(String::new, |priority| format!(", priority {priority}"));
                (id.parse().ok().map(|id| (usize::from(sender), id)), format!("queue {queue}, payload {payload}{priority}"))
            }
            ("Done", [id]) => (id.parse().ok().map(|id| (usize::from(receiver), id)), String::new()),
            ("Ready", [_, rest @ ..]) => (None, rest.join(" ")),
            _ => (None, String::new()),
        };
        Some(Message { digits: digits.to_string(), sender, receiver, kind, group, job, more })
    }

    /// Its sender, its receiver, its kind and its group.
    pub fn words(&self) -> String {
        let group = self.group.as_ref().map_or_else(String::new, |group| format!(" {group}"));
        format!("{} to {}: {}{group}", self.sender, self.receiver, self.kind)
    }

    /// All that it says.
    pub fn all_words(&self) -> String {
        let job = self.job.map_or_else(String::new, |(origin, id)| format!(", job {origin}:{id}"));
        let more = if self.more.is_empty() { String::new() } else { format!(", {}", self.more) };
        format!("{}{job}{more}", self.words())
    }
}

/// What the program says of messages of these digits.
pub fn shown(program: &Path, messages: &[String]) -> Result<Vec<Message>, DrawError> {
    let text = messages.iter().map(|digits| format!("{digits}\n")).collect::<String>();
    let (said, _) = asked(program, &["show"], text.as_bytes())?;
    let message = |(digits, line): (&String, &str)| Message::of(digits, line).ok_or_else(|| DrawError::Said(line.to_string()));
    let read = messages.iter().zip(said.lines()).map(message).collect::<Result<Vec<_>, _>>()?;
    if read.len() < messages.len() {
        return Err(DrawError::Said(said.lines().last().unwrap_or_default().to_string()));
    }
    Ok(read)
}

#[cfg(test)]
mod tests {
    use super::*;

    #[test]
    fn words_of_messages() {
        for (line, words, more) in [
            ("2>0 AreYouCoordinator", "2 to 0: AreYouCoordinator", ""),
            ("0>2 Coordinator yes", "0 to 2: Coordinator yes", ""),
            ("0>127 Here 0:2 no", "0 to 127: Here no 0:2", ""),
            ("0>1 Ready 0:2 members 0,1", "0 to 1: Ready 0:2", ", members 0,1"),
            ("0>1 Work 0:2 1 1 62 7", "0 to 1: Work 0:2", ", job 0:1, queue 1, payload 62, priority 7"),
            ("2>1 Work 0:2 4 0 -", "2 to 1: Work 0:2", ", job 2:4, queue 0, payload -"),
            ("1>0 Done 3", "1 to 0: Done", ", job 0:3"),
        ] {
            let message = Message::of("", line).unwrap();
            assert_eq!((message.words().as_str(), message.all_words()), (words, format!("{words}{more}")));
        }
        assert_eq!((Message::of("", "malformed"), Message::of("", "rest 3")), (None, None));
    }
}
