//! Jobs that a node's file is to begin with: lines `job ID QUEUE HEX [P]`, as `export` prints them. The program refuses what is wrong with one thing to say
//! for all; here it is said which line, and why.

use crate::node::Payload;
use crate::protocol::LAST_QUEUE;

/// Two slots are left free, so that the end of a job always fits.
const SPARE: u32 = 2;

/// What is wrong with the first line that isn't right.
pub fn check(text: &str, first: u64, slots: u32) -> Result<(), String> {
    let most = slots.saturating_sub(SPARE) as usize;
    let mut last = None;
    for (at, line) in text.lines().enumerate() {
        let wrong = |why: String| Err(format!("line {}: {why}", at + 1));
        let id = match id_of(line) {
            Ok(id) => id,
            Err(why) => return wrong(why),
        };
        if at >= most {
            return wrong(format!("{most} jobs fit into {slots} slots, and this is one more: give more --slots"));
        }
        if id >= first {
            return wrong(format!("id {id} isn't below {first}, where the file's numbers begin (--first)"));
        }
        if let Some(last) = last.filter(|last| *last >= id) {
            return wrong(format!("id {id} isn't above {last}, that of the line before it"));
        }
        last = Some(id);
    }
    Ok(())
}

/// The id of a line that is one.
fn id_of(line: &str) -> Result<u64, String> {
    let words: Vec<&str> = line.split(' ').collect();
    let (id, queue, digits, priority) = match words[..] {
        ["job", id, queue, digits] => (id, queue, digits, "1"),
        ["job", id, queue, digits, priority] => (id, queue, digits, priority),
        _ => return Err("it isn't `job ID QUEUE HEX [PRIORITY]`".to_string()),
    };
    let is_up_to = |word: &str, most: u64| word.parse().map_or(false, |number: u64| number <= most);
    if !is_up_to(queue, LAST_QUEUE.into()) {
        return Err(format!("{queue:?} is no queue, 0 to {LAST_QUEUE}"));
    }
    if !is_up_to(priority, 255) {
        return Err(format!("{priority:?} is no priority, 0 to 255"));
    }
    if digits != "-" {
        Payload::of_hex(digits).map_err(|why| why.to_string())?;
    }
    id.parse().map_err(|_| format!("{id:?} is no id"))
}

#[cfg(test)]
mod tests {
    use super::*;

    #[test]
    fn the_first_wrong_line_is_told() {
        let (long, many) = (format!("job 1 0 {}", "00".repeat(401)), "job 1 0 -\njob 2 0 -\njob 3 0 -\n");
        for (text, said) in [
            ("", None),
            ("job 7 3 6869 255\njob 8 0 -\n", None),
            ("job 7 3 6869\njobs 1\n", Some("line 2: it isn't `job ID QUEUE HEX [PRIORITY]`")),
            ("job 7 3\n", Some("line 1: it isn't `job ID QUEUE HEX [PRIORITY]`")),
            ("job x 3 -\n", Some("line 1: \"x\" is no id")),
            ("job 7 16 -\n", Some("line 1: \"16\" is no queue, 0 to 15")),
            ("job 7 3 - 256\n", Some("line 1: \"256\" is no priority, 0 to 255")),
            ("job 7 3 abc\n", Some("line 1: hex digits come in twos, and these are 3")),
            (&*long, Some("line 1: a payload has at most 400 bytes, and this one has 401")),
            ("job 9 3 -\n", Some("line 1: id 9 isn't below 9, where the file's numbers begin (--first)")),
            ("job 7 3 -\njob 7 3 -\n", Some("line 2: id 7 isn't above 7, that of the line before it")),
            (many, Some("line 3: 2 jobs fit into 4 slots, and this is one more: give more --slots")),
        ] {
            assert_eq!(check(text, 9, 4).err().as_deref(), said, "{text}");
        }
    }
}
