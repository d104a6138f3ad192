//! Names of users and groups, as /etc/passwd and /etc/group have them, and a number where they don't: messages name who may do something.

use std::fs;

pub fn user(id: u32) -> String {
    name_in(&fs::read_to_string("/etc/passwd").unwrap_or_default(), id)
}

pub fn group(id: u32) -> String {
    name_in(&fs::read_to_string("/etc/group").unwrap_or_default(), id)
}

/// The number of a group of this name, or the number itself.
pub fn group_number(group: &str) -> Option<u32> {
    group.parse().ok().or_else(|| number_in(&fs::read_to_string("/etc/group").ok()?, group))
}

fn number_in(text: &str, name: &str) -> Option<u32> {
    let found = text.lines().find_map(|line| line.strip_prefix(name)?.strip_prefix(':'))?;
    found.split(':').nth(1)?.parse().ok()
}

/// In both files a line is `NAME:x:ID:..`.
fn name_in(text: &str, id: u32) -> String {
    let words = text.lines().map(|line| line.split(':').collect::<Vec<_>>());
    let mut names = words.filter(|words| words.get(2).map_or(false, |word| word.parse() == Ok(id)));
    names.next().map_or_else(|| id.to_string(), |words| words[0].to_string())
}

#[cfg(test)]
mod tests {
    use super::*;

    #[test]
    fn a_name_is_found_by_its_number() {
        let text = "root:x:0:0:root:/root:/bin/sh\nbroken\n\ndumgerok:x:996:\n";
        assert_eq!([0, 996, 7].map(|id| name_in(text, id)), ["root", "dumgerok", "7"]);
        assert_eq!(["dumgerok", "root", "roo", "oot", "broken", "x"].map(|name| number_in(text, name)), [Some(996), Some(0), None, None, None, None]);
        assert_eq!((group_number("root"), group_number("996"), group_number("no such group")), (Some(0), Some(996), None));
        assert_eq!((user(0), group(0)), ("root".to_string(), "root".to_string()));
    }
}
