//! Why entries of a trace are no run, in words: of an entry that can't be what its node says beside what it would have done, and of each that waits the entries
//! that it waits for in turn, to the one that they all wait for. It follows from the trace and from what `invite trace` says of what holds each up.

use serde_json::Value;
use std::collections::BTreeMap;
use std::fmt::Write;

/// What holds up the next entry of a node.
#[derive(Clone, Debug, PartialEq, Eq)]
enum Holdup {
    /// This message that nobody sent.
    Waits(String),
    /// Its node would have sent these.
    Sends(Vec<String>),
    /// Another reason for which it can't be, as the program says it.
    Cannot(String),
}

/// The next entry of a node that has entries left.
#[derive(Clone, Debug, PartialEq, Eq)]
struct Left {
    index: usize,
    holdup: Holdup,
}

/// `node NODE: entry INDEX waits for MESSAGE`, or `node NODE: entry INDEX (DO) can't be: WHY`.
fn left_of(line: &str) -> Option<(usize, Left)> {
    let (node, rest) = line.strip_prefix("node ")?.split_once(": entry ")?;
    let (index, rest) = rest.split_once(' ')?;
    let holdup = match (rest.strip_prefix("waits for "), rest.split_once(" can't be: ")) {
        (Some(message), _) => Holdup::Waits(message.to_string()),
        (None, Some((_, why))) => match why.strip_prefix("it would send ") {
            Some("nothing") => Holdup::Sends(Vec::new()),
            Some(messages) => Holdup::Sends(messages.split(' ').map(str::to_string).collect()),
            None => Holdup::Cannot(why.to_string()),
        },
        (None, None) => return None,
    };
    Some((node.parse().ok()?, Left { index: index.parse().ok()?, holdup }))
}

/// An entry of a history. Its messages are in hex digits.
struct Entry {
    name: String,
    brought: Option<String>,
    sent: Vec<String>,
    /// Its other fields, each behind its name.
    fields: Vec<String>,
}

fn list(value: &Value) -> &[Value] {
    value.as_array().map_or(&[], Vec::as_slice)
}

fn digits(value: &Value) -> Option<String> {
    value.as_str().map(str::to_ascii_lowercase)
}

/// The node that a message says it comes of.
fn sender_of(message: &str) -> usize {
    message.get(4..6).and_then(|digits| usize::from_str_radix(digits, 16).ok()).unwrap_or(usize::MAX)
}

impl Entry {
    fn of(value: &Value) -> Entry {
        let name = value["do"].as_str().unwrap_or_default().to_string();
        let is_other = |key: &str| !["do", "msg", "sent", "at", "told"].contains(&key);
        let members = value.as_object().into_iter().flatten().filter(|(key, _)| is_other(key));
        let fields = members.map(|(key, value)| format!("{key} {}", value.as_str().map_or_else(|| value.to_string(), str::to_string))).collect();
        let brought = if name == "deliver" { digits(&value["msg"]) } else { None };
        Entry { name, brought, sent: list(&value["sent"]).iter().filter_map(digits).collect(), fields }
    }
}

/// Where an entry that waits leads to.
#[derive(Clone, Debug, PartialEq, Eq, PartialOrd, Ord)]
enum Root {
    /// An entry that can't be: its node, and its index.
    Cannot(usize, usize),
    /// A message that an entry which can't be would have sent.
    Unsaid { message: String, node: usize, index: usize },
    /// A message that no entry of its sender sends, of which so many were taken, and so many are left.
    Missing { message: String, sender: usize, taken: usize, left: usize },
    /// Entries that wait for one another.
    Circle,
}

/// A message that an entry further on in its sender's history sends: that entry, and the one at which the sender stands.
#[derive(Clone, Debug, PartialEq, Eq)]
struct Link {
    message: String,
    sender: usize,
    index: usize,
    stands: usize,
}

/// Where the chains of some nodes end: at the next entry of the last one.
struct End {
    last: usize,
    root: Root,
    nodes: Vec<(usize, Vec<Link>)>,
}

/// What the entries of a trace that are left say of one another.
pub struct Why {
    histories: Vec<Vec<Entry>>,
    left: BTreeMap<usize, Left>,
    /// Of a node that waits for what is sent further on in its sender's history: the entry that sends it, and the one at which the sender stands.
    later: BTreeMap<usize, (usize, usize)>,
}

/// How many entries are told that stand before one that can't be.
const BEFORE: usize = 4;

impl Why {
    /// Of a trace, and of what `invite trace` says of it on standard error. None where it has no entry left.
    pub fn of(trace: &[u8], said: &str) -> serde_json::Result<Option<Why>> {
        let left: BTreeMap<usize, Left> = said.lines().filter_map(left_of).collect();
        if left.is_empty() {
            return Ok(None);
        }
        let whole: Value = serde_json::from_slice(trace)?;
        let histories = list(&whole["histories"]).iter().map(|history| list(history).iter().map(Entry::of).collect()).collect();
        let mut why = Why { histories, left, later: BTreeMap::new() };
        why.later = why.left.iter().filter_map(|(node, left)| Some((*node, why.sends_later(left)?))).collect();
        Ok(Some(why))
    }

    fn entry(&self, node: usize, index: usize) -> Option<&Entry> {
        self.histories.get(node)?.get(index)
    }

    fn cannot(&self) -> impl Iterator<Item = (usize, &Left)> {
        self.left.iter().filter(|(_, left)| !matches!(left.holdup, Holdup::Waits(_))).map(|(node, left)| (*node, left))
    }

    /// The digits of all messages that are told, once each.
    pub fn messages(&self) -> Vec<String> {
        let mut told = Vec::new();
        for (node, left) in &self.left {
            match &left.holdup {
                Holdup::Waits(message) => told.push(message.clone()),
                Holdup::Sends(messages) => told.extend(messages.iter().cloned()),
                Holdup::Cannot(_) => {}
            }
            let from = left.index.saturating_sub(BEFORE);
            for entry in (from..=left.index).filter_map(|index| self.entry(*node, index)) {
                told.extend(entry.sent.iter().chain(&entry.brought).cloned());
            }
        }
        told.sort_unstable();
        told.dedup();
        told
    }

    /// What the next entry of a node waits for in turn.
    fn chain(&self, first: usize) -> (Vec<Link>, usize, Root) {
        let (mut chain, mut passed, mut node) = (Vec::new(), Vec::new(), first);
        loop {
            let left = &self.left[&node];
            let message = match &left.holdup {
                _ if passed.contains(&node) => return (chain, node, Root::Circle),
                Holdup::Waits(message) => message,
                _ => return (chain, node, Root::Cannot(node, left.index)),
            };
            passed.push(node);
            let sender = sender_of(message);
            match self.later.get(&node) {
                Some((index, stands)) => {
                    chain.push(Link { message: message.clone(), sender, index: *index, stands: *stands });
                    node = sender;
                }
                None => return (chain, node, self.unsent(node, sender, message)),
            }
        }
    }

    /// The entry that sends what this one waits for, of those that are left of its sender, and the one at which the sender stands.
    fn sends_later(&self, left: &Left) -> Option<(usize, usize)> {
        let message = match &left.holdup {
            Holdup::Waits(message) => message,
            _ => return None,
        };
        let sender = sender_of(message);
        let stands = self.left.get(&sender)?.index;
        let entries = self.histories.get(sender)?.iter().enumerate().skip(stands);
        entries.filter(|(_, entry)| entry.sent.contains(message)).map(|(index, _)| (index, stands)).next()
    }

    /// A message that no entry sends which is left of its sender.
    fn unsent(&self, node: usize, sender: usize, message: &str) -> Root {
        let would = |left: &Left| matches!(&left.holdup, Holdup::Sends(messages) if messages.iter().any(|would| would == message));
        let message = message.to_string();
        if let Some((node, left)) = self.cannot().find(|(other, left)| *other != node && would(left)) {
            return Root::Unsaid { message, node, index: left.index };
        }
        let whole = self.histories.get(sender).map_or(0, Vec::len);
        let taken = self.left.get(&sender).map_or(whole, |left| left.index);
        Root::Missing { message, sender, taken, left: whole - taken.min(whole) }
    }

    /// All that is said, where each message is told by these words, and each entry by where it stands.
    pub fn text(&self, words: impl Fn(&str) -> String, place: impl Fn(usize, usize) -> String) -> String {
        let telling = Telling { why: self, words: &words, place: &place };
        let mut text = String::new();
        let many = |count: usize, one: &str, more: &str| if count == 1 { format!("1 {one}") } else { format!("{count} {more}") };
        let nodes = many(self.left.len(), "node has entries left", "nodes have entries left");
        let _ = match self.cannot().count() {
            0 => writeln!(text, "{nodes}; each next one waits"),
            count => writeln!(text, "{nodes}; {}, whatever others send", many(count, "next one can't be", "next ones can't be")),
        };
        for (node, left) in self.cannot() {
            telling.cannot(&mut text, node, left);
        }
        telling.chains(&mut text);
        text
    }
}

/// The words in which it is said.
struct Telling<'a> {
    why: &'a Why,
    words: &'a dyn Fn(&str) -> String,
    place: &'a dyn Fn(usize, usize) -> String,
}

impl Telling<'_> {
    fn listed<'a>(&self, messages: impl IntoIterator<Item = &'a String>) -> String {
        let words: Vec<String> = messages.into_iter().map(|message| (self.words)(message)).collect();
        if words.is_empty() {
            "nothing".to_string()
        } else {
            words.join("; ")
        }
    }

    /// An entry, what was done, and where it stands.
    fn entry(&self, node: usize, index: usize) -> String {
        let mut text = format!("node {node}, entry {index}{}: ", (self.place)(node, index));
        if let Some(entry) = self.why.entry(node, index) {
            text.push_str(&entry.name);
            let _ = entry.brought.iter().try_for_each(|message| write!(text, " [{}]", (self.words)(message)));
            let _ = if entry.fields.is_empty() { Ok(()) } else { write!(text, " ({})", entry.fields.join(", ")) };
        }
        text
    }

    /// An entry that can't be, and those before it since its node came back last.
    fn cannot(&self, text: &mut String, node: usize, left: &Left) {
        let _ = writeln!(text, "{}", self.entry(node, left.index));
        let said = self.why.entry(node, left.index).map_or(&[][..], |entry| &entry.sent);
        let _ = match &left.holdup {
            Holdup::Sends(would) => {
                let _ = writeln!(text, "    its node would send: {}", self.listed(would));
                let _ = writeln!(text, "    it says:             {}", self.listed(said));
                self.compared(text, would, said)
            }
            Holdup::Cannot(why) => writeln!(text, "    {why}"),
            Holdup::Waits(_) => Ok(()),
        };
        let comes_back = |index: &usize| self.why.entry(node, *index).map_or(false, |entry| ["crash", "recover"].contains(&entry.name.as_str()));
        let since = (0..left.index).rev().take(BEFORE).find(comes_back).unwrap_or(0).max(left.index.saturating_sub(BEFORE));
        for index in since..left.index {
            let sent = self.why.entry(node, index).map_or(&[][..], |entry| &entry.sent);
            let _ = writeln!(text, "    before it, {}; it sends {}", self.entry(node, index), self.listed(sent));
        }
    }

    /// What an entry lacks, and what it has too much.
    fn compared(&self, text: &mut String, would: &[String], said: &[String]) -> std::fmt::Result {
        let missing: Vec<&String> = would.iter().filter(|message| !said.contains(message)).collect();
        let more: Vec<&String> = said.iter().filter(|message| !would.contains(message)).collect();
        if missing.is_empty() && more.is_empty() {
            return writeln!(text, "    the same, in another order or number");
        }
        if !missing.is_empty() {
            writeln!(text, "    missing:             {}", self.listed(missing))?;
        }
        if !more.is_empty() {
            writeln!(text, "    too much:            {}", self.listed(more))?;
        }
        Ok(())
    }

    /// What entries wait for, those with one root in one line.
    fn chains(&self, text: &mut String) {
        let mut ends: Vec<End> = Vec::new();
        for node in self.why.left.keys().filter(|node| matches!(self.why.left[node].holdup, Holdup::Waits(_))) {
            let (chain, last, root) = self.why.chain(*node);
            match ends.iter_mut().find(|end| (end.last, &end.root) == (last, &root)) {
                Some(end) => end.nodes.push((*node, chain)),
                None => ends.push(End { last, root, nodes: vec![(*node, chain)] }),
            }
        }
        for end in &ends {
            if let Some((node, chain)) = end.nodes.iter().min_by_key(|(_, chain)| chain.len()) {
                self.waits(text, *node, chain, &end.root, end.nodes.len() - 1);
            }
        }
    }

    /// What an entry waits for, and how many more do so in the end.
    fn waits(&self, text: &mut String, node: usize, chain: &[Link], root: &Root, more: usize) {
        let index = self.why.left[&node].index;
        let link = |link: &Link| {
            format!("[{}], which entry {} of node {} sends, and that stands at {}", (self.words)(&link.message), link.index, link.sender, link.stands)
        };
        let mut parts: Vec<String> = chain.iter().map(link).collect();
        let end = match root {
            Root::Cannot(_, _) => None,
            Root::Circle => Some("one another: none of these can be the first".to_string()),
            Root::Unsaid { message, node, index } => {
                Some(format!("[{}], which node {node} would have sent at entry {index}, but it doesn't say so", (self.words)(message)))
            }
            Root::Missing { message, sender, taken, left: 0 } => {
                Some(format!("[{}], which no entry of node {sender} sends: its history was taken to its end ({taken} entries)", (self.words)(message)))
            }
            Root::Missing { message, sender, left, .. } => {
                Some(format!("[{}], which no entry of node {sender} sends, of the {left} that are left there neither", (self.words)(message)))
            }
        };
        match root {
            Root::Cannot(_, _) => {
                let _ = parts.last_mut().map(|last| last.push_str(", which can't be (above)"));
            }
            _ => parts.extend(end),
        }
        let also = if more == 0 { String::new() } else { format!(" (so do {more} more)") };
        let _ = writeln!(text, "node {node}, entry {index}{} waits for {}{also}", (self.place)(node, index), parts.join(", for "));
    }
}

#[cfg(test)]
mod tests {
    use super::*;

    /// Messages as `invite show` tells them, but for the digits of the group.
    fn words(digits: &str) -> String {
        let kind = match &digits[2..4] {
            "01" => "AreYouCoordinator",
            "02" => "Coordinator",
            "08" => "ReadyAck",
            _ => "other",
        };
        format!("{}>{} {kind}", &digits[5..6], &digits[7..8])
    }

    fn told(histories: &[&str], said: &str) -> String {
        let trace = format!("{{\"nodes\":{},\"histories\":[[{}]]}}", histories.len(), histories.join("],["));
        let why = Why::of(trace.as_bytes(), said).unwrap().unwrap();
        assert!(why.messages().iter().all(|digits| digits.chars().all(|digit| digit.is_ascii_hexdigit())));
        why.text(words, |node, entry| if node == 2 { format!(" (record, line {})", entry + 7) } else { String::new() })
    }

    #[test]
    fn one_that_does_not_say_what_it_sent_holds_up_the_others() {
        // node 2 answers node 0's question, and says nothing of it; node 0 asks node 1 next, and node 3 waits for what node 1 sends then
        let histories = [
            r#"{"do":"check","sent":["010100020000"]},{"do":"deliver","msg":"01020200000101","sent":["010100010000"]}"#,
            r#"{"do":"deliver","msg":"010100010000","sent":["010101030000"]}"#,
            r#"{"do":"recover","kept":false,"sent":[]},{"do":"submit","queue":3,"payload":"6869","sent":[]},{"do":"deliver","msg":"010100020000","sent":["01020201000101"]}"#,
            r#"{"do":"deliver","msg":"010101030000","sent":[]}"#,
        ];
        let said = "invite: no order takes all entries: look first at node 2, entry 2\nnode 0: entry 1 waits for 01020200000101\nnode 1: entry 0 waits for 010100010000\nnode 2: entry 2 (deliver) can't be: it would send 01020200000101\nnode 3: entry 0 waits for 010101030000\n";
        assert_eq!(
            told(&histories, said),
            "4 nodes have entries left; 1 next one can't be, whatever others send
node 2, entry 2 (record, line 9): deliver [0>2 AreYouCoordinator]
    its node would send: 2>0 Coordinator
    it says:             2>1 Coordinator
    missing:             2>0 Coordinator
    too much:            2>1 Coordinator
    before it, node 2, entry 0 (record, line 7): recover (kept false); it sends nothing
    before it, node 2, entry 1 (record, line 8): submit (payload 6869, queue 3); it sends nothing
node 0, entry 1 waits for [2>0 Coordinator], which node 2 would have sent at entry 2, but it doesn't say so (so do 2 more)
"
        );
    }

    #[test]
    fn what_waits_for_an_entry_that_can_not_be() {
        let histories = [
            r#"{"do":"deliver","msg":"01020100000101","sent":[]}"#,
            r#"{"do":"crash","sent":[]},{"do":"check","sent":[]},{"do":"deliver","msg":"010100010000","sent":["01020100000101"]}"#,
        ];
        let said = "node 0: entry 0 waits for 01020100000101\nnode 1: entry 1 (check) can't be: its node refuses it, being Down\n";
        assert_eq!(
            told(&histories, said),
            "2 nodes have entries left; 1 next one can't be, whatever others send
node 1, entry 1: check
    its node refuses it, being Down
    before it, node 1, entry 0: crash; it sends nothing
node 0, entry 0 waits for [1>0 Coordinator], which entry 2 of node 1 sends, and that stands at 1, which can't be (above)
"
        );
    }

    #[test]
    fn entries_that_all_wait() {
        // node 1's history lost its end; nodes 2 and 0 wait for one another
        let lost = [r#"{"do":"deliver","msg":"01020100000101","sent":[]}"#, r#"{"do":"check","sent":[]}"#];
        assert_eq!(
            told(&lost, "node 0: entry 0 waits for 01020100000101\n"),
            "1 node has entries left; each next one waits
node 0, entry 0 waits for [1>0 Coordinator], which no entry of node 1 sends: its history was taken to its end (1 entries)
"
        );
        let circle =
            [r#"{"do":"deliver","msg":"01020100000101","sent":["01020001000101"]}"#, r#"{"do":"deliver","msg":"01020001000101","sent":["01020100000101"]}"#];
        let said = "node 0: entry 0 waits for 01020100000101\nnode 1: entry 0 waits for 01020001000101\n";
        assert!(told(&circle, said).contains("waits for [1>0 Coordinator], which entry 0 of node 1 sends, and that stands at 0, for [0>1 Coordinator], "));
        assert!(told(&circle, said).contains("for one another: none of these can be the first"));
        let nowhere = [r#"{"do":"deliver","msg":"01020900000101","sent":[]}"#];
        assert!(told(&nowhere, "node 0: entry 0 waits for 01020900000101\n")
            .contains("which no entry of node 9 sends: its history was taken to its end (0 entries)"));
        let neither = [r#"{"do":"deliver","msg":"01020100000101","sent":[]}"#, r#"{"do":"deliver","msg":"01020901000101","sent":[]}"#];
        let said = "node 0: entry 0 waits for 01020100000101\nnode 1: entry 0 waits for 01020901000101\n";
        assert!(told(&neither, said).contains("which no entry of node 1 sends, of the 1 that are left there neither"));
    }

    #[test]
    fn what_is_no_line_of_an_entry_says_nothing() {
        assert_eq!(left_of("invite: no order takes all entries: look first at node 1, entry 0"), None);
        assert_eq!(left_of("node 1: entry x waits for 01"), None);
        assert_eq!(left_of("node 7: entry 3 (check) can't be: it would send nothing"), Some((7, Left { index: 3, holdup: Holdup::Sends(vec![]) })));
        assert!(Why::of(b"{}", "").unwrap().is_none());
        assert!(Why::of(b"", "node 0: entry 0 waits for 01").is_err());
    }
}
