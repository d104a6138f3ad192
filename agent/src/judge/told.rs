//! What a node told its agent beside its messages, as the entries of a trace say it: its group, the jobs that came into its hand and left it, the ends of its own jobs,
//! their ids, and what its file keeps. The proved program compares it. Here stands what no entry can say: numbers of requests, and what was told where there is none.

use super::doubt::{plain, Words};
use super::message::Begin;
use std::borrow::Cow;
use std::collections::BTreeMap;
use std::sync::Arc;

/// What an entry says of it, by the keys of `told`.
pub type Texts = BTreeMap<&'static str, String>;

pub struct Told {
    own: u8,
    begins: Arc<[Begin]>,
    /// So many requests of this process were closed.
    closed: u64,
    /// How its group stands, as it said last.
    group: String,
    /// What was told where no entry stands: the next one says it.
    due: Texts,
    /// The own jobs that the trace has in hand from a recovery on, before all others: their words, and whether the node said by now that it took them.
    early: BTreeMap<u64, (Words, bool)>,
}

impl Told {
    pub fn new(own: u8, begins: Arc<[Begin]>) -> Told {
        Told { own, begins, closed: 0, group: "Down".to_string(), due: Texts::new(), early: BTreeMap::new() }
    }

    /// A process ended: the next one numbers its requests from 1, and has nothing in hand.
    pub fn ended(&mut self) {
        *self = Told::new(self.own, Arc::clone(&self.begins));
    }

    /// The line that closes an answer has the number of its request.
    pub fn closes(&mut self, line: &str) -> Result<(), String> {
        self.closed += 1;
        let number = line.split(' ').nth(1).and_then(|word| word.parse().ok());
        if number == Some(self.closed) {
            return Ok(());
        }
        Err(format!("{line:?} closes the answer to request {} of its process", self.closed))
    }

    /// The trace has the job of a submission in hand before the node says so.
    pub fn takes_early(&mut self, id: u64, request: &str) {
        self.early.insert(id, (plain(request.trim_start_matches("submit ")), false));
    }

    /// The first job that the trace has in hand, and the node not yet.
    fn untaken(&self) -> Option<u64> {
        self.early.iter().find(|(_, (_, is_taken))| !is_taken).map(|(id, _)| *id)
    }

    /// Whether its node has in hand what the trace has.
    pub fn is_hand_known(&self) -> bool {
        self.untaken().is_none()
    }

    /// What the lines of an event say, with the numbers of the trace; nothing for each of these keys of which no line says anything.
    pub fn says(&mut self, event: &str, lines: &[&str], keys: &[&'static str]) -> Result<Texts, String> {
        let mut texts = std::mem::take(&mut self.due);
        keys.iter().for_each(|key| add(&mut texts, key, ""));
        let (mut groups, mut dropped) = (Vec::new(), Vec::new());
        for line in lines {
            match line.split_once(' ') {
                Some(("group", group)) => groups.push(self.group_of(group)),
                Some(("take", job)) if !self.took_early(job) => add(&mut texts, "took", &self.job_of(job)),
                Some(("drop", job)) => dropped.push(Cow::from(job)),
                Some(("gone", id)) => add(&mut texts, "gone", &format!("{};", lowered(id, self.begin_of(&self.own.to_string()).id))),
                Some(("keeps", numbers)) => add(&mut texts, "kept", &self.numbers_of(numbers)),
                _ => {}
            }
        }
        if self.enters(groups.last()) {
            self.drops_early(&mut dropped);
        }
        dropped.iter().for_each(|job| add(&mut texts, "dropped", &self.job_of(job)));
        if !groups.is_empty() || texts.contains_key("group") {
            texts.insert("group", if groups.is_empty() { self.group.clone() } else { groups.join(";") });
        }
        match self.untaken().filter(|_| event == "dispatch" && self.group.starts_with("Normal")) {
            Some(id) => Err(format!("no take of job {id}, which its file keeps")),
            None => Ok(texts),
        }
    }

    /// No entry stands where this was told. What its file keeps changes until the next.
    pub fn owes(&mut self, mut texts: Texts) {
        texts.remove("kept");
        self.due = texts;
    }

    /// Whether it is in a group of another number than before.
    fn enters(&mut self, group: Option<&String>) -> bool {
        let number = |group: &str| group.split(' ').nth(2).map(str::to_string);
        let before = number(&self.group);
        group.into_iter().for_each(|group| self.group.clone_from(group));
        number(&self.group) != before
    }

    /// Whether this is a job that the trace has in hand already, and was said to be taken for the first time.
    fn took_early(&mut self, job: &str) -> bool {
        let (id, work) = job.strip_prefix(&format!("{} ", self.own)).and_then(|job| job.split_once(' ')).unwrap_or_default();
        let early = id.parse().ok().and_then(|id: u64| self.early.get_mut(&id));
        early.map_or(false, |(words, is_taken)| *words == plain(work) && !std::mem::replace(is_taken, true))
    }

    /// All leave the hand: those that the trace has there from the beginning come first, also where the node didn't take them yet.
    fn drops_early(&mut self, dropped: &mut Vec<Cow<'_, str>>) {
        let early: Vec<_> = std::mem::take(&mut self.early).into_iter().map(|(id, (_, is_taken))| (format!("{} {id}", self.own), is_taken)).collect();
        dropped.extend(early.iter().filter(|(_, is_taken)| !is_taken).map(|(job, _)| Cow::from(job.clone())));
        dropped.sort_by_key(|job| early.iter().position(|(one, _)| *one == **job).unwrap_or(early.len()));
    }

    /// The words of a group, with its number as the trace has it.
    fn group_of(&self, group: &str) -> String {
        let words: Vec<&str> = group.split(' ').collect();
        match words.get(2).and_then(|number| number.split_once(':')) {
            Some((creator, count)) => format!("{} {creator}:{} {}", words[..2].join(" "), lowered(count, self.begin_of(creator).count), words[3..].join(" ")),
            None => group.to_string(),
        }
    }

    /// The words of a job, or its name alone: they begin with who keeps it, and its id there.
    fn job_of(&self, job: &str) -> String {
        match job.splitn(3, ' ').collect::<Vec<_>>().as_slice() {
            [origin, id] => format!("{origin} {};", lowered(id, self.begin_of(origin).id)),
            [origin, id, work] => format!("{origin} {} {work};", lowered(id, self.begin_of(origin).id)),
            _ => format!("{job};"),
        }
    }

    /// What its file keeps: the count, the next id and the number of jobs.
    fn numbers_of(&self, numbers: &str) -> String {
        let begin = self.begin_of(&self.own.to_string());
        match numbers.split(' ').collect::<Vec<_>>().as_slice() {
            [count, next, pending] => format!("{} {} {pending}", lowered(count, begin.count), lowered(next, begin.id)),
            _ => numbers.to_string(),
        }
    }

    fn begin_of(&self, node: &str) -> Begin {
        node.parse().ok().and_then(|node: usize| self.begins.get(node)).copied().unwrap_or_default()
    }
}

fn add(texts: &mut Texts, key: &'static str, text: &str) {
    texts.entry(key).or_default().push_str(text);
}

/// A number of the record, as the trace has it; a word that is none stays as it is.
fn lowered(number: &str, begin: u64) -> String {
    number.parse().map_or_else(|_| number.to_string(), |number: u64| number.wrapping_sub(begin).to_string())
}

#[cfg(test)]
mod tests {
    use super::*;
    use serde_json::{json, Value};

    fn new() -> Told {
        Told::new(0, Arc::new([Begin { count: 100, id: 5 }, Begin { count: 10, id: 3 }]))
    }

    fn said(told: &mut Told, event: &str, lines: &str, keys: &[&'static str]) -> Value {
        told.says(event, &lines.lines().collect::<Vec<_>>(), keys).map_or_else(Value::from, |texts| json!(texts))
    }

    #[test]
    fn lines_are_told_with_the_numbers_of_the_trace() {
        for (lines, keys, texts) in [
            ("group Normal 1 1:12 0,1\ndrop 1 7\ndrop 0 6", &["group", "dropped"][..], json!({"group": "Normal 1 1:2 0,1", "dropped": "1 4;0 1;"})),
            ("group Down", &[], json!({"group": "Down"})),
            ("take 0 6 3 - 9\ntake 1 7 0 6869", &["took"], json!({"took": "0 1 3 - 9;1 4 0 6869;"})),
            ("gone 6\ngone 5", &[], json!({"gone": "1;0;"})),
            ("keeps 102 6 1", &["group"], json!({"group": "Down", "kept": "2 1 1"})),
            ("send 1 00\nnext 9", &["took", "id"], json!({"took": "", "id": ""})),
            ("fired check\nsend 1 00", &[], json!({})),
            // what no node says is told as it is said
            ("group Normal 0 0:101 0\ngroup Normal 0 0:102 0", &[], json!({"group": "Normal 0 0:1 0;Normal 0 0:2 0"})),
            ("take 0\ntake x y z\ndrop 1\ndrop 7 7\ngone -\nkeeps 1", &[], json!({"took": "0;x y z;", "dropped": "1;7 7;", "gone": "-;", "kept": "1"})),
            ("gone 4", &[], json!({"gone": "18446744073709551615;"})),
        ] {
            assert_eq!(said(&mut new(), "check", lines, keys), texts, "{lines}");
        }
    }

    #[test]
    fn a_group_is_told_as_it_was_said_last() {
        let mut told = new();
        let texts = told.says("recover", &["group Normal 0 0:101 0", "keeps 101 5 0"], &["dropped"]).unwrap();
        told.owes(texts);
        let group = "Normal 0 0:1 0";
        assert_eq!(said(&mut told, "check", "", &[]), json!({"group": group, "dropped": ""}), "where no entry stood the next says it");
        assert_eq!(said(&mut told, "check", "", &[]), json!({}));
        assert_eq!(said(&mut told, "coord", "", &["group"]), json!({"group": group}));
        told.ended();
        assert_eq!(said(&mut told, "coord", "", &["group"]), json!({"group": "Down"}));
    }

    /// At work alone, with jobs 5 and 6 that the trace has in hand from the recovery on, and job 4, which it hasn't.
    fn behind_doubts() -> Told {
        let mut told = new();
        said(&mut told, "recover", "group Normal 0 0:102 0", &[]);
        told.takes_early(5, "submit 3 6869");
        told.takes_early(6, "submit 4 -");
        told
    }

    const ALL_TAKEN: &str = "take 0 7 1 - 9\ntake 0 5 3 6869\ntake 0 6 4 -";

    #[test]
    fn jobs_that_the_trace_has_in_hand_already_are_taken_once() {
        let mut told = behind_doubts();
        assert!(!told.is_hand_known());
        assert_eq!(said(&mut told, "dispatch", ALL_TAKEN, &["took"]), json!({"took": "0 2 1 - 9;"}));
        assert!(told.is_hand_known());
        assert_eq!(said(&mut told, "dispatch", "take 0 5 3 6869", &["took"]), json!({"took": "0 0 3 6869;"}), "taken twice");
        for (lines, id) in [("take 0 5 3 6869", 6), ("take 0 6 4 -", 5), ("take 0 5 3 6868\ntake 0 6 4 -", 5), ("take 1 5 3 6869\ntake 0 6 4 -", 5), ("", 5)] {
            assert_eq!(said(&mut behind_doubts(), "dispatch", lines, &["took"]), json!(format!("no take of job {id}, which its file keeps")), "{lines}");
        }
        assert_eq!(said(&mut behind_doubts(), "check", "", &[]), json!({}), "it takes them once it dispatches");
    }

    #[test]
    fn jobs_that_the_trace_has_in_hand_already_leave_it_with_the_group() {
        let (group, all) = ("group Election 0 0:103 -\n", json!({"group": "Election 0 0:3 -", "dropped": "0 0;0 1;"}));
        let mut told = behind_doubts();
        assert_eq!(said(&mut told, "merge", group, &["group", "dropped"]), all);
        assert!(told.is_hand_known());
        // the trace has them in hand before the one that the node took first
        let mut told = behind_doubts();
        said(&mut told, "dispatch", ALL_TAKEN, &[]);
        let dropped = |jobs: [u8; 3]| group.to_string() + &jobs.map(|id| format!("drop 0 {id}\n")).concat();
        assert_eq!(said(&mut told, "merge", &dropped([7, 5, 6]), &[])["dropped"], "0 0;0 1;0 2;");
        // one that was finished stays away
        let mut told = behind_doubts();
        said(&mut told, "dispatch", ALL_TAKEN, &[]);
        assert_eq!(said(&mut told, "merge", &format!("{group}drop 0 7\ndrop 0 6"), &[])["dropped"], "0 1;0 2;");
        assert_eq!(said(&mut told, "merge", "group Election 0 0:104 -\ndrop 0 7\ndrop 0 6", &[])["dropped"], "0 2;0 1;");
    }

    #[test]
    fn each_answer_is_closed_under_the_next_number() {
        let mut told = new();
        assert!(told.closes("ok 1").is_ok() && told.closes("refused 2 Full").is_ok() && told.closes("ok 4").is_err());
        told.ended();
        assert!(told.closes("ok 1 id 5").is_ok() && told.closes("ok").is_err());
    }
}
