//! The jobs of a run: which turns they come in, from the one that submitted a job to the one that its origin heard was done.

use super::lines::Told;
use super::message::{Job, Message};
use super::run::Turn;
use super::trace::Look;
use std::collections::HashMap;

/// The turns of a job.
#[derive(Debug, PartialEq, Eq)]
pub struct JobSpan {
    pub job: Job,
    /// The turn that submitted it.
    pub begin: usize,
    /// The turn in which its origin kept it no longer; none where it keeps it at the end.
    pub end: Option<usize>,
    /// The turns that it was submitted, brought, finished and done in.
    pub turns: Vec<usize>,
}

/// What a node had in hand when its disk failed: it counts where the disk is found to have kept it.
#[derive(Clone, Copy)]
enum Doubt {
    Submitted(usize),
    Done(Job, usize),
}

/// What is known of jobs so far. A node numbers the jobs that it keeps from 0.
struct Book<'a> {
    messages: &'a [Message],
    /// Of each node the number of its next job, and what is in doubt.
    next: Vec<u64>,
    doubts: Vec<Option<Doubt>>,
    spans: Vec<JobSpan>,
    places: HashMap<Job, usize>,
    /// The job of each turn.
    of_turns: Vec<Option<Job>>,
}

/// The jobs, and which each turn is about, if any.
pub fn jobs(nodes: usize, turns: &[Turn], told: &[Told], messages: &[Message]) -> (Vec<JobSpan>, Vec<Option<Job>>) {
    let (next, doubts, of_turns) = (vec![0; nodes], vec![None; nodes], vec![None; turns.len()]);
    let mut book = Book { messages, next, doubts, spans: Vec::new(), places: HashMap::new(), of_turns };
    for (at, (turn, told)) in turns.iter().zip(told).enumerate() {
        match turn.name.as_str() {
            "submit" if turn.look == Look::Fail => book.doubts[turn.node] = Some(Doubt::Submitted(at)),
            "submit" => book.begins(turn.node, at),
            "finish" | "deliver" => book.about(at, turn, told.2.is_some()),
            "recover" if turn.field("fault") != "mount" => book.recovers(turn),
            _ => {}
        }
    }
    (book.spans, book.of_turns)
}

impl Book<'_> {
    fn begins(&mut self, node: usize, turn: usize) {
        let job = (node, self.next[node]);
        self.next[node] += 1;
        self.places.insert(job, self.spans.len());
        self.spans.push(JobSpan { job, begin: turn, end: None, turns: vec![turn] });
        self.of_turns[turn] = Some(job);
    }

    fn touches(&mut self, job: Job, turn: usize, is_end: bool) {
        if let Some(place) = self.places.get(&job) {
            self.spans[*place].turns.push(turn);
            if is_end {
                self.spans[*place].end.get_or_insert(turn);
            }
        }
    }

    /// A finish, or a message that came: to a node that is down nothing comes of it.
    fn about(&mut self, at: usize, turn: &Turn, is_up: bool) {
        let is_end = match &turn.brought {
            Some((message, _)) => self.messages[*message].kind == "Done",
            None => turn.name == "finish",
        };
        let job = match &turn.brought {
            Some((message, _)) => self.messages[*message].job,
            None => finished(turn),
        };
        self.of_turns[at] = job;
        match job {
            Some(job) if turn.look == Look::Fail && is_end && job.0 == turn.node => self.doubts[turn.node] = Some(Doubt::Done(job, at)),
            Some(job) if is_up => self.touches(job, at, is_end && job.0 == turn.node),
            _ => {}
        }
    }

    /// What was in doubt counts where the disk kept it.
    fn recovers(&mut self, turn: &Turn) {
        match self.doubts[turn.node].take().filter(|_| turn.field("kept") == true) {
            Some(Doubt::Submitted(at)) => self.begins(turn.node, at),
            Some(Doubt::Done(job, at)) => self.touches(job, at, true),
            None => {}
        }
    }
}

/// The job that a finish names.
fn finished(turn: &Turn) -> Option<Job> {
    Some((usize::try_from(turn.field("origin").as_u64()?).ok()?, turn.field("id").as_u64()?))
}

#[cfg(test)]
mod tests {
    use super::super::run::Run;
    use super::super::trace::Trace;
    use super::super::lines::Lines;
    use super::*;

    /// The jobs of a trace of one node, whose turns come in the order of its entries.
    fn spans(entries: &str) -> Vec<JobSpan> {
        let trace = Trace::read(format!("{{\"histories\":[[{entries}]]}}").as_bytes()).unwrap();
        let stand = |entry: &super::super::trace::Entry| if entry.look == Look::Fail { "Down".to_string() } else { "Normal 0:1 0 0 0".to_string() };
        let lines: String = trace.histories[0].iter().enumerate().map(|(index, entry)| format!("turn 0 {index} {}\n", stand(entry))).collect();
        let lines = Lines::of(&format!("possible\n{lines}")).unwrap().unwrap();
        Run::put_together(&trace, Vec::new(), lines).unwrap().jobs
    }

    #[test]
    fn a_job_goes_from_its_submission_to_its_end() {
        let submit = r#"{"do":"submit","queue":0,"payload":"","sent":[]}"#;
        let failed = submit.replace("\"sent\"", "\"fault\":\"device\",\"sent\"");
        let finish = |id: u64| format!("{{\"do\":\"finish\",\"origin\":0,\"id\":{id},\"sent\":[]}}");
        let recover = |kept: bool| format!("{{\"do\":\"recover\",\"kept\":{kept},\"sent\":[]}}");
        let span = |id, begin, end, turns: &[usize]| JobSpan { job: (0, id), begin, end, turns: turns.to_vec() };
        assert_eq!(spans(&[submit, submit, &finish(1), &finish(1)].join(",")), [span(0, 0, None, &[0]), span(1, 1, Some(2), &[1, 2, 3])]);
        // one in doubt has its number where the disk kept it
        assert_eq!(spans(&[&failed, &recover(false), submit].join(",")), [span(0, 2, None, &[2])]);
        assert_eq!(spans(&[&failed, &recover(true), submit].join(",")), [span(0, 0, None, &[0]), span(1, 2, None, &[2])]);
        let failed_end = finish(0).replace("\"sent\"", "\"fault\":\"device\",\"sent\"");
        assert_eq!(spans(&[submit, &failed_end, &recover(true)].join(",")), [span(0, 0, Some(1), &[0, 1])]);
        assert_eq!(spans(&[submit, &failed_end, &recover(false)].join(",")), [span(0, 0, None, &[0])]);
    }
}
