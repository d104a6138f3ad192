//! The run as a log for ShiViz: of each turn a line that says what was done, and one with its node and a vector clock.

use super::run::{Run, Turn};
use std::fmt::Write;

pub fn text(run: &Run) -> String {
    let mut clocks: Vec<Vec<u32>> = Vec::new();
    let mut now = vec![vec![0; run.nodes]; run.nodes];
    let mut text = String::new();
    for turn in &run.turns {
        let clock = &mut now[turn.node];
        if let Some((_, source)) = &turn.brought {
            clock.iter_mut().zip(&clocks[source.turn]).for_each(|(own, sent)| *own = (*own).max(*sent));
        }
        clock[turn.node] += 1;
        line(&mut text, run, turn, clock).unwrap_or_default(); // writing to a string never fails
        clocks.push(clock.clone());
    }
    text
}

/// What ShiViz reads by its own pattern: an event, and on the next line the host and the clock, in which what is 0 is left out.
fn line(text: &mut String, run: &Run, turn: &Turn, clock: &[u32]) -> std::fmt::Result {
    write!(text, "entry {}: {}", turn.index, turn.name)?;
    if let Some((message, _)) = &turn.brought {
        write!(text, " {}", run.messages[*message].all_words())?;
    }
    if let (None, Some((origin, id))) = (&turn.brought, turn.job) {
        write!(text, " job {origin}:{id}")?;
    }
    let parts: Vec<String> = clock.iter().enumerate().filter(|(_, count)| **count > 0).map(|(node, count)| format!("\"node{node}\":{count}")).collect();
    writeln!(text, "\nnode{} {{{}}}", turn.node, parts.join(","))
}
