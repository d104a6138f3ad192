//! The colours of groups: two that some nodes are in at the same turn never have the same.

use super::stays::Stay;
use std::collections::HashMap;

/// So many colours there are that are told apart without a pattern; with the patterns on them there are six times as many.
pub const PLAIN: usize = 24;

/// Gives each group the colour that no group has had for the longest time, from its first turn to its last.
pub fn colour(stays: &mut [Stay]) {
    let mut spans: HashMap<&str, (usize, usize)> = HashMap::new();
    for stay in stays.iter() {
        let span = spans.entry(&stay.stand.group).or_insert((stay.since, stay.until));
        *span = (span.0.min(stay.since), span.1.max(stay.until));
    }
    let mut groups: Vec<(usize, (u64, u64), usize, String)> =
        spans.into_iter().map(|(group, (since, until))| (since, numbers(group), until, group.to_string())).collect();
    groups.sort();
    let mut ends = [0; PLAIN].to_vec();
    let mut colours = HashMap::new();
    for (since, _, until, group) in groups {
        let longest = (0..ends.len()).min_by_key(|colour| ends[*colour]).filter(|colour| ends[*colour] <= since);
        let colour = longest.unwrap_or(ends.len());
        ends.resize(ends.len().max(colour + 1), 0);
        ends[colour] = until;
        colours.insert(group, colour);
    }
    for stay in stays {
        stay.colour = colours.get(&stay.stand.group).copied().unwrap_or_default();
    }
}

/// The numbers of a group, `CREATOR:COUNT`.
fn numbers(group: &str) -> (u64, u64) {
    let (creator, count) = group.split_once(':').unwrap_or_default();
    let number = |word: &str| word.parse().unwrap_or_default();
    (number(creator), number(count))
}

#[cfg(test)]
mod tests {
    use super::super::stays::Stand;
    use super::*;

    fn stay(group: usize, since: usize, until: usize) -> Stay {
        let stand = Stand { phase: "Normal".to_string(), group: format!("0:{group}"), coordinator: 0, members: "-".to_string() };
        Stay { node: 0, since, until, stand, colour: 0 }
    }

    #[test]
    fn groups_at_one_turn_differ_and_a_colour_comes_again_as_late_as_may_be() {
        // at each turn there are as many groups as are plain and one more, and each ends when it has been there for so long
        let count = PLAIN + 1;
        let mut stays: Vec<Stay> = (0..4 * count).map(|group| stay(group, group, group + count)).collect();
        colour(&mut stays);
        let differ = |first: usize, second: usize| stays[first].colour != stays[second].colour;
        assert!((0..stays.len()).all(|first| (first + 1..stays.len().min(first + count)).all(|second| differ(first, second))));
        assert!(stays.iter().all(|stay| stay.colour < count));
        let mut alone: Vec<Stay> = (0..=PLAIN).map(|group| stay(group, group, group + 1)).collect();
        colour(&mut alone);
        assert_eq!(alone.iter().map(|stay| stay.colour).collect::<Vec<_>>(), (0..PLAIN).chain([0]).collect::<Vec<_>>());
        // a group that has several stays is one
        let mut apart = [stay(1, 0, 2), stay(2, 3, 9), stay(1, 8, 9)];
        colour(&mut apart);
        assert_eq!(apart.map(|stay| stay.colour), [0, 1, 0]);
    }
}
